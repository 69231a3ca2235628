//! The list of calls. A call has a number, up to two blocks, and an answer; a tolerance or an index stands beside the
//! blocks.

/// What a block holds, and so how long it has to be and what is checked of it.
#[derive(Clone, Copy, Debug, PartialEq, Eq)]
pub enum Block {
    /// There is no such block: it has no values.
    Absent,
    /// An element of SGal(3): translation, quaternion w x y z, velocity, time.
    Element,
    /// An element of SO(3): the quaternion w x y z.
    Rotation,
    /// A tangent of SGal(3): rho, nu, theta, s.
    Sgal3Tangent,
    /// A tangent of SO(3): theta.
    So3Tangent,
    /// A point or another vector of three values.
    Vector,
    /// A point and a time.
    Event,
    /// Elements of SGal(3) laid end to end.
    Chain,
    /// Eleven values of which only the length is checked.
    AnyElement,
    /// Four values of which only the length is checked.
    AnyRotation,
    /// A number, of which sine or cosine is taken.
    Number,
}

impl Block {
    /// The exact length; of a chain, that of one of its blocks.
    pub const fn length(self) -> usize {
        match self {
            Block::Absent => 0,
            Block::Element | Block::Chain | Block::AnyElement => 11,
            Block::Rotation | Block::AnyRotation | Block::Event => 4,
            Block::Sgal3Tangent => 10,
            Block::So3Tangent | Block::Vector => 3,
            Block::Number => 1,
        }
    }

    /// Where the quaternion starts, whether or not it is checked.
    pub const fn quaternion(self) -> Option<usize> {
        match self {
            Block::Element | Block::Chain | Block::AnyElement => Some(3),
            Block::Rotation | Block::AnyRotation => Some(0),
            _ => None,
        }
    }

    /// Whether more than the length is checked.
    pub const fn is_checked(self) -> bool {
        !matches!(self, Block::AnyElement | Block::AnyRotation)
    }
}

/// What an accepted call gives.
#[derive(Clone, Copy, Debug, PartialEq, Eq)]
pub enum Answer {
    /// A check that passes.
    Nothing,
    /// One word, 1 or 0.
    YesOrNo,
    Element,
    Rotation,
    Sgal3Tangent,
    So3Tangent,
    Vector,
    Event,
    /// One value.
    Number,
    /// The eleven values of an element, in a place of their own.
    Coefficients,
    /// The eleven values of an element of which nothing was asked, so that any of them may be infinite or the NaN.
    AsGiven,
    /// A matrix in a place of its own, by row, or the blocks of one: so many values.
    Matrix(usize),
    /// A matrix of a call that never refuses.
    Generator(usize),
}

impl Answer {
    pub const fn length(self) -> usize {
        match self {
            Answer::Nothing => 0,
            Answer::YesOrNo | Answer::Number => 1,
            Answer::Element | Answer::Coefficients | Answer::AsGiven => 11,
            Answer::Rotation | Answer::Event => 4,
            Answer::Sgal3Tangent => 10,
            Answer::So3Tangent | Answer::Vector => 3,
            Answer::Matrix(values) | Answer::Generator(values) => values,
        }
    }

    /// How many values, all +0, stand in the outcome of a refused call: those of an answer that has a place of its own.
    pub const fn length_refused(self) -> usize {
        match self {
            Answer::Coefficients | Answer::Matrix(_) => self.length(),
            _ => 0,
        }
    }
}

/// Of which rotation a logarithm is taken.
#[derive(Clone, Copy, Debug, PartialEq, Eq)]
pub enum Of {
    /// The first block's own.
    First,
    /// The inverse of the second, then the first.
    RightMinus,
    /// The first, then the inverse of the second.
    LeftMinus,
}

/// What a call tests of a turn, and against which limit: refusal 4 is that this is above it.
#[derive(Clone, Copy, Debug, PartialEq, Eq)]
pub enum Turn {
    /// Nothing.
    Untested,
    /// The squared angle of the tangent, which is the last block, against 9.
    Exp,
    /// That of the logarithm, which is the answer or what a Jacobian is taken at, against 9.
    Log(Of),
    /// The magnitude of the number, against 4.
    Number,
}

/// One call.
#[derive(Debug)]
pub struct Call {
    pub number: u64,
    pub name: &'static str,
    pub first: Block,
    pub second: Block,
    pub answer: Answer,
    pub turn: Turn,
    /// Whether some accepted blocks make a value of the answer overflow.
    pub overflows: bool,
}

impl Call {
    /// Whether this call can have the outcome with this number.
    pub fn can_have(&self, number: u64) -> bool {
        let blocks = [self.first, self.second];
        match number {
            0 => true,
            1 => self.first != Block::Absent && !self.has_fixed_length(),
            2 => blocks.iter().any(|b| *b != Block::Absent && b.is_checked()),
            3 | 7 => self.checks_norms(),
            4 => self.turn != Turn::Untested,
            5 => self.overflows,
            _ => false,
        }
    }

    /// Whether the values are separate arguments of the call, so that no length can be wrong.
    pub fn has_fixed_length(&self) -> bool {
        self.number == TRY_FROM_QUATERNION || self.first == Block::Number
    }

    /// Whether a block is an element or a rotation that is checked, and so held to a tolerance of the caller's.
    pub fn checks_norms(&self) -> bool {
        [self.first, self.second]
            .iter()
            .any(|b| b.is_checked() && b.quaternion().is_some())
    }

    /// Whether the call takes sines or a half-angle: that of a number or of a rotation, or those of a turn up to a squared angle of 9.
    pub fn takes_sines(&self) -> bool {
        self.turn != Turn::Untested || self.number == HALF_ANGLE
    }

    /// Whether the extra word is a tolerance. is_valid's is its own: any is taken.
    pub fn has_tolerance(&self) -> bool {
        self.checks_norms() || self.answer == Answer::YesOrNo
    }

    /// Whether the extra word is an index.
    pub fn has_index(&self) -> bool {
        matches!(self.answer, Answer::Generator(_))
    }
}

/// The call whose four values are arguments of their own.
pub const TRY_FROM_QUATERNION: u64 = 10;
/// The call that answers the half-angle of any rotation, with no test of it.
pub const HALF_ANGLE: u64 = 63;

/// The call with this number.
pub fn call(number: u64) -> Option<&'static Call> {
    let place = CALLS.binary_search_by_key(&number, |c| c.number).ok()?;
    Some(&CALLS[place])
}

const SAFE: bool = false;
const OVERFLOWS: bool = true;
const MATRIX3: Answer = Answer::Matrix(9);
const MATRIX10: Answer = Answer::Matrix(100);
const ADJOINT: Answer = Answer::Matrix(39);

const fn entry(
    number: u64,
    name: &'static str,
    first: Block,
    second: Block,
    answer: Answer,
    turn: Turn,
    overflows: bool,
) -> Call {
    Call {
        number,
        name,
        first,
        second,
        answer,
        turn,
        overflows,
    }
}

use Answer as A;
use Block as B;
use Of::{First, LeftMinus, RightMinus};
use Turn::{Exp, Log, Untested};

/// Every call, by rising number.
#[rustfmt::skip]
pub const CALLS: &[Call] = &[
    // ---- the checks, and an element as given
    entry(0, "validate_sgal3_params", B::Element, B::Absent, A::Nothing, Untested, SAFE),
    entry(1, "validate_so3_params", B::Rotation, B::Absent, A::Nothing, Untested, SAFE),
    entry(2, "sgal3_from_param_slice", B::AnyElement, B::Absent, A::AsGiven, Untested, SAFE),
    // ---- SO(3): elements
    entry(TRY_FROM_QUATERNION, "so3_try_from_quaternion_wxyz", B::Rotation, B::Absent, A::Rotation, Untested, SAFE),
    entry(11, "so3_is_valid", B::AnyRotation, B::Absent, A::YesOrNo, Untested, SAFE),
    entry(12, "so3_rotation_matrix", B::Rotation, B::Absent, MATRIX3, Untested, SAFE),
    entry(13, "so3_inverse", B::Rotation, B::Absent, A::Rotation, Untested, SAFE),
    entry(14, "so3_inverse_jacobian", B::Rotation, B::Absent, MATRIX3, Untested, SAFE),
    entry(15, "so3_compose", B::Rotation, B::Rotation, A::Rotation, Untested, SAFE),
    entry(16, "so3_compose_jacobian_self", B::Rotation, B::Rotation, MATRIX3, Untested, SAFE),
    entry(17, "so3_compose_jacobian_other", B::Rotation, B::Rotation, MATRIX3, Untested, SAFE),
    entry(18, "so3_log", B::Rotation, B::Absent, A::So3Tangent, Log(First), SAFE),
    entry(19, "so3_vee", B::Rotation, B::Absent, A::So3Tangent, Log(First), SAFE),
    entry(20, "so3_log_jacobian", B::Rotation, B::Absent, MATRIX3, Log(First), SAFE),
    entry(21, "so3_act", B::Rotation, B::Vector, A::Vector, Untested, OVERFLOWS),
    entry(22, "so3_act_jacobian_self", B::Rotation, B::Vector, MATRIX3, Untested, OVERFLOWS),
    entry(23, "so3_act_jacobian_vector", B::Rotation, B::Vector, MATRIX3, Untested, SAFE),
    entry(24, "so3_adjoint", B::Rotation, B::Absent, MATRIX3, Untested, SAFE),
    entry(25, "so3_normalize", B::Rotation, B::Absent, A::Rotation, Untested, SAFE),
    // ---- SO(3): tangents
    entry(26, "so3_exp", B::So3Tangent, B::Absent, A::Rotation, Exp, SAFE),
    entry(27, "so3_exp_jacobian", B::So3Tangent, B::Absent, MATRIX3, Exp, SAFE),
    entry(28, "so3_left_jacobian", B::So3Tangent, B::Absent, MATRIX3, Exp, SAFE),
    entry(29, "so3_right_jacobian", B::So3Tangent, B::Absent, MATRIX3, Exp, SAFE),
    entry(30, "so3_left_jacobian_inv", B::So3Tangent, B::Absent, MATRIX3, Exp, SAFE),
    entry(31, "so3_right_jacobian_inv", B::So3Tangent, B::Absent, MATRIX3, Exp, SAFE),
    entry(32, "so3_hat", B::So3Tangent, B::Absent, MATRIX3, Untested, SAFE),
    entry(33, "so3_small_adj", B::So3Tangent, B::Absent, MATRIX3, Untested, SAFE),
    entry(34, "so3_lie_bracket", B::So3Tangent, B::So3Tangent, A::So3Tangent, Untested, OVERFLOWS),
    entry(35, "so3_normalize_tangent", B::So3Tangent, B::Absent, A::So3Tangent, Untested, SAFE),
    entry(36, "so3_normalized_tangent", B::So3Tangent, B::Absent, A::So3Tangent, Untested, SAFE),
    entry(37, "so3_generator", B::Absent, B::Absent, A::Generator(9), Untested, SAFE),
    entry(38, "so3_zero", B::Absent, B::Absent, A::So3Tangent, Untested, SAFE),
    entry(39, "so3_identity", B::Absent, B::Absent, A::Rotation, Untested, SAFE),
    // ---- SO(3): plus, minus and between
    entry(40, "so3_right_plus", B::Rotation, B::So3Tangent, A::Rotation, Exp, SAFE),
    entry(41, "so3_right_plus_jacobian_self", B::Rotation, B::So3Tangent, MATRIX3, Exp, SAFE),
    entry(42, "so3_right_plus_jacobian_tangent", B::Rotation, B::So3Tangent, MATRIX3, Exp, SAFE),
    entry(43, "so3_left_plus", B::Rotation, B::So3Tangent, A::Rotation, Exp, SAFE),
    entry(44, "so3_left_plus_jacobian_tangent", B::Rotation, B::So3Tangent, MATRIX3, Exp, SAFE),
    entry(45, "so3_left_plus_jacobian_self", B::Rotation, B::So3Tangent, MATRIX3, Exp, SAFE),
    entry(46, "so3_right_minus", B::Rotation, B::Rotation, A::So3Tangent, Log(RightMinus), SAFE),
    entry(47, "so3_right_minus_jacobian_self", B::Rotation, B::Rotation, MATRIX3, Log(RightMinus), SAFE),
    entry(48, "so3_right_minus_jacobian_other", B::Rotation, B::Rotation, MATRIX3, Log(RightMinus), SAFE),
    entry(49, "so3_left_minus", B::Rotation, B::Rotation, A::So3Tangent, Log(LeftMinus), SAFE),
    entry(50, "so3_left_minus_jacobian_self", B::Rotation, B::Rotation, MATRIX3, Log(LeftMinus), SAFE),
    entry(51, "so3_left_minus_jacobian_other", B::Rotation, B::Rotation, MATRIX3, Log(LeftMinus), SAFE),
    entry(52, "so3_between", B::Rotation, B::Rotation, A::Rotation, Untested, SAFE),
    entry(53, "so3_between_jacobian_self", B::Rotation, B::Rotation, MATRIX3, Untested, SAFE),
    entry(54, "so3_between_jacobian_other", B::Rotation, B::Rotation, MATRIX3, Untested, SAFE),
    entry(55, "so3_plus", B::Rotation, B::So3Tangent, A::Rotation, Exp, SAFE),
    entry(56, "so3_plus_jacobian_self", B::Rotation, B::So3Tangent, MATRIX3, Exp, SAFE),
    entry(57, "so3_plus_jacobian_tangent", B::Rotation, B::So3Tangent, MATRIX3, Exp, SAFE),
    entry(58, "so3_minus", B::Rotation, B::Rotation, A::So3Tangent, Log(RightMinus), SAFE),
    entry(59, "so3_minus_jacobian_self", B::Rotation, B::Rotation, MATRIX3, Log(RightMinus), SAFE),
    entry(60, "so3_minus_jacobian_other", B::Rotation, B::Rotation, MATRIX3, Log(RightMinus), SAFE),
    // ---- numbers
    entry(61, "sine", B::Number, B::Absent, A::Number, Turn::Number, SAFE),
    entry(62, "cosine", B::Number, B::Absent, A::Number, Turn::Number, SAFE),
    entry(HALF_ANGLE, "so3_half_angle", B::Rotation, B::Absent, A::Number, Untested, SAFE),
    // ---- SGal(3): elements
    entry(70, "sgal3_compose", B::Element, B::Element, A::Element, Untested, OVERFLOWS),
    entry(71, "sgal3_inverse", B::Element, B::Absent, A::Element, Untested, OVERFLOWS),
    entry(72, "sgal3_chain", B::Chain, B::Absent, A::Element, Untested, OVERFLOWS),
    entry(73, "sgal3_translation", B::Element, B::Absent, A::Vector, Untested, SAFE),
    entry(74, "sgal3_velocity", B::Element, B::Absent, A::Vector, Untested, SAFE),
    entry(75, "sgal3_time", B::Element, B::Absent, A::Number, Untested, SAFE),
    entry(76, "sgal3_rotation_quaternion", B::Element, B::Absent, A::Rotation, Untested, SAFE),
    entry(77, "sgal3_rotation_matrix", B::Element, B::Absent, MATRIX3, Untested, SAFE),
    entry(78, "sgal3_coeffs", B::Element, B::Absent, A::Coefficients, Untested, SAFE),
    entry(79, "sgal3_log", B::Element, B::Absent, A::Sgal3Tangent, Log(First), OVERFLOWS),
    entry(80, "sgal3_vee", B::Element, B::Absent, A::Sgal3Tangent, Log(First), OVERFLOWS),
    entry(81, "sgal3_act", B::Element, B::Vector, A::Vector, Untested, OVERFLOWS),
    entry(82, "sgal3_act_jacobian_vector", B::Element, B::Vector, MATRIX3, Untested, SAFE),
    entry(83, "sgal3_normalize", B::Element, B::Absent, A::Element, Untested, SAFE),
    entry(84, "sgal3_is_valid", B::AnyElement, B::Absent, A::YesOrNo, Untested, SAFE),
    // ---- SGal(3): tangents
    entry(85, "sgal3_exp", B::Sgal3Tangent, B::Absent, A::Element, Exp, OVERFLOWS),
    entry(86, "sgal3_lie_bracket", B::Sgal3Tangent, B::Sgal3Tangent, A::Sgal3Tangent, Untested, OVERFLOWS),
    entry(87, "sgal3_normalize_tangent", B::Sgal3Tangent, B::Absent, A::Sgal3Tangent, Untested, SAFE),
    entry(88, "sgal3_normalized_tangent", B::Sgal3Tangent, B::Absent, A::Sgal3Tangent, Untested, SAFE),
    entry(89, "sgal3_zero", B::Absent, B::Absent, A::Sgal3Tangent, Untested, SAFE),
    entry(90, "sgal3_identity", B::Absent, B::Absent, A::Element, Untested, SAFE),
    entry(91, "sgal3_generator", B::Absent, B::Absent, A::Generator(36), Untested, SAFE),
    // ---- SGal(3): matrices
    entry(92, "sgal3_matrix", B::Element, B::Absent, A::Matrix(25), Untested, SAFE),
    entry(93, "sgal3_adjoint", B::Element, B::Absent, MATRIX10, Untested, OVERFLOWS),
    entry(94, "sgal3_inverse_jacobian", B::Element, B::Absent, MATRIX10, Untested, OVERFLOWS),
    entry(95, "sgal3_compose_jacobian_self", B::Element, B::Element, MATRIX10, Untested, OVERFLOWS),
    entry(96, "sgal3_compose_jacobian_other", B::Element, B::Element, MATRIX10, Untested, SAFE),
    entry(97, "sgal3_act_jacobian_self", B::Element, B::Vector, A::Matrix(30), Untested, OVERFLOWS),
    entry(98, "sgal3_hat", B::Sgal3Tangent, B::Absent, A::Matrix(36), Untested, SAFE),
    entry(99, "sgal3_small_adj", B::Sgal3Tangent, B::Absent, MATRIX10, Untested, SAFE),
    // ---- SGal(3): plus, minus and between
    entry(100, "sgal3_right_plus", B::Element, B::Sgal3Tangent, A::Element, Exp, OVERFLOWS),
    entry(101, "sgal3_right_plus_jacobian_self", B::Element, B::Sgal3Tangent, MATRIX10, Exp, OVERFLOWS),
    entry(102, "sgal3_left_plus", B::Element, B::Sgal3Tangent, A::Element, Exp, OVERFLOWS),
    entry(103, "sgal3_left_plus_jacobian_self", B::Element, B::Sgal3Tangent, MATRIX10, Exp, SAFE),
    entry(104, "sgal3_right_minus", B::Element, B::Element, A::Sgal3Tangent, Log(RightMinus), OVERFLOWS),
    entry(105, "sgal3_left_minus", B::Element, B::Element, A::Sgal3Tangent, Log(LeftMinus), OVERFLOWS),
    entry(106, "sgal3_between", B::Element, B::Element, A::Element, Untested, OVERFLOWS),
    entry(107, "sgal3_between_jacobian_self", B::Element, B::Element, MATRIX10, Untested, OVERFLOWS),
    entry(108, "sgal3_between_jacobian_other", B::Element, B::Element, MATRIX10, Untested, SAFE),
    entry(109, "sgal3_plus", B::Element, B::Sgal3Tangent, A::Element, Exp, OVERFLOWS),
    entry(110, "sgal3_plus_jacobian_self", B::Element, B::Sgal3Tangent, MATRIX10, Exp, OVERFLOWS),
    entry(111, "sgal3_minus", B::Element, B::Element, A::Sgal3Tangent, Log(RightMinus), OVERFLOWS),
    // ---- SGal(3): adjoints without their zeros
    entry(112, "sgal3_short_adjoint", B::Element, B::Absent, ADJOINT, Untested, OVERFLOWS),
    entry(113, "sgal3_short_compose_jacobian_self", B::Element, B::Element, ADJOINT, Untested, OVERFLOWS),
    entry(114, "sgal3_short_right_plus_jacobian_self", B::Element, B::Sgal3Tangent, ADJOINT, Exp, OVERFLOWS),
    // ---- SGal(3): events
    entry(115, "sgal3_act_event", B::Element, B::Event, A::Event, Untested, OVERFLOWS),
];

#[cfg(test)]
mod tests {
    use super::*;

    #[test]
    fn numbers_rise_and_names_differ() {
        for pair in CALLS.windows(2) {
            assert!(pair[0].number < pair[1].number, "{}", pair[1].name);
        }
        for (place, call) in CALLS.iter().enumerate() {
            assert!(CALLS[..place].iter().all(|c| c.name != call.name));
        }
    }

    /// Every call with an element or a rotation, but from_param_slice; and is_valid of both groups.
    #[test]
    fn which_calls_have_a_tolerance() {
        let count = |has: fn(&Call) -> bool| CALLS.iter().filter(|call| has(call)).count();
        assert_eq!(count(Call::checks_norms), 75);
        assert_eq!(count(Call::has_tolerance), 77);
        assert_eq!(count(|call| call.has_tolerance() && call.has_index()), 0);
    }
}
