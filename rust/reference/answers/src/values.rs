//! The values of an accepted request, by docs/src's own functions.

use apex::sgal3::{Matrix10, SGal3, SGal3Tangent};
use apex::so3::{SO3, SO3Tangent};
use apex::{LieGroup, Tangent, sines};
use nalgebra::{Matrix3, Quaternion, SMatrix, UnitQuaternion, Vector3};
use requests::calls::Answer;
use requests::{CALLS, Call, Request, refusals};
use std::sync::LazyLock;

/// Puts the values there, and tells whether all of them are finite, where that is asked; of a chain, those of every partial element.
pub fn put(call: &Call, request: &Request, to: &mut Vec<u64>) -> bool {
    let function = BY_NUMBER[call.number as usize].expect("every call has a function");
    if !function(request, to) {
        return false;
    }
    call.answer == Answer::AsGiven || refusals::overflow(to).is_none()
}

fn values<const N: usize>(block: &[u64]) -> [f64; N] {
    let block: &[u64; N] = block.try_into().expect("the length was checked");
    block.map(f64::from_bits)
}

/// The rotation that keeps the four values as given.
pub fn rotation(block: &[u64]) -> SO3 {
    let [w, x, y, z] = values(block);
    SO3::new(UnitQuaternion::new_unchecked(Quaternion::new(w, x, y, z)))
}

pub fn element(block: &[u64]) -> SGal3 {
    SGal3::from_param_slice(&values::<11>(block))
}

pub fn so3_tangent(block: &[u64]) -> SO3Tangent {
    SO3Tangent::from_slice(&values::<3>(block))
}

pub fn sgal3_tangent(block: &[u64]) -> SGal3Tangent {
    SGal3Tangent::from_slice(&values::<10>(block))
}

pub fn number(block: &[u64]) -> f64 {
    let [x] = values(block);
    x
}

fn vector(block: &[u64]) -> Vector3<f64> {
    Vector3::from_column_slice(&values::<3>(block))
}

type To<'a> = &'a mut Vec<u64>;

/// Puts the values there. The yes is the answer of a [`Function`].
fn list(to: To, values: &[f64]) -> bool {
    to.extend(values.iter().map(|value| value.to_bits()));
    true
}

/// The first rows of a matrix, by row.
fn rows<const R: usize, const C: usize>(to: To, count: usize, matrix: SMatrix<f64, R, C>) -> bool {
    for row in 0..count {
        to.extend((0..C).map(|column| matrix[(row, column)].to_bits()));
    }
    true
}

fn matrix<const R: usize, const C: usize>(to: To, whole: SMatrix<f64, R, C>) -> bool {
    rows(to, R, whole)
}

/// The Jacobian that a call of SO(3) fills in, over a matrix of zeros.
fn jacobian3<T>(to: To, fill: impl FnOnce(Option<&mut Matrix3<f64>>) -> T) -> bool {
    let mut jacobian = SO3::zero_jacobian();
    fill(Some(&mut jacobian));
    matrix(to, jacobian)
}

/// The Jacobian that a call of SGal(3) fills in, over a matrix of zeros.
fn jacobian10<T>(to: To, fill: impl FnOnce(Option<&mut Matrix10<f64>>) -> T) -> bool {
    let mut jacobian = SGal3::zero_jacobian();
    fill(Some(&mut jacobian));
    matrix(to, jacobian)
}

/// Where the blocks of an adjoint stand that a short one holds: row, column, how many columns.
const BLOCKS: [[usize; 3]; 5] = [[0, 0, 3], [0, 3, 3], [0, 6, 3], [3, 6, 3], [0, 9, 1]];

fn block(whole: &Matrix10<f64>, [row, column, columns]: [usize; 3]) -> Vec<f64> {
    (0..3 * columns)
        .map(|at| whole[(row + at / columns, column + at % columns)])
        .collect()
}

/// These blocks, each by row; no, if any of the hundred places isn't finite.
fn short(to: To, whole: Matrix10<f64>) -> bool {
    for place in BLOCKS {
        list(to, &block(&whole, place));
    }
    (0..100).all(|at| whole[(at / 10, at % 10)].is_finite())
}

/// The same of the Jacobian that a call fills in, over a matrix of zeros.
fn short_jacobian<T>(to: To, fill: impl FnOnce(Option<&mut Matrix10<f64>>) -> T) -> bool {
    let mut jacobian = SGal3::zero_jacobian();
    fill(Some(&mut jacobian));
    short(to, jacobian)
}

fn so3(to: To, rotation: SO3) -> bool {
    list(to, rotation.as_param_slice())
}

fn sgal3(to: To, element: SGal3) -> bool {
    list(to, element.as_param_slice())
}

/// The values of an element; for every NaN the one whose bits the format has.
fn as_given(to: To, element: SGal3) -> bool {
    const INFINITY: u64 = 0x7ff0_0000_0000_0000;
    const NAN: u64 = 0x7ff8_0000_0000_0000;
    sgal3(to, element);
    for bits in to {
        if *bits & (u64::MAX >> 1) > INFINITY {
            *bits = NAN;
        }
    }
    true
}

fn yes_or_no(to: To, yes: bool) -> bool {
    to.push(yes.into());
    true
}

/// Folded by compose from the identity; no, at the first partial element that isn't finite.
fn chain(request: &Request, to: To) -> bool {
    let mut held = SGal3::identity();
    for block in request.first.chunks_exact(11) {
        held = held.compose(&element(block), None, None);
        to.clear();
        sgal3(to, held.clone());
        if refusals::overflow(to).is_some() {
            return false;
        }
    }
    to.clear();
    sgal3(to, held)
}

/// At another tolerance than docs/src's, what its function gives once its check has passed.
fn try_from_quaternion(request: &Request) -> SO3 {
    let [w, x, y, z] = values(&request.first);
    match request.extra == refusals::TOLERANCE.to_bits() {
        true => SO3::try_from_quaternion_wxyz(w, x, y, z).expect("the block was checked"),
        false => SO3::from_quaternion_wxyz(w, x, y, z),
    }
}

/// By the numbers that SO3's log calls sin_angle and cos_angle.
fn half_angle(rotation: &SO3) -> f64 {
    let q = rotation.quat();
    let sin_angle_squared = q.i * q.i + q.j * q.j + q.k * q.k;
    sines::half_angle(sin_angle_squared.sqrt(), q.w.abs())
}

/// By docs/src's own pieces, in the order that the scope gives: docs/src has no action on events.
fn act_event(request: &Request, to: To) -> bool {
    let a = element(&request.first);
    let [x, y, z, tau] = values(&request.second);
    let turned = a.rotation_so3().act(&Vector3::new(x, y, z), None, None);
    let point = turned + a.velocity() * tau + a.translation();
    list(to, point.as_slice()) && list(to, &[tau + a.time()])
}

/// The three rows that docs/src fills.
fn act_jacobian_self(request: &Request, to: To) -> bool {
    let mut jacobian = SGal3::zero_jacobian();
    element(&request.first).act(&vector(&request.second), Some(&mut jacobian), None);
    rows(to, 3, jacobian)
}

/// Puts the values there; no, where a value on the way to the answer that counts as one of its own isn't finite.
type Function = fn(&Request, To) -> bool;

/// The functions by the numbers of their calls.
static BY_NUMBER: LazyLock<Vec<Option<Function>>> = LazyLock::new(|| {
    let most = CALLS.iter().map(|call| call.number).max().unwrap_or(0);
    let named = |name| FUNCTIONS.iter().find(|f| f.0 == name).map(|f| f.1);
    let called = |number| CALLS.iter().find(|call| call.number == number);
    (0..=most)
        .map(|number| named(called(number)?.name))
        .collect()
});

/// What each call answers, by its name: x is the request. The Jacobians of SGal(3) that docs/src finds by central
/// differences aren't there.
#[rustfmt::skip]
const FUNCTIONS: &[(&str, Function)] = &[
    // ---- the checks: nothing is left to give; and an element as given
    ("validate_sgal3_params", |_, _| true),
    ("validate_so3_params", |_, _| true),
    ("sgal3_from_param_slice", |x, to| as_given(to, element(&x.first))),
    // ---- SO(3): elements
    ("so3_try_from_quaternion_wxyz", |x, to| so3(to, try_from_quaternion(x))),
    ("so3_is_valid", |x, to| yes_or_no(to, rotation(&x.first).is_valid(f64::from_bits(x.extra)))),
    ("so3_rotation_matrix", |x, to| matrix(to, rotation(&x.first).rotation_matrix())),
    ("so3_inverse", |x, to| so3(to, rotation(&x.first).inverse(None))),
    ("so3_inverse_jacobian", |x, to| jacobian3(to, |j| rotation(&x.first).inverse(j))),
    ("so3_compose", |x, to| so3(to, rotation(&x.first).compose(&rotation(&x.second), None, None))),
    ("so3_compose_jacobian_self", |x, to| jacobian3(to, |j| rotation(&x.first).compose(&rotation(&x.second), j, None))),
    ("so3_compose_jacobian_other", |x, to| jacobian3(to, |j| rotation(&x.first).compose(&rotation(&x.second), None, j))),
    ("so3_log", |x, to| list(to, rotation(&x.first).log(None).as_slice())),
    ("so3_vee", |x, to| list(to, rotation(&x.first).vee().as_slice())),
    ("so3_log_jacobian", |x, to| jacobian3(to, |j| rotation(&x.first).log(j))),
    ("so3_act", |x, to| list(to, rotation(&x.first).act(&vector(&x.second), None, None).as_slice())),
    ("so3_act_jacobian_self", |x, to| jacobian3(to, |j| rotation(&x.first).act(&vector(&x.second), j, None))),
    ("so3_act_jacobian_vector", |x, to| jacobian3(to, |j| rotation(&x.first).act(&vector(&x.second), None, j))),
    ("so3_adjoint", |x, to| matrix(to, rotation(&x.first).adjoint())),
    ("so3_normalize", |x, to| { let mut q = rotation(&x.first); LieGroup::normalize(&mut q); so3(to, q) }),
    // ---- SO(3): tangents
    ("so3_exp", |x, to| so3(to, so3_tangent(&x.first).exp(None))),
    ("so3_exp_jacobian", |x, to| jacobian3(to, |j| so3_tangent(&x.first).exp(j))),
    ("so3_left_jacobian", |x, to| matrix(to, so3_tangent(&x.first).left_jacobian())),
    ("so3_right_jacobian", |x, to| matrix(to, so3_tangent(&x.first).right_jacobian())),
    ("so3_left_jacobian_inv", |x, to| matrix(to, so3_tangent(&x.first).left_jacobian_inv())),
    ("so3_right_jacobian_inv", |x, to| matrix(to, so3_tangent(&x.first).right_jacobian_inv())),
    ("so3_hat", |x, to| matrix(to, so3_tangent(&x.first).hat())),
    ("so3_small_adj", |x, to| matrix(to, so3_tangent(&x.first).small_adj())),
    ("so3_lie_bracket", |x, to| list(to, so3_tangent(&x.first).lie_bracket(&so3_tangent(&x.second)).as_slice())),
    ("so3_normalize_tangent", |x, to| { let mut u = so3_tangent(&x.first); Tangent::normalize(&mut u); list(to, u.as_slice()) }),
    ("so3_normalized_tangent", |x, to| list(to, so3_tangent(&x.first).normalized().as_slice())),
    ("so3_generator", |x, to| matrix(to, SO3Tangent::zero().generator(x.extra as usize))),
    ("so3_zero", |_, to| list(to, SO3Tangent::zero().as_slice())),
    ("so3_identity", |_, to| so3(to, SO3::identity())),
    // ---- SO(3): plus, minus and between
    ("so3_right_plus", |x, to| so3(to, rotation(&x.first).right_plus(&so3_tangent(&x.second), None, None))),
    ("so3_right_plus_jacobian_self", |x, to| jacobian3(to, |j| rotation(&x.first).right_plus(&so3_tangent(&x.second), j, None))),
    ("so3_right_plus_jacobian_tangent", |x, to| jacobian3(to, |j| rotation(&x.first).right_plus(&so3_tangent(&x.second), None, j))),
    ("so3_left_plus", |x, to| so3(to, rotation(&x.first).left_plus(&so3_tangent(&x.second), None, None))),
    ("so3_left_plus_jacobian_tangent", |x, to| jacobian3(to, |j| rotation(&x.first).left_plus(&so3_tangent(&x.second), j, None))),
    ("so3_left_plus_jacobian_self", |x, to| jacobian3(to, |j| rotation(&x.first).left_plus(&so3_tangent(&x.second), None, j))),
    ("so3_right_minus", |x, to| list(to, rotation(&x.first).right_minus(&rotation(&x.second), None, None).as_slice())),
    ("so3_right_minus_jacobian_self", |x, to| jacobian3(to, |j| rotation(&x.first).right_minus(&rotation(&x.second), j, None))),
    ("so3_right_minus_jacobian_other", |x, to| jacobian3(to, |j| rotation(&x.first).right_minus(&rotation(&x.second), None, j))),
    ("so3_left_minus", |x, to| list(to, rotation(&x.first).left_minus(&rotation(&x.second), None, None).as_slice())),
    ("so3_left_minus_jacobian_self", |x, to| jacobian3(to, |j| rotation(&x.first).left_minus(&rotation(&x.second), j, None))),
    ("so3_left_minus_jacobian_other", |x, to| jacobian3(to, |j| rotation(&x.first).left_minus(&rotation(&x.second), None, j))),
    ("so3_between", |x, to| so3(to, rotation(&x.first).between(&rotation(&x.second), None, None))),
    ("so3_between_jacobian_self", |x, to| jacobian3(to, |j| rotation(&x.first).between(&rotation(&x.second), j, None))),
    ("so3_between_jacobian_other", |x, to| jacobian3(to, |j| rotation(&x.first).between(&rotation(&x.second), None, j))),
    ("so3_plus", |x, to| so3(to, rotation(&x.first).plus(&so3_tangent(&x.second), None, None))),
    ("so3_plus_jacobian_self", |x, to| jacobian3(to, |j| rotation(&x.first).plus(&so3_tangent(&x.second), j, None))),
    ("so3_plus_jacobian_tangent", |x, to| jacobian3(to, |j| rotation(&x.first).plus(&so3_tangent(&x.second), None, j))),
    ("so3_minus", |x, to| list(to, rotation(&x.first).minus(&rotation(&x.second), None, None).as_slice())),
    ("so3_minus_jacobian_self", |x, to| jacobian3(to, |j| rotation(&x.first).minus(&rotation(&x.second), j, None))),
    ("so3_minus_jacobian_other", |x, to| jacobian3(to, |j| rotation(&x.first).minus(&rotation(&x.second), None, j))),
    // ---- numbers: these three aren't docs/src's own
    ("sine", |x, to| list(to, &[sines::sine(number(&x.first))])),
    ("cosine", |x, to| list(to, &[sines::cosine(number(&x.first))])),
    ("so3_half_angle", |x, to| list(to, &[half_angle(&rotation(&x.first))])),
    // ---- SGal(3): elements
    ("sgal3_compose", |x, to| sgal3(to, element(&x.first).compose(&element(&x.second), None, None))),
    ("sgal3_inverse", |x, to| sgal3(to, element(&x.first).inverse(None))),
    ("sgal3_chain", |x, to| chain(x, to)),
    ("sgal3_translation", |x, to| list(to, element(&x.first).translation().as_slice())),
    ("sgal3_velocity", |x, to| list(to, element(&x.first).velocity().as_slice())),
    ("sgal3_time", |x, to| list(to, &[element(&x.first).time()])),
    ("sgal3_rotation_quaternion", |x, to| { let q = element(&x.first).rotation_quaternion(); list(to, &[q.w, q.i, q.j, q.k]) }),
    ("sgal3_rotation_matrix", |x, to| matrix(to, element(&x.first).rotation_matrix())),
    ("sgal3_coeffs", |x, to| list(to, &element(&x.first).coeffs())),
    ("sgal3_log", |x, to| list(to, element(&x.first).log(None).as_slice())),
    ("sgal3_vee", |x, to| list(to, element(&x.first).vee().as_slice())),
    ("sgal3_act", |x, to| list(to, element(&x.first).act(&vector(&x.second), None, None).as_slice())),
    ("sgal3_act_jacobian_vector", |x, to| jacobian3(to, |j| element(&x.first).act(&vector(&x.second), None, j))),
    ("sgal3_normalize", |x, to| { let mut g = element(&x.first); LieGroup::normalize(&mut g); sgal3(to, g) }),
    ("sgal3_is_valid", |x, to| yes_or_no(to, element(&x.first).is_valid(f64::from_bits(x.extra)))),
    // ---- SGal(3): tangents
    ("sgal3_exp", |x, to| sgal3(to, sgal3_tangent(&x.first).exp(None))),
    ("sgal3_lie_bracket", |x, to| list(to, sgal3_tangent(&x.first).lie_bracket(&sgal3_tangent(&x.second)).as_slice())),
    ("sgal3_normalize_tangent", |x, to| { let mut k = sgal3_tangent(&x.first); Tangent::normalize(&mut k); list(to, k.as_slice()) }),
    ("sgal3_normalized_tangent", |x, to| list(to, sgal3_tangent(&x.first).normalized().as_slice())),
    ("sgal3_zero", |_, to| list(to, SGal3Tangent::zero().as_slice())),
    ("sgal3_identity", |_, to| sgal3(to, SGal3::identity())),
    ("sgal3_generator", |x, to| matrix(to, SGal3Tangent::zero().generator(x.extra as usize))),
    // ---- SGal(3): matrices
    ("sgal3_matrix", |x, to| matrix(to, element(&x.first).matrix())),
    ("sgal3_adjoint", |x, to| matrix(to, element(&x.first).adjoint())),
    ("sgal3_inverse_jacobian", |x, to| jacobian10(to, |j| element(&x.first).inverse(j))),
    ("sgal3_compose_jacobian_self", |x, to| jacobian10(to, |j| element(&x.first).compose(&element(&x.second), j, None))),
    ("sgal3_compose_jacobian_other", |x, to| jacobian10(to, |j| element(&x.first).compose(&element(&x.second), None, j))),
    ("sgal3_act_jacobian_self", |x, to| act_jacobian_self(x, to)),
    ("sgal3_hat", |x, to| matrix(to, sgal3_tangent(&x.first).hat())),
    ("sgal3_small_adj", |x, to| matrix(to, sgal3_tangent(&x.first).small_adj())),
    // ---- SGal(3): plus, minus and between
    ("sgal3_right_plus", |x, to| sgal3(to, element(&x.first).right_plus(&sgal3_tangent(&x.second), None, None))),
    ("sgal3_right_plus_jacobian_self", |x, to| jacobian10(to, |j| element(&x.first).right_plus(&sgal3_tangent(&x.second), j, None))),
    ("sgal3_left_plus", |x, to| sgal3(to, element(&x.first).left_plus(&sgal3_tangent(&x.second), None, None))),
    ("sgal3_left_plus_jacobian_self", |x, to| jacobian10(to, |j| element(&x.first).left_plus(&sgal3_tangent(&x.second), None, j))),
    ("sgal3_right_minus", |x, to| list(to, element(&x.first).right_minus(&element(&x.second), None, None).as_slice())),
    ("sgal3_left_minus", |x, to| list(to, element(&x.first).left_minus(&element(&x.second), None, None).as_slice())),
    ("sgal3_between", |x, to| sgal3(to, element(&x.first).between(&element(&x.second), None, None))),
    ("sgal3_between_jacobian_self", |x, to| jacobian10(to, |j| element(&x.first).between(&element(&x.second), j, None))),
    ("sgal3_between_jacobian_other", |x, to| jacobian10(to, |j| element(&x.first).between(&element(&x.second), None, j))),
    ("sgal3_plus", |x, to| sgal3(to, element(&x.first).plus(&sgal3_tangent(&x.second), None, None))),
    ("sgal3_plus_jacobian_self", |x, to| jacobian10(to, |j| element(&x.first).plus(&sgal3_tangent(&x.second), j, None))),
    ("sgal3_minus", |x, to| list(to, element(&x.first).minus(&element(&x.second), None, None).as_slice())),
    // ---- SGal(3): adjoints without their zeros
    ("sgal3_short_adjoint", |x, to| short(to, element(&x.first).adjoint())),
    ("sgal3_short_compose_jacobian_self", |x, to| short_jacobian(to, |j| element(&x.first).compose(&element(&x.second), j, None))),
    ("sgal3_short_right_plus_jacobian_self", |x, to| short_jacobian(to, |j| element(&x.first).right_plus(&sgal3_tangent(&x.second), j, None))),
    // ---- SGal(3): events
    ("sgal3_act_event", |x, to| act_event(x, to)),
];

#[cfg(test)]
mod tests {
    use super::*;
    use requests::bench_list::adjoints;

    #[test]
    fn an_adjoint_overflows_in_one_block() {
        for limit in adjoints() {
            if limit.request.call().name == "sgal3_short_adjoint" {
                let whole = element(&limit.request.first).adjoint();
                let finite = |place: &_| block(&whole, *place).iter().all(|x| x.is_finite());
                let overflow = BLOCKS.iter().filter(|place| !finite(place)).count();
                assert_eq!(overflow, usize::from(limit.number == 5), "{}", limit.says);
            }
        }
    }

    #[test]
    fn calls_and_functions_have_the_same_names() {
        assert_eq!(CALLS.len(), FUNCTIONS.len());
        for call in CALLS {
            assert!(BY_NUMBER[call.number as usize].is_some(), "{}", call.name);
        }
    }
}
