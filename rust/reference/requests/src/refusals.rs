//! The scope's section 'Answers and their numbers', with the tolerance that a caller chooses, read once more, in plain f64 arithmetic. It shares
//! nothing with docs/src and nothing with the proved crates.
//!
//! The numbers are tried in the order 1, 2, 7, 3, 4, 5, each over all blocks from left to right before the next. Up to 3
//! they are read from the blocks and the tolerance alone. For 4 the caller names what the call tests and the limit, and for
//! 5 the values of the result.

use crate::calls::{Block, Call};
use crate::format::Request;

/// The most blocks that a chain has.
pub const LONGEST_CHAIN: usize = 4096;
/// How far a quaternion's norm may lie from 1 where the caller doesn't choose.
pub const TOLERANCE: f64 = 1e-6;
/// The largest tolerance that a caller may choose.
pub const MOST_TOLERANCE: f64 = 1.0 / 1024.0;
/// The largest squared angle of a tangent that exp, plus or a Jacobian is given, and of a logarithm.
pub const TURN_LIMIT: f64 = 9.0;
/// The largest magnitude of a number of which sine or cosine is taken.
pub const NUMBER_LIMIT: f64 = 4.0;

/// The numbers that an outcome can have.
pub const NUMBERS: [u64; 7] = [0, 1, 2, 3, 4, 5, 7];

/// A refusal with what it carries.
#[derive(Clone, Copy, Debug, PartialEq)]
pub enum Refusal {
    Length { expected: usize, actual: usize },
    NotFinite,
    NotUnit { norm: f64 },
    Turn,
    Overflow,
    Tolerance,
}

impl Refusal {
    pub fn number(self) -> u64 {
        match self {
            Refusal::Length { .. } => 1,
            Refusal::NotFinite => 2,
            Refusal::NotUnit { .. } => 3,
            Refusal::Turn => 4,
            Refusal::Overflow => 5,
            Refusal::Tolerance => 7,
        }
    }

    pub fn figures(self) -> [u64; 2] {
        match self {
            Refusal::Length { expected, actual } => [expected as u64, actual as u64],
            Refusal::NotUnit { norm } => [norm.to_bits(), 0],
            _ => [0, 0],
        }
    }
}

/// The first refusal of 1, 2, 7 and 3, if there is one.
pub fn of_blocks(call: &Call, request: &Request) -> Option<Refusal> {
    let blocks = [
        (call.first, &request.first[..]),
        (call.second, &request.second[..]),
    ];
    let first_of = |number: &dyn Fn(Block, &[u64]) -> Option<Refusal>| {
        blocks
            .iter()
            .find_map(|(block, values)| number(*block, values))
    };
    let within = f64::from_bits(request.extra);
    first_of(&length)
        .or_else(|| first_of(&not_finite))
        .or_else(|| tolerance(call, request.extra))
        .or_else(|| first_of(&|block, values| not_unit(block, values, within)))
}

/// Refusal 4: the squared angle or the magnitude that is tested is above the limit, infinite ones among them.
pub fn turn(tested: f64, limit: f64) -> Option<Refusal> {
    (tested > limit).then_some(Refusal::Turn)
}

/// Refusal 5: a value of the result isn't finite.
pub fn overflow(values: &[u64]) -> Option<Refusal> {
    let infinite = !values.iter().all(|bits| is_finite(*bits));
    infinite.then_some(Refusal::Overflow)
}

/// By the exponent's bits, which are all ones for infinities and NaNs alike, so that no question about a NaN is asked
/// of the arithmetic.
pub fn is_finite(bits: u64) -> bool {
    const EXPONENT: u64 = 0x7ff0_0000_0000_0000;
    bits & EXPONENT != EXPONENT
}

fn length(block: Block, values: &[u64]) -> Option<Refusal> {
    let actual = values.len();
    let one = block.length();
    let expected = match block {
        Block::Chain => (actual / one).min(LONGEST_CHAIN) * one,
        _ => one,
    };
    (actual != expected).then_some(Refusal::Length { expected, actual })
}

fn not_finite(block: Block, values: &[u64]) -> Option<Refusal> {
    let finite = !block.is_checked()
        || values.iter().all(|bits| is_finite(*bits))
            && norms(block, values).all(|norm| is_finite(norm.to_bits()));
    (!finite).then_some(Refusal::NotFinite)
}

/// Of a call that holds norms to a tolerance, also where a chain has no block.
fn tolerance(call: &Call, bits: u64) -> Option<Refusal> {
    let refused = call.checks_norms() && !is_permitted(bits);
    refused.then_some(Refusal::Tolerance)
}

/// Whether a caller may choose this tolerance: finite, above 0 and at most 1/1024.
pub fn is_permitted(bits: u64) -> bool {
    let tolerance = f64::from_bits(bits);
    is_finite(bits) && tolerance > 0.0 && tolerance <= MOST_TOLERANCE
}

fn not_unit(block: Block, values: &[u64], tolerance: f64) -> Option<Refusal> {
    if !block.is_checked() {
        return None;
    }
    norms(block, values)
        .find(|norm| (norm - 1.0).abs() > tolerance)
        .map(|norm| Refusal::NotUnit { norm })
}

/// The norms of the quaternions in a block of the right length: the root of the squares' sum in the order w, x, y, z.
fn norms(block: Block, values: &[u64]) -> impl Iterator<Item = f64> {
    let at = block.quaternion();
    let elements = values.chunks_exact(block.length().max(1));
    elements.filter_map(move |element| {
        let [w, x, y, z] = *element[at?..].first_chunk::<4>()?;
        Some(norm([w, x, y, z].map(f64::from_bits)))
    })
}

/// The norm as it is computed where a quaternion is checked.
pub fn norm([w, x, y, z]: [f64; 4]) -> f64 {
    (((w * w + x * x) + y * y) + z * z).sqrt()
}
