//! exp, log of both groups, adjoint, in both its forms, and act, on a point and on an event, on blocks of values, each through an entry that is there for timing alone: the library's and,
//! behind functions of the same signature, the Rust source's own.
//!
//! The outcome is words: the refusal's number, two figures, how many values follow, their bits. rust/reference/README.md has the format.
use apex::sgal3::{SGal3, SGal3Tangent};
use apex::so3::SO3;
use apex::{LieGroup, Tangent};

pub const OUTCOME: usize = 832;
/// The largest squared angle of exp's tangent and of log's.
const TURN_LIMIT: f64 = 9.0;

/// A block, and the outcome's place: how many bytes were put there.
pub type Entry = unsafe extern "C" fn(*const f64, usize, *mut [u8; OUTCOME]) -> usize;

/// Two blocks, and the outcome's place.
pub type PairEntry =
    unsafe extern "C" fn(*const f64, usize, *const f64, usize, *mut [u8; OUTCOME]) -> usize;

extern "C" {
    pub fn sgal3_act(
        block: *const f64,
        len: usize,
        vector: *const f64,
        vector_len: usize,
        out: *mut [u8; OUTCOME],
    ) -> usize;
    pub fn sgal3_act_event(
        block: *const f64,
        len: usize,
        event: *const f64,
        event_len: usize,
        out: *mut [u8; OUTCOME],
    ) -> usize;
    pub fn sgal3_exp(tangent: *const f64, len: usize, out: *mut [u8; OUTCOME]) -> usize;
    pub fn sgal3_log(block: *const f64, len: usize, out: *mut [u8; OUTCOME]) -> usize;
    pub fn so3_log(block: *const f64, len: usize, out: *mut [u8; OUTCOME]) -> usize;
    pub fn sgal3_adjoint(block: *const f64, len: usize, out: *mut [u8; OUTCOME]) -> usize;
    /// Its place for an outcome is 344 bytes, less than is handed in here.
    pub fn sgal3_short_adjoint(block: *const f64, len: usize, out: *mut [u8; OUTCOME]) -> usize;
}

/// # Safety
///
/// The first pointer is that of as many values as the length says, and `out` is that of an outcome's place; as of those below.
pub unsafe extern "C" fn source_exp(
    tangent: *const f64,
    len: usize,
    out: *mut [u8; OUTCOME],
) -> usize {
    // SAFETY: the caller's promise.
    unsafe { exp(std::slice::from_raw_parts(tangent, len), &mut *out) }
}

/// # Safety
///
/// As of `source_exp`.
pub unsafe extern "C" fn source_log(
    block: *const f64,
    len: usize,
    out: *mut [u8; OUTCOME],
) -> usize {
    // SAFETY: the caller's promise.
    unsafe { log(std::slice::from_raw_parts(block, len), &mut *out) }
}

/// # Safety
///
/// As of `source_exp`.
pub unsafe extern "C" fn source_so3_log(
    block: *const f64,
    len: usize,
    out: *mut [u8; OUTCOME],
) -> usize {
    // SAFETY: the caller's promise.
    unsafe { log_of_rotation(std::slice::from_raw_parts(block, len), &mut *out) }
}

/// # Safety
///
/// As of `source_exp`.
pub unsafe extern "C" fn source_adjoint(
    block: *const f64,
    len: usize,
    out: *mut [u8; OUTCOME],
) -> usize {
    // SAFETY: the caller's promise.
    unsafe { adjoint(std::slice::from_raw_parts(block, len), &mut *out) }
}

/// # Safety
///
/// As of `source_exp`.
pub unsafe extern "C" fn source_short_adjoint(
    block: *const f64,
    len: usize,
    out: *mut [u8; OUTCOME],
) -> usize {
    // SAFETY: the caller's promise.
    unsafe { short_adjoint(std::slice::from_raw_parts(block, len), &mut *out) }
}

fn exp(block: &[f64], out: &mut [u8; OUTCOME]) -> usize {
    if block.len() != 10 {
        return refuse(1, out);
    }
    if !all_finite(block) {
        return refuse(2, out);
    }
    let tangent = SGal3Tangent::from_slice(block);
    if tangent.theta().norm_squared() > TURN_LIMIT {
        return refuse(4, out);
    }
    finish(tangent.exp(None).as_param_slice(), out)
}

fn log(block: &[f64], out: &mut [u8; OUTCOME]) -> usize {
    if let Some(number) = refused_element(block) {
        return refuse(number, out);
    }
    let tangent = SGal3::from_param_slice(block).log(None);
    if tangent.theta().norm_squared() > TURN_LIMIT {
        return refuse(4, out);
    }
    finish(tangent.as_slice(), out)
}

fn log_of_rotation(block: &[f64], out: &mut [u8; OUTCOME]) -> usize {
    if let Some(number) = refused(block, 4, 0) {
        return refuse(number, out);
    }
    let tangent = SO3::from_param_slice(block).log(None);
    if tangent.coeffs().norm_squared() > TURN_LIMIT {
        return refuse(4, out);
    }
    finish(tangent.as_slice(), out)
}

fn adjoint(block: &[f64], out: &mut [u8; OUTCOME]) -> usize {
    if let Some(number) = refused_element(block) {
        return refuse(number, out);
    }
    let matrix = SGal3::from_param_slice(block).adjoint();
    let values: [f64; 100] = std::array::from_fn(|at| matrix[(at / 10, at % 10)]);
    finish(&values, out)
}

/// The blocks that a short adjoint holds, of the whole matrix.
fn short_adjoint(block: &[f64], out: &mut [u8; OUTCOME]) -> usize {
    if let Some(number) = refused_element(block) {
        return refuse(number, out);
    }
    let matrix = SGal3::from_param_slice(block).adjoint();
    let values: [f64; 39] = std::array::from_fn(|at| match at {
        0..27 => matrix[(at % 9 / 3, at / 9 * 3 + at % 3)],
        27..36 => matrix[(3 + at % 9 / 3, 6 + at % 3)],
        _ => matrix[(at - 36, 9)],
    });
    finish(&values, out)
}

fn refused_element(block: &[f64]) -> Option<u64> {
    refused(block, 11, 3)
}

/// A block of this length whose quaternion stands at this place.
fn refused(block: &[f64], length: usize, at: usize) -> Option<u64> {
    if block.len() != length {
        return Some(1);
    }
    let [w, x, y, z] = *block[at..].first_chunk()?;
    let norm = (w * w + x * x + y * y + z * z).sqrt();
    if !all_finite(block) || !norm.is_finite() {
        return Some(2);
    }
    ((norm - 1.0).abs() > 1e-6).then_some(3)
}

fn all_finite(values: &[f64]) -> bool {
    values.iter().all(|value| value.is_finite())
}

/// The figures of a refusal aren't needed here.
fn refuse(number: u64, out: &mut [u8; OUTCOME]) -> usize {
    put(&[number, 0, 0, 0], out)
}

fn finish(values: &[f64], out: &mut [u8; OUTCOME]) -> usize {
    if !all_finite(values) {
        return refuse(5, out);
    }
    let count = put(&[0, 0, 0, values.len() as u64], out);
    for (word, value) in out[count..].chunks_exact_mut(8).zip(values) {
        word.copy_from_slice(&value.to_le_bytes());
    }
    count + 8 * values.len()
}

fn put(words: &[u64; 4], out: &mut [u8; OUTCOME]) -> usize {
    for (place, word) in out.chunks_exact_mut(8).zip(words) {
        place.copy_from_slice(&word.to_le_bytes());
    }
    32
}
