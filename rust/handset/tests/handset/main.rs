//! The crate and the C entries under it: worked examples, refusals, tolerances, what is held, and the
//! story of set 17.
mod header;
mod held;
mod refusals;
mod search;
mod tolerance;
mod worked;

use handset::{Element, ELEMENT_BYTES};

/// An element by its eleven values.
fn element(values: [f64; 11]) -> Element {
    Element::from_bytes(&bytes(values.map(f64::to_bits)))
}

/// The bytes of eleven bit patterns.
fn bytes(patterns: [u64; 11]) -> [u8; ELEMENT_BYTES] {
    let mut bytes = [0; ELEMENT_BYTES];
    for (word, pattern) in bytes.chunks_exact_mut(8).zip(patterns) {
        word.copy_from_slice(&pattern.to_le_bytes());
    }
    bytes
}

const A: [f64; 11] = [1.0, 2.0, 3.0, 1.0, 0.0, 0.0, 0.0, 4.0, 0.0, 0.0, 0.5];
const B: [f64; 11] = [1.0, 1.0, 1.0, 1.0, 0.0, 0.0, 0.0, 0.0, 2.0, 0.0, 2.0];
