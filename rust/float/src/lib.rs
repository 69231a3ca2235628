//! Patterns of f64 on which the square root is tried, and the machine's root of them.
pub mod patterns;
pub mod words;

use std::hint::black_box;

pub const INFINITY: u64 = 0x7ff0_0000_0000_0000;
pub const NAN: u64 = 0x7ff8_0000_0000_0000;

/// The pattern, or that of the one NaN for every NaN.
pub fn canonical(b: u64) -> u64 {
    // An optimiser may take it that a root is no NaN of its own making, so the test is on a whole number that it can't see through.
    let b = black_box(b);
    if b & (u64::MAX >> 1) > INFINITY {
        NAN
    } else {
        b
    }
}

/// The machine's square root, on patterns.
pub fn machine_root(b: u64) -> u64 {
    canonical(black_box(f64::from_bits(b).sqrt()).to_bits())
}
