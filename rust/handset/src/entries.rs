//! The C entries of the static library: as handset.h declares them, and over byte slices of any lengths.
//!
//! A call answers 0, or the number of a refusal, and then the output is as it was. Elements are little-endian, as
//! [`Element::to_bytes`](crate::Element::to_bytes) gives them. Lengths are 64 bits wide on every processor, also where a
//! `usize` has 32. Entries that end in `_within` take the tolerance of the caller, and the others hold norms to 1e-6.
#![allow(unsafe_code)]

extern "C" {
    /// Compose. The pointers are not null and as long as they say, and `out` overlaps no input; so for all.
    pub fn sgal3_compose(
        left: *const u8,
        left_len: u64,
        right: *const u8,
        right_len: u64,
        out: *mut u8,
        out_len: u64,
    ) -> u32;
    /// Compose, stored over the left block.
    pub fn sgal3_compose_in_place(
        held: *mut u8,
        held_len: u64,
        step: *const u8,
        step_len: u64,
    ) -> u32;
    /// Inverse.
    pub fn sgal3_inverse(block: *const u8, block_len: u64, out: *mut u8, out_len: u64) -> u32;
    /// The chain.
    pub fn sgal3_chain(blocks: *const u8, blocks_len: u64, out: *mut u8, out_len: u64) -> u32;
    /// Compose, at a tolerance.
    pub fn sgal3_compose_within(
        left: *const u8,
        left_len: u64,
        right: *const u8,
        right_len: u64,
        tolerance: f64,
        out: *mut u8,
        out_len: u64,
    ) -> u32;
    /// Compose, stored over the left block, at a tolerance.
    pub fn sgal3_compose_in_place_within(
        held: *mut u8,
        held_len: u64,
        step: *const u8,
        step_len: u64,
        tolerance: f64,
    ) -> u32;
    /// Inverse, at a tolerance.
    pub fn sgal3_inverse_within(
        block: *const u8,
        block_len: u64,
        tolerance: f64,
        out: *mut u8,
        out_len: u64,
    ) -> u32;
    /// The chain, at a tolerance.
    pub fn sgal3_chain_within(
        blocks: *const u8,
        blocks_len: u64,
        tolerance: f64,
        out: *mut u8,
        out_len: u64,
    ) -> u32;
}

/// The step `right` taken after `left`, stored in `out`.
pub fn compose(left: &[u8], right: &[u8], out: &mut [u8]) -> u32 {
    // SAFETY: each pointer and length are those of one slice: not null, also where it is empty, and valid for the call.
    // `out` is borrowed mutably, so it overlaps no input. The entry takes slices of every length.
    unsafe {
        sgal3_compose(
            left.as_ptr(),
            left.len() as u64,
            right.as_ptr(),
            right.len() as u64,
            out.as_mut_ptr(),
            out.len() as u64,
        )
    }
}

/// The step `step` taken after the element held, stored over it.
pub fn compose_in_place(held: &mut [u8], step: &[u8]) -> u32 {
    // SAFETY: each pointer and length are those of one slice: not null, also where it is empty, and valid for the call.
    // `held` is borrowed mutably, so it doesn't overlap `step`. The entry takes slices of every length.
    unsafe {
        sgal3_compose_in_place(
            held.as_mut_ptr(),
            held.len() as u64,
            step.as_ptr(),
            step.len() as u64,
        )
    }
}

/// The step that undoes `block`, stored in `out`.
pub fn inverse(block: &[u8], out: &mut [u8]) -> u32 {
    // SAFETY: each pointer and length are those of one slice: not null, also where it is empty, and valid for the call.
    // `out` is borrowed mutably, so it doesn't overlap `block`. The entry takes slices of every length.
    unsafe {
        sgal3_inverse(
            block.as_ptr(),
            block.len() as u64,
            out.as_mut_ptr(),
            out.len() as u64,
        )
    }
}

/// The steps of `blocks`, laid end to end, composed from the identity and stored in `out`.
pub fn chain(blocks: &[u8], out: &mut [u8]) -> u32 {
    // SAFETY: each pointer and length are those of one slice: not null, also where it is empty, and valid for the call.
    // `out` is borrowed mutably, so it doesn't overlap `blocks`. The entry takes slices of every length.
    unsafe {
        sgal3_chain(
            blocks.as_ptr(),
            blocks.len() as u64,
            out.as_mut_ptr(),
            out.len() as u64,
        )
    }
}

/// The step `right` taken after `left`, at a tolerance, stored in `out`.
pub fn compose_within(left: &[u8], right: &[u8], tolerance: f64, out: &mut [u8]) -> u32 {
    // SAFETY: as of `compose`. The entry takes every tolerance.
    unsafe {
        sgal3_compose_within(
            left.as_ptr(),
            left.len() as u64,
            right.as_ptr(),
            right.len() as u64,
            tolerance,
            out.as_mut_ptr(),
            out.len() as u64,
        )
    }
}

/// The step `step` taken after the element held, at a tolerance, stored over it.
pub fn compose_in_place_within(held: &mut [u8], step: &[u8], tolerance: f64) -> u32 {
    // SAFETY: as of `compose_in_place`. The entry takes every tolerance.
    unsafe {
        sgal3_compose_in_place_within(
            held.as_mut_ptr(),
            held.len() as u64,
            step.as_ptr(),
            step.len() as u64,
            tolerance,
        )
    }
}

/// The step that undoes `block`, at a tolerance, stored in `out`.
pub fn inverse_within(block: &[u8], tolerance: f64, out: &mut [u8]) -> u32 {
    // SAFETY: as of `inverse`. The entry takes every tolerance.
    unsafe {
        sgal3_inverse_within(
            block.as_ptr(),
            block.len() as u64,
            tolerance,
            out.as_mut_ptr(),
            out.len() as u64,
        )
    }
}

/// The steps of `blocks`, laid end to end, composed from the identity at a tolerance and stored in `out`.
pub fn chain_within(blocks: &[u8], tolerance: f64, out: &mut [u8]) -> u32 {
    // SAFETY: as of `chain`. The entry takes every tolerance.
    unsafe {
        sgal3_chain_within(
            blocks.as_ptr(),
            blocks.len() as u64,
            tolerance,
            out.as_mut_ptr(),
            out.len() as u64,
        )
    }
}
