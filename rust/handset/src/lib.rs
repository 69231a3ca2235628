//! Galilean motion steps for the rescue handset: compose, inverse and the chain, answered by the static library whose
//! code is proved.
//!
//! An [`Element`] has eleven `f64`. A set holds the motion since its last fix, a [`Held`], and takes one step after the
//! other. A call answers with an element of which every bit is IEEE 754's, or with a [`Refusal`]; what was held before a
//! refusal is still held.
//!
//! ```
//! use handset::{Element, Held, Refusal};
//!
//! let mut held = Held::new();
//! held.step(&Element {
//!     translation: [1.0, 2.0, 3.0],
//!     velocity: [4.0, 0.0, 0.0],
//!     time: 0.5,
//!     ..Element::IDENTITY
//! })?;
//! let step = Element {
//!     translation: [1.0, 1.0, 1.0],
//!     velocity: [0.0, 2.0, 0.0],
//!     time: 2.0,
//!     ..Element::IDENTITY
//! };
//! held.step(&step)?;
//! assert_eq!(held.element().translation, [10.0, 3.0, 4.0]);
//! assert_eq!(held.element().velocity, [4.0, 2.0, 0.0]);
//! assert_eq!(held.time(), 2.5);
//!
//! let bad = Element { time: f64::NAN, ..step };
//! assert_eq!(held.step(&bad), Err(Refusal::NotFinite));
//! assert_eq!(held.time(), 2.5);
//! # Ok::<(), Refusal>(())
//! ```
//!
//! A norm may be 1e-6 away from 1. Where a sensor rounds its quaternions to fewer digits, the calls that end in `_within`
//! take another tolerance, above 0 and at most 1/1024. Only what is handed in is held to it, and no element made on the
//! way. What a call has answered, at any tolerance, is never refused as [`Refusal::NotUnit`] when it is handed in again at
//! 1e-6.
//!
//! ```
//! use handset::{Element, Held, Refusal};
//!
//! let rounded = Element { rotation: [0.7071, 0.7071, 0.0, 0.0], ..Element::IDENTITY };
//! let mut held = Held::new();
//! assert_eq!(held.step(&rounded), Err(Refusal::NotUnit));
//! held.step_within(&rounded, 1e-4)?;
//! assert_eq!(held.step_within(&rounded, 0.1), Err(Refusal::Tolerance));
//! # Ok::<(), Refusal>(())
//! ```
//!
//! The library relies on the floating-point environment that a program starts with: rounding to nearest, subnormal
//! numbers kept.
//!
//! # The static library
//!
//! The crate links `libhandset.a`. In the repository, `make lib` writes it for x86-64 Linux, and `make lib TARGET=NAME`
//! for another processor, by rustc's name of the target; the build script finds it there.
//!
//! The variable HANDSET_LIB names another folder of the archive. It is wanted for a Cortex-M7 with an FPU for doubles,
//! since rustc has no name of its own for it: `make lib TARGET=cortex-m7`, and HANDSET_LIB is the full path of
//! `target/lib/cortex-m7`. A relative path is taken from the folder of this crate, wherever cargo is started. A firmware
//! that keeps the archive in its own folder `lib` can have cargo make the path a full one, in its `.cargo/config.toml`:
//!
//! ```toml
//! [env]
//! HANDSET_LIB = { value = "lib", relative = true }
//! ```
#![no_std]
#![deny(missing_docs, unsafe_code, unsafe_op_in_unsafe_fn)]

mod element;
pub mod entries;
mod held;
mod refusal;

pub use element::Element;
pub use held::Held;
pub use refusal::Refusal;

/// The bytes of an element.
pub const ELEMENT_BYTES: usize = 88;

/// The most elements of a chain.
pub const CHAIN_MOST: usize = 4096;

/// The step `right` taken after `left`.
pub fn compose(left: &Element, right: &Element) -> Result<Element, Refusal> {
    answer(|out| entries::compose(left.as_bytes(), right.as_bytes(), out))
}

/// The step that undoes `element`.
pub fn inverse(element: &Element) -> Result<Element, Refusal> {
    answer(|out| entries::inverse(element.as_bytes(), out))
}

/// The steps, composed from the identity: at most [`CHAIN_MOST`]. They are read where they stand, with no copy.
///
/// The refusals are tried over all steps, as [`Refusal`] says: a step that is not finite is told before an earlier one
/// whose quaternion is not unit.
///
/// ```
/// use handset::{chain, Element, Refusal};
///
/// assert_eq!(chain(&[]), Ok(Element::IDENTITY));
/// let step = Element { time: 0.25, ..Element::IDENTITY };
/// assert_eq!(chain(&[step, step]).map(|total| total.time), Ok(0.5));
///
/// let not_unit = Element { rotation: [2.0, 0.0, 0.0, 0.0], ..step };
/// let not_finite = Element { time: f64::NAN, ..step };
/// assert_eq!(chain(&[not_unit, not_finite]), Err(Refusal::NotFinite));
/// ```
pub fn chain(steps: &[Element]) -> Result<Element, Refusal> {
    chain_bytes(element::bytes_of(steps))
}

/// The steps of `blocks`, composed from the identity: at most [`CHAIN_MOST`] elements' bytes, laid end to end.
///
/// ```
/// use handset::{chain_bytes, Element};
///
/// assert_eq!(chain_bytes(&[]), Ok(Element::IDENTITY));
/// let step = Element { time: 0.25, ..Element::IDENTITY };
/// let steps = [step.to_bytes(), step.to_bytes()];
/// assert_eq!(chain_bytes(steps.as_flattened()).map(|total| total.time), Ok(0.5));
/// ```
pub fn chain_bytes(blocks: &[u8]) -> Result<Element, Refusal> {
    answer(|out| entries::chain(blocks, out))
}

/// The step `right` taken after `left`, at a tolerance.
///
/// ```
/// use handset::{compose, compose_within, Element, Refusal};
///
/// let rounded = Element { rotation: [1.0005, 0.0, 0.0, 0.0], ..Element::IDENTITY };
/// assert_eq!(compose(&rounded, &rounded), Err(Refusal::NotUnit));
/// assert_eq!(compose_within(&rounded, &rounded, 9e-4), Ok(Element::IDENTITY));
/// ```
pub fn compose_within(left: &Element, right: &Element, tolerance: f64) -> Result<Element, Refusal> {
    answer(|out| entries::compose_within(left.as_bytes(), right.as_bytes(), tolerance, out))
}

/// The step that undoes `element`, at a tolerance.
///
/// ```
/// use handset::{inverse, inverse_within, Element, Refusal};
///
/// let rounded = Element { rotation: [1.0005, 0.0, 0.0, 0.0], ..Element::IDENTITY };
/// assert_eq!(inverse(&rounded), Err(Refusal::NotUnit));
/// assert_eq!(inverse_within(&rounded, 9e-4), Ok(Element::IDENTITY));
/// assert_eq!(inverse_within(&rounded, f64::NAN), Err(Refusal::Tolerance));
/// ```
pub fn inverse_within(element: &Element, tolerance: f64) -> Result<Element, Refusal> {
    answer(|out| entries::inverse_within(element.as_bytes(), tolerance, out))
}

/// The steps, composed from the identity at a tolerance: at most [`CHAIN_MOST`]. They are read where they stand, with no
/// copy. A partial element is no step, and isn't held to the tolerance.
///
/// ```
/// use handset::{chain_within, Element, Refusal};
///
/// let rounded = Element { rotation: [1.0005, 0.0, 0.0, 0.0], time: 0.25, ..Element::IDENTITY };
/// assert_eq!(chain_within(&[rounded; 2], 9e-4).map(|total| total.time), Ok(0.5));
/// assert_eq!(chain_within(&[rounded; 2], 1e-4), Err(Refusal::NotUnit));
/// assert_eq!(chain_within(&[], 0.0), Err(Refusal::Tolerance));
/// ```
pub fn chain_within(steps: &[Element], tolerance: f64) -> Result<Element, Refusal> {
    chain_bytes_within(element::bytes_of(steps), tolerance)
}

/// The steps of `blocks`, composed from the identity at a tolerance: at most [`CHAIN_MOST`] elements' bytes, laid end to
/// end.
///
/// ```
/// use handset::{chain_bytes_within, Element, Refusal};
///
/// let step = Element { rotation: [1.0005, 0.0, 0.0, 0.0], time: 0.25, ..Element::IDENTITY };
/// let steps = [step.to_bytes(), step.to_bytes()];
/// assert_eq!(chain_bytes_within(steps.as_flattened(), 9e-4).map(|total| total.time), Ok(0.5));
/// assert_eq!(chain_bytes_within(&steps[0][1..], 9e-4), Err(Refusal::Length));
/// ```
pub fn chain_bytes_within(blocks: &[u8], tolerance: f64) -> Result<Element, Refusal> {
    answer(|out| entries::chain_within(blocks, tolerance, out))
}

/// What a call of an entry answers, given the output that it may fill.
fn answer(call: impl FnOnce(&mut [u8]) -> u32) -> Result<Element, Refusal> {
    let mut out = [0; ELEMENT_BYTES];
    done(call(&mut out))?;
    Ok(Element::from_bytes(&out))
}

/// What the number says that an entry returned.
fn done(number: u32) -> Result<(), Refusal> {
    match number {
        0 => Ok(()),
        _ => Err(Refusal::of(number)),
    }
}
