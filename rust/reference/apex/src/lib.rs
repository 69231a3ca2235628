//! docs/src, compiled over the stand-ins beside this package and over our sine, cosine and half-angle.
// Two lines that build.rs writes: `#[path = ".../lib.rs"] mod docs_src;` and `pub use docs_src::*;`.
// Through them docs/src's own lib.rs, a file of its own with its own head, is what `crate::` names.
include!(concat!(env!("OUT_DIR"), "/root.rs"));

/// The sine, the cosine and the half-angle that are taken here.
pub mod sines {
    pub use trigonometry::{cosine, half_angle, sine};
}
