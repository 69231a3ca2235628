//! docs/src itself, unchanged, compiled over the stand-ins: it takes the machine's sine, cosine and atan2.
// As in ../apex/src/lib.rs.
include!(concat!(env!("OUT_DIR"), "/root.rs"));

/// The sine, the cosine and the half-angle that are taken here.
pub mod sines {
    pub fn sine(x: f64) -> f64 {
        x.sin()
    }

    pub fn cosine(x: f64) -> f64 {
        x.cos()
    }

    pub fn half_angle(s: f64, c: f64) -> f64 {
        f64::atan2(s, c)
    }
}
