//! The half-angle of a unit quaternion as crates/half_angle/specs/HalfAngles.antt defines it: from 0 to 1.6, with s its sine and c its cosine.
//!
//! A polynomial's guess takes one step of Newton's where the excess shows that it was good. Elsewhere the excess is bisected.

use crate::{cosine, horner, sine};

/// The arctangent's coefficients, of the powers 1, 9, 17 .., of 5, 13 .., of 3, 11 .., and of 7, 15 ..: the last two are subtracted.
const FROM_1: [u64; 5] = [
    0x3fef_ffff_ffff_fc16,
    0x3fbc_71bb_ad3c_3690,
    0x3fad_882f_1841_654c,
    0x3f91_5f45_0ba8_35d4,
    0x3f0f_09b9_6d4b_d248,
];
const FROM_5: [u64; 4] = [
    0x3fc9_9999_9697_957d,
    0x3fb3_adae_0dd5_3182,
    0x3fa4_359a_27ba_3448,
    0x3f66_309d_d536_2b7d,
];
const FROM_3: [u64; 4] = [
    0x3fd5_5555_554f_1175,
    0x3fb7_4556_847c_5072,
    0x3fa9_2d05_071d_17f4,
    0x3f80_58e2_01b6_f6bb,
];
const FROM_7: [u64; 4] = [
    0x3fc2_4924_3ada_7196,
    0x3fb0_fe27_e1a7_85cc,
    0x3f9c_efd1_2341_71c0,
    0x3f43_1788_99bc_8db9,
];
/// The nearest to π / 4.
const EIGHTH: u64 = 0x3fe9_21fb_5444_2d18;

/// 2^-52, and the largest of its multiples that are not above 1.6.
const UNIT: f64 = f64::EPSILON;
const LAST: u64 = 7_205_759_403_792_793;
const END: f64 = LAST as f64 * UNIT;
/// As many halvings leave neighbours.
const HALVINGS: u32 = 53;
/// 2^-45: what the excess of a good guess is at most, in magnitude.
const GOOD: f64 = 1.0 / (1u64 << 45) as f64;

/// Of an s and a c that are not negative.
pub fn half_angle(s: f64, c: f64) -> f64 {
    let guess = guess(s, c);
    let beyond = excess(guess, s, c);
    if beyond.abs() <= GOOD {
        in_range(guess - beyond)
    } else {
        bisected(s, c)
    }
}

/// The sine of how far a lies beyond the half-angle, times the root of s² + c².
fn excess(a: f64, s: f64, c: f64) -> f64 {
    c * sine(a) - s * cosine(a)
}

/// The nearest of the range; +0 for a NaN and for -0.
fn in_range(x: f64) -> f64 {
    if 0.0 < x {
        if x <= END { x } else { END }
    } else {
        0.0
    }
}

fn guess(s: f64, c: f64) -> f64 {
    let y = (s - c) / (s + c);
    let z = y * y;
    let w = z * z;
    let v = w * w;
    let plus = horner(v, &FROM_1) + w * horner(v, &FROM_5);
    let minus = horner(v, &FROM_3) + w * horner(v, &FROM_7);
    let arctangent = y * (plus - z * minus);
    in_range(f64::from_bits(EIGHTH) + arctangent)
}

fn bisected(s: f64, c: f64) -> f64 {
    let angle = |count: u64| count as f64 * UNIT;
    let (mut low, mut high) = (0, LAST);
    for _ in 0..HALVINGS {
        let middle = low + (high - low) / 2;
        if excess(angle(middle), s, c) <= 0.0 {
            low = middle;
        } else {
            high = middle;
        }
    }
    angle(low)
}

#[cfg(test)]
mod tests {
    use super::*;
    use std::f64::consts::{FRAC_1_SQRT_2, FRAC_PI_2};

    #[test]
    fn the_end_of_the_range() {
        assert_eq!(END.to_bits(), 0x3ff9_9999_9999_9999);
        assert_eq!(in_range(END), END);
        assert_eq!(in_range(END.next_up()), END);
        assert_eq!(in_range(f64::INFINITY), END);
        assert_eq!(in_range(5e-324), 5e-324);
        for below in [0.0, -0.0, -5e-324, -1.0, f64::NEG_INFINITY, f64::NAN] {
            assert_eq!(in_range(below).to_bits(), 0, "{below}");
        }
    }

    /// Odd coefficients of the arctangent, 1 - 1/3 + 1/5 ..: the first ones of the polynomial are near to them.
    #[test]
    fn the_coefficients_begin_as_those_of_the_arctangent() {
        let near = |bits: u64, quotient: f64, within: f64| {
            assert!((f64::from_bits(bits) - quotient).abs() < within);
        };
        near(FROM_1[0], 1.0, 1e-12);
        near(FROM_3[0], 1.0 / 3.0, 1e-10);
        near(FROM_5[0], 1.0 / 5.0, 1e-8);
        near(FROM_7[0], 1.0 / 7.0, 1e-6);
        assert_eq!(f64::from_bits(EIGHTH), FRAC_PI_2 / 2.0);
    }

    /// The arguments of a sweep: an angle from 0 to a quarter turn, its sine and its cosine, also with a quaternion's norm a little off.
    fn sweep(steps: u32, mut look: impl FnMut(f64, f64, f64)) {
        for step in 0..=steps {
            let angle = FRAC_PI_2 * f64::from(step) / f64::from(steps);
            let (s, c) = angle.sin_cos();
            for norm in [1.0, 1.0 - 2f64.powi(-50), 1.0 + 2f64.powi(-50)] {
                look(angle, s * norm, (c * norm).abs());
            }
        }
    }

    #[test]
    fn near_that_of_the_machine() {
        sweep(1 << 18, |angle, s, c| {
            let away = half_angle(s, c) - s.atan2(c);
            assert!(away.abs() <= 2f64.powi(-50), "{angle}: {away:e}");
        });
    }

    /// No guess is found bad there.
    #[test]
    fn not_bisected() {
        sweep(1 << 18, |angle, s, c| {
            let beyond = excess(guess(s, c), s, c);
            assert!(beyond.abs() <= GOOD, "{angle}: {beyond:e}");
        });
    }

    #[test]
    fn bisected_is_near_too() {
        sweep(1 << 12, |angle, s, c| {
            let away = bisected(s, c) - s.atan2(c);
            assert!(away.abs() <= 2f64.powi(-50), "{angle}: {away:e}");
        });
    }

    /// An s and a c so large that the excess's rounding alone is above what a good guess may have.
    #[test]
    fn bisected_where_the_guess_is_bad() {
        for (s, c) in [(3e9, 4e9), (1e15, 3.0), (1e300, 2e300)] {
            let beyond = excess(guess(s, c), s, c);
            assert!(beyond.abs() > GOOD, "{s} {c}");
            assert_eq!(half_angle(s, c), bisected(s, c));
            assert!((bisected(s, c) - s.atan2(c)).abs() <= 2f64.powi(-50));
        }
    }

    /// Some are a number beside the nearest.
    #[test]
    fn worked_values() {
        for (s, c, bits) in [
            (0.0, 1.0, 0),
            (5e-324, 1.0, 1),
            (1.0, 0.0, FRAC_PI_2.to_bits() + 1),
            (1.0, 5e-324, FRAC_PI_2.to_bits() + 1),
            (0.5, 0.5, EIGHTH),
            (FRAC_1_SQRT_2, FRAC_1_SQRT_2, EIGHTH + 1),
            (0.6, 0.8, 0x3fe4_978f_a326_9ee0),
            (0.8, 0.6, 0x3fed_ac67_0561_bb50),
            (2f64.powi(-17), 1.0, 0x3edf_ffff_fffd_5555),
            (1.0, 2f64.powi(-30), 0x3ff9_21fb_5404_2d18),
            (f64::NAN, f64::NAN, 0),
        ] {
            assert_eq!(half_angle(s, c).to_bits(), bits, "{s} {c}");
        }
    }

    /// Any s and c give a number of the range.
    #[test]
    fn any_numbers() {
        let numbers = [0.0, -0.0, 0.5, -1.0, f64::MAX, f64::INFINITY, f64::NAN];
        for s in numbers {
            for c in numbers {
                let a = half_angle(s, c);
                assert!((0.0..=END).contains(&a) && a.is_sign_positive(), "{s} {c}");
            }
        }
    }
}
