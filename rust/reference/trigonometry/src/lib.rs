//! Sine and cosine as crates/trigonometry/specs/Sines.antt defines them, and the half-angle, once more, in plain f64 arithmetic, for docs/src to be
//! compiled with. It shares nothing with the proved crates: the coefficients stand here as patterns, as they do in the definitions.
//!
//! Sine and cosine are Taylor sums through the 31st power. The terms that are subtracted and those that are added are summed apart, each by Horner's scheme in
//! the fourth power of the argument.

mod half_angle;

pub use half_angle::half_angle;

/// The nearest to 1/3!, 1/7!, 1/11! .. 1/31!.
const SINE_MINUS: [u64; 8] = [
    0x3fc5_5555_5555_5555,
    0x3f2a_01a0_1a01_a01a,
    0x3e5a_e645_67f5_44e4,
    0x3d6a_e7f3_e733_b81f,
    0x3c62_f49b_4681_4157,
    0x3b47_61b4_1316_381a,
    0x3a1d_1ab1_c2dc_cea3,
    0x38e4_34d2_e783_f5bc,
];
/// 1/5!, 1/9! .. 1/29!.
const SINE_PLUS: [u64; 7] = [
    0x3f81_1111_1111_1111,
    0x3ec7_1de3_a556_c734,
    0x3de6_1246_13a8_6d09,
    0x3ce9_52c7_7030_ad4a,
    0x3bd7_1b8e_f6dc_f572,
    0x3ab3_f3cc_dd16_5fa9,
    0x3982_59f9_8b43_58ad,
];
/// 1/2!, 1/6! .. 1/30!.
const COSINE_MINUS: [u64; 8] = [
    0x3fe0_0000_0000_0000,
    0x3f56_c16c_16c1_6c17,
    0x3e92_7e4f_b778_9f5c,
    0x3da9_3974_a8c0_7c9d,
    0x3ca6_8278_63b9_7d97,
    0x3b90_ce39_6db7_f853,
    0x3a68_8e85_fc6a_4e5a,
    0x3933_932c_5047_d60e,
];
/// 1/4!, 1/8! .. 1/28!.
const COSINE_PLUS: [u64; 7] = [
    0x3fa5_5555_5555_5555,
    0x3efa_01a0_1a01_a01a,
    0x3e21_eed8_eff8_d898,
    0x3d2a_e7f3_e733_b81f,
    0x3c1e_542b_a402_0225,
    0x3aff_2cf0_1972_f578,
    0x39d0_a18a_2635_085d,
];

/// A zero keeps its sign.
pub fn sine(x: f64) -> f64 {
    if x == 0.0 {
        return x;
    }
    let y = x.abs();
    let (z, w) = powers(y);
    let v = y - (y * z) * (horner(w, &SINE_MINUS) - z * horner(w, &SINE_PLUS));
    if x < 0.0 { -v } else { v }
}

pub fn cosine(x: f64) -> f64 {
    let (z, w) = powers(x.abs());
    1.0 - z * (horner(w, &COSINE_MINUS) - z * horner(w, &COSINE_PLUS))
}

/// The square and the fourth power.
fn powers(y: f64) -> (f64, f64) {
    let z = y * y;
    (z, z * z)
}

/// c0 + w (c1 + w (.. + w last)).
fn horner(w: f64, coefficients: &[u64]) -> f64 {
    let mut falling = coefficients.iter().rev().map(|bits| f64::from_bits(*bits));
    let last = falling.next().expect("there are coefficients");
    falling.fold(last, |sum, c| c + w * sum)
}

#[cfg(test)]
mod tests {
    use super::*;

    /// 2^-45.
    const NEAR: f64 = 1.0 / (1u64 << 45) as f64;

    /// A quotient of whole numbers that are rounded is within a unit of the last place or two of the nearest.
    #[test]
    fn the_coefficients_are_those_of_the_taylor_sums() {
        for (first, list) in [
            (3, &SINE_MINUS[..]),
            (5, &SINE_PLUS[..]),
            (2, &COSINE_MINUS[..]),
            (4, &COSINE_PLUS[..]),
        ] {
            for (place, bits) in list.iter().enumerate() {
                let n = first + 4 * place as u128;
                let factorial: u128 = (1..=n).product();
                let away = (1.0 / factorial as f64).to_bits().abs_diff(*bits);
                assert!(away <= 1, "1/{n}!");
            }
        }
    }

    #[test]
    fn zeros() {
        assert_eq!(sine(0.0).to_bits(), 0);
        assert_eq!(sine(-0.0).to_bits(), 1 << 63);
        for zero in [0.0, -0.0] {
            assert_eq!(cosine(zero).to_bits(), 1f64.to_bits());
        }
    }

    /// One is odd and the other even, to the bit; and a number whose cube underflows is its own sine.
    #[test]
    fn signs() {
        for x in [4.0, 3.0, 1.0, 1e-5, 1e-160, f64::MIN_POSITIVE, 5e-324] {
            assert_eq!(sine(-x).to_bits(), sine(x).to_bits() ^ 1 << 63, "{x}");
            assert_eq!(cosine(-x).to_bits(), cosine(x).to_bits(), "{x}");
            if x < 1e-100 {
                assert_eq!(sine(x).to_bits(), x.to_bits(), "{x}");
                assert_eq!(cosine(x), 1.0, "{x}");
            }
        }
    }

    #[test]
    fn near_those_of_the_machine() {
        const STEPS: i32 = 1 << 20;
        for step in -STEPS..=STEPS {
            let x = 4.0 * f64::from(step) / f64::from(STEPS);
            assert!((sine(x) - x.sin()).abs() <= NEAR, "sine of {x}");
            assert!((cosine(x) - x.cos()).abs() <= NEAR, "cosine of {x}");
        }
    }

    #[test]
    fn patterns() {
        for (x, of_sine, of_cosine) in [
            (2f64.powi(-16), 0x3eef_ffff_fffa_aaab, 0x3fef_ffff_fff0_0000),
            (0.0625, 0x3faf_faaa_eeed_4edb, 0x3fef_f001_5549_f4d3),
            (0.5, 0x3fde_aee8_744b_05f0, 0x3fec_1528_065b_7d50),
            (1.0, 0x3fea_ed54_8f09_0cee, 0x3fe1_4a28_0fb5_068b),
            (2.0, 0x3fed_18f6_ead1_b446, 0xbfda_a226_5753_7200),
            (3.0, 0x3fc2_1038_6db6_d570, 0xbfef_ae04_be85_e5dc),
            (4.0, 0xbfe8_37b9_dddc_1eb0, 0xbfe4_eaa6_06db_24c0),
        ] {
            assert_eq!(sine(x).to_bits(), of_sine, "sine of {x}");
            assert_eq!(cosine(x).to_bits(), of_cosine, "cosine of {x}");
        }
    }
}
