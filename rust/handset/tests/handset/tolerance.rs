//! The calls at a tolerance of the caller's.
use crate::refusals::refused;
use crate::{element, A, B};
use handset::entries::{self, compose_in_place_within};
use handset::{
    chain, chain_bytes_within, chain_within, compose, compose_within, inverse, inverse_within,
    Element, Held, Refusal, ELEMENT_BYTES,
};

const MOST: f64 = 1.0 / 1024.0;
const LEAST: f64 = 5e-324;

/// The next number further from zero.
fn further(value: f64) -> f64 {
    f64::from_bits(value.to_bits() + 1)
}

/// The next number nearer to zero.
fn nearer(value: f64) -> f64 {
    f64::from_bits(value.to_bits() - 1)
}

/// Tolerances that are permitted: both ends of the range, and what lies between.
fn permitted() -> Vec<f64> {
    vec![
        LEAST,
        further(LEAST),
        nearer(f64::MIN_POSITIVE),
        f64::MIN_POSITIVE,
        2f64.powi(-60),
        1e-6,
        nearer(MOST),
        MOST,
    ]
}

/// Tolerances that are not.
fn not_permitted() -> Vec<f64> {
    let numbers = [0.0, LEAST, 1e-6, MOST].map(|value| -value);
    let large = [further(MOST), 2.0 * MOST, 1.0, f64::MAX, -f64::MAX];
    let patterns = [
        0x7ff0_0000_0000_0000, // infinity
        0x7ff0_0000_0000_0001,
        0x7ff7_ffff_ffff_ffff,
        0x7ff8_0000_0000_0000,
        0x7ff8_0000_0000_1234,
        0x7fff_ffff_ffff_ffff,
    ];
    let not_finite = patterns.map(|bits| [bits, bits | 1 << 63].map(f64::from_bits));
    [&[0.0], &numbers[..], &large, not_finite.as_flattened()].concat()
}

fn turned(rotation: [f64; 4]) -> Element {
    Element {
        rotation,
        ..element(A)
    }
}

/// Two answers are the same, bit for bit.
fn same(one: Result<Element, Refusal>, other: Result<Element, Refusal>) {
    assert_eq!(one.map(Held::from), other.map(Held::from));
}

/// Every call of two elements at a tolerance gives this number, and where that is a refusal, nothing is changed.
fn all_give(left: Element, right: Element, tolerance: f64, number: u32) {
    let says = format!("{left:?} {right:?} {tolerance:e}");
    let (a, b) = (left.to_bytes(), right.to_bytes());
    let both = [left, right];
    let answers = [
        compose_within(&left, &right, tolerance),
        chain_within(&both, tolerance),
        chain_bytes_within([a, b].as_flattened(), tolerance),
    ];
    for answer in answers {
        assert_eq!(answer.map_or_else(Refusal::number, |_| 0), number, "{says}");
    }
    let mut held = Held::from(left);
    let step = held.step_within(&right, tolerance);
    assert_eq!(step.map_or_else(Refusal::number, |_| 0), number, "{says}");
    let mut by_bytes = Held::from(left);
    assert_eq!(by_bytes.step_bytes_within(&b, tolerance), step, "{says}");
    assert_eq!(held, by_bytes, "{says}");
    if number == 0 {
        assert_eq!(answers[0].map(Held::from), Ok(held), "{says}");
        return;
    }
    assert_eq!(held, Held::from(left), "{says}");
    let len = ELEMENT_BYTES;
    let numbers = [
        refused(len, |out| entries::compose_within(&a, &b, tolerance, out)),
        refused(len, |out| {
            entries::chain_within([a, b].as_flattened(), tolerance, out)
        }),
    ];
    assert_eq!(numbers, [number; 2], "{says}");
}

/// An element's inverse at a tolerance gives this number, and a refusal leaves the output.
fn inverse_gives(element: Element, tolerance: f64, number: u32) {
    let answer = inverse_within(&element, tolerance);
    let says = format!("{element:?} {tolerance:e}");
    assert_eq!(answer.map_or_else(Refusal::number, |_| 0), number, "{says}");
    if number != 0 {
        let block = element.to_bytes();
        let call = |out: &mut [u8]| entries::inverse_within(&block, tolerance, out);
        assert_eq!(refused(ELEMENT_BYTES, call), number, "{says}");
    }
}

/// As the left block, as the right block and alone, beside one whose norm is exactly 1.
fn everywhere(one: Element, tolerance: f64, number: u32) {
    all_give(one, element(B), tolerance, number);
    all_give(element(B), one, tolerance, number);
    inverse_gives(one, tolerance, number);
}

/// Blocks whose norms are exactly 1 have the same answer at every tolerance that is permitted, and none at another.
#[test]
fn range() {
    let (a, b) = (element(A), element(B));
    for tolerance in permitted() {
        everywhere(a, tolerance, 0);
        same(compose_within(&a, &b, tolerance), compose(&a, &b));
        same(inverse_within(&a, tolerance), inverse(&a));
        same(chain_within(&[a, b], tolerance), chain(&[a, b]));
        same(chain_within(&[], tolerance), Ok(Element::IDENTITY));
    }
    for tolerance in not_permitted() {
        everywhere(a, tolerance, 7);
        assert_eq!(chain_within(&[a], tolerance), Err(Refusal::Tolerance));
        assert_eq!(chain_within(&[], tolerance), Err(Refusal::Tolerance));
        let empty = |out: &mut [u8]| entries::chain_within(&[], tolerance, out);
        assert_eq!(refused(ELEMENT_BYTES, empty), 7);
    }
}

/// A norm may be as far from 1 as the tolerance, and no further.
#[test]
fn norm_at_the_tolerance() {
    for k in [10, 11, 20, 40, 41, 52] {
        // The norm of (w, 0, 0, 0) is w, and its distance from 1 is exact.
        let tolerance = 2f64.powi(-k);
        let (above, below) = (1.0 + tolerance, 1.0 - tolerance);
        for (w, number) in [
            (above, 0),
            (below, 0),
            (-above, 0),
            (further(above), 3),
            (nearer(below), 3),
            (nearer(-below), 3),
        ] {
            everywhere(turned([w, 0.0, 0.0, 0.0]), tolerance, number);
        }
    }
    let halves = [0.50005; 4];
    for q in [[0.8001, 0.6, 0.0, 0.0], halves, [0.0, 0.0, 0.9991, 0.0]] {
        let [w, x, y, z]: [f64; 4] = q;
        let distance = ((w * w + x * x + y * y + z * z).sqrt() - 1.0).abs();
        everywhere(turned(q), nearer(distance), 3);
        everywhere(turned(q), distance, 0);
        everywhere(turned(q), further(distance), 0);
    }
}

/// At 1e-6 each call is the one without a tolerance, answered or refused.
#[test]
fn at_a_millionth() {
    let late = Element {
        time: f64::MAX,
        ..element(B)
    };
    let nan = Element {
        time: f64::NAN,
        ..element(B)
    };
    let off = [1.0 + 1e-6, 1.0 + 2f64.powi(-19), 1.0 - 2f64.powi(-20)];
    let [at, over, under] = off.map(|w| turned([0.0, w, 0.0, 0.0]));
    let all = [element(A), element(B), late, nan, at, over, under];
    for left in all {
        same(inverse_within(&left, 1e-6), inverse(&left));
        for right in all {
            same(compose_within(&left, &right, 1e-6), compose(&left, &right));
            same(chain_within(&[left, right], 1e-6), chain(&[left, right]));
            let (mut held, mut within) = (Held::from(left), Held::from(left));
            assert_eq!(held.step(&right), within.step_within(&right, 1e-6));
            assert_eq!(held, within);
        }
    }
}

/// 7 is tried after 1 and 2, and before 3 and 5.
#[test]
fn order() {
    let double = turned([2.0, 0.0, 0.0, 0.0]);
    let nan = Element {
        time: f64::NAN,
        ..element(B)
    };
    let large = turned([2f64.powi(512), 0.0, 0.0, 0.0]); // the norm overflows
    let late = Element {
        time: f64::MAX,
        ..element(B)
    };
    let fast = Element {
        velocity: [f64::MAX, 0.0, 0.0],
        time: 2.0,
        ..element(B)
    };
    let good = element(A).to_bytes();
    for tolerance in [f64::NAN, 0.0, further(MOST), f64::NEG_INFINITY] {
        everywhere(nan, tolerance, 2);
        everywhere(large, tolerance, 2);
        everywhere(double, tolerance, 7);
        all_give(late, late, tolerance, 7);
        inverse_gives(fast, tolerance, 7);
        all_give(double, nan, tolerance, 2);
        let steps = [late, late, double, nan];
        assert_eq!(chain_within(&steps, tolerance), Err(Refusal::NotFinite));
        assert_eq!(
            chain_within(&steps[..3], tolerance),
            Err(Refusal::Tolerance)
        );

        for len in [0, 87] {
            let short = &nan.to_bytes()[..len];
            let whole = ELEMENT_BYTES;
            let numbers = [
                refused(whole, |out| {
                    entries::compose_within(short, &good, tolerance, out)
                }),
                refused(whole, |out| {
                    entries::compose_within(&good, short, tolerance, out)
                }),
                refused(whole, |out| entries::inverse_within(short, tolerance, out)),
                refused(len, |out| {
                    entries::compose_within(&good, &good, tolerance, out)
                }),
                refused(len, |out| entries::inverse_within(&good, tolerance, out)),
                refused(len, |out| entries::chain_within(&good, tolerance, out)),
                refused(len, |out| entries::chain_within(&[], tolerance, out)),
                refused(len, |held| compose_in_place_within(held, &good, tolerance)),
                refused(whole, |out| {
                    entries::chain_within(&good[1..], tolerance, out)
                }),
            ];
            assert_eq!(numbers, [1; 9]);
            let mut held = Held::from(nan);
            let step = held.step_bytes_within(short, tolerance);
            assert_eq!(step, Err(Refusal::Length));
        }
    }
    inverse_gives(fast, 9e-4, 5);
    let off = turned([1.0 + 1e-4, 0.0, 0.0, 0.0]);
    assert_eq!(
        chain_within(&[late, late, off], 1e-5),
        Err(Refusal::NotUnit)
    );
    assert_eq!(
        chain_within(&[late, late, off], 9e-4),
        Err(Refusal::Overflow)
    );
}

/// A partial element is no block: its norm isn't looked at, however small the tolerance is. Handed in, it is a block.
#[test]
fn partial_elements() {
    let steps: Vec<Element> = [[0.6, 0.0, 0.8, 0.0], [0.8, 0.6, 0.0, 0.0]]
        .iter()
        .cycle()
        .take(500)
        .map(|q| turned(*q))
        .collect();
    let tolerance = 2f64.powi(-60);
    same(chain_within(&steps, tolerance), chain(&steps));
    assert!(chain(&steps).is_ok());
    let refused = (1..steps.len())
        .map(|count| chain(&steps[..count]).expect("an answer"))
        .filter(|partial| compose_within(partial, &steps[0], tolerance) == Err(Refusal::NotUnit));
    assert!(refused.count() > 100);
}

/// What a call answers is accepted at 1e-6, after every step of a run, though the norm of each block is almost 1/1024 from 1.
#[test]
fn answers_come_back() {
    let off = MOST * (1.0 - 1e-9);
    let scaled = |q: [f64; 4], norm: f64| turned(q.map(|value| value * norm));
    let three = [
        scaled([0.6, 0.0, 0.8, 0.0], 1.0 + off),
        scaled([0.8, 0.6, 0.0, 0.0], 1.0 - off),
        scaled([0.0, 0.0, 0.28, -0.96], 1.0 + off),
    ];
    let steps: Vec<Element> = three.into_iter().cycle().take(4096).collect();
    let mut held = Held::new();
    for step in &steps {
        assert_eq!(compose(&held.element(), step), Err(Refusal::NotUnit));
        assert_eq!(held.step_within(step, MOST), Ok(()));
        comes_back(&held.element());
    }
    let all = chain_within(&steps, MOST).expect("an answer");
    assert_eq!(*held.as_bytes(), all.to_bytes());
    comes_back(&inverse_within(&steps[0], MOST).expect("an answer"));
}

/// An answer whose norm is 1 + 3 * 2^-52: it is accepted at 1e-6, and refused at 2^-52.
#[test]
fn a_far_answer_comes_back() {
    let of_bits = |bits: [u64; 4]| turned(bits.map(f64::from_bits));
    let left = of_bits([
        0xbfe6_9e21_3060_f75e,
        0x3fe6_a35e_781f_46b1,
        0xbe26_2136_ecae_b478,
        0xbed3_1269_624b_b5aa,
    ]);
    let right = of_bits([
        0xbe44_59bc_e662_3658,
        0x3ff0_0005_05e6_ea9f,
        0xbe57_230c_f5cd_3420,
        0xbe50_e5a3_da68_d27c,
    ]);
    let answer = compose_within(&left, &right, MOST).expect("an answer");
    let bits = [
        0xbfe6_a33c_dc0f_b676,
        0xbfe6_9dff_a349_cf45,
        0xbed2_f5fe_b558_0fc1,
        0xbe1a_8a9f_b933_792f,
    ];
    assert_eq!(answer.rotation.map(f64::to_bits), bits);
    comes_back(&answer);
    inverse_gives(answer, 3.0 * 2f64.powi(-52), 0);
    inverse_gives(answer, 2f64.powi(-52), 3);
}

/// Each call takes an answer at 1e-6.
fn comes_back(answer: &Element) {
    let block = answer.to_bytes();
    let calls = [
        compose(answer, answer),
        compose(answer, &element(B)),
        compose(&element(B), answer),
        inverse(answer),
        chain(&[*answer, element(A), *answer]),
    ];
    assert!(calls.iter().all(Result::is_ok), "{answer:?}");
    let mut out = [0; ELEMENT_BYTES];
    assert_eq!(entries::inverse(&block, &mut out), 0);
    assert_eq!(entries::compose(&block, &block, &mut out), 0);
    assert_eq!(entries::chain([block; 3].as_flattened(), &mut out), 0);
}

/// The steps of a sensor that rounds its quaternions to four digits.
#[test]
fn four_digits() {
    let mut held = Held::new();
    let mut time = 0.0;
    for i in 0..100 {
        let (sin, cos) = (0.1 * f64::from(i)).sin_cos();
        let q = [cos, 0.6 * sin, 0.0, 0.8 * sin].map(|x| (1e4 * x).round() / 1e4);
        let step = turned(q);
        let expected = compose_within(&held.element(), &step, 2e-4).expect("an answer");
        let before = held.clone();
        for tolerance in not_permitted() {
            assert_eq!(held.step_within(&step, tolerance), Err(Refusal::Tolerance));
            assert_eq!(held, before);
        }
        assert_eq!(held.step_within(&step, 2e-4), Ok(()));
        assert_eq!(*held.as_bytes(), expected.to_bytes());
        time += step.time;
    }
    assert_eq!(held.time().to_bits(), time.to_bits());
}
