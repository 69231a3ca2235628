//! Each refusal, by the C entries themselves: the number, and an output that is as it was.
use crate::{bytes, element, A, B};
use handset::entries;
use handset::{
    chain, chain_bytes, compose, inverse, Element, Held, Refusal, CHAIN_MOST, ELEMENT_BYTES,
};

const FILL: u8 = 0xa5;

/// The number that a call with an output of `len` bytes returns, a refusal. The output, and the bytes beside it, stay.
pub fn refused(len: usize, call: impl Fn(&mut [u8]) -> u32) -> u32 {
    let mut buffer = vec![FILL; len + 16];
    let number = call(&mut buffer[8..8 + len]);
    assert_ne!(number, 0);
    assert!(
        buffer.iter().all(|&b| b == FILL),
        "refused {number}, and the output has changed"
    );
    number
}

fn compose_into(len: usize, left: &[u8], right: &[u8]) -> u32 {
    refused(len, |out| entries::compose(left, right, out))
}

fn inverse_into(len: usize, block: &[u8]) -> u32 {
    refused(len, |out| entries::inverse(block, out))
}

fn chain_into(len: usize, blocks: &[u8]) -> u32 {
    refused(len, |out| entries::chain(blocks, out))
}

/// A step is refused as `number`, and what is held stays.
fn step_refused(mut held: Held, step: &[u8], number: u32) {
    let before = *held.as_bytes();
    let refusal = held.step_bytes(step).expect_err("a refusal");
    assert_eq!(refusal.number(), number);
    assert_eq!(*held.as_bytes(), before);
}

/// A chain of elements is refused as `number`.
fn chain_refused(steps: &[Element], number: u32) {
    let refusal = chain(steps).expect_err("a refusal");
    assert_eq!(refusal.number(), number);
}

/// A block is refused as `number` wherever it stands, beside a good one.
fn refused_everywhere(block: &[u8], number: u32) {
    let good = element(A).to_bytes();
    assert_eq!(compose_into(ELEMENT_BYTES, block, &good), number);
    assert_eq!(compose_into(ELEMENT_BYTES, &good, block), number);
    assert_eq!(inverse_into(ELEMENT_BYTES, block), number);
    for blocks in [[block, &good], [&good, block]] {
        assert_eq!(chain_into(ELEMENT_BYTES, &blocks.concat()), number);
    }
    assert_eq!(chain_into(ELEMENT_BYTES, block), number);
    step_refused(Held::from(element(A)), block, number);
    if let Ok(bad) = Element::try_from(block) {
        step_refused(Held::from(bad), &good, number);
        chain_refused(&[bad], number);
        chain_refused(&[bad, element(A)], number);
        chain_refused(&[element(A), bad], number);
    }
}

fn with(place: usize, pattern: u64) -> [u8; ELEMENT_BYTES] {
    let mut patterns = A.map(f64::to_bits);
    patterns[place] = pattern;
    bytes(patterns)
}

fn with_quaternion(q: [f64; 4]) -> [u8; ELEMENT_BYTES] {
    Element {
        rotation: q,
        ..element(A)
    }
    .to_bytes()
}

#[test]
fn length() {
    let good = element(A).to_bytes();
    for len in [1, 80, 87] {
        refused_everywhere(&good[..len], 1);
    }
    let long = [good, good].concat();
    for len in [0, 89, 96, 176] {
        assert_eq!(compose_into(ELEMENT_BYTES, &long[..len], &good), 1);
        assert_eq!(compose_into(ELEMENT_BYTES, &good, &long[..len]), 1);
        assert_eq!(inverse_into(ELEMENT_BYTES, &long[..len]), 1);
    }
    assert_eq!(chain_into(ELEMENT_BYTES, &long[..89]), 1);
    assert_eq!(chain_into(ELEMENT_BYTES, &long[..175]), 1);
}

#[test]
fn length_of_a_chain() {
    let step = Element::IDENTITY.to_bytes();
    let steps = vec![step; CHAIN_MOST + 1].concat();
    assert_eq!(chain_into(ELEMENT_BYTES, &steps), 1);
    assert_eq!(chain_bytes(&steps), Err(Refusal::Length));
    let most = CHAIN_MOST * ELEMENT_BYTES;
    assert_eq!(chain_into(ELEMENT_BYTES, &steps[..most + 1]), 1);
    assert_eq!(chain_into(ELEMENT_BYTES, &steps[..most - 1]), 1);
    assert_eq!(chain_bytes(&steps[..most]), Ok(Element::IDENTITY));

    let mut steps = vec![Element::IDENTITY; CHAIN_MOST + 1];
    assert_eq!(chain(&steps), Err(Refusal::Length));
    assert_eq!(chain(&steps[1..]), Ok(Element::IDENTITY));
    // The length comes first.
    steps[0].time = f64::NAN;
    assert_eq!(chain(&steps), Err(Refusal::Length));
    assert_eq!(chain(&steps[..CHAIN_MOST]), Err(Refusal::NotFinite));
}

#[test]
fn length_of_the_output() {
    let [a, b] = [A, B].map(|values| element(values).to_bytes());
    for len in [0, 1, 80, 87, 89, 96, 176] {
        assert_eq!(compose_into(len, &a, &b), 1);
        assert_eq!(inverse_into(len, &a), 1);
        assert_eq!(chain_into(len, &a), 1);
        assert_eq!(chain_into(len, &[]), 1);
    }
}

#[test]
fn not_finite() {
    let positive = [
        0x7ff0_0000_0000_0000, // infinity
        0x7ff0_0000_0000_0001,
        0x7ff7_ffff_ffff_ffff,
        0x7ff8_0000_0000_0000,
        0x7fff_ffff_ffff_ffff,
    ];
    for place in 0..11 {
        for pattern in positive {
            refused_everywhere(&with(place, pattern), 2);
            refused_everywhere(&with(place, pattern | 1 << 63), 2);
        }
    }
    refused_everywhere(&[0xff; ELEMENT_BYTES], 2);
}

#[test]
fn norm() {
    let one_up = |k: i32| 1.0 + 2f64.powi(k);
    for (w, number) in [
        (one_up(-19), 3),
        (1.0 - 2f64.powi(-19), 3),
        (2.0, 3),
        (0.0, 3),
        (2f64.powi(511), 3),
        (2f64.powi(512), 2), // the norm overflows
        (-f64::MAX, 2),
    ] {
        refused_everywhere(&with_quaternion([w, 0.0, 0.0, 0.0]), number);
    }
    for w in [one_up(-20), 1.0 - 2f64.powi(-20), -1.0] {
        let accepted = Element {
            rotation: [w, 0.0, 0.0, 0.0],
            ..element(A)
        };
        assert!(compose(&accepted, &accepted).is_ok());
        assert!(inverse(&accepted).is_ok());
        assert!(chain(&[accepted]).is_ok());
        assert!(Held::from(accepted).step(&accepted).is_ok());
    }
}

#[test]
fn overflow() {
    let far = Element {
        translation: [f64::MAX, 0.0, 0.0],
        ..Element::IDENTITY
    };
    let late = Element {
        time: f64::MAX,
        ..Element::IDENTITY
    };
    let early = Element {
        time: -f64::MAX,
        ..late
    };
    for step in [far, late] {
        let block = step.to_bytes();
        assert_eq!(compose_into(ELEMENT_BYTES, &block, &block), 5);
        assert_eq!(chain_into(ELEMENT_BYTES, &[block, block].concat()), 5);
        assert_eq!(compose(&step, &step), Err(Refusal::Overflow));
        step_refused(Held::from(step), &block, 5);
    }
    let fast = Element {
        velocity: [f64::MAX, 0.0, 0.0],
        time: 2.0,
        ..Element::IDENTITY
    };
    assert_eq!(inverse_into(ELEMENT_BYTES, &fast.to_bytes()), 5);
    assert_eq!(inverse(&fast), Err(Refusal::Overflow));
    // A partial element counts, though the exact sum of all times is finite.
    let steps = [late, late, early].map(|step| step.to_bytes());
    assert_eq!(chain_into(ELEMENT_BYTES, &steps.concat()), 5);
    assert_eq!(chain(&[late, late, early]), Err(Refusal::Overflow));
    assert_eq!(chain(&[late, early, late]), Ok(late));
}

/// 1 comes before 2, 2 before 3 and 3 before 5, wherever their blocks stand.
#[test]
fn order() {
    let nan = with(10, 0x7ff8_0000_0000_0000);
    let double = with_quaternion([2.0, 0.0, 0.0, 0.0]);
    let far = Element {
        time: f64::MAX,
        ..Element::IDENTITY
    }
    .to_bytes();
    let good = element(A).to_bytes();

    assert_eq!(compose_into(ELEMENT_BYTES, &double, &nan), 2);
    assert_eq!(compose_into(ELEMENT_BYTES, &nan, &double), 2);
    assert_eq!(compose_into(ELEMENT_BYTES, &nan, &good[..80]), 1);
    assert_eq!(compose_into(ELEMENT_BYTES, &nan[..80], &double), 1);
    assert_eq!(compose_into(87, &nan, &double), 1);
    assert_eq!(inverse_into(ELEMENT_BYTES, &nan[8..]), 1);
    assert_eq!(inverse_into(87, &nan), 1);
    step_refused(Held::from(Element::from_bytes(&double)), &nan, 2);
    step_refused(Held::from(Element::from_bytes(&nan)), &double, 2);
    step_refused(Held::from(Element::from_bytes(&nan)), &double[1..], 1);
    let both = Element {
        time: f64::NAN,
        rotation: [2.0, 0.0, 0.0, 0.0],
        ..element(A)
    };
    refused_everywhere(&both.to_bytes(), 2);

    for (blocks, number) in [
        (vec![far, far, double, good], 3),
        (vec![far, far, double, nan], 2),
        (vec![far, far, nan, double], 2),
        (vec![double, far, far, nan], 2),
        (vec![nan, double, far, far], 2),
        (vec![good, far, far, good], 5),
    ] {
        assert_eq!(chain_into(ELEMENT_BYTES, &blocks.concat()), number);
        let mut longer = blocks.concat();
        longer.push(0);
        assert_eq!(chain_into(ELEMENT_BYTES, &longer), 1);
        assert_eq!(chain_into(87, &blocks.concat()), 1);
        let steps: Vec<Element> = blocks.iter().map(Element::from_bytes).collect();
        chain_refused(&steps, number);
    }
}

#[test]
fn names() {
    let nan = Element {
        time: f64::NAN,
        ..element(A)
    };
    let double = Element {
        rotation: [2.0, 0.0, 0.0, 0.0],
        ..element(A)
    };
    assert_eq!(compose(&nan, &element(B)), Err(Refusal::NotFinite));
    assert_eq!(compose(&element(A), &double), Err(Refusal::NotUnit));
    assert_eq!(inverse(&nan), Err(Refusal::NotFinite));
    assert_eq!(inverse(&double), Err(Refusal::NotUnit));
    assert_eq!(chain(&[nan]), Err(Refusal::NotFinite));
    assert_eq!(chain_bytes(&nan.to_bytes()), Err(Refusal::NotFinite));
    assert_eq!(chain_bytes(&[0]), Err(Refusal::Length));
    assert_eq!(Held::new().step(&nan), Err(Refusal::NotFinite));
    assert_eq!(Held::new().step(&double), Err(Refusal::NotUnit));
    assert_eq!(Held::new().step_bytes(&[0]), Err(Refusal::Length));
    assert_eq!(Refusal::NotUnit.number(), 3);
    assert_eq!(Refusal::Tolerance.number(), 7);
    assert_eq!(
        Refusal::NotUnit.to_string(),
        "refused 3: quaternion not unit"
    );
}
