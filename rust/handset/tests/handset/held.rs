//! What is held, and what a step does to it.
use crate::{bytes, element, A, B};
use handset::{compose, Element, Held, Refusal};

#[test]
fn starts_from_the_identity() {
    static START: Held = Held::new();
    assert_eq!(*START.as_bytes(), Element::IDENTITY.to_bytes());
    assert_eq!(START.element(), Element::IDENTITY);
    assert_eq!(START.time(), 0.0);
    assert_eq!(START, Held::default());
    assert_eq!(START, Held::from(Element::IDENTITY));
}

#[test]
fn holds_any_element() {
    let patterns = std::array::from_fn(|i| 0xfff0_1122_3344_5500 + i as u64);
    let block = bytes(patterns);
    let held = Held::from(Element::from_bytes(&block));
    assert_eq!(*held.as_bytes(), block);
    assert_eq!(held.element().to_bytes(), block);
    assert_eq!(held.time().to_bits(), patterns[10]);
    assert_eq!(Held::from(element(A)).element(), element(A));
}

#[test]
fn a_step_is_composed() {
    let mut held = Held::from(element(A));
    assert_eq!(held.step(&element(B)), Ok(()));
    assert_eq!(held.time(), 2.5);
    assert_eq!(held.element().translation, [10.0, 3.0, 4.0]);

    let [w, x, y, z] = [5.0, 1.0, 7.0, 11.0].map(|x| x / 14.0);
    let step = element([1.0, 2.0, 3.0, w, x, y, z, 4.0, 5.0, 6.0, 0.2]);
    let mut by_bytes = held.clone();
    for _ in 0..100 {
        let next = compose(&held.element(), &step).expect("an answer");
        assert_eq!(held.step(&step), Ok(()));
        assert_eq!(*held.as_bytes(), next.to_bytes());
        assert_eq!(held.time().to_bits(), next.time.to_bits());
        assert_eq!(by_bytes.step_bytes(&step.to_bytes()), Ok(()));
        assert_eq!(by_bytes, held);
    }
}

#[test]
fn a_refused_step_leaves_it_bit_for_bit() {
    let late = Element {
        translation: [-0.0, 1e-310, 0.1],
        time: f64::MAX,
        ..element(A)
    };
    let mut held = Held::from(late);
    let before = held.clone();
    let [not_finite, not_unit] = [f64::INFINITY, 2.0].map(|w| Element {
        rotation: [w, 0.0, 0.0, 0.0],
        ..element(B)
    });
    for (step, refusal) in [
        (not_finite, Refusal::NotFinite),
        (not_unit, Refusal::NotUnit),
        (late, Refusal::Overflow),
    ] {
        assert_eq!(held.step(&step), Err(refusal));
        assert_eq!(*held.as_bytes(), late.to_bytes());
        assert_eq!(held.step_bytes(&step.to_bytes()), Err(refusal));
        assert_eq!(held, before);
    }
    let long = [element(B).to_bytes(); 2];
    for len in [0, 87, 89, 176] {
        let step = &long.as_flattened()[..len];
        assert_eq!(held.step_bytes(step), Err(Refusal::Length));
        assert_eq!(held, before);
    }
    // It is as good as before.
    assert_eq!(held.step(&Element::IDENTITY), Ok(()));
    assert_eq!(held.time(), f64::MAX);
}

/// An element that a call refuses can be held, but no step can be taken from it.
#[test]
fn a_bad_element_stays() {
    let nan = Element {
        velocity: [0.0, f64::from_bits(0x7ff8_0000_0000_1234), 0.0],
        ..element(A)
    };
    let double = Element {
        rotation: [2.0, 0.0, 0.0, 0.0],
        ..element(A)
    };
    for (bad, refusal) in [(nan, Refusal::NotFinite), (double, Refusal::NotUnit)] {
        let mut held = Held::from(bad);
        for step in [Element::IDENTITY, element(B)] {
            assert_eq!(held.step(&step), Err(refusal));
            assert_eq!(*held.as_bytes(), bad.to_bytes());
        }
    }
}

#[test]
fn is_told_by_its_bytes_and_shown_by_its_values() {
    let zero = Held::from(Element {
        time: -0.0,
        ..Element::IDENTITY
    });
    assert_eq!(zero.element(), Element::IDENTITY);
    assert_ne!(zero, Held::new());
    assert_eq!(
        format!("{zero:?}"),
        "Held(Element { translation: [0.0, 0.0, 0.0], rotation: [1.0, 0.0, 0.0, 0.0], \
         velocity: [0.0, 0.0, 0.0], time: -0.0 })"
    );
}
