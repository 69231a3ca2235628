//! Two sets follow the same search. The composed time opens the listening slot, so it has to be the same in both.
use crate::element;
use handset::{chain, Element, Held, Refusal};

/// The steps of the search: turns and times of which no sum is exact.
fn steps() -> Vec<Element> {
    let quaternions = [
        [1.0, 0.0, 0.0, 0.0],
        [0.5, 0.5, 0.5, 0.5],
        [0.6, 0.0, 0.8, 0.0],
        [2.0 / 7.0, 4.0 / 7.0, 5.0 / 7.0, 2.0 / 7.0],
    ];
    (1..=40)
        .map(|i| {
            let k = f64::from(i);
            let [w, x, y, z] = quaternions[i as usize % 4];
            element([
                0.1 * k,
                0.2,
                -0.3,
                w,
                x,
                y,
                z,
                0.7,
                -0.1 * k,
                0.4,
                0.1 + 0.01 * k,
            ])
        })
        .collect()
}

#[test]
fn set_17_keeps_its_slot() {
    let steps = steps();
    let (mut set_17, mut set_12) = (Held::new(), Held::new());
    for (i, step) in steps.iter().enumerate() {
        assert_eq!(set_12.step(step), Ok(()));
        // Set 17 alone gets a bad step, in the middle of the search.
        if i == steps.len() / 2 {
            let before = *set_17.as_bytes();
            let bad = Element {
                time: f64::NAN,
                ..*step
            };
            let refusal = set_17.step(&bad).expect_err("a NaN is no time");
            assert_eq!(refusal, Refusal::NotFinite);
            assert_eq!(refusal.number(), 2);
            assert_eq!(*set_17.as_bytes(), before);
        }
        assert_eq!(set_17.step(step), Ok(()));
    }
    assert_eq!(set_17.time().to_bits(), set_12.time().to_bits());
    assert_eq!(set_17, set_12);
    assert_ne!(set_17, Held::new());

    // The times were added one after the other, and the chain of the steps is the same element.
    let time = steps.iter().fold(0.0, |sum, step| sum + step.time);
    assert_eq!(set_17.time().to_bits(), time.to_bits());
    assert_eq!(chain(&steps).map(Held::from), Ok(set_17));
}
