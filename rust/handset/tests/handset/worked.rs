//! Worked examples, compared bit for bit.
use crate::{bytes, element, A, B};
use handset::entries::compose_in_place;
use handset::{chain, chain_bytes, compose, inverse, Element, Refusal, CHAIN_MOST, ELEMENT_BYTES};

const IDENTITY: [f64; 11] = [0.0, 0.0, 0.0, 1.0, 0.0, 0.0, 0.0, 0.0, 0.0, 0.0, 0.0];

fn same(answer: Result<Element, Refusal>, values: [f64; 11]) {
    let answer = answer.expect("an answer");
    assert_eq!(
        answer.to_bytes(),
        bytes(values.map(f64::to_bits)),
        "{answer:?}"
    );
}

fn turned(quaternion: [f64; 4], translation: [f64; 3]) -> [f64; 3] {
    let turn = Element {
        rotation: quaternion,
        ..Element::IDENTITY
    };
    let step = Element {
        translation,
        ..Element::IDENTITY
    };
    compose(&turn, &step).expect("an answer").translation
}

#[test]
fn a_then_b() {
    let values = [10.0, 3.0, 4.0, 1.0, 0.0, 0.0, 0.0, 4.0, 2.0, 0.0, 2.5];
    same(compose(&element(A), &element(B)), values);
    let steps = [A, B].map(element);
    same(chain(&steps), values);
    let blocks = steps.map(|step| step.to_bytes());
    same(chain_bytes(blocks.as_flattened()), values);
}

#[test]
fn a_then_b_in_place() {
    let mut held = element(A).to_bytes();
    assert_eq!(compose_in_place(&mut held, &element(B).to_bytes()), 0);
    let values: [f64; 11] = [10.0, 3.0, 4.0, 1.0, 0.0, 0.0, 0.0, 4.0, 2.0, 0.0, 2.5];
    assert_eq!(held, bytes(values.map(f64::to_bits)));
    let before = held;
    let bad = Element {
        time: f64::NAN,
        ..element(B)
    };
    assert_eq!(compose_in_place(&mut held, &bad.to_bytes()), 2);
    assert_eq!(compose_in_place(&mut held, &bad.to_bytes()[1..]), 1);
    assert_eq!(compose_in_place(&mut held[1..], &bad.to_bytes()), 1);
    assert_eq!(held, before);
}

#[test]
fn inverse_of_a() {
    same(
        inverse(&element(A)),
        [
            1.0, -2.0, -3.0, 1.0, -0.0, -0.0, -0.0, -4.0, -0.0, -0.0, -0.5,
        ],
    );
}

#[test]
fn inverse_of_the_identity_has_negative_zeros() {
    same(
        inverse(&Element::IDENTITY),
        [
            -0.0, -0.0, -0.0, 1.0, -0.0, -0.0, -0.0, -0.0, -0.0, -0.0, -0.0,
        ],
    );
}

#[test]
fn empty_chain_is_the_identity() {
    same(chain(&[]), IDENTITY);
    same(chain_bytes(&[]), IDENTITY);
    same(Ok(Element::IDENTITY), IDENTITY);
}

#[test]
fn turns() {
    assert_eq!(turned([0.5; 4], [1.0, 2.0, 3.0]), [3.0, 1.0, 2.0]);
    assert_eq!(
        turned([0.0, 0.0, 0.0, 1.0], [1.0, 2.0, 3.0]),
        [-1.0, -2.0, 3.0]
    );
}

/// An element at which another order of operations, or one normalisation less, shows. The answers are the Rust source's.
#[test]
fn orders_of_operations() {
    let [w, x, y, z] = [5.0, 1.0, 7.0, 11.0].map(|x| x / 14.0);
    let c = element([1.0, 2.0, 3.0, w, x, y, z, 4.0, 5.0, 6.0, 0.2]);
    let patterns = [
        0x3ff7_e6ec_259d_c796,
        0x4015_6343_eb1a_1f59,
        0x401c_644f_6988_e1b3,
        0xbfe7_d634_3eb1_a1f4,
        0x3faa_1f58_d0fa_c688,
        0x3fd6_db6d_b6db_6db8,
        0x3fe1_f58d_0fac_687d,
        0x3ff6_db6d_b6db_6dbc,
        0x4025_6db6_db6d_b6dc,
        0x4028_4924_9249_2492,
        0x3fd9_9999_9999_999a,
    ];
    same(compose(&c, &c), patterns.map(f64::from_bits));
    let patterns = [
        0xbfa6_fcdd_84b3_b8e4,
        0xbff2_9cbc_14e5_e0a8,
        0xbffb_5cfe_f481_913c,
        0x3fd6_db6d_b6db_6db7,
        0xbfb2_4924_9249_2492,
        0xbfe0_0000_0000_0000,
        0xbfe9_2492_4924_9248,
        0x3ff3_eb1a_1f58_d104,
        0xbffd_6343_eb1a_1f60,
        0xc020_fac6_87d6_343e,
        0xbfc9_9999_9999_999a,
    ];
    same(inverse(&c), patterns.map(f64::from_bits));
}

#[test]
fn longest_chain() {
    let step = Element {
        time: 0.125,
        ..Element::IDENTITY
    };
    let total = Element {
        time: 512.0,
        ..Element::IDENTITY
    };
    assert_eq!(chain(&vec![step; CHAIN_MOST]), Ok(total));
    let blocks = vec![step.to_bytes(); CHAIN_MOST];
    assert_eq!(chain_bytes(blocks.as_flattened()), Ok(total));
}

#[test]
fn bytes_and_back() {
    let patterns = std::array::from_fn(|i| 0x3ff0_1122_3344_5500 + i as u64);
    let block = bytes(patterns);
    assert_eq!(
        block[80..],
        [0x0a, 0x55, 0x44, 0x33, 0x22, 0x11, 0xf0, 0x3f]
    );
    assert_eq!(Element::from_bytes(&block).to_bytes(), block);
    let element = Element::from_bytes(&block);
    assert_eq!(element.translation[0].to_bits(), patterns[0]);
    assert_eq!(element.rotation[0].to_bits(), patterns[3]);
    assert_eq!(element.velocity[0].to_bits(), patterns[7]);
    assert_eq!(element.time.to_bits(), patterns[10]);
    assert_eq!(block.len(), ELEMENT_BYTES);
}

/// Nothing but the length is looked at.
#[test]
fn from_a_slice_of_bytes() {
    let long = [0xff; ELEMENT_BYTES + 1];
    for len in [0, 1, 87, 89] {
        assert_eq!(Element::try_from(&long[..len]), Err(Refusal::Length));
    }
    for block in [[0xff; ELEMENT_BYTES], element(A).to_bytes()] {
        let read = Element::try_from(&block[..]).expect("an element");
        assert_eq!(read.to_bytes(), block);
    }
}
