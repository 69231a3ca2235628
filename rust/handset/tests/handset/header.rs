//! What the crate and the header have in common.
use handset::entries::{
    sgal3_chain, sgal3_chain_within, sgal3_compose, sgal3_compose_in_place,
    sgal3_compose_in_place_within, sgal3_compose_within, sgal3_inverse, sgal3_inverse_within,
};
use handset::{Refusal, CHAIN_MOST, ELEMENT_BYTES};

const HEADER: &str = include_str!("../../../../include/handset.h");

/// The number that the header gives a name.
fn defined(name: &str) -> usize {
    let rest = |line: &'static str| line.strip_prefix("#define ")?.strip_prefix(name);
    let number = HEADER.lines().find_map(rest).expect("a definition").trim();
    match number.strip_prefix("0x") {
        Some(digits) => usize::from_str_radix(digits, 16),
        None => number.parse(),
    }
    .expect("a number")
}

#[test]
fn numbers() {
    assert_eq!(defined("HANDSET_ELEMENT_BYTES"), ELEMENT_BYTES);
    assert_eq!(defined("HANDSET_CHAIN_MOST"), CHAIN_MOST);
    let [major, minor, patch] = [
        env!("CARGO_PKG_VERSION_MAJOR"),
        env!("CARGO_PKG_VERSION_MINOR"),
        env!("CARGO_PKG_VERSION_PATCH"),
    ]
    .map(|part| part.parse::<usize>().expect("a number"));
    let version = major << 16 | minor << 8 | patch;
    assert_eq!(defined("HANDSET_VERSION"), version);
}

/// Each refusal has one name in the header, and these are all.
#[test]
fn refusals() {
    let named = [
        ("HANDSET_LENGTH", Refusal::Length),
        ("HANDSET_NOT_FINITE", Refusal::NotFinite),
        ("HANDSET_NOT_UNIT", Refusal::NotUnit),
        ("HANDSET_TURN", Refusal::Turn),
        ("HANDSET_OVERFLOW", Refusal::Overflow),
        ("HANDSET_TOLERANCE", Refusal::Tolerance),
    ];
    let (_, rest) = HEADER.split_once("HANDSET_DONE = 0,").expect("an enum");
    let (list, _) = rest.split_once("};").expect("its end");
    let given: Vec<&str> = list.lines().filter(|line| line.contains(" = ")).collect();
    let expected = named.map(|(name, refusal)| format!("{name} = {}", refusal.number()));
    let given = given.iter().map(|line| line.trim().trim_end_matches(','));
    assert!(given.eq(expected.iter().map(String::as_str)));
}

/// Lengths have 64 bits on every processor, and a tolerance is a double.
#[test]
fn lengths() {
    type OfTwo = unsafe extern "C" fn(*const u8, u64, *const u8, u64, *mut u8, u64) -> u32;
    type OfOne = unsafe extern "C" fn(*const u8, u64, *mut u8, u64) -> u32;
    type InPlace = unsafe extern "C" fn(*mut u8, u64, *const u8, u64) -> u32;
    let _: OfTwo = sgal3_compose;
    let _: [OfOne; 2] = [sgal3_inverse, sgal3_chain];
    let _: InPlace = sgal3_compose_in_place;
    type OfTwoWithin =
        unsafe extern "C" fn(*const u8, u64, *const u8, u64, f64, *mut u8, u64) -> u32;
    type OfOneWithin = unsafe extern "C" fn(*const u8, u64, f64, *mut u8, u64) -> u32;
    type InPlaceWithin = unsafe extern "C" fn(*mut u8, u64, *const u8, u64, f64) -> u32;
    let _: OfTwoWithin = sgal3_compose_within;
    let _: [OfOneWithin; 2] = [sgal3_inverse_within, sgal3_chain_within];
    let _: InPlaceWithin = sgal3_compose_in_place_within;

    let words: Vec<&str> = HEADER.split([' ', ',', ')', '\n']).collect();
    let lengths = words.windows(2).filter(|pair| pair[1].ends_with("_len"));
    let types: Vec<&str> = lengths.map(|pair| pair[0]).collect();
    assert_eq!(types, ["uint64_t"; 18]);
    assert_eq!(HEADER.matches(" double tolerance").count(), 4);
}
