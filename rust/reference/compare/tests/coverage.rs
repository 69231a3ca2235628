//! Random requests meet every outcome that a call can have, and no other; both written forms are read back as they were.

use compare::{Counts, Drawn};
use requests::calls::{HALF_ANGLE, Of, Turn};
use requests::refusals::{NUMBER_LIMIT, TOLERANCE, TURN_LIMIT};
use requests::turning::{self, SERIES_LIMIT};
use requests::{CALLS, Call, Outcome, Request};
use std::collections::{BTreeMap, BTreeSet};
use std::f64::consts::PI;
use std::process::{Command, Stdio};

/// A few roundings: a logarithm's squared angle is not found here as it is tested.
const NEAR: f64 = 1e-14;

#[test]
fn every_outcome_of_every_call() {
    let mut drawn = Drawn::new(1);
    let mut counts = Counts::default();
    for _ in 0..1_000_000 {
        drawn.draw();
        counts.add(drawn.request.number, drawn.outcome.number);
    }
    assert_eq!(counts.unexpected(), Vec::<String>::new());
}

/// Every call that takes sines or a half-angle is accepted with turns that a series would do for, with some beyond it, with large ones and with one at its
/// limit, and refused just above that; but the half-angle, which is accepted up to half a turn.
#[test]
fn turns_of_every_size() {
    let mut drawn = Drawn::new(4);
    let mut met: BTreeMap<u64, BTreeSet<&str>> = BTreeMap::new();
    for _ in 0..400_000 {
        drawn.draw();
        let call = drawn.request.call();
        let Some(square) = turning::square(&drawn.request).filter(|_| call.takes_sines()) else {
            continue;
        };
        let (limit, near) = match call.turn {
            Turn::Exp => (TURN_LIMIT, 0.0),
            Turn::Log(_) => (TURN_LIMIT, NEAR),
            Turn::Number => (NUMBER_LIMIT * NUMBER_LIMIT, 0.0),
            Turn::Untested => (PI * PI, NEAR),
        };
        let ratio = square / limit;
        let size = match drawn.outcome.number {
            0 if (ratio - 1.0).abs() <= near => "at the limit",
            0 if ratio < 1e-30 => "tiny",
            0 if ratio >= 0.25 => "large",
            0 if square > SERIES_LIMIT => "beyond the series",
            0 => "of the series",
            4 if ratio < 1.00001 => "just above",
            4 => "above",
            _ => continue,
        };
        met.entry(call.number).or_default().insert(size);
    }
    for call in turning::calls() {
        let sizes = met.get(&call.number).map_or(0, BTreeSet::len);
        let expected = if call.turn == Turn::Untested { 5 } else { 7 };
        assert_eq!(
            sizes,
            expected,
            "{}: {:?}",
            call.name,
            met.get(&call.number)
        );
    }
}

/// Calls that read a rotation are accepted on both sides of each series' limit, by both quaternions of a rotation, and refused at half a turn with a w that
/// is a zero of either sign or the least number beside it.
#[test]
fn rotations_that_are_read() {
    let mut drawn = Drawn::new(5);
    let mut met: BTreeMap<u64, BTreeSet<&str>> = BTreeMap::new();
    for _ in 0..400_000 {
        drawn.draw();
        let (request, outcome) = (&drawn.request, &drawn.outcome);
        let call = request.call();
        let (Turn::Log(Of::First), Some(at)) = (call.turn, call.first.quaternion()) else {
            continue;
        };
        let Some(square) = turning::square(request) else {
            continue;
        };
        let w = f64::from_bits(request.first[at]);
        let sizes = met.entry(call.number).or_default();
        // Log tests the squared sine of the half angle, and answers twice that sine in its series.
        let of_sine = (square.sqrt() / 2.0).sin().powi(2);
        for (limit, of_series, beyond) in [
            (SERIES_LIMIT / 4.0, "of the Jacobian's series", "beyond it"),
            (SERIES_LIMIT, "of log's series", "beyond that"),
        ] {
            let ratio = of_sine / limit;
            if outcome.number == 0 && (ratio - 1.0).abs() < NEAR {
                sizes.insert(if ratio > 1.0 { beyond } else { of_series });
            }
        }
        match outcome.number {
            0 if square > 1.0 && w < 0.0 => sizes.insert("w below zero"),
            0 if square > 1.0 && w > 0.0 => sizes.insert("w above zero"),
            4 if w == 0.0 && w.is_sign_negative() => sizes.insert("w is -0"),
            4 if w == 0.0 => sizes.insert("w is +0"),
            4 if w.abs() < 1e-300 => sizes.insert("w is nearly 0"),
            _ => false,
        };
    }
    assert_eq!(met.len(), 5);
    for (number, sizes) in met {
        assert_eq!(sizes.len(), 9, "{number}: {sizes:?}");
    }
}

/// Of each call that takes a logarithm or an inverse Jacobian, a good part of the accepted requests is answered by the closed form: a third.
#[test]
fn closed_forms() {
    let mut drawn = Drawn::new(6);
    let mut counts: BTreeMap<u64, [u32; 2]> = BTreeMap::new();
    for _ in 0..400_000 {
        drawn.draw();
        let call = drawn.request.call();
        let reads = matches!(call.turn, Turn::Log(_)) || call.name.ends_with("_inv");
        if drawn.outcome.number == 0 && (reads || call.number == HALF_ANGLE) {
            let square = turning::square(&drawn.request).expect("it was accepted");
            let [all, closed] = counts.entry(call.number).or_default();
            *all += 1;
            *closed += u32::from(square > 4.0 * SERIES_LIMIT);
        }
    }
    assert_eq!(counts.len(), 20);
    for (number, [all, closed]) in counts {
        assert!(3 * closed > all, "{number}: {closed} of {all}");
    }
}

/// Every call that takes a tolerance is accepted with norms that 1e-6 refuses, and refused with norms that it accepts.
#[test]
fn other_tolerances() {
    let mut drawn = Drawn::new(3);
    let mut outcome = Outcome::default();
    let (mut wider, mut narrower) = (BTreeSet::new(), BTreeSet::new());
    for _ in 0..100_000 {
        drawn.draw();
        let here = drawn.outcome.number;
        let mut request = drawn.request.clone();
        if request.call().checks_norms() && [0, 3].contains(&here) {
            request.extra = TOLERANCE.to_bits();
            answers::answer(&request, &mut outcome);
            match (here, outcome.number) {
                (0, 3) => drop(wider.insert(request.number)),
                (3, 0) => drop(narrower.insert(request.number)),
                _ => {}
            }
        }
    }
    let calls: BTreeSet<u64> = CALLS
        .iter()
        .filter(|call| Call::checks_norms(call))
        .map(|call| call.number)
        .collect();
    assert_eq!(wider, calls);
    assert_eq!(narrower, calls);
}

#[test]
fn read_back_as_written() {
    let mut drawn = Drawn::new(2);
    let (mut read_request, mut read_outcome) = (Request::default(), Outcome::default());
    let mut written = Vec::new();
    for _ in 0..10_000 {
        drawn.draw();
        written.clear();
        drawn.request.write(&mut written);
        drawn.outcome.write(&mut written);
        let mut from = &written[..];
        assert!(read_request.read(&mut from).unwrap());
        assert!(read_outcome.read(&mut from).unwrap());
        assert!(!read_outcome.read(&mut from).unwrap());
        assert_eq!(read_request, drawn.request);
        assert_eq!(read_outcome, drawn.outcome);
    }
}

/// A program that ends at once, and one that says back what it is asked.
#[test]
fn wrong_programs() {
    for program in ["true", "cat"] {
        let status = Command::new(env!("CARGO_BIN_EXE_compare"))
            .args([program, "--count", "20000"])
            .stdout(Stdio::null())
            .status()
            .unwrap();
        assert_eq!(status.code(), Some(1), "{program}");
    }
}
