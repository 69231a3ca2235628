//! A run of steps from the identity, in which each call waits for the last: the element held is the left block of the next call.
use crate::{median, Block, ROUNDS};
use handset::entries::{compose, compose_in_place};
use handset::{Element, ELEMENT_BYTES};
use std::hint::black_box;
use std::time::Instant;

/// The sum of the numbers returned, and the element held at the end.
type Run = fn(&[Block]) -> (u32, Block);

/// Compose into two buffers by turns.
fn by_turns(steps: &[Block]) -> (u32, Block) {
    let (mut held, mut other) = (Element::IDENTITY.to_bytes(), [0; ELEMENT_BYTES]);
    let mut refused = 0;
    let (mut left, mut out) = (&mut held, &mut other);
    for step in steps {
        refused += compose(left, step, out);
        std::mem::swap(&mut left, &mut out);
    }
    (refused, *left)
}

/// Compose into a second buffer, and the answer copied back over the element held.
fn copied_back(steps: &[Block]) -> (u32, Block) {
    let (mut held, mut out) = (Element::IDENTITY.to_bytes(), [0; ELEMENT_BYTES]);
    let mut refused = 0;
    for step in steps {
        let number = compose(&held, step, &mut out);
        if number == 0 {
            held = out;
        }
        refused += number;
    }
    (refused, held)
}

fn in_place(steps: &[Block]) -> (u32, Block) {
    let mut held = Element::IDENTITY.to_bytes();
    let one = |step: &Block| compose_in_place(&mut held, step);
    let refused = steps.iter().map(one).sum();
    (refused, held)
}

const RUNS: [Run; 3] = [by_turns, copied_back, in_place];

/// The median nanoseconds of a step of each, after the elements held at the end were compared.
pub fn times(steps: &[Block]) -> [f64; RUNS.len()] {
    let ends = RUNS.map(|run| run(steps));
    assert!(
        ends.iter()
            .all(|(refused, held)| *refused == 0 && *held == ends[0].1),
        "the runs differ"
    );
    let mut rounds = RUNS.map(|_| Vec::with_capacity(ROUNDS));
    for _ in 0..ROUNDS {
        for (run, list) in RUNS.iter().zip(&mut rounds) {
            let start = Instant::now();
            black_box(black_box(run)(black_box(steps)));
            list.push(start.elapsed().as_nanos() as f64 / steps.len() as f64);
        }
    }
    rounds.map(median)
}
