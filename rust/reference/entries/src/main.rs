//! entries [--seed N] [--count N]
//!
//! Calls sgal3_compose, also in place, sgal3_inverse and sgal3_chain of the static library, and the same with a tolerance of the
//! caller's, on random byte blocks. Each number and all 88 bytes of the output have to be the reference's; after a refusal the
//! output has to be as it was, and the inputs always. Every buffer is an allocation of its own of just the length that the call
//! is told, so that under valgrind no byte beside it can be touched unseen.
//! Each answer is handed in again at 1e-6, beside an earlier one: no call may refuse it with 3, and its squared norm has to be
//! within 2^-46 of 1.
//! Exit status: 0, no difference; 1, a difference, or an outcome that was never met; 2, a wrong command.

use compare::{describe_outcome, describe_request};
use handset::{ELEMENT_BYTES, entries};
use requests::calls::call;
use requests::generators::Generator;
use requests::random::Random;
use requests::refusals::{LONGEST_CHAIN, NUMBERS, Refusal, TOLERANCE, norm};
use requests::{Call, Outcome, Request};
use std::process::ExitCode;

const COMPOSE: u64 = 70;
const INVERSE: u64 = 71;
const CHAIN: u64 = 72;
/// The entries: the call, and whether it takes a tolerance.
const ENTRIES: [(u64, bool); 6] = [
    (COMPOSE, false),
    (INVERSE, false),
    (CHAIN, false),
    (COMPOSE, true),
    (INVERSE, true),
    (CHAIN, true),
];

/// A call of an entry: the tolerance, if it takes one, the bytes of the blocks, and what the output holds before.
struct Entry {
    number: u64,
    tolerance: Option<f64>,
    first: Box<[u8]>,
    second: Box<[u8]>,
    out: Box<[u8]>,
}

fn main() -> ExitCode {
    let (mut seed, mut count) = (1, 100_000);
    let words: Vec<String> = std::env::args().skip(1).collect();
    for pair in words.chunks(2) {
        match pair {
            [name, number] if name == "--seed" && number.parse::<u64>().is_ok() => {
                seed = number.parse().unwrap()
            }
            [name, number] if name == "--count" && number.parse::<u64>().is_ok() => {
                count = number.parse().unwrap()
            }
            _ => {
                eprintln!("entries [--seed N] [--count N]");
                return ExitCode::from(2);
            }
        }
    }
    let mut counts = [[0u64; 8]; ENTRIES.len()];
    let mut again = Again::default();
    let mut generator = Generator::new(seed);
    let mut random = Random(!seed);
    let (mut request, mut outcome) = (Request::default(), Outcome::default());
    for done in 0..count {
        let place = random.below(ENTRIES.len());
        let (number, within) = ENTRIES[place];
        draw(&mut generator, &mut random, number, &mut request);
        if !within {
            request.extra = TOLERANCE.to_bits();
        }
        let entry = entry(&mut random, &request, within);
        expect(&entry, &mut request, &mut outcome);
        if outcome.number == 0 {
            generator.learn(request.call(), &outcome);
        }
        let compared = compare(&entry, &outcome).and_then(|()| again.hand_in(&request, &outcome));
        if let Err(difference) = compared {
            println!("a difference after {done} calls that are the same: {difference}");
            println!(
                "{}: bytes {} and {}, output {}",
                name(ENTRIES[place]),
                entry.first.len(),
                entry.second.len(),
                entry.out.len()
            );
            print!(
                "{}{}",
                describe_request(&request),
                describe_outcome("reference", &outcome)
            );
            println!("seed {seed}");
            return ExitCode::FAILURE;
        }
        counts[place][outcome.number as usize] += 1;
    }
    let mut missing = false;
    for (entry, counts) in ENTRIES.into_iter().zip(counts) {
        let can_have = NUMBERS
            .into_iter()
            .filter(|number| can_have(entry, *number));
        let met: Vec<String> = can_have
            .map(|number| {
                let count = counts[number as usize];
                missing |= count == 0;
                format!("outcome {number}: {count}")
            })
            .collect();
        println!("{}: {}", name(entry), met.join(", "));
    }
    println!(
        "{} answers handed in again at 1e-6, of blocks whose norms were up to {:e} from 1: none refused with 3; the squared norms are at most {:.1} / 2^53 from 1",
        again.answers, again.norm, again.squared
    );
    println!("seed {seed}: {count} calls of the entries, no difference");
    if missing {
        println!("an outcome was never met: more calls are wanted");
        return ExitCode::FAILURE;
    }
    ExitCode::SUCCESS
}

fn call_of(number: u64) -> &'static Call {
    call(number).expect("the list has it")
}

fn name((number, within): (u64, bool)) -> String {
    let ending = if within { "_within" } else { "" };
    format!("{}{ending}", call_of(number).name)
}

/// Whether an entry can have this outcome: without a tolerance, all of its call's but 7.
fn can_have((number, within): (u64, bool), outcome: u64) -> bool {
    call_of(number).can_have(outcome) && (within || outcome != 7)
}

/// Blocks of values; a chain is now and then made as long as it may be, or one block longer.
fn draw(generator: &mut Generator, random: &mut Random, number: u64, request: &mut Request) {
    generator.draw_for(call_of(number), request);
    if number == CHAIN && !request.first.is_empty() && random.once_in(64) {
        let blocks = LONGEST_CHAIN + 2 - random.below(4);
        let once = request.first.clone();
        request.first = once.into_iter().cycle().take(11 * blocks).collect();
    }
}

/// The request's blocks as bytes; now and then some bytes more or fewer, or an output of another length.
fn entry(random: &mut Random, request: &Request, within: bool) -> Entry {
    let mut bytes = |values: &[u64], present: bool| {
        let mut bytes: Vec<u8> = values.iter().flat_map(|bits| bits.to_le_bytes()).collect();
        match random.below(64) {
            _ if !present => {}
            0 => bytes.truncate(bytes.len().saturating_sub(1 + random.below(8))),
            1 => bytes.resize(bytes.len() + 1 + random.below(8), 0),
            _ => {}
        }
        bytes.into_boxed_slice()
    };
    let first = bytes(&request.first, true);
    let second = bytes(&request.second, request.number == COMPOSE);
    let length = match random.below(64) {
        0 => random.pick(&[0, 1, 80, 87, 89, 96, 176]),
        _ => ELEMENT_BYTES,
    };
    Entry {
        number: request.number,
        tolerance: within.then_some(f64::from_bits(request.extra)),
        first,
        second,
        out: (0..length).map(|_| random.word() as u8).collect(),
    }
}

/// What the reference says: the lengths in bytes first, then the request.
fn expect(entry: &Entry, request: &mut Request, outcome: &mut Outcome) {
    let whole = match entry.number {
        COMPOSE => entry.first.len() == ELEMENT_BYTES && entry.second.len() == ELEMENT_BYTES,
        INVERSE => entry.first.len() == ELEMENT_BYTES,
        _ => {
            entry.first.len().is_multiple_of(ELEMENT_BYTES)
                && entry.first.len() <= LONGEST_CHAIN * ELEMENT_BYTES
        }
    };
    if entry.out.len() != ELEMENT_BYTES || !whole {
        let (expected, actual) = (ELEMENT_BYTES, entry.first.len());
        return outcome.refuse(request.call(), Refusal::Length { expected, actual });
    }
    let values = |bytes: &[u8]| {
        bytes
            .as_chunks()
            .0
            .iter()
            .map(|b| u64::from_le_bytes(*b))
            .collect()
    };
    request.first = values(&entry.first);
    request.second = values(&entry.second);
    answers::answer(request, outcome);
}

/// Calls the entry, and says what differs from the reference's outcome.
fn compare(entry: &Entry, expected: &Outcome) -> Result<(), String> {
    let (first, second) = (entry.first.clone(), entry.second.clone());
    let mut out = entry.out.clone();
    let number = match (entry.number, entry.tolerance) {
        (COMPOSE, None) => entries::compose(&first, &second, &mut out),
        (INVERSE, None) => entries::inverse(&first, &mut out),
        (_, None) => entries::chain(&first, &mut out),
        (COMPOSE, Some(t)) => entries::compose_within(&first, &second, t, &mut out),
        (INVERSE, Some(t)) => entries::inverse_within(&first, t, &mut out),
        (_, Some(t)) => entries::chain_within(&first, t, &mut out),
    };
    if u64::from(number) != expected.number {
        return Err(format!("the entry answers {number}"));
    }
    if first != entry.first || second != entry.second {
        return Err("an input was changed".into());
    }
    // in place the same, where the output has its length
    if entry.number == COMPOSE && out.len() == ELEMENT_BYTES {
        let mut held = first;
        let in_place = match entry.tolerance {
            None => entries::compose_in_place(&mut held, &second),
            Some(t) => entries::compose_in_place_within(&mut held, &second, t),
        };
        let left = if number == 0 { &out } else { &entry.first };
        if in_place != number || held != *left || second != entry.second {
            return Err(format!(
                "in place the entry answers {in_place} and leaves {held:02X?}"
            ));
        }
    }
    let bytes: Vec<u8> = expected
        .values
        .iter()
        .flat_map(|bits| bits.to_le_bytes())
        .collect();
    match expected.number {
        0 if *out != *bytes => Err(format!("the output is {out:02X?}")),
        0 => Ok(()),
        _ if out != entry.out => Err("a refusal changed the output".into()),
        _ => Ok(()),
    }
}

/// How far the squared norm of an answer may be from 1, in counts of 2^-53.
const SQUARED_NORM: f64 = 128.0;

/// The answers that were handed in again.
#[derive(Default)]
struct Again {
    answers: u64,
    /// The one before.
    earlier: Option<Box<[u8]>>,
    /// The largest distance from 1: of the norm of a block that led to an answer, and of an answer's squared norm in counts of 2^-53.
    norm: f64,
    squared: f64,
}

impl Again {
    /// Hands an answer in at 1e-6, alone and beside an earlier one. Each number is 0 or 5: both passed the check.
    fn hand_in(&mut self, request: &Request, outcome: &Outcome) -> Result<(), String> {
        if outcome.number != 0 {
            return Ok(());
        }
        let rotation = |values: &[u64]| std::array::from_fn(|at| f64::from_bits(values[3 + at]));
        let blocks = request.first.as_chunks::<11>().0.iter();
        for block in blocks.chain(request.second.as_chunks().0) {
            self.norm = self.norm.max((norm(rotation(block)) - 1.0).abs());
        }
        let squared = squared_norm_from_one(rotation(&outcome.values));
        self.squared = self.squared.max(squared);
        // of an infinite value it is a NaN
        if squared.is_nan() || squared > SQUARED_NORM {
            return Err(format!("the squared norm is {squared} / 2^53 from 1"));
        }
        let bytes = outcome.values.iter().flat_map(|bits| bits.to_le_bytes());
        let answer: Box<[u8]> = bytes.collect();
        let earlier = self
            .earlier
            .replace(answer.clone())
            .unwrap_or(answer.clone());
        let both = [&*answer, &*earlier].concat();
        let mut out = vec![0; ELEMENT_BYTES];
        let numbers = [
            entries::inverse(&answer, &mut out),
            entries::compose(&answer, &earlier, &mut out),
            entries::compose(&earlier, &answer, &mut out),
            entries::chain(&both, &mut out),
        ];
        self.answers += 1;
        match numbers.iter().all(|number| [0, 5].contains(number)) {
            true => Ok(()),
            false => Err(format!(
                "handed in again, the answer gives {numbers:?}, with {earlier:02X?}"
            )),
        }
    }
}

/// |w² + x² + y² + z² - 1| in counts of 2^-53: each square and each sum with what its rounding leaves, so that the result is off by far less than a count.
fn squared_norm_from_one(q: [f64; 4]) -> f64 {
    let (mut sum, mut rest) = (-1.0, 0.0);
    for value in q {
        let square = value * value;
        let total = sum + square;
        let part = total - sum;
        rest += value.mul_add(value, -square) + ((sum - (total - part)) + (square - part));
        sum = total;
    }
    ((sum + rest) * 2f64.powi(53)).abs()
}
