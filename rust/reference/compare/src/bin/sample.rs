//! sample REQUESTS OUTCOMES
//!
//! Writes a fixed sample of requests and the reference's outcomes into two files: the scope's bench list, inputs at
//! which another order of operations shows, turns at a limit, tolerances at the ends of their range, adjoints that
//! overflow, and random requests such that every call has every outcome that it can have, several times, and is accepted
//! with norms that 1e-6 refuses, and with large turns. It is the same on every run, and fails where an outcome is missing.

use compare::Counts;
use requests::calls::{Block, Call};
use requests::format::MOST_VALUES;
use requests::generators::Generator;
use requests::refusals::{NUMBERS, TOLERANCE};
use requests::{CALLS, Outcome, Request, bench_list, turning};
use std::collections::BTreeMap;
use std::fs;
use std::process::ExitCode;

const SEED: u64 = 1;
/// How many requests of a call are kept for each outcome.
const ACCEPTED: u64 = 26;
const REFUSED: u64 = 6;
/// And how many at the least that are accepted with norms that 1e-6 refuses.
const WIDE: u64 = 3;
/// Of a call that takes sines or a half-angle, how many at the least are accepted with a turn, or a number, above 1.
const LARGE: u64 = 8;
/// Draws for one call before it is given up.
const DRAWS: u32 = 200_000;
/// Of the random chains of more blocks than this, only a few are kept.
const LONG: usize = 32;
const LONG_CHAINS: u32 = 4;

fn main() -> ExitCode {
    let arguments: Vec<String> = std::env::args().skip(1).collect();
    let [requests, outcomes] = &arguments[..] else {
        eprintln!("sample REQUESTS OUTCOMES");
        return ExitCode::from(2);
    };
    let sample = Sample::drawn();
    for (name, bytes) in [(requests, &sample.requests), (outcomes, &sample.outcomes)] {
        if let Err(error) = fs::write(name, bytes) {
            eprintln!("{name}: {error}");
            return ExitCode::FAILURE;
        }
    }
    print!("{}", sample.counts.table());
    let unexpected = sample.counts.unexpected();
    for words in &unexpected {
        eprintln!("{words}");
    }
    ExitCode::from(u8::from(!unexpected.is_empty()))
}

#[derive(Default)]
struct Sample {
    requests: Vec<u8>,
    outcomes: Vec<u8>,
    counts: Counts,
    wide: BTreeMap<u64, u64>,
    large: BTreeMap<u64, u64>,
    long_chains: u32,
}

impl Sample {
    fn drawn() -> Self {
        let mut sample = Sample::default();
        let mut outcome = Outcome::default();
        for line in bench_list::lines() {
            answers::answer(&line.request, &mut outcome);
            assert_eq!(outcome, line.outcome, "the bench list: {}", line.says);
            sample.keep(&line.request, &outcome);
        }
        for order in bench_list::orders() {
            answers::answer(&order.request, &mut outcome);
            sample.keep(&order.request, &outcome);
        }
        let limits = [
            bench_list::limits(),
            bench_list::tolerances(),
            bench_list::adjoints(),
        ];
        for limit in limits.iter().flatten() {
            answers::answer(&limit.request, &mut outcome);
            assert_eq!(outcome.number, limit.number, "{}", limit.says);
            sample.keep(&limit.request, &outcome);
        }
        let mut generator = Generator::new(SEED);
        let mut request = Request::default();
        sample.keep_longest_chain(&mut generator);
        for call in CALLS {
            for _ in 0..DRAWS {
                if sample.has_enough(call) {
                    break;
                }
                generator.draw_for(call, &mut request);
                answers::answer(&request, &mut outcome);
                generator.learn(call, &outcome);
                if sample.wants(call, &request, &outcome) {
                    sample.keep(&request, &outcome);
                }
            }
            assert!(sample.has_enough(call), "{}: too few requests", call.name);
        }
        sample
    }

    /// The longest chain of a request, accepted, and the same with as many values more as a request can have.
    fn keep_longest_chain(&mut self, generator: &mut Generator) {
        let whole = MOST_VALUES / 11 * 11;
        let chain = CALLS.iter().find(|call| call.first == Block::Chain);
        let chain = chain.expect("there is a chain");
        let (mut request, mut outcome) = (Request::default(), Outcome::default());
        while outcome.number != 0 || request.first.len() != whole {
            generator.draw_for(chain, &mut request);
            answers::answer(&request, &mut outcome);
        }
        self.keep(&request, &outcome);
        request.first.resize(MOST_VALUES, 0);
        answers::answer(&request, &mut outcome);
        self.keep(&request, &outcome);
    }

    fn has_enough(&self, call: &Call) -> bool {
        let wide = !call.checks_norms() || self.wide.get(&call.number) >= Some(&WIDE);
        let large = !call.takes_sines() || self.large.get(&call.number) >= Some(&LARGE);
        wide && large
            && NUMBERS
                .iter()
                .filter(|number| call.can_have(**number))
                .all(|number| self.counts.count(call, *number) >= wanted(call, *number))
    }

    fn wants(&mut self, call: &Call, request: &Request, outcome: &Outcome) -> bool {
        let wide = self.wide.get(&call.number) < Some(&WIDE) && is_wide(request, outcome);
        let large = self.large.get(&call.number) < Some(&LARGE) && is_large(request, outcome);
        if !wide
            && !large
            && self.counts.count(call, outcome.number) >= wanted(call, outcome.number)
        {
            return false;
        }
        if call.first == Block::Chain && request.first.len() > 11 * LONG {
            self.long_chains += 1;
            return self.long_chains <= LONG_CHAINS;
        }
        true
    }

    fn keep(&mut self, request: &Request, outcome: &Outcome) {
        request.write(&mut self.requests);
        outcome.write(&mut self.outcomes);
        self.counts.add(request.number, outcome.number);
        *self.wide.entry(request.number).or_default() += u64::from(is_wide(request, outcome));
        *self.large.entry(request.number).or_default() += u64::from(is_large(request, outcome));
    }
}

/// Whether a request is accepted that 1e-6 refuses.
fn is_wide(request: &Request, outcome: &Outcome) -> bool {
    if outcome.number != 0 || !request.call().checks_norms() {
        return false;
    }
    let mut at_a_millionth = Outcome::default();
    let extra = TOLERANCE.to_bits();
    let request = Request {
        extra,
        ..request.clone()
    };
    answers::answer(&request, &mut at_a_millionth);
    at_a_millionth.number == 3
}

/// Whether a request is accepted whose turn, or number, is above 1.
fn is_large(request: &Request, outcome: &Outcome) -> bool {
    let large = || turning::square(request).is_some_and(|square| square > 1.0);
    outcome.number == 0 && request.call().takes_sines() && large()
}

/// How many requests with this outcome are kept: one is enough for a call that is always the same.
fn wanted(call: &Call, number: u64) -> u64 {
    match number {
        0 if call.first == Block::Absent && !call.has_index() => 1,
        0 => ACCEPTED,
        _ => REFUSED,
    }
}
