//! agree PROGRAM [--seed N] [--count N] [--small]
//!
//! Starts PROGRAM as `compare` does, asks it the calls that take sines or a half-angle, with turns from 1/16 to 3 and
//! values up to 16, and measures how far its answers lie from docs/src's own over the machine's sine, cosine and atan2:
//! each value has to be within 2^-24, and sine and cosine themselves, of numbers up to 4, and the half-angle, of any
//! rotation, within 2^-44. A table has how many requests each call got (a million in all, if nothing is said), and the
//! largest distance that was met.
//! With --small smaller turns are measured, of which no distance is asked: a table has the largest ones by the size of
//! the turn.
//! Exit status: 0, all within their bounds; 1, one is not, or PROGRAM refuses, ended early or wrote too much; 2, a wrong command.

use compare::distances::{Agreement, Distances, SMALL, SmallTurns, band};
use compare::program;
use requests::turning::{self, Band, Turning};
use requests::{Call, Outcome, Request};
use std::process::ExitCode;

struct Arguments {
    program: String,
    seed: u64,
    count: u64,
    small: bool,
}

fn main() -> ExitCode {
    let Some(arguments) = arguments() else {
        eprintln!("agree PROGRAM [--seed N] [--count N] [--small]");
        return ExitCode::from(2);
    };
    match run(&arguments) {
        Ok(table) => {
            print!("{table}");
            ExitCode::SUCCESS
        }
        Err(wrong) => {
            print!("{wrong}");
            println!("seed {}", arguments.seed);
            ExitCode::FAILURE
        }
    }
}

fn arguments() -> Option<Arguments> {
    let mut words = std::env::args().skip(1);
    let (mut program, mut seed, mut count, mut small) = (None, 1, 1_000_000, false);
    while let Some(word) = words.next() {
        match word.as_str() {
            "--seed" => seed = words.next()?.parse().ok()?,
            "--count" => count = words.next()?.parse().ok()?,
            "--small" => small = true,
            _ if word.starts_with("--") || program.is_some() => return None,
            _ => program = Some(word),
        }
    }
    Some(Arguments {
        program: program?,
        seed,
        count,
        small,
    })
}

fn run(arguments: &Arguments) -> Result<String, String> {
    let (table, words) = match arguments.small {
        true => {
            let table = measured(arguments, small_turns(), SmallTurns::default())?;
            (table, "of which no distance is asked")
        }
        false => {
            let table = measured(arguments, turns(), Agreement::default())?;
            (table, "all within their bounds")
        }
    };
    let (seed, count) = (arguments.seed, arguments.count);
    Ok(format!("{table}\nseed {seed}: {count} requests, {words}\n"))
}

/// The table; or what was wrong, with too few requests for every call to be asked among it.
fn measured(
    arguments: &Arguments,
    of: Vec<(&'static Call, Band)>,
    mut distances: impl Distances,
) -> Result<String, String> {
    let draw = Box::new(drawing(arguments.seed, arguments.count, of));
    let mut look = |request: &Request, reference: &Outcome, outcome: &Outcome| {
        distances.look(request, reference, outcome)
    };
    program::ask(&arguments.program, draw, &mut look)?;
    distances.table()
}

fn turns() -> Vec<(&'static Call, Band)> {
    turning::calls().map(|call| (call, band(call))).collect()
}

fn small_turns() -> Vec<(&'static Call, Band)> {
    turning::calls()
        .flat_map(|call| SMALL.map(|band| (call, band)))
        .collect()
}

/// So many random requests for these calls in turn, with the outcomes of docs/src over the machine's sine, cosine and
/// atan2.
fn drawing(
    seed: u64,
    count: u64,
    of: Vec<(&'static Call, Band)>,
) -> impl FnMut(&mut Request, &mut Outcome) -> bool {
    let mut turning = Turning::new(seed);
    let mut left = count;
    let mut next = of.into_iter().cycle();
    move |request, outcome| {
        if left == 0 {
            return false;
        }
        left -= 1;
        let (call, band) = next.next().expect("there are calls");
        turning.draw_for(call, band, request);
        answers_libm::answer(request, outcome);
        true
    }
}
