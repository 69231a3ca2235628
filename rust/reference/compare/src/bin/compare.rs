//! compare PROGRAM [--seed N] [--count N] [--seconds N]
//!
//! Starts PROGRAM, which reads requests from its standard input and writes their outcomes to its standard output, and
//! compares these word for word with the reference's. It ends after so many requests (a million, if nothing is said)
//! or so many seconds, whichever comes first. At the first difference both outcomes are printed in full.
//! Exit status: 0, no difference; 1, a difference, or PROGRAM ended early or wrote too much; 2, a wrong command.

use compare::{Counts, Drawn, program};
use requests::{Outcome, Request};
use std::process::ExitCode;
use std::time::{Duration, Instant};

struct Arguments {
    program: String,
    seed: u64,
    count: u64,
    seconds: Option<u64>,
}

fn main() -> ExitCode {
    let arguments = match arguments() {
        Ok(arguments) => arguments,
        Err(error) => {
            eprintln!("{error}");
            eprintln!("compare PROGRAM [--seed N] [--count N] [--seconds N]");
            return ExitCode::from(2);
        }
    };
    match run(&arguments) {
        Ok(report) => {
            print!("{report}");
            ExitCode::SUCCESS
        }
        Err(difference) => {
            print!("{difference}");
            println!("seed {}", arguments.seed);
            ExitCode::FAILURE
        }
    }
}

fn arguments() -> Result<Arguments, String> {
    let mut words = std::env::args().skip(1);
    let (mut program, mut seed, mut count, mut seconds) = (None, 1, None, None);
    while let Some(word) = words.next() {
        let mut number = || {
            let next = words.next().ok_or(format!("{word} wants a number"))?;
            let parsed = next.parse::<u64>();
            parsed.map_err(|error| format!("{word} {next}: {error}"))
        };
        match word.as_str() {
            "--seed" => seed = number()?,
            "--count" => count = Some(number()?),
            "--seconds" => seconds = Some(number()?),
            _ if word.starts_with("--") || program.is_some() => {
                return Err(format!("what is {word}?"));
            }
            _ => program = Some(word),
        }
    }
    if count == Some(0) || seconds == Some(0) {
        return Err("nothing would be compared".into());
    }
    let unlimited = seconds.map_or(1_000_000, |_| u64::MAX);
    Ok(Arguments {
        program: program.ok_or("no program is named")?,
        seed,
        count: count.unwrap_or(unlimited),
        seconds,
    })
}

/// The report of a comparison without a difference, or what was wrong.
fn run(arguments: &Arguments) -> Result<String, String> {
    let start = Instant::now();
    let end = arguments.seconds.map(|s| start + Duration::from_secs(s));
    let (seed, count) = (arguments.seed, arguments.count);
    let mut counts = Counts::default();
    let mut look = |request: &Request, expected: &Outcome, outcome: &Outcome| {
        if outcome != expected {
            return Err("a difference".into());
        }
        counts.add(request.number, expected.number);
        Ok(())
    };
    let draw = Box::new(drawing(seed, count, end));
    let total = program::ask(&arguments.program, draw, &mut look)?;
    let seconds = start.elapsed().as_secs_f64();
    let rate = total as f64 / seconds;
    let table = counts.table();
    Ok(format!(
        "{table}\nseed {seed}: {total} requests in {seconds:.1} s ({rate:.0} a second), no difference\n"
    ))
}

/// So many random requests with the reference's outcomes, and none after that time.
fn drawing(
    seed: u64,
    count: u64,
    end: Option<Instant>,
) -> impl FnMut(&mut Request, &mut Outcome) -> bool {
    let mut drawn = Drawn::new(seed);
    let mut done = 0;
    move |request, outcome| {
        if done == count || end.is_some_and(|end| Instant::now() >= end) {
            return false;
        }
        drawn.draw();
        request.clone_from(&drawn.request);
        outcome.clone_from(&drawn.outcome);
        done += 1;
        true
    }
}
