//! draw REQUESTS OUTCOMES SEED COUNT
//!
//! Writes random requests and the reference's outcomes into two files, for a program that can't be fed by `compare`. Long chains are left
//! out: the program may be run on an interpreter.

use compare::Drawn;
use std::fs;
use std::process::ExitCode;

/// The most values that a request has here: four blocks of a chain.
const MOST_VALUES: usize = 44;

fn main() -> ExitCode {
    let arguments: Vec<String> = std::env::args().skip(1).collect();
    let [requests, outcomes, seed, count] = &arguments[..] else {
        return wrong();
    };
    let (Ok(seed), Ok(count)) = (seed.parse(), count.parse()) else {
        return wrong();
    };
    let (mut asked, mut answered) = (Vec::new(), Vec::new());
    let mut drawn = Drawn::new(seed);
    let mut written = 0u64;
    while written < count {
        drawn.draw();
        if drawn.request.first.len() + drawn.request.second.len() <= MOST_VALUES {
            drawn.request.write(&mut asked);
            drawn.outcome.write(&mut answered);
            written += 1;
        }
    }
    for (name, bytes) in [(requests, asked), (outcomes, answered)] {
        if let Err(error) = fs::write(name, bytes) {
            eprintln!("{name}: {error}");
            return ExitCode::FAILURE;
        }
    }
    ExitCode::SUCCESS
}

fn wrong() -> ExitCode {
    eprintln!("draw REQUESTS OUTCOMES SEED COUNT");
    ExitCode::from(2)
}
