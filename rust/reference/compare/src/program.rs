//! A program that reads requests from its standard input and writes their outcomes to its standard output.

use crate::{describe_outcome, describe_request};
use requests::{Outcome, Request};
use std::io::{BufReader, ErrorKind, Read, Write};
use std::process::{ChildStdin, Command, Stdio};
use std::sync::Arc;
use std::sync::mpsc::{Receiver, Sender, channel};
use std::thread;
use std::time::{Duration, Instant};

const BUFFER: usize = 1 << 20;
/// How many requests are handed on at once.
const BATCH: usize = 512;

/// Requests that are on their way, with the reference's outcomes, both as they are written.
#[derive(Default)]
struct Batch {
    requests: Vec<u8>,
    outcomes: Vec<u8>,
}

/// Where the next request and the reference's outcome are put; no, where there is none.
type Draw = dyn FnMut(&mut Request, &mut Outcome) -> bool + Send;
/// Looks at a request, the reference's outcome and the program's, and says what is wrong.
type Look<'a> = dyn FnMut(&Request, &Outcome, &Outcome) -> Result<(), String> + 'a;

/// Starts the program, asks it what is drawn, and looks at each of its outcomes: how many there were; or what was wrong, with the
/// request and both outcomes in full.
pub fn ask(program: &str, draw: Box<Draw>, look: &mut Look) -> Result<u64, String> {
    let start = Instant::now();
    let mut child = Command::new(program)
        .stdin(Stdio::piped())
        .stdout(Stdio::piped())
        .spawn()
        .map_err(|error| format!("{program}: {error}\n"))?;
    let to = child.stdin.take().expect("standard input is a pipe");
    let from = child.stdout.take().expect("standard output is a pipe");
    // Nothing is bounded but by the pipes: a batch is on the list before it is written, so that the outcomes are read
    // while the requests are still being written, however much the program holds back.
    let (sender, receiver) = channel();
    let writer = thread::spawn(move || write_requests(draw, to, sender));
    let looked = read_outcomes(
        BufReader::with_capacity(BUFFER, from),
        receiver,
        look,
        start,
    );
    if looked.is_err() {
        // It may wait for input that no one writes any more, or for its output to be read.
        let _ = child.kill();
    }
    let status = child.wait().map_err(|error| format!("{error}\n"))?;
    writer.join().expect("the writer doesn't panic");
    let count = looked?;
    if !status.success() {
        return Err(format!("the program ended with {status}\n"));
    }
    Ok(count)
}

/// Draws requests with the reference's outcomes, hands both on and writes the requests to the program.
fn write_requests(mut draw: Box<Draw>, mut to: ChildStdin, sender: Sender<Arc<Batch>>) {
    let (mut request, mut outcome) = (Request::default(), Outcome::default());
    let mut more = true;
    while more {
        let mut batch = Batch::default();
        for _ in 0..BATCH {
            more = draw(&mut request, &mut outcome);
            if !more {
                break;
            }
            request.write(&mut batch.requests);
            outcome.write(&mut batch.outcomes);
        }
        let batch = Arc::new(batch);
        // Either fails only where the reading has ended already.
        if sender.send(batch.clone()).is_err() || to.write_all(&batch.requests).is_err() {
            return;
        }
    }
}

/// Reads the program's outcomes and looks at each.
fn read_outcomes(
    mut from: impl Read,
    batches: Receiver<Arc<Batch>>,
    look: &mut Look,
    start: Instant,
) -> Result<u64, String> {
    let (mut request, mut expected) = (Request::default(), Outcome::default());
    let mut outcome = Outcome::default();
    let (mut count, mut shown) = (0u64, start);
    for batch in batches {
        let (mut requests, mut outcomes) = (&batch.requests[..], &batch.outcomes[..]);
        while !requests.is_empty() {
            request.read(&mut requests).expect("as it was written");
            expected.read(&mut outcomes).expect("as it was written");
            let words = || describe_request(&request) + &describe_outcome("reference", &expected);
            let read = match outcome.read(&mut from) {
                Ok(true) => Ok(()),
                Ok(false) => Err("the program ended early".into()),
                Err(error) if error.kind() == ErrorKind::UnexpectedEof => {
                    Err("the program ended early, within an outcome".into())
                }
                Err(error) => Err(error.to_string()),
            };
            if let Err(error) = read {
                let next = words();
                return Err(format!(
                    "{error}, after {count} outcomes; next came\n{next}"
                ));
            }
            if let Err(wrong) = look(&request, &expected, &outcome) {
                return Err(format!(
                    "{wrong}, after {count} outcomes with nothing wrong\n{}{}",
                    words(),
                    describe_outcome("program", &outcome)
                ));
            }
            count += 1;
        }
        if shown.elapsed() >= Duration::from_secs(1) {
            shown = Instant::now();
            eprintln!("{count} requests");
        }
    }
    let mut more = [0];
    match from.read(&mut more) {
        Ok(0) => Ok(count),
        Ok(_) => Err(format!(
            "the program wrote more than the {count} outcomes\n"
        )),
        Err(error) => Err(format!("after {count} outcomes: {error}\n")),
    }
}
