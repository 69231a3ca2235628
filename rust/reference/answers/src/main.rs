//! answers: reads requests from standard input and writes the reference's outcomes to standard output.

use requests::{Outcome, Request};
use std::io::{BufReader, Result, Write};

const BUFFER: usize = 1 << 20;

fn main() -> Result<()> {
    let mut input = BufReader::with_capacity(BUFFER, std::io::stdin().lock());
    let mut output = std::io::stdout().lock();
    let (mut request, mut outcome) = (Request::default(), Outcome::default());
    let mut written = Vec::with_capacity(BUFFER);
    while request.read(&mut input)? {
        answers::answer(&request, &mut outcome);
        outcome.write(&mut written);
        if written.len() > BUFFER - 1024 {
            output.write_all(&written)?;
            written.clear();
        }
    }
    output.write_all(&written)?;
    output.flush()
}
