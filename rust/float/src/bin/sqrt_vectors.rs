//! sqrt_vectors [SEED]: writes the stored vectors to standard output: for each pattern the pattern and that of its root, as
//! little-endian u64.
use float::{machine_root, patterns};
use std::io::Write;

fn main() {
    let seed = match std::env::args().nth(1) {
        None => patterns::SEED,
        Some(word) => word.parse().expect("the seed is a number"),
    };
    let mut bytes = Vec::new();
    for b in patterns::stored(seed) {
        bytes.extend(b.to_le_bytes());
        bytes.extend(machine_root(b).to_le_bytes());
    }
    std::io::stdout()
        .write_all(&bytes)
        .expect("writing the vectors");
}
