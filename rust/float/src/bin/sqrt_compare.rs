//! sqrt_compare [--seed N] [--count N]: compares the square root of the static library with the machine's on random patterns.
//! Exit status 1 if one differs.
use float::patterns::{Random, KINDS};
use float::{machine_root, words};
use std::hint::black_box;

extern "C" {
    fn float_sqrt(x: f64) -> f64;
    fn float_sqrt_bits(b: u64) -> u64;
}

fn main() {
    let seed = words::number("--seed", 1);
    let count = words::number("--count", 1_000_000);
    let mut g = Random(seed);
    let mut tried = [0u64; KINDS.len()];
    let mut different = [0u64; KINDS.len()];
    let mut first = None;
    let mut total = 0;
    while total < count {
        for (k, (_, draw)) in KINDS.iter().enumerate() {
            for b in draw(&mut g) {
                let expected = machine_root(b);
                // SAFETY: both take every number, and touch no memory.
                let (bits, value) = unsafe { (float_sqrt_bits(b), float_sqrt(f64::from_bits(b))) };
                // Of a NaN too: no contract can promise the bits that an f64 then has, so this test looks at them.
                let value = black_box(value).to_bits();
                tried[k] += 1;
                total += 1;
                if bits != expected || value != expected {
                    different[k] += 1;
                    first.get_or_insert((b, expected, bits, value));
                }
            }
        }
    }
    println!("seed {seed}");
    for (k, (name, _)) in KINDS.iter().enumerate() {
        println!("{name}: {} patterns, {} differ", tried[k], different[k]);
    }
    println!(
        "all: {total} patterns, {} differ",
        different.iter().sum::<u64>()
    );
    if let Some((b, expected, bits, value)) = first {
        println!("first: pattern {b:016X}, machine {expected:016X}, float_sqrt_bits {bits:016X}, float_sqrt {value:016X}");
        std::process::exit(1);
    }
}
