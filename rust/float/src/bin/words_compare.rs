//! words_compare [--seed N] [--count N]: gathers words from slices of bytes and stores words there, by the functions of the static library, and compares
//! with the sum of byte i times 256^i. As many random words as --count says, and an eighth as many of each other kind. Exit status 1 at the first
//! difference.
use float::patterns::Random;
use float::{words, INFINITY};

extern "C" {
    fn words_word(s: *const u8, length: u64, at: u64) -> u64;
    fn words_put_word(out: *mut u8, length: u64, at: u64, n: u64);
}

const SIGN: u64 = 1 << 63;
const QUIET: u64 = 1 << 51;

/// A NaN's fraction below the quiet bit: none, one bit, all, or any.
fn payload(g: &mut Random) -> u64 {
    match g.below(4) {
        0 => 0,
        1 => 1 << g.below(51),
        2 => QUIET - 1,
        _ => g.next() & (QUIET - 1),
    }
}

/// The payload of a signalling NaN, which with none would be an infinity.
fn signalling(g: &mut Random) -> u64 {
    payload(g).max(1)
}

/// A byte at a random place of a word, from 1 to 255.
fn one_byte(g: &mut Random) -> u64 {
    (1 + g.below(255)) << (8 * g.below(8))
}

type Draw = fn(&mut Random) -> u64;

const KINDS: [(&str, Draw); 8] = [
    ("any word", |g| g.next()),
    ("one byte is not 0", one_byte),
    ("one byte is not 255", |g| !one_byte(g)),
    ("infinity", |g| g.next() & SIGN | INFINITY),
    ("quiet NaN", |g| INFINITY | QUIET | payload(g)),
    ("quiet NaN, negative", |g| {
        SIGN | INFINITY | QUIET | payload(g)
    }),
    ("signalling NaN", |g| INFINITY | signalling(g)),
    ("signalling NaN, negative", |g| {
        SIGN | INFINITY | signalling(g)
    }),
];

/// A slice of 8 to 24 bytes, eight of which are a word of the kind.
fn slice(g: &mut Random, draw: Draw) -> Vec<u8> {
    let mut s: Vec<u8> = (0..8 + g.below(17)).map(|_| g.next() as u8).collect();
    let from = g.below(s.len() as u64 - 7) as usize;
    s[from..from + 8].copy_from_slice(&draw(g).to_le_bytes());
    s
}

/// The sum of byte i times 256^i.
fn sum(eight: &[u8]) -> u64 {
    (0..8)
        .map(|i| u64::from(eight[i]) * 256u64.pow(i as u32))
        .sum()
}

fn gathered(s: &[u8], at: usize) -> u64 {
    // SAFETY: the pointer is that of as many bytes as the length says.
    unsafe { words_word(s.as_ptr(), s.len() as u64, at as u64) }
}

fn store(out: &mut [u8], at: usize, n: u64) {
    // SAFETY: as above.
    unsafe { words_put_word(out.as_mut_ptr(), out.len() as u64, at as u64, n) }
}

/// What is wrong with the word at that place of a slice, if anything is. The slice is an allocation of just its length, for valgrind to see a byte
/// past it.
fn fault(before: &[u8], at: usize, n: u64) -> Option<&'static str> {
    let mut s = before.to_vec().into_boxed_slice();
    store(&mut s, at, n);
    if (0..8).any(|i| u64::from(s[at + i]) != n / 256u64.pow(i as u32) % 256) {
        return Some("a byte that was stored is not the word's");
    }
    if s[..at] != before[..at] || s[at + 8..] != before[at + 8..] {
        return Some("a byte beside the word has changed");
    }
    if gathered(&s, at) != n {
        return Some("the word that was stored is not gathered again");
    }
    let word = gathered(before, at);
    if word != sum(&before[at..at + 8]) {
        return Some("the word is not the sum of its bytes");
    }
    store(&mut s, at, word);
    if *s != *before {
        return Some("the word that was gathered and stored again changes the bytes");
    }
    None
}

/// The same at a place with fewer than eight bytes from there on.
fn fault_beyond(before: &[u8], at: usize, n: u64) -> Option<&'static str> {
    let mut s = before.to_vec().into_boxed_slice();
    store(&mut s, at, n);
    if *s != *before {
        return Some("bytes were stored where there is no room");
    }
    if gathered(&s, at) != 0 {
        return Some("a word was gathered where there is none");
    }
    None
}

fn check(name: &str, s: &[u8], n: u64) {
    let room = s.len().saturating_sub(7);
    for at in (0..=s.len()).chain([usize::MAX - 7, usize::MAX]) {
        let fault = if at < room { fault } else { fault_beyond };
        if let Some(what) = fault(s, at, n) {
            println!("{name}: {what}: {s:02X?}, place {at}, word {n:016X}");
            std::process::exit(1);
        }
    }
}

fn main() {
    let seed = words::number("--seed", 1);
    let count = words::number("--count", 1 << 20);
    let mut g = Random(seed);
    let mut tried = [0u64; KINDS.len()];
    for length in 0..8 {
        let n = g.next();
        check("a slice that is too short", &vec![0xa5; length], n);
    }
    for round in 0..count {
        // Of every kind but the first an eighth as many.
        let kinds = if round % 8 == 0 { KINDS.len() } else { 1 };
        for (k, (name, draw)) in KINDS[..kinds].iter().enumerate() {
            let n = draw(&mut g);
            check(name, &slice(&mut g, *draw), n);
            tried[k] += 1;
        }
    }
    println!("seed {seed}");
    for (k, (name, _)) in KINDS.iter().enumerate() {
        println!("{name}: {} words, none differs", tried[k]);
    }
    println!(
        "all: {} words, each at every place of a slice of 8 to 24 bytes, none differs",
        tried.iter().sum::<u64>()
    );
}
