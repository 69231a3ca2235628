//! handset_bench: times the C entries of the static library beside the same calls in plain Rust, and prints a table.
//!
//! All are `extern "C"` functions that are not inlined. Rounds of the candidates alternate, and a figure is the median
//! of its rounds. First all answers are compared: bit for bit, and within 2^-24 where the source takes sines, cosines or atan2.
mod calls;
mod plain;
mod runs;

use handset::entries::{
    sgal3_chain, sgal3_chain_within, sgal3_compose, sgal3_compose_within, sgal3_inverse,
    sgal3_inverse_within,
};
use handset::{Element, CHAIN_MOST, ELEMENT_BYTES};
use plain::{Plain, Source, Way, Wide};
use std::hint::black_box;
use std::time::Instant;

type OfTwo = unsafe extern "C" fn(*const u8, u64, *const u8, u64, *mut u8, u64) -> u32;
type OfOne = unsafe extern "C" fn(*const u8, u64, *mut u8, u64) -> u32;
type Block = [u8; ELEMENT_BYTES];

/// The three calls of one candidate: at a fixed tolerance, or at the one that is handed in.
#[derive(Clone, Copy)]
enum Entries {
    Fixed {
        compose: OfTwo,
        inverse: OfOne,
        chain: OfOne,
    },
    /// The library's.
    Within(f64),
}

type Candidates = [Entries; 3];

const LIBRARY: Entries = Entries::Fixed {
    compose: sgal3_compose,
    inverse: sgal3_inverse,
    chain: sgal3_chain,
};

const fn in_rust<W: Way>() -> Entries {
    Entries::Fixed {
        compose: plain::compose::<W>,
        inverse: plain::inverse::<W>,
        chain: plain::chain::<W>,
    }
}

const CANDIDATES: Candidates = [LIBRARY, in_rust::<Source>(), in_rust::<Plain>()];
const WITHIN: Candidates = [
    Entries::Within(1e-6),
    in_rust::<Source>(),
    in_rust::<Plain>(),
];
const WIDE: Candidates = [
    Entries::Within(5e-4),
    in_rust::<Wide<Source>>(),
    in_rust::<Wide<Plain>>(),
];

impl Entries {
    fn compose(&self, left: &[u8], right: &[u8], out: &mut Block) -> u32 {
        let (l, r) = (left.as_ptr(), right.as_ptr());
        let (l_len, r_len) = (left.len() as u64, right.len() as u64);
        let (to, to_len) = (out.as_mut_ptr(), out.len() as u64);
        // SAFETY: each pointer and length are those of one slice, and `out` is borrowed mutably, so it overlaps no input.
        unsafe {
            match *self {
                Entries::Fixed { compose, .. } => compose(l, l_len, r, r_len, to, to_len),
                Entries::Within(t) => sgal3_compose_within(l, l_len, r, r_len, t, to, to_len),
            }
        }
    }

    fn inverse(&self, block: &[u8], out: &mut Block) -> u32 {
        let (from, len) = (block.as_ptr(), block.len() as u64);
        let (to, to_len) = (out.as_mut_ptr(), out.len() as u64);
        // SAFETY: each pointer and length are those of one slice, and `out` is borrowed mutably, so it doesn't overlap `block`.
        unsafe {
            match *self {
                Entries::Fixed { inverse, .. } => inverse(from, len, to, to_len),
                Entries::Within(t) => sgal3_inverse_within(from, len, t, to, to_len),
            }
        }
    }

    fn chain(&self, blocks: &[u8], out: &mut Block) -> u32 {
        let (from, len) = (blocks.as_ptr(), blocks.len() as u64);
        let (to, to_len) = (out.as_mut_ptr(), out.len() as u64);
        // SAFETY: each pointer and length are those of one slice, and `out` is borrowed mutably, so it doesn't overlap `blocks`.
        unsafe {
            match *self {
                Entries::Fixed { chain, .. } => chain(from, len, to, to_len),
                Entries::Within(t) => sgal3_chain_within(from, len, t, to, to_len),
            }
        }
    }
}

/// A round: one call's work on all steps. The sum of the numbers returned, and the last output, are handed on so that
/// no call can be left out.
type Round = fn(&Entries, &[Block], &mut Block) -> u32;

fn chain_round(entries: &Entries, steps: &[Block], out: &mut Block) -> u32 {
    entries.chain(steps.as_flattened(), out)
}

fn compose_round(entries: &Entries, steps: &[Block], out: &mut Block) -> u32 {
    let pairs = steps.iter().zip(steps.iter().cycle().skip(1));
    pairs.map(|(a, b)| entries.compose(a, b, out)).sum()
}

fn inverse_round(entries: &Entries, steps: &[Block], out: &mut Block) -> u32 {
    steps.iter().map(|a| entries.inverse(a, out)).sum()
}

const ROUNDS: usize = 401;

fn median(mut list: Vec<f64>) -> f64 {
    list.sort_by(f64::total_cmp);
    list[list.len() / 2]
}

/// The median nanoseconds of a step of each candidate. A round of few steps is repeated until it has as many as the longest chain,
/// so that the clock's own time does not show.
fn times(round: Round, candidates: &Candidates, steps: &[Block]) -> [f64; 3] {
    let repeats = CHAIN_MOST / steps.len();
    let mut rounds = candidates.map(|_| Vec::with_capacity(ROUNDS));
    let mut out = [0; ELEMENT_BYTES];
    for _ in 0..ROUNDS {
        for (entries, list) in candidates.iter().zip(&mut rounds) {
            let start = Instant::now();
            let mut refused = 0;
            for _ in 0..repeats {
                refused += round(black_box(entries), black_box(steps), black_box(&mut out));
            }
            list.push(start.elapsed().as_nanos() as f64 / (repeats * steps.len()) as f64);
            assert_eq!(refused, 0, "a step of the benchmark was refused");
        }
    }
    rounds.map(median)
}

/// The answers of one candidate to all calls of the rounds: of the chain, of each compose, of each inverse.
fn answers(entries: &Entries, steps: &[Block]) -> Vec<(u32, Block)> {
    let answer = |call: &dyn Fn(&mut Block) -> u32| {
        let mut out = [0; ELEMENT_BYTES];
        let number = call(&mut out);
        (number, out)
    };
    let mut list = vec![answer(&|out| entries.chain(steps.as_flattened(), out))];
    for (a, b) in steps.iter().zip(steps.iter().cycle().skip(1)) {
        list.push(answer(&|out| entries.compose(a, b, out)));
        list.push(answer(&|out| entries.inverse(a, out)));
    }
    list
}

/// The generator splitmix64.
struct Random(u64);

impl Random {
    fn next(&mut self) -> u64 {
        self.0 = self.0.wrapping_add(0x9e37_79b9_7f4a_7c15);
        let mut z = self.0;
        z = (z ^ (z >> 30)).wrapping_mul(0xbf58_476d_1ce4_e5b9);
        z = (z ^ (z >> 27)).wrapping_mul(0x94d0_49bb_1331_11eb);
        z ^ (z >> 31)
    }

    /// A number between -1 and 1.
    fn small(&mut self) -> f64 {
        (self.next() >> 11) as f64 / (1u64 << 52) as f64 - 1.0
    }
}

fn norm([w, x, y, z]: [f64; 4]) -> f64 {
    ((x * x + z * z) + (y * y + w * w)).sqrt()
}

fn normalized(q: [f64; 4]) -> [f64; 4] {
    q.map(|x| x / norm(q))
}

/// A quaternion of a random direction, normalised twice.
fn unit(g: &mut Random) -> [f64; 4] {
    loop {
        let q = std::array::from_fn(|_| g.small());
        if (0.1..1.0).contains(&norm(q)) {
            return normalized(normalized(q));
        }
    }
}

/// A unit quaternion whose norm is then so far from 1, above or below.
fn off(g: &mut Random, distance: f64) -> [f64; 4] {
    let scale = if g.next() & 1 == 0 {
        1.0 + distance
    } else {
        1.0 - distance
    };
    unit(g).map(|x| x * scale)
}

fn no_turn(_: &mut Random) -> [f64; 4] {
    Element::IDENTITY.rotation
}

/// The steps of the longest chain, with quaternions of one kind.
fn steps(quaternion: fn(&mut Random) -> [f64; 4]) -> Vec<Block> {
    let mut g = Random(1);
    let step = |_| {
        let element = Element {
            translation: std::array::from_fn(|_| g.small()),
            rotation: quaternion(&mut g),
            velocity: std::array::from_fn(|_| g.small()),
            time: 0.01 * (1.0 + g.small()),
        };
        element.to_bytes()
    };
    (0..CHAIN_MOST).map(step).collect()
}

/// One of exp, log of either group and adjoint, in both its forms: the library's entry, the source's, and how a block for it is made.
struct Call {
    name: &'static str,
    entries: [calls::Entry; 2],
    block: fn(&mut Random) -> Vec<f64>,
    /// Whether the source has the same bits: not where it takes sines, cosines or atan2.
    same_bits: bool,
}

const CALLS: [Call; 8] = [
    Call {
        name: "exp, in its series",
        entries: [calls::sgal3_exp, calls::source_exp],
        block: |g| [values(g, 6, 1.0), values(g, 3, 5e-6), values(g, 1, 0.01)].concat(),
        same_bits: true,
    },
    Call {
        name: "exp, of turns up to 3 rad",
        entries: [calls::sgal3_exp, calls::source_exp],
        block: |g| [values(g, 6, 1.0), turn(g), values(g, 1, 0.01)].concat(),
        same_bits: false,
    },
    Call {
        name: "log, in its series",
        entries: [calls::sgal3_log, calls::source_log],
        block: |g| {
            let q = small_rotation(g);
            element(g, q)
        },
        same_bits: true,
    },
    Call {
        name: "log, of turns up to 3 rad",
        entries: [calls::sgal3_log, calls::source_log],
        block: |g| {
            let q = rotation(g);
            element(g, q)
        },
        same_bits: false,
    },
    Call {
        name: "SO(3)'s log, in its series",
        entries: [calls::so3_log, calls::source_so3_log],
        block: small_rotation,
        same_bits: true,
    },
    Call {
        name: "SO(3)'s log, of turns up to 3 rad",
        entries: [calls::so3_log, calls::source_so3_log],
        block: rotation,
        same_bits: false,
    },
    Call {
        name: "adjoint",
        entries: [calls::sgal3_adjoint, calls::source_adjoint],
        block: unit_element,
        same_bits: true,
    },
    Call {
        name: "short adjoint",
        entries: [calls::sgal3_short_adjoint, calls::source_short_adjoint],
        block: unit_element,
        same_bits: true,
    },
];

fn unit_element(g: &mut Random) -> Vec<f64> {
    let q = unit(g).to_vec();
    element(g, q)
}

fn element(g: &mut Random, q: Vec<f64>) -> Vec<f64> {
    [values(g, 3, 1.0), q, values(g, 3, 1.0), values(g, 1, 0.01)].concat()
}

fn small_rotation(g: &mut Random) -> Vec<f64> {
    [vec![1.0], values(g, 3, 2e-6)].concat()
}

/// A quaternion that turns by an angle from 1/16 to 3; of the two that are this rotation either.
fn rotation(g: &mut Random) -> Vec<f64> {
    let theta = turn(g);
    let half = theta.iter().map(|value| value * value).sum::<f64>().sqrt() / 2.0;
    let sign = 1f64.copysign(g.small());
    let vector = theta
        .iter()
        .map(|value| sign * half.sin() * value / (2.0 * half));
    [sign * half.cos()].into_iter().chain(vector).collect()
}

/// A rotation vector with an angle from 1/16 to 3.
fn turn(g: &mut Random) -> Vec<f64> {
    loop {
        let theta = values(g, 3, 3.0);
        let squared: f64 = theta.iter().map(|value| value * value).sum();
        if (1.0 / 256.0..8.999).contains(&squared) {
            return theta;
        }
    }
}

fn values(g: &mut Random, count: usize, size: f64) -> Vec<f64> {
    (0..count).map(|_| size * g.small()).collect()
}

fn call_round(entry: calls::Entry, blocks: &[Vec<f64>], out: &mut [u8; calls::OUTCOME]) -> usize {
    // SAFETY: the pointer is that of as many values as the length says, and `out` is borrowed mutably.
    let one = |block: &Vec<f64>| unsafe { entry(block.as_ptr(), block.len(), out) };
    blocks.iter().map(one).sum()
}

/// Whether the values of two outcomes are within 2^-24 of each other.
fn near(ours: &[u8], theirs: &[u8]) -> bool {
    let values = |outcome: &[u8]| -> Vec<f64> {
        let words = outcome[32..].chunks_exact(8);
        words
            .map(|word| f64::from_le_bytes(word.try_into().expect("eight bytes")))
            .collect()
    };
    let mut pairs = values(ours).into_iter().zip(values(theirs));
    ours.len() == theirs.len() && pairs.all(|(a, b)| (a - b).abs() <= 2f64.powi(-24))
}

/// The median nanoseconds of a call, the library's and the source's, after their outcomes were compared.
fn call_times(call: &Call) -> [f64; 2] {
    let mut g = Random(2);
    let blocks: Vec<_> = (0..CHAIN_MOST).map(|_| (call.block)(&mut g)).collect();
    for block in &blocks {
        let [ours, theirs] = call.entries.map(|entry| {
            let mut out = [0; calls::OUTCOME];
            let count = call_round(entry, std::slice::from_ref(block), &mut out);
            assert_eq!(out[0], 0, "a call of the benchmark was refused");
            out[..count].to_vec()
        });
        let same = match call.same_bits {
            true => ours == theirs,
            false => near(&ours, &theirs),
        };
        assert!(same, "{} differs", call.name);
    }
    let mut rounds = call.entries.map(|_| Vec::with_capacity(ROUNDS));
    let mut out = [0; calls::OUTCOME];
    for _ in 0..ROUNDS {
        for (entry, list) in call.entries.iter().zip(&mut rounds) {
            let start = Instant::now();
            black_box(call_round(
                *black_box(entry),
                black_box(&blocks),
                black_box(&mut out),
            ));
            list.push(start.elapsed().as_nanos() as f64 / blocks.len() as f64);
        }
    }
    rounds.map(median)
}

/// act and act_event of the same elements, at points that are the events' own.
fn act_table() {
    let mut g = Random(3);
    let pairs: Vec<_> = (0..CHAIN_MOST)
        .map(|_| (unit_element(&mut g), values(&mut g, 4, 1.0)))
        .collect();
    let entries: [(calls::PairEntry, usize); 2] =
        [(calls::sgal3_act, 3), (calls::sgal3_act_event, 4)];
    let mut rounds = entries.map(|_| Vec::with_capacity(ROUNDS));
    let mut out = [0; calls::OUTCOME];
    for _ in 0..ROUNDS {
        for ((entry, count), list) in entries.iter().zip(&mut rounds) {
            let start = Instant::now();
            for (element, event) in black_box(&pairs) {
                // SAFETY: each pointer is that of at least as many values as the length says, and `out` is borrowed mutably.
                black_box(unsafe {
                    entry(
                        element.as_ptr(),
                        element.len(),
                        event.as_ptr(),
                        *count,
                        black_box(&mut out),
                    )
                });
                assert_eq!(out[0], 0, "a call of the benchmark was refused");
            }
            list.push(start.elapsed().as_nanos() as f64 / pairs.len() as f64);
        }
    }
    let [act, event] = rounds.map(median);
    println!("| act, ns | act_event, ns | act_event / act |");
    println!("|---:|---:|---:|");
    println!("| {act:.1} | {event:.1} | {:.2} |", event / act);
}

fn main() {
    let fixed = [
        class("normalised twice", unit, CANDIDATES),
        class("1e-7 off", |g| off(g, 1e-7), CANDIDATES),
        class("no rotation", no_turn, CANDIDATES),
    ];
    let within = [
        class("normalised twice, within 1e-6", unit, WITHIN),
        class("1e-4 off, within 5e-4", |g| off(g, 1e-4), WIDE),
    ];
    let mut compared = 0;
    for class in fixed.iter().chain(&within) {
        let Class { name, steps, .. } = class;
        let [ours, source, plain] = class.candidates.map(|entries| answers(&entries, steps));
        assert!(
            ours.iter().all(|(number, _)| *number == 0),
            "{name}: refused"
        );
        assert!(ours == source, "{name}: source differs");
        assert!(ours == plain, "{name}: plain differs");
        compared += ours.len();
    }
    println!("{compared} answers of each are the same, bit for bit.\n");

    entry_table(fixed.iter().chain(&within));
    println!();
    chain_table(&fixed);
    println!();
    run_table(&fixed);
    println!();
    call_table();
    println!();
    act_table();
}

/// Steps of one kind, and who is timed on them.
struct Class {
    name: &'static str,
    steps: Vec<Block>,
    candidates: Candidates,
}

fn class(
    name: &'static str,
    quaternion: fn(&mut Random) -> [f64; 4],
    candidates: Candidates,
) -> Class {
    Class {
        name,
        steps: steps(quaternion),
        candidates,
    }
}

/// The table of the entries.
fn entry_table<'a>(classes: impl Iterator<Item = &'a Class>) {
    println!(
        "| quaternions | call | library, ns | source, ns | plain, ns | library / source | library / plain |"
    );
    println!("|---|---|---:|---:|---:|---:|---:|");
    for class in classes {
        let name = class.name;
        for (call, round) in [
            ("chain, per step", chain_round as Round),
            ("compose", compose_round),
            ("inverse", inverse_round),
        ] {
            let [ours, source, plain] = times(round, &class.candidates, &class.steps);
            println!(
                "| {name} | {call} | {ours:.1} | {source:.1} | {plain:.1} | {:.2} | {:.2} |",
                ours / source,
                ours / plain
            );
        }
    }
}

/// The table of chains of more and more blocks.
fn chain_table(classes: &[Class]) {
    println!(
        "| quaternions | blocks | library, ns a block | plain, ns a block | library / plain |"
    );
    println!("|---|---:|---:|---:|---:|");
    for class in classes {
        let name = class.name;
        for blocks in [1, 16, 256, CHAIN_MOST] {
            let steps = &class.steps[..blocks];
            let [ours, _, plain] = times(chain_round, &class.candidates, steps);
            println!(
                "| {name} | {blocks} | {ours:.1} | {plain:.1} | {:.2} |",
                ours / plain
            );
        }
    }
}

/// The table of runs in which each call waits for the last.
fn run_table(classes: &[Class]) {
    println!(
        "| quaternions | by turns, ns | copied back, ns | in place, ns | in place / by turns |"
    );
    println!("|---|---:|---:|---:|---:|");
    for Class { name, steps, .. } in classes {
        let [turns, copied, in_place] = runs::times(steps);
        println!(
            "| {name} | {turns:.1} | {copied:.1} | {in_place:.1} | {:.2} |",
            in_place / turns
        );
    }
}

/// The table of exp, log and adjoint.
fn call_table() {
    println!("| call | library, ns | source, ns | library / source |");
    println!("|---|---:|---:|---:|");
    for call in &CALLS {
        let [ours, theirs] = call_times(call);
        println!(
            "| {} | {ours:.1} | {theirs:.1} | {:.2} |",
            call.name,
            ours / theirs
        );
    }
}
