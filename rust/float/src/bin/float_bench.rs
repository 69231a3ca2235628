//! float_bench: times the square root of the static library beside the machine's, its sine and cosine beside libm's, and its half-angle beside libm's
//! atan2, all called through the C boundary, and prints four tables. Rounds of two functions alternate; a figure is the median of its rounds.
use float::patterns::{self, Random};
use std::f64::consts::FRAC_PI_2;
use std::hint::black_box;
use std::time::Instant;

extern "C" {
    fn float_sqrt(x: f64) -> f64;
    fn float_sine(x: f64) -> f64;
    fn float_cosine(x: f64) -> f64;
    fn float_half_angle(s: f64, c: f64) -> f64;
}

#[inline(never)]
extern "C" fn from_machine(x: f64) -> f64 {
    x.sqrt()
}

#[inline(never)]
extern "C" fn sine_of_libm(x: f64) -> f64 {
    x.sin()
}

#[inline(never)]
extern "C" fn cosine_of_libm(x: f64) -> f64 {
    x.cos()
}

#[inline(never)]
extern "C" fn atan2_of_libm(s: f64, c: f64) -> f64 {
    s.atan2(c)
}

#[inline(never)]
extern "C" fn unchanged(x: f64) -> f64 {
    x
}

#[inline(never)]
extern "C" fn first_unchanged(s: f64, _: f64) -> f64 {
    s
}

/// Takes every number, or every two, and touches no memory.
trait Function: Copy {
    /// As patterns.
    type Argument;

    /// The pattern of the result. Each number is taken with these bits changed.
    fn call(self, argument: &Self::Argument, changed: u64) -> u64;
}

type OfOne = unsafe extern "C" fn(f64) -> f64;
type OfTwo = unsafe extern "C" fn(f64, f64) -> f64;

impl Function for OfOne {
    type Argument = u64;

    #[inline(always)]
    fn call(self, x: &u64, changed: u64) -> u64 {
        // SAFETY: a `Function` is safe to call.
        unsafe { self(f64::from_bits(x ^ changed)) }.to_bits()
    }
}

impl Function for OfTwo {
    type Argument = [u64; 2];

    #[inline(always)]
    fn call(self, argument: &[u64; 2], changed: u64) -> u64 {
        let [s, c] = argument.map(|number| f64::from_bits(number ^ changed));
        // SAFETY: a `Function` is safe to call.
        unsafe { self(s, c) }.to_bits()
    }
}

const CALLS: usize = 1 << 14;
const ROUNDS: usize = 201;

/// Each argument waits for the result before it: `none` is 0, which the optimiser can't know.
#[inline(never)]
fn in_turn<F: Function>(f: F, arguments: &[F::Argument], none: u64) -> u64 {
    let mut last = 0;
    for argument in arguments {
        last = f.call(argument, last & none);
    }
    last
}

/// The calls are independent of each other.
#[inline(never)]
fn side_by_side<F: Function>(f: F, arguments: &[F::Argument], none: u64) -> u64 {
    let mut all = none;
    for argument in arguments {
        all ^= f.call(argument, 0);
    }
    all
}

type Measure<F> = fn(F, &[<F as Function>::Argument], u64) -> u64;

/// The median nanoseconds of a call of each function.
fn times<F: Function, const N: usize>(
    measure: Measure<F>,
    functions: [F; N],
    arguments: &[F::Argument],
) -> [f64; N] {
    let mut rounds: [Vec<f64>; N] = std::array::from_fn(|_| Vec::new());
    for _ in 0..ROUNDS {
        for (f, list) in functions.iter().zip(&mut rounds) {
            let start = Instant::now();
            black_box(measure(black_box(*f), black_box(arguments), black_box(0)));
            list.push(start.elapsed().as_nanos() as f64 / arguments.len() as f64);
        }
    }
    rounds.map(|mut list| {
        list.sort_by(f64::total_cmp);
        list[ROUNDS / 2]
    })
}

fn drawn<A>(mut draw: impl FnMut(&mut Random) -> A) -> Vec<A> {
    let mut g = Random(patterns::SEED);
    (0..CALLS).map(|_| draw(&mut g)).collect()
}

/// Of a magnitude up to `most`, of either sign.
fn up_to(most: f64) -> Vec<u64> {
    drawn(|g| (most * (g.below(1 << 54) as f64 / (1u64 << 53) as f64 - 1.0)).to_bits())
}

/// Sine and cosine of an angle from 0 to `most`.
fn sines_and_cosines(most: f64) -> Vec<[u64; 2]> {
    drawn(|g| {
        let angle = most * (g.below(1 << 53) as f64 / (1u64 << 53) as f64);
        [angle.sin(), angle.cos()].map(f64::to_bits)
    })
}

/// A line for each class of arguments and each measure.
fn table<F: Function>(
    ours: (&str, F),
    other: (&str, F),
    nothing: F,
    classes: &[(&str, Vec<F::Argument>)],
) {
    let (our_name, our_function) = ours;
    let (other_name, other_function) = other;
    println!("| argument | measure | {our_name}, ns | {other_name}, ns | ratio | call alone, ns |");
    println!("|---|---|---:|---:|---:|---:|");
    for (name, arguments) in classes {
        for (kind, measure) in [
            ("latency", in_turn as Measure<F>),
            ("throughput", side_by_side),
        ] {
            let functions = [our_function, other_function, nothing];
            let [ours, other, call] = times(measure, functions, arguments);
            println!(
                "| {name} | {kind} | {ours:.2} | {other:.2} | {:.2} | {call:.2} |",
                ours / other
            );
        }
    }
    println!();
}

fn main() {
    let one = 1f64.to_bits();
    let classes = [
        (
            "within 2^26 patterns of 1",
            drawn(|g| one - (1 << 26) + g.below((2 << 26) + 1)),
        ),
        (
            "1e-7 away from 1",
            drawn(|g| {
                let distance = 1e-7 * (0.9 + 0.2 * (g.below(1 << 53) as f64 / (1u64 << 53) as f64));
                (if g.below(2) == 0 {
                    1.0 + distance
                } else {
                    1.0 - distance
                })
                .to_bits()
            }),
        ),
        ("normal, any binade", drawn(|g| patterns::normal(g)[0])),
        ("subnormal", drawn(|g| patterns::subnormal(g)[0])),
    ];
    table::<OfOne>(
        ("float_sqrt", float_sqrt),
        ("machine", from_machine),
        unchanged,
        &classes,
    );
    let angles = [
        ("up to 4", up_to(4.0)),
        ("up to 1.5", up_to(1.5)),
        ("up to 2^-10", up_to(0.0009765625)),
    ];
    for (ours, libm) in [
        (
            ("float_sine", float_sine as OfOne),
            ("libm", sine_of_libm as OfOne),
        ),
        (("float_cosine", float_cosine), ("libm", cosine_of_libm)),
    ] {
        table(ours, libm, unchanged, &angles);
    }
    let angles = [
        ("up to π/2", sines_and_cosines(FRAC_PI_2)),
        ("up to 1/16", sines_and_cosines(0.0625)),
    ];
    table::<OfTwo>(
        ("float_half_angle", float_half_angle),
        ("libm's atan2", atan2_of_libm),
        first_unchanged,
        &angles,
    );
}
