//! The kinds of patterns: random draws of each kind, and the list of the stored vectors.
use crate::INFINITY;

pub const SEED: u64 = 1;
const ONE: u64 = 0x3ff0_0000_0000_0000;
const SIGN: u64 = 1 << 63;
const TOP: u64 = 1 << 52;

/// The generator splitmix64.
pub struct Random(pub u64);

impl Random {
    pub fn next(&mut self) -> u64 {
        self.0 = self.0.wrapping_add(0x9e37_79b9_7f4a_7c15);
        let mut z = self.0;
        z = (z ^ (z >> 30)).wrapping_mul(0xbf58_476d_1ce4_e5b9);
        z = (z ^ (z >> 27)).wrapping_mul(0x94d0_49bb_1331_11eb);
        z ^ (z >> 31)
    }

    /// A number below n; that small n don't divide 2^64 does not matter here.
    pub fn below(&mut self, n: u64) -> u64 {
        self.next() % n
    }

    fn fraction(&mut self) -> u64 {
        self.next() >> 12
    }
}

/// A draw gives some patterns that belong together, as the two beside a boundary.
pub type Draw = fn(&mut Random) -> Vec<u64>;

pub const KINDS: [(&str, Draw); 12] = [
    ("any pattern", any),
    ("normal", normal),
    ("subnormal", subnormal),
    ("beside a square", beside_square),
    ("near 1", near_one),
    ("border of the near form", near_border),
    ("within 2^32 patterns of 1", square_shows),
    ("border of the second near form", square_border),
    ("beside a step of the second near form", beside_step),
    ("beside a midpoint", beside_midpoint),
    ("nearest to a midpoint", nearest_to_midpoint),
    ("NaN or below zero", no_root),
];

pub fn any(g: &mut Random) -> Vec<u64> {
    vec![g.next()]
}

pub fn normal(g: &mut Random) -> Vec<u64> {
    vec![(1 + g.below(2046)) << 52 | g.fraction()]
}

/// A subnormal whose leading one is at a random place.
pub fn subnormal(g: &mut Random) -> Vec<u64> {
    let place = g.below(52);
    vec![1 << place | g.next() & ((1 << place) - 1)]
}

/// The square of a whole number of 26 or 27 binary digits, times a power of four, and its neighbours.
pub fn beside_square(g: &mut Random) -> Vec<u64> {
    let least = 1 << 25;
    let n = least + g.below(94_906_266 - least);
    around(scaled(g, ((n * n) as f64).to_bits()))
}

/// A number within 2^27 patterns of 1, at a random distance in powers of two.
pub fn near_one(g: &mut Random) -> Vec<u64> {
    let distance = g.next() & ((2 << g.below(27)) - 1);
    vec![ONE + distance, ONE - distance]
}

/// A number within 8 patterns of the distance 2^26 from 1, where the form for numbers near 1 ends.
pub fn near_border(g: &mut Random) -> Vec<u64> {
    let distance = (1 << 26) - 8 + g.below(17);
    vec![ONE + distance, ONE - distance]
}

/// A number within 2^32 patterns of 1, where the square of the distance shows.
pub fn square_shows(g: &mut Random) -> Vec<u64> {
    let distance = g.below(1 << 32);
    vec![ONE + distance, ONE - distance]
}

/// A number within 8 patterns of the distance 2^31 from 1, where the second form for numbers near 1 ends.
pub fn square_border(g: &mut Random) -> Vec<u64> {
    let distance = (1 << 31) - 8 + g.below(17);
    vec![ONE + distance, ONE - distance]
}

/// A number whose distance from 1 has a square, doubled above 1, that is nearly a multiple of 2^55: the later terms of the
/// root's series could show.
pub fn beside_step(g: &mut Random) -> Vec<u64> {
    let multiple = (1 + g.below(127)) << 55;
    let above = (multiple as f64 / 2.0).sqrt() as u64 + g.below(8193) - 4096;
    let below = (multiple as f64).sqrt() as u64 + g.below(8193) - 4096;
    vec![ONE + above, ONE - below]
}

/// The two numbers beside the square of q + 1/2, for a random q of 53 binary digits, times a power of four.
pub fn beside_midpoint(g: &mut Random) -> Vec<u64> {
    let odd = 2 * (TOP + g.fraction()) + 1;
    beside(g, odd)
}

/// The same for a q whose (2 * q + 1)^2 is nearly a multiple of the place of the last digit: the root is then as near to the
/// midpoint as it can be.
pub fn nearest_to_midpoint(g: &mut Random) -> Vec<u64> {
    loop {
        let digits = 54 + g.below(2) as u32;
        let residue = 1 + 8 * g.below(1 << 12);
        let residue = if g.below(2) == 0 {
            residue
        } else {
            residue.wrapping_sub(2 << 14)
        };
        let root = root_modulo(residue, digits);
        let half = 1u64 << (digits - 1);
        let choice = [
            root,
            root.wrapping_neg(),
            root.wrapping_add(half),
            half.wrapping_sub(root),
        ][g.below(4) as usize];
        let odd = choice & (2 * half - 1);
        let wide = (odd as u128 * odd as u128) >> 107 != 0;
        if odd >> 53 == 1 && wide == (digits == 55) {
            return beside(g, odd);
        }
    }
}

/// A NaN of either sign, or a number below zero.
pub fn no_root(g: &mut Random) -> Vec<u64> {
    let nan = INFINITY | 1 | g.fraction();
    vec![nan, SIGN | nan, SIGN | g.below(INFINITY)]
}

/// The patterns next to the square of odd / 2, times a power of four; odd has 54 binary digits.
fn beside(g: &mut Random, odd: u64) -> Vec<u64> {
    let square = odd as u128 * odd as u128;
    let wide = (square >> 107) as u64;
    let below = (square >> (54 + wide)) as u64 - TOP + ((1023 + wide) << 52);
    let below = scaled(g, below);
    vec![below, below + 1]
}

/// A root of an odd residue (1 modulo 8) modulo 2^digits.
fn root_modulo(residue: u64, digits: u32) -> u64 {
    let mut root = 1u64;
    for place in 3..digits {
        if root.wrapping_mul(root).wrapping_sub(residue) >> place & 1 == 1 {
            root += 1 << (place - 1);
        }
    }
    root
}

/// A normal number times a random power of four, so that it and its neighbours stay normal.
fn scaled(g: &mut Random, b: u64) -> u64 {
    let exponent = b >> 52;
    let parity = exponent % 2;
    (b & (TOP - 1)) | (2 + 2 * g.below(1021) + parity) << 52
}

fn around(b: u64) -> Vec<u64> {
    vec![b - 1, b, b + 1]
}

/// The patterns of the stored vectors, in rising order, each once.
pub fn stored(seed: u64) -> Vec<u64> {
    let mut g = Random(seed);
    let mut list = vec![
        0,
        1,
        TOP - 1,
        TOP,
        ONE,
        INFINITY - 1,
        INFINITY,
        INFINITY + 1,
        0x7ff8_0000_0000_0000,
        SIGN - 1,
    ];
    list.extend(list.clone().iter().map(|b| b | SIGN));
    for exponent in 1..2047 {
        let least = exponent << 52;
        list.extend([
            least,
            least + TOP - 1,
            least | g.fraction(),
            least | g.fraction(),
        ]);
    }
    for place in 0..52 {
        let least = 1u64 << place;
        list.extend([least, 2 * least - 1]);
        list.extend((0..4).map(|_| least | g.next() & (least - 1)));
    }
    for distance in (0..=64)
        .chain((6..=52).map(|k| 1 << k))
        .chain((1 << 26) - 3..=(1 << 26) + 3)
    {
        list.extend([ONE + distance, ONE - distance]);
    }
    for (draws, draw) in [
        (300, any as Draw),
        (250, beside_square),
        (150, near_one),
        (500, beside_midpoint),
        (400, nearest_to_midpoint),
        (50, no_root),
    ] {
        for _ in 0..draws {
            list.extend(draw(&mut g));
        }
    }
    list.sort_unstable();
    list.dedup();
    list
}
