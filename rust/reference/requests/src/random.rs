//! The generator splitmix64, and random numbers of several kinds.

/// The state of the generator.
pub struct Random(pub u64);

impl Random {
    pub fn word(&mut self) -> u64 {
        self.0 = self.0.wrapping_add(0x9e37_79b9_7f4a_7c15);
        let mut z = self.0;
        z = (z ^ (z >> 30)).wrapping_mul(0xbf58_476d_1ce4_e5b9);
        z = (z ^ (z >> 27)).wrapping_mul(0x94d0_49bb_1331_11eb);
        z ^ (z >> 31)
    }

    /// A number below n. That small n don't divide 2^64 doesn't matter here.
    pub fn below(&mut self, n: usize) -> usize {
        ((self.word() >> 32) as usize * n) >> 32
    }

    /// Yes, once in n times.
    pub fn once_in(&mut self, n: usize) -> bool {
        self.below(n) == 0
    }

    pub fn pick<T: Copy>(&mut self, from: &[T]) -> T {
        from[self.below(from.len())]
    }

    /// From 0 to 1.
    pub fn unit(&mut self) -> f64 {
        (self.word() >> 11) as f64 / (1u64 << 53) as f64
    }

    /// From -1 to 1.
    pub fn signed(&mut self) -> f64 {
        self.unit() * 2.0 - 1.0
    }

    pub fn sign(&mut self, value: f64) -> f64 {
        if self.once_in(2) { -value } else { value }
    }

    /// A zero of either sign.
    pub fn zero(&mut self) -> f64 {
        self.sign(0.0)
    }

    /// A number of either sign whose exponent lies in a range, with random digits.
    pub fn with_exponent(&mut self, least: i32, most: i32) -> f64 {
        let exponent = least + self.below((most - least + 1) as usize) as i32;
        let bits = ((exponent + 1023) as u64) << 52 | self.word() >> 12;
        let value = f64::from_bits(bits);
        self.sign(value)
    }

    /// A subnormal of either sign, its leading one at a random place.
    pub fn subnormal(&mut self) -> f64 {
        let place = self.below(52);
        let value = f64::from_bits(1 << place | self.word() & ((1 << place) - 1));
        self.sign(value)
    }

    /// Numbers with few digits, whose sums and products are exact.
    pub fn simple(&mut self) -> f64 {
        let value = self.pick(&[0.0, 0.5, 1.0, 1.5, 2.0, 3.0, 4.0, 0.25, 7.0, 10.0]);
        self.sign(value)
    }

    /// The step of an ordinary day.
    pub fn ordinary(&mut self) -> f64 {
        match self.below(4) {
            0 => self.simple(),
            1 => self.with_exponent(-20, 20),
            _ => self.signed() * 10.0,
        }
    }

    /// A finite number whose square or whose sum with another overflows.
    pub fn huge(&mut self) -> f64 {
        match self.below(4) {
            0 => self.with_exponent(505, 520),
            1 => self.with_exponent(512, 1023),
            _ => self.with_exponent(1021, 1023),
        }
    }

    /// A number whose square underflows.
    pub fn tiny(&mut self) -> f64 {
        match self.below(3) {
            0 => self.subnormal(),
            1 => self.with_exponent(-545, -500),
            _ => self.with_exponent(-1022, -500),
        }
    }

    /// Any finite number.
    pub fn finite(&mut self) -> f64 {
        self.with_exponent(-1023, 1023)
    }

    /// A NaN of either sign, quiet or not, with one of several payloads, or an infinity.
    pub fn not_finite(&mut self) -> u64 {
        const INFINITY: u64 = 0x7ff0_0000_0000_0000;
        const QUIET: u64 = 1 << 51;
        let payload = match self.below(8) {
            0..=2 => 0,
            3 => QUIET,
            4 => QUIET | 1,
            5 => 1,
            6 => QUIET | self.word() >> 13,
            _ => 1 | self.word() >> 13,
        };
        INFINITY | payload | (self.word() & 1) << 63
    }

    /// 1 with a small error: none, a few units of the last place, or any size.
    pub fn about_one(&mut self) -> f64 {
        match self.below(4) {
            0 => 1.0,
            1 | 2 => nudge(1.0, self.below(17) as i64 - 8),
            _ => {
                let place = self.below(50) as i32 + 2;
                1.0 + self.sign(2f64.powi(-place))
            }
        }
    }
}

/// The number so many places further from zero, or nearer, among the numbers of its sign.
pub fn nudge(value: f64, places: i64) -> f64 {
    let magnitude = value.to_bits() & !(1 << 63);
    let sign = value.to_bits() & 1 << 63;
    let most = f64::MAX.to_bits() as i64;
    let moved = (magnitude as i64).saturating_add(places).clamp(0, most);
    f64::from_bits(sign | moved as u64)
}
