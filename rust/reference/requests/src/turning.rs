//! Requests whose turns lie in a band and whose values are of magnitude at most 16, for the calls that take sines or a
//! half-angle: those with a tangent that turns up to a squared angle of 9, or with a logarithm that does; sine and cosine;
//! and the half-angle. None of them is refused.

use crate::calls::{Block, CALLS, Call, HALF_ANGLE, Of, Turn};
use crate::format::Request;
use crate::generators::{product, unit};
use crate::random::{Random, nudge};
use crate::refusals::{self, TOLERANCE, TURN_LIMIT};

/// The largest magnitude of a value.
pub const MOST_VALUE: f64 = 16.0;
/// The largest squared angle for which docs/src takes a series, and the largest squared sine of a half angle.
pub const SERIES_LIMIT: f64 = 1e-10;
/// The largest number whose square is within that.
pub const LARGEST_OF_SERIES: u64 = 0x3ee4_f8b5_88e3_68f0;
/// How near to the limit no squared angle of a logarithm is drawn. Two that differ by roundings may lie on either side of it, and only one of them is
/// refused then.
const BESIDE_LIMIT: f64 = 1.0 / (1u64 << 30) as f64;

/// Sizes of turns, or of numbers of which sine or cosine is taken.
#[derive(Clone, Copy, Debug, PartialEq)]
pub struct Band {
    pub least: f64,
    pub most: f64,
}

impl Band {
    pub const fn new(least: f64, most: f64) -> Self {
        Band { least, most }
    }

    /// Whether the size with this square, as it is computed, is one of them.
    pub fn holds(self, square: f64) -> bool {
        self.least * self.least <= square && square <= self.most * self.most
    }
}

/// The calls that take sines or a half-angle.
pub fn calls() -> impl Iterator<Item = &'static Call> {
    CALLS.iter().filter(|call| call.takes_sines())
}

/// Whether a call reads how far a rotation turns: that of a block, or the difference of two.
fn reads_rotation(call: &Call) -> bool {
    matches!(call.turn, Turn::Log(_)) || call.number == HALF_ANGLE
}

/// The square of the turn's angle, or of the number, of a request for one of these calls; none, where a length is wrong. That of a rotation is found by
/// the machine's atan2, so it may be some roundings away from what is tested.
pub fn square(request: &Request) -> Option<f64> {
    let call = request.call();
    if reads_rotation(call) {
        let to = quaternion_of(call.first, &request.first)?;
        let from = match call.second {
            Block::Absent => IDENTITY,
            second => quaternion_of(second, &request.second)?,
        };
        return Some(angle(from, to).powi(2));
    }
    let [x, y, z] = match call.first {
        Block::Number => [f64::from_bits(*request.first.first()?), 0.0, 0.0],
        _ => request.theta()?,
    };
    Some(x * x + y * y + z * z)
}

const IDENTITY: [f64; 4] = [1.0, 0.0, 0.0, 0.0];

/// None in a block of a wrong length.
fn quaternion_of(block: Block, values: &[u64]) -> Option<[f64; 4]> {
    let at = block.quaternion()?;
    let bits = *values[at.min(values.len())..].first_chunk::<4>()?;
    (values.len() == block.length()).then(|| bits.map(f64::from_bits))
}

/// Of the turn that leads from one quaternion to the other, from 0 to π: a quaternion and its negative are the same rotation. No norm matters.
fn angle([w, x, y, z]: [f64; 4], to: [f64; 4]) -> f64 {
    let [w, x, y, z] = product([w, -x, -y, -z], to);
    2.0 * refusals::norm([0.0, x, y, z]).atan2(w.abs())
}

/// Draws requests from a seed.
pub struct Turning(Random);

impl Turning {
    pub fn new(seed: u64) -> Self {
        Turning(Random(seed))
    }

    /// Draws a request for one of the calls.
    pub fn draw_for(&mut self, call: &Call, band: Band, request: &mut Request) {
        request.number = call.number;
        request.extra = match call.has_tolerance() {
            true => TOLERANCE.to_bits(),
            false => 0,
        };
        let quaternions = self.quaternions(call, band);
        let blocks = [
            (call.first, &mut request.first),
            (call.second, &mut request.second),
        ];
        for ((block, to), quaternion) in blocks.into_iter().zip(quaternions) {
            let values = self.block(block, quaternion, band);
            to.clear();
            to.extend(values.iter().map(|value| value.to_bits()));
        }
    }

    /// Those of the two blocks. Where the call reads how far a rotation turns, the first is so far from the second, or from no turn.
    fn quaternions(&mut self, call: &Call, band: Band) -> [[f64; 4]; 2] {
        let second = self.quaternion();
        let first = match call.turn {
            _ if !reads_rotation(call) => self.quaternion(),
            Turn::Log(Of::RightMinus | Of::LeftMinus) => self.turned(second, band),
            _ => self.turned(IDENTITY, band),
        };
        [first, second]
    }

    fn block(&mut self, block: Block, quaternion: [f64; 4], band: Band) -> Vec<f64> {
        match block {
            Block::Absent => Vec::new(),
            Block::Number => vec![self.number(band)],
            Block::Rotation => quaternion.to_vec(),
            Block::So3Tangent => self.theta(band).to_vec(),
            Block::Element => {
                let (translation, velocity) = (self.vector(), self.vector());
                let time = self.value();
                [&translation[..], &quaternion, &velocity, &[time]].concat()
            }
            Block::Sgal3Tangent => {
                let (rho, nu) = (self.vector(), self.vector());
                let (theta, s) = (self.theta(band), self.value());
                [&rho[..], &nu, &theta, &[s]].concat()
            }
            other => unreachable!("{other:?} is no block of these calls"),
        }
    }

    fn vector(&mut self) -> [f64; 3] {
        [(); 3].map(|()| self.value())
    }

    fn value(&mut self) -> f64 {
        let r = &mut self.0;
        match r.below(8) {
            0 => r.sign(MOST_VALUE),
            1 => r.simple(),
            2 => r.with_exponent(-30, 3),
            _ => r.signed() * MOST_VALUE,
        }
    }

    fn quaternion(&mut self) -> [f64; 4] {
        loop {
            let q = unit([(); 4].map(|()| self.0.signed()));
            if let Some(q) = self.scaled(q) {
                return q;
            }
        }
    }

    /// One that a turn of the band leads to, and of the two that are the same rotation either.
    fn turned(&mut self, from: [f64; 4], band: Band) -> [f64; 4] {
        loop {
            let (sine, cosine) = (self.size(band) / 2.0).sin_cos();
            let [x, y, z] = self.0.direction().map(|value| value * sine);
            let sign = self.0.sign(1.0);
            let to = product(from, [cosine, x, y, z]).map(|value| value * sign);
            let Some(q) = self.scaled(to) else { continue };
            let square = angle(from, q).powi(2);
            if band.holds(square) && (square - TURN_LIMIT).abs() > BESIDE_LIMIT {
                return q;
            }
        }
    }

    /// A quaternion of norm 1, or of one up to 1e-6 from it; none, where it is further from it as it is computed.
    fn scaled(&mut self, q: [f64; 4]) -> Option<[f64; 4]> {
        let r = &mut self.0;
        let scale = match r.below(4) {
            0 => 1.0 + r.sign(TOLERANCE),
            1 => 1.0 + r.signed() * TOLERANCE,
            _ => 1.0,
        };
        let q = q.map(|value| value * scale);
        ((refusals::norm(q) - 1.0).abs() <= TOLERANCE).then_some(q)
    }

    fn theta(&mut self, band: Band) -> [f64; 3] {
        loop {
            let size = self.size(band);
            let theta = self.0.direction().map(|value| value * size);
            let [x, y, z] = theta;
            if band.holds(x * x + y * y + z * z) {
                return theta;
            }
        }
    }

    fn number(&mut self, band: Band) -> f64 {
        let size = self.size(band);
        self.0.sign(size)
    }

    fn size(&mut self, Band { least, most }: Band) -> f64 {
        let r = &mut self.0;
        match r.below(8) {
            0 => r.pick(&[least, most]),
            // of any exponent
            1 => r.with_exponent(-60, 2).abs().clamp(least, most),
            2 | 3 => {
                let within = least + (most - least) * r.unit();
                match within < 1.0 {
                    true => r.between_cosines(within).clamp(least, most),
                    false => within,
                }
            }
            _ => least + (most - least) * r.unit(),
        }
    }
}

impl Random {
    /// An angle near this one, which is below 1, whose cosine is about in the middle between two numbers. There two cosines of a small angle may differ
    /// by a whole unit of the last place, and hardly any random angle is there.
    fn between_cosines(&mut self, angle: f64) -> f64 {
        // Half the distance between numbers from 1/2 to 1.
        const HALF: f64 = f64::EPSILON / 4.0;
        let halves = (angle * angle / 2.0 / HALF) as u64 | 1;
        let below_one = halves as f64 * HALF;
        let angle = 2.0 * (below_one / 2.0).sqrt().min(1.0).asin();
        nudge(angle, self.below(5) as i64 - 2)
    }
}

#[cfg(test)]
mod tests {
    use super::*;
    use crate::bench_list;
    use std::f64::consts::PI;

    #[test]
    fn the_largest_of_the_series() {
        let largest = f64::from_bits(LARGEST_OF_SERIES);
        assert!(largest * largest <= SERIES_LIMIT);
        assert!(largest.next_up() * largest.next_up() > SERIES_LIMIT);
    }

    #[test]
    fn angles() {
        let (s, c) = 0.5f64.sin_cos();
        for to in [[c, 0.0, s, 0.0], [-c, 0.0, -s, 0.0], [c, 0.0, 0.0, -s]] {
            let twice = to.map(|value| value * 2.0);
            assert!((angle(IDENTITY, to) - 1.0).abs() < 1e-15);
            assert!((angle(to, IDENTITY) - 1.0).abs() < 1e-15);
            assert!((angle(IDENTITY, twice) - 1.0).abs() < 1e-15);
            assert!((angle([0.0, 1.0, 0.0, 0.0], to) - PI).abs() < 1e-15);
            assert!(angle(to, twice) < 1e-15);
        }
        assert_eq!(angle(IDENTITY, [-0.0, 0.0, 1.0, 0.0]), PI);
    }

    /// Of minus it is that of the difference.
    #[test]
    fn squares_of_requests() {
        let (s, c) = 0.5f64.sin_cos();
        let one = [1.0, 0.0, 0.0, 0.0];
        let turned = [-c, s, 0.0, 0.0];
        let element = |q: [f64; 4]| [&[1.0, 2.0, 3.0], &q[..], &[4.0, 5.0, 6.0, 7.0]].concat();
        for (name, first, second) in [
            ("so3_log", turned.to_vec(), vec![]),
            ("so3_half_angle", turned.to_vec(), vec![]),
            ("so3_minus", turned.to_vec(), one.to_vec()),
            ("so3_left_minus", one.to_vec(), turned.to_vec()),
            ("sgal3_log", element(turned), vec![]),
            ("sgal3_right_minus", element(turned), element(one)),
            ("so3_left_jacobian_inv", vec![0.0, 0.6, 0.8], vec![]),
        ] {
            let mut request = bench_list::request(name, &first, &second);
            let found = square(&request).expect("a turn");
            assert!((found - 1.0).abs() < 1e-14, "{name}");
            request.first.pop();
            assert_eq!(square(&request), None, "{name}");
        }
    }

    #[test]
    fn cosines_in_the_middle() {
        let mut random = Random(1);
        for least in [1e-5, 2f64.powi(-12), 2f64.powi(-10), 2f64.powi(-6)] {
            for _ in 0..1000 {
                let angle = least * (1.0 + random.unit());
                let x = random.between_cosines(angle);
                assert!((x / angle - 1.0).abs() < 1e-4, "{x} for {angle}");
                // 1 - cos x = 2 sin² (x / 2), in half distances
                let sine = (x / 2.0).sin();
                let halves = 2.0 * sine * sine / (f64::EPSILON / 4.0);
                let middle = halves.round();
                assert!((halves - middle).abs() < 0.01, "{x}");
                assert_eq!(middle % 2.0, 1.0, "{x}");
            }
        }
    }

    #[test]
    fn values_and_turns_are_within_their_bounds() {
        let mut turning = Turning::new(1);
        let mut request = Request::default();
        for band in [
            Band::new(0.0625, 3.0),
            Band::new(1e-5, 2e-5),
            Band::new(0.0, 3.0),
            Band::new(0.0, PI),
        ] {
            for call in calls() {
                for _ in 0..1000 {
                    turning.draw_for(call, band, &mut request);
                    assert_eq!(refusals::of_blocks(call, &request), None);
                    let square = square(&request).expect("there is a turn");
                    assert!(band.holds(square));
                    let beside = (square - TURN_LIMIT).abs() <= BESIDE_LIMIT;
                    assert!(!reads_rotation(call) || !beside);
                    let values = request.first.iter().chain(&request.second);
                    for bits in values {
                        assert!(f64::from_bits(*bits).abs() <= MOST_VALUE);
                    }
                }
            }
        }
    }

    #[test]
    fn which_calls_take_sines() {
        let numbers: Vec<u64> = calls().map(|call| call.number).collect();
        let expected = [
            18, 19, 20, 26, 27, 28, 29, 30, 31, 40, 41, 42, 43, 44, 45, 46, 47, 48, 49, 50, 51, 55,
            56, 57, 58, 59, 60, 61, 62, 63, 79, 80, 85, 100, 101, 102, 103, 104, 105, 109, 110,
            111, 114,
        ];
        assert_eq!(numbers, expected);
    }
}
