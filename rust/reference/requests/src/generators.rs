//! Random requests. Each is drawn in three steps: blocks that belong together and would be accepted at a tolerance, or
//! nearly; in a quarter of the requests damage to a length, a value or a quaternion, up to three times, so that the order
//! of the refusals shows; and the index, or the tolerance, mostly that one. Answers are taken up as later inputs.

use crate::calls::{Answer, Block, CALLS, Call, Turn};
use crate::format::{MOST_VALUES, Outcome, Request};
use crate::random::{Random, nudge};
use crate::refusals;
use crate::turning::LARGEST_OF_SERIES;
use std::f64::consts::{FRAC_PI_2, PI};

/// How many answers of a kind are kept for later inputs.
const KEPT: usize = 64;
/// The angle whose square is the limit of tangents and logarithms.
const LARGEST: f64 = 3.0;

/// Draws requests from a seed.
pub struct Generator {
    random: Random,
    /// The tolerance that the norms of this request are drawn for.
    tolerance: f64,
    /// Whether its call takes a tangent or a logarithm that turns up to a squared angle of 9, or any rotation's half-angle.
    turns: bool,
    elements: Kept<11>,
    rotations: Kept<4>,
    sgal3_tangents: Kept<10>,
    so3_tangents: Kept<3>,
}

/// The last answers of one kind.
struct Kept<const N: usize> {
    values: [[u64; N]; KEPT],
    next: usize,
}

impl<const N: usize> Kept<N> {
    fn new(first: [f64; N]) -> Self {
        Kept {
            values: [first.map(f64::to_bits); KEPT],
            next: 0,
        }
    }

    fn keep(&mut self, values: &[u64]) {
        if let Some(values) = values.first_chunk() {
            self.values[self.next % KEPT] = *values;
            self.next += 1;
        }
    }
}

impl Generator {
    pub fn new(seed: u64) -> Self {
        Generator {
            random: Random(seed),
            tolerance: refusals::TOLERANCE,
            turns: false,
            elements: Kept::new([0.0, 0.0, 0.0, 1.0, 0.0, 0.0, 0.0, 0.0, 0.0, 0.0, 0.0]),
            rotations: Kept::new([1.0, 0.0, 0.0, 0.0]),
            sgal3_tangents: Kept::new([0.0; 10]),
            so3_tangents: Kept::new([0.0; 3]),
        }
    }

    /// Draws a call and its request. Calls without blocks have little to say and come less often.
    pub fn draw(&mut self, request: &mut Request) {
        let mut call = &CALLS[self.random.below(CALLS.len())];
        while call.first == Block::Absent && !self.random.once_in(8) {
            call = &CALLS[self.random.below(CALLS.len())];
        }
        self.draw_for(call, request);
    }

    /// Draws a request for a call.
    pub fn draw_for(&mut self, call: &Call, request: &mut Request) {
        request.number = call.number;
        request.extra = 0;
        request.first.clear();
        request.second.clear();
        self.tolerance = match call.checks_norms() {
            true => self.permitted(),
            false => refusals::TOLERANCE,
        };
        self.turns = call.takes_sines();
        let extreme = self.random.once_in(4);
        let aimed = self.turns && !self.random.once_in(4);
        let pair = matches!(call.turn, Turn::Log(_)) && call.second != Block::Absent;
        self.fill(call.first, aimed && !pair, extreme, &mut request.first);
        self.fill(call.second, aimed, extreme, &mut request.second);
        // at the element's own time, where act has the same point but for the order of the additions
        if call.second == Block::Event && self.random.once_in(4) {
            request.second[3] = request.first[10];
        }
        if pair && aimed || call.second == call.first && self.random.once_in(8) {
            self.bring_near(call, request);
        }
        if self.random.once_in(4) {
            for _ in 0..=self.random.below(3) {
                self.damage(call, request);
            }
        }
        if call.checks_norms() {
            request.extra = self.chosen_tolerance(call, request);
        } else if call.has_tolerance() {
            request.extra = self.any_tolerance(call, request);
        }
        if call.has_index() {
            request.extra = self.index();
        }
    }

    /// Takes an accepted answer up as a later input.
    pub fn learn(&mut self, call: &Call, outcome: &Outcome) {
        if outcome.number != 0 {
            return;
        }
        match call.answer {
            Answer::Element | Answer::Coefficients => self.elements.keep(&outcome.values),
            Answer::Rotation => self.rotations.keep(&outcome.values),
            Answer::Sgal3Tangent => self.sgal3_tangents.keep(&outcome.values),
            Answer::So3Tangent => self.so3_tangents.keep(&outcome.values),
            _ => {}
        }
    }

    /// A block that is accepted, or nearly. `aimed` asks for a turn within the limit, or near that or the series' limit, `extreme`
    /// allows values whose squares or sums overflow.
    fn fill(&mut self, block: Block, aimed: bool, extreme: bool, to: &mut Vec<u64>) {
        match block {
            Block::Absent => {}
            Block::AnyElement | Block::AnyRotation if self.random.once_in(4) => {
                to.extend((0..block.length()).map(|_| self.random.word()));
            }
            Block::Element | Block::AnyElement => self.element(aimed, extreme, to),
            Block::Rotation | Block::AnyRotation => {
                let quaternion = self.quaternion(aimed);
                put(to, quaternion);
            }
            Block::Sgal3Tangent => self.sgal3_tangent(aimed, extreme, to),
            Block::So3Tangent => {
                let theta = self.theta(aimed, extreme);
                put(to, theta);
            }
            Block::Vector => {
                let vector = self.vector(extreme);
                put(to, vector);
            }
            Block::Event => {
                let vector = self.vector(extreme);
                let time = self.vector(extreme)[0];
                put(to, vector);
                put(to, [time]);
            }
            Block::Number => {
                let number = self.number();
                put(to, [number]);
            }
            Block::Chain => {
                let count = self.chain_length();
                let place = self.random.below(count.max(1));
                let clean = !self.random.once_in(8);
                for at in 0..count {
                    let start = to.len();
                    self.element(false, extreme && at == place, to);
                    // With many quaternions at the tolerance no long chain would be accepted.
                    while clean && !is_unit(&to[start..], self.tolerance) {
                        to.truncate(start);
                        self.element(false, extreme && at == place, to);
                    }
                }
            }
        }
    }

    fn chain_length(&mut self) -> usize {
        match self.random.below(128) {
            0..=3 => 0,
            4..=7 => 1,
            8..=111 => self.random.below(8),
            112..=119 => self.random.below(32),
            120..=126 => self.random.below(200),
            _ => 744 - self.random.below(3),
        }
    }

    fn element(&mut self, aimed: bool, extreme: bool, to: &mut Vec<u64>) {
        if self.random.once_in(8) {
            to.extend(self.random.pick(&self.elements.values));
            return;
        }
        let translation = self.vector(extreme);
        let quaternion = self.quaternion(aimed);
        let velocity = self.vector(extreme);
        let time = self.vector(extreme)[0];
        put(to, translation);
        put(to, quaternion);
        put(to, velocity);
        put(to, [time]);
    }

    fn sgal3_tangent(&mut self, aimed: bool, extreme: bool, to: &mut Vec<u64>) {
        if self.random.once_in(8) {
            to.extend(self.random.pick(&self.sgal3_tangents.values));
            return;
        }
        let rho = self.vector(extreme);
        let nu = self.vector(extreme);
        let theta = self.theta(aimed, extreme);
        let s = self.vector(extreme)[0];
        put(to, rho);
        put(to, nu);
        put(to, theta);
        put(to, [s]);
    }

    fn vector(&mut self, extreme: bool) -> [f64; 3] {
        let r = &mut self.random;
        let kind = r.below(if extreme { 16 } else { 10 });
        [(); 3].map(|()| match kind {
            0..=4 => r.ordinary(),
            5 => r.simple(),
            6 => r.zero(),
            7 => r.tiny(),
            8 => r.subnormal(),
            9 if r.once_in(2) => r.zero(),
            9 => r.ordinary(),
            10 => r.finite(),
            11 if r.once_in(2) => r.huge(),
            11 => r.ordinary(),
            12 | 13 => r.huge(),
            _ => r.with_exponent(1020, 1023),
        })
    }

    /// A number of which sine or cosine is taken: up to 4, or nearly, and sometimes any.
    fn number(&mut self) -> f64 {
        let r = &mut self.random;
        match r.below(16) {
            0 => r.zero(),
            1 => r.subnormal(),
            2 => r.tiny(),
            3 | 4 => r.with_exponent(-60, 1),
            5..=7 => {
                let near = nudge(refusals::NUMBER_LIMIT, r.below(3) as i64 - 1);
                r.sign(near)
            }
            // where one of the two is nearly zero
            8 => {
                let quarters = 1.0 + r.below(2) as f64;
                let near = nudge(quarters * FRAC_PI_2, r.below(17) as i64 - 8);
                r.sign(near)
            }
            9 => r.signed() * 16.0,
            10 => r.ordinary(),
            11 if r.once_in(2) => r.huge(),
            11 => r.finite(),
            _ => r.signed() * refusals::NUMBER_LIMIT,
        }
    }

    fn theta(&mut self, aimed: bool, extreme: bool) -> [f64; 3] {
        if self.turns && aimed && !self.random.once_in(4) {
            return self.turning_theta();
        }
        let direction = self.random.direction();
        let kinds = match (aimed, extreme) {
            (true, _) => 10,
            (_, false) => 13,
            (_, true) => 16,
        };
        let kind = self.random.below(kinds);
        let r = &mut self.random;
        let size = match kind {
            0..=2 => 1e-5 * r.unit(),
            3..=5 => 1e-5 * r.about_one(),
            6 => {
                let axis = r.below(3);
                let near = nudge(f64::from_bits(LARGEST_OF_SERIES), r.below(5) as i64 - 2);
                let mut theta = [(); 3].map(|()| r.zero());
                theta[axis] = r.sign(near);
                return theta;
            }
            7 => return [(); 3].map(|()| r.zero()),
            8 => return [(); 3].map(|()| r.tiny()),
            9 => {
                let kept = r.pick(&self.so3_tangents.values);
                return kept.map(f64::from_bits);
            }
            // normalize leaves a theta whose norm is not above this one
            10 => f64::EPSILON * r.about_one(),
            11 | 12 => return [(); 3].map(|()| r.ordinary()),
            13 | 14 => return [(); 3].map(|()| r.huge()),
            _ => return [(); 3].map(|()| r.finite()),
        };
        r.near(direction.map(|value| value * size))
    }

    /// A theta whose squared angle is at most 9, or nearly: most of them outside the series.
    fn turning_theta(&mut self) -> [f64; 3] {
        let direction = self.random.direction();
        let r = &mut self.random;
        let size = match r.below(8) {
            0..=2 => LARGEST * r.unit(),
            3 => r.with_exponent(-17, 1).abs().min(LARGEST),
            4 => LARGEST * r.about_one(),
            // a squared angle of 9 that no operation rounds
            5 | 6 => {
                let mut theta = r.pick(&[[LARGEST, 0.0, 0.0], [1.0, 2.0, 2.0]]);
                theta.rotate_left(r.below(3));
                let theta = theta.map(|value| r.sign(value));
                return r.near(theta);
            }
            _ => return r.pick(&self.so3_tangents.values).map(f64::from_bits),
        };
        r.near(direction.map(|value| value * size))
    }

    fn quaternion(&mut self, aimed: bool) -> [f64; 4] {
        if aimed {
            return self.rotation();
        }
        let tolerance = self.tolerance;
        let r = &mut self.random;
        let mut q = match r.below(16) {
            0..=3 => unit([(); 4].map(|()| r.signed())),
            4 | 5 => {
                let scale = 1.0 + r.signed() * tolerance;
                unit([(); 4].map(|()| r.signed())).map(|value| value * scale)
            }
            6 => {
                let scale = 1.0 + r.sign(tolerance);
                let mut q = unit([(); 4].map(|()| r.signed())).map(|value| value * scale);
                let place = r.below(4);
                q[place] = nudge(q[place], r.below(17) as i64 - 8);
                q
            }
            7 => {
                let near = 1.0 + r.sign(tolerance);
                let near = nudge(near, r.below(7) as i64 - 3);
                r.on_axis(near)
            }
            8 => r.pick(&[
                [1.0, 0.0, 0.0, 0.0],
                [0.0, 1.0, 0.0, 0.0],
                [0.0, 0.0, 1.0, 0.0],
                [0.0, 0.0, 0.0, 1.0],
                [0.5, 0.5, 0.5, 0.5],
                [0.0, 1.0 / 3.0, 2.0 / 3.0, 2.0 / 3.0],
                [0.0, 2.0 / 7.0, 3.0 / 7.0, 6.0 / 7.0],
                [2.0 / 7.0, 4.0 / 7.0, 5.0 / 7.0, 2.0 / 7.0],
                [0.6, 0.8, 0.0, 0.0],
                [0.0, 0.0, 0.6, 0.8],
            ]),
            9 | 10 => return self.rotation(),
            // one or two large values, the others tiny
            11 => {
                let mut q = [(); 4].map(|()| r.tiny());
                let angle = r.pick(&[1.0, 0.6, 0.8, 0.0]);
                let place = r.below(4);
                q[place] = angle;
                q[(place + 1 + r.below(3)) % 4] = (1.0 - angle * angle).sqrt();
                q
            }
            // nearly half a turn
            12 => {
                let w = r.pick(&[0.0, 1e-9, 1e-17, 1e-160, 5e-324]);
                let [_, x, y, z] = unit([0.0, r.signed(), r.signed(), r.signed()]);
                [w, x, y, z]
            }
            13 => return r.pick(&self.rotations.values).map(f64::from_bits),
            14 => {
                let one = r.about_one();
                r.on_axis(one)
            }
            _ => unit(unit([(); 4].map(|()| r.signed()))),
        };
        for value in &mut q {
            *value = r.sign(*value);
        }
        if r.once_in(4) {
            let turned = r.below(4);
            q.rotate_left(turned);
        }
        q
    }

    /// A quaternion whose half angle, or whose angle, is at the limit of a series or within it; or one that turns by any angle up to half a turn, often by
    /// the limit of logarithms.
    fn rotation(&mut self) -> [f64; 4] {
        match self.random.below(8) {
            0..=2 => self.small_rotation(),
            _ => self.turning_rotation(),
        }
    }

    fn small_rotation(&mut self) -> [f64; 4] {
        let r = &mut self.random;
        let half = match r.below(8) {
            0 | 1 => 1e-5 * r.about_one(),
            2 | 3 => 0.5e-5 * r.about_one(),
            4 | 5 => 0.5e-5 * r.unit(),
            6 => r.tiny(),
            _ => 0.0,
        };
        let w = (1.0 - half * half).sqrt();
        // Nearly 1, and 1 itself.
        let scale = if r.once_in(4) { 1.0 / w } else { 1.0 };
        self.rotation_of(w * scale, half * scale)
    }

    fn turning_rotation(&mut self) -> [f64; 4] {
        let r = &mut self.random;
        let angle = match r.below(16) {
            0..=4 => LARGEST * r.unit(),
            5 | 6 => r.with_exponent(-17, 1).abs().min(LARGEST),
            7 => LARGEST * r.about_one(),
            8..=10 => nudge(LARGEST, r.below(9) as i64 - 4),
            11 => LARGEST + (PI - LARGEST) * r.unit(),
            12 => PI - r.with_exponent(-60, -3).abs(),
            13 => {
                let w = r.tiny().abs();
                let w = r.pick(&[0.0, 5e-324, w]);
                return self.rotation_of(w, 1.0);
            }
            _ => return r.pick(&self.rotations.values).map(f64::from_bits),
        };
        let (sine, cosine) = (angle / 2.0).sin_cos();
        self.rotation_of(cosine, sine)
    }

    /// The rotation about any axis whose half angle has this cosine and sine, or a neighbour of it. Of the two quaternions that it has either is drawn.
    fn rotation_of(&mut self, cosine: f64, sine: f64) -> [f64; 4] {
        let tolerance = self.tolerance;
        let r = &mut self.random;
        let [x, y, z] = r.direction().map(|value| value * sine);
        // Normalising undoes the scale, and rounds.
        let scale = match r.below(8) {
            0..=4 => 1.0,
            _ => 1.0 + r.signed() * tolerance,
        };
        let mut q = [cosine, x, y, z].map(|value| value * scale);
        if r.once_in(4) {
            q = unit(q);
        }
        if r.once_in(4) {
            let place = r.below(4);
            q[place] = nudge(q[place], r.below(7) as i64 - 3);
        }
        if r.once_in(4) {
            q = q.map(|value| -value);
        }
        q
    }

    /// Makes the second block's rotation one that a turn leads to from the first's, so that minus has logarithms of every size; or the whole block the same.
    fn bring_near(&mut self, call: &Call, request: &mut Request) {
        let (Some(at), Some(_)) = (call.first.quaternion(), call.second.quaternion()) else {
            return;
        };
        let Some(first) = request.first[at..].first_chunk::<4>() else {
            return;
        };
        let first = first.map(f64::from_bits);
        let turn = self.rotation();
        let second = match self.random.below(16) {
            0 => first,
            1 => first.map(|value| -value),
            2..=8 => product(first, turn),
            _ => product(turn, first),
        };
        request.second[at..at + 4].copy_from_slice(&second.map(f64::to_bits));
        if self.random.once_in(16) {
            request.second.clone_from(&request.first);
        }
    }

    /// Spoils a length, a value or a quaternion of one of the blocks.
    fn damage(&mut self, call: &Call, request: &mut Request) {
        let second = call.second != Block::Absent && self.random.once_in(2);
        let (block, values, other) = if second {
            (call.second, &mut request.second, request.first.len())
        } else {
            (call.first, &mut request.first, request.second.len())
        };
        if block == Block::Absent {
            return;
        }
        let r = &mut self.random;
        match r.below(8) {
            0 | 1 if !call.has_fixed_length() => {
                let length = match r.below(16) {
                    0 => 0,
                    1..=4 => values.len() + 1,
                    5..=8 => values.len().saturating_sub(1),
                    9..=11 => r.pick(&[3, 4, 10, 11, 22]),
                    12..=14 => r.below(30),
                    _ => values.len() * 2,
                };
                values.resize_with(length.min(MOST_VALUES - other), || r.ordinary().to_bits());
            }
            2..=4 => {
                if !values.is_empty() {
                    let place = r.below(values.len());
                    values[place] = r.not_finite();
                }
            }
            _ => {
                let Some(at) = block.quaternion() else {
                    return;
                };
                let at = at + 11 * r.below((values.len() / 11).max(1));
                let Some(values) = values.get_mut(at..at + 4) else {
                    return;
                };
                let q = std::array::from_fn(|place| f64::from_bits(values[place]));
                let spoiled = match r.below(8) {
                    0 => [(); 4].map(|()| r.zero()),
                    1 => [(); 4].map(|()| r.huge()),
                    2 => r.on_axis(2f64.powi(511)),
                    3 => r.on_axis(2f64.powi(512)),
                    4 => [(); 4].map(|()| r.tiny()),
                    _ => {
                        let scale = match r.below(8) {
                            0 => 2.0,
                            1 => 0.5,
                            2 => 1.0 + 2f64.powi(-19),
                            3 => 1.0 - 3e-6,
                            4 => r.ordinary(),
                            5 => 1.0 + r.signed() * 1e-5,
                            6 => 1.0 + r.signed() * 1.1 * refusals::MOST_TOLERANCE,
                            _ => 1.0 + r.signed() * 10.0 * self.tolerance,
                        };
                        q.map(|value| value * scale)
                    }
                };
                values.copy_from_slice(&spoiled.map(f64::to_bits));
            }
        }
    }

    /// A tolerance that a caller may choose: 1e-6 most often, or any size, the largest and the smallest among them.
    fn permitted(&mut self) -> f64 {
        let r = &mut self.random;
        match r.below(16) {
            0..=7 => refusals::TOLERANCE,
            8 => nudge(refusals::MOST_TOLERANCE, -(r.below(3) as i64)),
            9 => r.pick(&[5e-4, 1e-4, 1e-5]),
            10 | 11 => r.with_exponent(-20, -11).abs(),
            // from 2^-40 on a check of a norm can do without the root
            12 => nudge(2f64.powi(-40), r.below(5) as i64 - 2),
            13 => r.with_exponent(-54, -20).abs(),
            14 => r.tiny().abs(),
            _ => nudge(0.0, 1 + r.below(3) as i64),
        }
    }

    /// The tolerance of a call that checks norms: mostly the one that they were drawn for.
    fn chosen_tolerance(&mut self, call: &Call, request: &Request) -> u64 {
        let r = &mut self.random;
        let tolerance = match r.below(16) {
            0 | 1 => {
                let second = call.second.quaternion().is_some() && r.once_in(2);
                let (block, values) = match second {
                    true => (call.second, &request.second),
                    false => (call.first, &request.first),
                };
                let at = block.length() * r.below((values.len() / block.length()).max(1));
                r.about_distance(block, &values[at..])
            }
            // one that isn't permitted
            2 => match r.below(10) {
                0 | 1 => r.zero(),
                2 => return r.not_finite(),
                3 => return r.word(),
                4 => -self.tolerance,
                5 => -r.tiny().abs(),
                6 => r.ordinary(),
                7 => r.huge(),
                _ => nudge(refusals::MOST_TOLERANCE, 1 + r.below(3) as i64),
            },
            3 => self.permitted(),
            _ => self.tolerance,
        };
        tolerance.to_bits()
    }

    /// The tolerance of is_valid, which takes any.
    fn any_tolerance(&mut self, call: &Call, request: &Request) -> u64 {
        let r = &mut self.random;
        let tolerance = match r.below(16) {
            0..=4 => 1e-6,
            5 => r.zero(),
            6 => r.ordinary(),
            7 => -1e-6,
            8 => return r.not_finite(),
            9 => return r.word(),
            10 => r.tiny(),
            11 => f64::EPSILON * r.pick(&[0.25, 0.5, 1.0, 1.5, 2.0]),
            12 => r.huge(),
            _ => r.about_distance(call.first, &request.first),
        };
        tolerance.to_bits()
    }

    fn index(&mut self) -> u64 {
        let r = &mut self.random;
        let low = r.below(13) as u64;
        match r.below(16) {
            0 => r.word(),
            1 => u64::MAX - low,
            2 => 1 << 32 | low,
            3 => 1 << r.below(64) | low,
            _ => low,
        }
    }
}

impl Random {
    /// A vector of length 1, or nearly: any direction, an axis, or a plane.
    pub(crate) fn direction(&mut self) -> [f64; 3] {
        let axis = self.below(3);
        let mut direction = match self.below(4) {
            0 => [(); 3].map(|()| self.zero()),
            1 => {
                let mut plane = [(); 3].map(|()| self.signed());
                plane[(axis + 1) % 3] = self.zero();
                plane
            }
            _ => [(); 3].map(|()| self.signed()),
        };
        if direction.iter().all(|value| value.abs() < 0.01) {
            direction[axis] = self.sign(1.0);
        }
        let norm = refusals::norm([0.0, direction[0], direction[1], direction[2]]);
        direction.map(|value| value / norm)
    }

    /// How far the norm of a block's quaternion is from 1, or a neighbour of that.
    fn about_distance(&mut self, block: Block, values: &[u64]) -> f64 {
        let at = block.quaternion().unwrap_or(0).min(values.len());
        match values[at..].first_chunk::<4>() {
            Some(q) => {
                let distance = (refusals::norm(q.map(f64::from_bits)) - 1.0).abs();
                nudge(distance, self.below(3) as i64 - 1)
            }
            None => refusals::TOLERANCE,
        }
    }

    /// A theta with one value moved by up to three places.
    fn near(&mut self, mut theta: [f64; 3]) -> [f64; 3] {
        let place = self.below(3);
        theta[place] = nudge(theta[place], self.below(7) as i64 - 3);
        theta
    }

    /// Four values of which all but one are zero.
    fn on_axis(&mut self, value: f64) -> [f64; 4] {
        let mut q = [(); 4].map(|()| self.zero());
        q[self.below(4)] = value;
        q
    }
}

fn put<const N: usize>(to: &mut Vec<u64>, values: [f64; N]) {
    to.extend(values.map(f64::to_bits));
}

/// Whether the quaternion of an element is within the tolerance.
fn is_unit(element: &[u64], tolerance: f64) -> bool {
    let norm = refusals::norm(std::array::from_fn(|at| f64::from_bits(element[3 + at])));
    (norm - 1.0).abs() <= tolerance
}

/// Each value divided by the norm; the identity where that is not to be had.
pub(crate) fn unit(q: [f64; 4]) -> [f64; 4] {
    let norm = refusals::norm(q);
    if norm > 1e-3 && norm < 1e3 {
        q.map(|value| value / norm)
    } else {
        [1.0, 0.0, 0.0, 0.0]
    }
}

/// Hamilton's product, only to find rotations that are near each other: its order doesn't matter.
pub(crate) fn product([a, b, c, d]: [f64; 4], [w, x, y, z]: [f64; 4]) -> [f64; 4] {
    [
        a * w - b * x - c * y - d * z,
        a * x + b * w + c * z - d * y,
        a * y - b * z + c * w + d * x,
        a * z + b * y - c * x + d * w,
    ]
}
