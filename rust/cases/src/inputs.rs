//! The stored inputs: the same bytes on every run.

pub struct Case {
    pub name: String,
    pub bytes: Vec<u8>,
}

type Block = [u64; 11];

/// splitmix64
struct Random(u64);

impl Random {
    fn word(&mut self) -> u64 {
        self.0 = self.0.wrapping_add(0x9e37_79b9_7f4a_7c15);
        let mut z = self.0;
        z = (z ^ (z >> 30)).wrapping_mul(0xbf58_476d_1ce4_e5b9);
        z = (z ^ (z >> 27)).wrapping_mul(0x94d0_49bb_1331_11eb);
        z ^ (z >> 31)
    }

    /// from -1 to 1
    fn unit(&mut self) -> f64 {
        (self.word() >> 11) as f64 / (1u64 << 52) as f64 - 1.0
    }

    /// A step of about a metre and a tenth of a second, turned by up to `turn`; the norm is off by up to `off`.
    fn step(&mut self, turn: f64, off: f64) -> Block {
        let q = [
            1.0,
            self.unit() * turn,
            self.unit() * turn,
            self.unit() * turn,
        ];
        let n = (q[0] * q[0] + q[1] * q[1] + q[2] * q[2] + q[3] * q[3]).sqrt()
            / (1.0 + self.unit() * off);
        let t = [self.unit(), self.unit(), self.unit()];
        let v = [self.unit() * 10.0, self.unit() * 10.0, self.unit() * 10.0];
        block(
            t,
            [q[0] / n, q[1] / n, q[2] / n, q[3] / n],
            v,
            0.1 + self.unit() * 0.05,
        )
    }

    fn walk(&mut self, steps: usize, turn: f64, off: f64) -> Vec<Block> {
        (0..steps).map(|_| self.step(turn, off)).collect()
    }
}

fn block(t: [f64; 3], q: [f64; 4], v: [f64; 3], s: f64) -> Block {
    [
        t[0], t[1], t[2], q[0], q[1], q[2], q[3], v[0], v[1], v[2], s,
    ]
    .map(f64::to_bits)
}

/// A then B of the bench list.
fn a() -> Block {
    block([1.0, 2.0, 3.0], [1.0, 0.0, 0.0, 0.0], [4.0, 0.0, 0.0], 0.5)
}

fn b() -> Block {
    block([1.0, 1.0, 1.0], [1.0, 0.0, 0.0, 0.0], [0.0, 2.0, 0.0], 2.0)
}

/// A with one value replaced by a pattern.
fn a_with(place: usize, pattern: u64) -> Block {
    let mut f = a();
    f[place] = pattern;
    f
}

fn with_w(w: f64) -> Block {
    a_with(3, w.to_bits())
}

fn with_time(s: f64) -> Block {
    a_with(10, s.to_bits())
}

fn two_to(k: i32) -> f64 {
    if k < -1022 {
        f64::from_bits(1u64 << (k + 1074))
    } else {
        f64::from_bits(((k + 1023) as u64) << 52)
    }
}

fn bytes(blocks: &[Block]) -> Vec<u8> {
    blocks
        .iter()
        .flatten()
        .flat_map(|word| word.to_le_bytes())
        .collect()
}

/// The largest w whose norm the check accepts.
fn at_the_tolerance() -> f64 {
    let mut w: f64 = 1.0 + 1e-6;
    while w - 1.0 > 1e-6 {
        w = w.next_down();
    }
    while w.next_up() - 1.0 <= 1e-6 {
        w = w.next_up();
    }
    w
}

/// A quaternion at the edge of the tolerance: the check, which adds the squares from the left, accepts it or refuses it as
/// asked, and in the order of the normalisation it would do the other.
fn at_the_edge(random: &mut Random, accepted: bool) -> Block {
    loop {
        let [w, x, y, z] = [(); 4].map(|_| random.unit());
        let n = (w * w + x * x + y * y + z * z).sqrt() / (1.0 + 1e-6);
        let [w, x, y, z] = [w / n, x / n, y / n, z / n];
        let from_the_left = (w * w + x * x + y * y + z * z).sqrt() - 1.0 <= 1e-6;
        let in_pairs = ((x * x + z * z) + (y * y + w * w)).sqrt() - 1.0 <= 1e-6;
        if from_the_left == accepted && in_pairs != accepted {
            return block([1.0, 2.0, 3.0], [w, x, y, z], [4.0, 0.0, 0.0], 0.5);
        }
    }
}

pub fn bench() -> Vec<u8> {
    bytes(&[a(), b()])
}

pub fn all() -> Vec<Case> {
    let infinity = 0x7ff0_0000_0000_0000;
    let minus = 0x8000_0000_0000_0000;
    let nan = 0x7ff8_0000_0000_0000;
    let off = with_w(2.0);
    let huge = f64::MAX;
    let third = [0.5, 0.5, 0.5, 0.5];
    let one = [1.0, 0.0, 0.0, 0.0];
    let none = [0.0, 0.0, 0.0];
    let tiny = two_to(-1074);

    let walk = Random(1).walk(800, 1.0, 0.0);
    let mut cases: Vec<Case> = Vec::new();
    let mut put = |name: &str, bytes: Vec<u8>| {
        cases.push(Case {
            name: name.to_string(),
            bytes,
        })
    };

    put("a_then_b", bench());
    put(
        "third_of_a_turn",
        bytes(&[
            block(none, third, none, 0.0),
            block([1.0, 2.0, 3.0], one, none, 0.0),
        ]),
    );
    put(
        "half_turn",
        bytes(&[
            block(none, [0.0, 0.0, 0.0, 1.0], none, 0.0),
            block([1.0, 2.0, 3.0], one, none, 0.0),
        ]),
    );

    // lengths
    put("bytes_0", vec![]);
    put("bytes_87", bytes(&walk[..1])[..87].to_vec());
    put("bytes_88", bytes(&walk[..1]));
    put("bytes_89", bytes(&walk[..2])[..89].to_vec());
    put(
        "bytes_88_and_87_with_a_nan",
        bytes(&[a_with(0, nan), b()])[..175].to_vec(),
    );
    put("blocks_743", bytes(&walk[..743]));
    put("blocks_744", bytes(&walk[..744]));
    put(
        "blocks_744_and_a_byte",
        bytes(&walk[..745])[..65_473].to_vec(),
    );
    put("blocks_745", bytes(&walk[..745]));
    put("blocks_800", bytes(&walk));

    // not finite
    put("infinity_at_0", bytes(&[a_with(0, infinity), b()]));
    put(
        "minus_infinity_at_2",
        bytes(&[a(), b(), a_with(2, infinity | minus)]),
    );
    put("infinity_at_6", bytes(&[a(), a_with(6, infinity), b()]));
    put("minus_infinity_at_3", bytes(&[a_with(3, infinity | minus)]));
    put("infinity_at_8", bytes(&[a(), a_with(8, infinity)]));
    put(
        "minus_infinity_at_10",
        bytes(&[a_with(10, infinity | minus), b()]),
    );
    put(
        "both_infinities",
        bytes(&[a_with(10, infinity), a_with(10, infinity | minus)]),
    );
    for (name, place, pattern) in [
        ("nan", 0, nan),
        ("nan_minus", 4, nan | minus),
        ("nan_payload_1", 10, infinity | 1),
        ("nan_minus_payload_1", 3, infinity | minus | 1),
        ("nan_payload_half", 7, 0x7ff4_0000_0000_0000),
        ("nan_payload_mixed", 9, 0x7ffa_5a5a_0f0f_1234),
        ("nan_payload_full", 5, 0x7fff_ffff_ffff_ffff),
        ("nan_minus_payload_full", 1, 0xffff_ffff_ffff_ffff),
    ] {
        put(name, bytes(&[a(), a_with(place, pattern), b()]));
    }
    put("nan_before_not_unit", bytes(&[a_with(10, nan), off]));
    put("nan_after_not_unit", bytes(&[off, a_with(10, nan)]));
    let mut both = off;
    both[10] = nan;
    put("nan_and_not_unit", bytes(&[both]));
    put(
        "nan_after_overflow",
        bytes(&[with_time(huge), with_time(huge), a_with(0, nan | minus)]),
    );
    put("norm_overflows", bytes(&[a(), with_w(two_to(512))]));
    put(
        "norm_overflows_after_not_unit",
        bytes(&[off, a_with(6, two_to(512).to_bits())]),
    );

    // the norm
    put(
        "norm_1_and_2_to_minus_20",
        bytes(&[with_w(1.0 + two_to(-20)), b()]),
    );
    put(
        "norm_1_and_2_to_minus_19",
        bytes(&[with_w(1.0 + two_to(-19)), b()]),
    );
    put(
        "norm_1_less_2_to_minus_20",
        bytes(&[with_w(1.0 - two_to(-20)), b()]),
    );
    put(
        "norm_1_less_2_to_minus_19",
        bytes(&[with_w(1.0 - two_to(-19)), b()]),
    );
    put(
        "norm_at_the_tolerance",
        bytes(&[with_w(at_the_tolerance()), b()]),
    );
    put(
        "norm_past_the_tolerance",
        bytes(&[with_w(at_the_tolerance().next_up()), b()]),
    );
    put(
        "norm_from_the_left_accepted",
        bytes(&[at_the_edge(&mut Random(5), true), b()]),
    );
    put(
        "norm_from_the_left_refused",
        bytes(&[at_the_edge(&mut Random(6), false), b()]),
    );
    put("norm_2_to_511", bytes(&[with_w(two_to(511))]));
    put("norm_0", bytes(&[with_w(0.0)]));
    put("norm_2", bytes(&[a(), b(), off]));

    // zeros, subnormals, the largest
    put(
        "minus_zeros",
        bytes(&[block([-0.0; 3], [1.0, -0.0, -0.0, -0.0], [-0.0; 3], -0.0)]),
    );
    put(
        "minus_zeros_twice",
        bytes(&[block([-0.0; 3], [-1.0, -0.0, -0.0, -0.0], [-0.0; 3], -0.0); 2]),
    );
    put(
        "minus_zero_by_a_turn",
        bytes(&[
            block([-0.0; 3], third, [-1.0, 0.0, -0.0], 1.0),
            block([0.0, -0.0, 0.0], third, [-0.0; 3], -0.0),
        ]),
    );
    put(
        "minus_zero_at_3",
        bytes(&[block(
            [1.0, -0.0, 2.0],
            [-0.0, 0.6, 0.0, 0.8],
            [-0.0; 3],
            -0.0,
        )]),
    );
    put(
        "subnormals",
        bytes(&[
            block(
                [tiny, -tiny, two_to(-1023)],
                [1.0, tiny, -tiny, 0.0],
                [two_to(-600), two_to(-537), tiny],
                two_to(-1022),
            ),
            block(
                [two_to(-1022), 3.0 * tiny, -two_to(-1023)],
                [1.0, 0.0, tiny, -tiny],
                [tiny, -two_to(-537), -two_to(-1022)],
                two_to(-538),
            ),
        ]),
    );
    put(
        "subnormals_by_a_turn",
        bytes(&[
            block(
                [5.0 * tiny, -7.0 * tiny, tiny],
                third,
                [3.0 * tiny, 9.0 * tiny, -tiny],
                0.5,
            ),
            block(
                [3.0 * tiny, tiny, -11.0 * tiny],
                [0.8, 0.6, 0.0, 0.0],
                [tiny, -5.0 * tiny, 7.0 * tiny],
                0.5,
            ),
            block(
                [3.0 * tiny, tiny, -11.0 * tiny],
                [0.0, 0.6, 0.0, -0.8],
                [tiny, -5.0 * tiny, 7.0 * tiny],
                -0.25,
            ),
        ]),
    );
    put(
        "largest",
        bytes(&[block([huge, -huge, huge], one, [-huge, huge, -huge], -huge)]),
    );

    // overflow
    let mut first = vec![with_time(huge), with_time(huge)];
    first.extend_from_slice(&walk[..5]);
    put("overflow_in_the_first_step", bytes(&first));
    let mut last = walk[..40].to_vec();
    last.push(block([huge, huge, huge], [0.0, 0.6, 0.8, 0.0], none, 0.0));
    put("overflow_in_the_last_step", bytes(&last));
    put(
        "overflow_of_velocity_by_time",
        bytes(&[
            block(none, one, [two_to(600), 0.0, 0.0], 0.0),
            block(none, one, none, two_to(600)),
            b(),
        ]),
    );
    put(
        "overflow_of_velocity",
        bytes(&[
            block(none, one, [0.0, huge, 0.0], 0.0),
            block(none, one, [0.0, huge, 0.0], 0.0),
        ]),
    );
    put(
        "overflow_on_the_way",
        bytes(&[
            block([-huge, 0.0, 0.0], third, none, 0.0),
            block([huge, huge, -huge], one, none, 0.0),
        ]),
    );
    put(
        "overflow_then_back",
        bytes(&[with_time(huge), with_time(huge), with_time(-huge)]),
    );
    put(
        "overflow_then_not_unit",
        bytes(&[with_time(huge), with_time(huge), off]),
    );
    put(
        "not_unit_then_overflow",
        bytes(&[off, with_time(huge), with_time(huge)]),
    );

    // ordinary steps
    put("walk_small_turns", bytes(&Random(2).walk(400, 0.01, 0.0)));
    put("walk_off_the_unit", bytes(&Random(3).walk(200, 0.5, 9e-7)));
    put("walk_large_turns", bytes(&Random(4).walk(100, 50.0, 5e-7)));
    cases
}
