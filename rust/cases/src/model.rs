//! The program `chain` in plain f64 arithmetic, written from the papers: the checks number by number over all blocks, then the
//! steps one after the other. It shares no code and no definition with the crates.

pub const LONGEST: usize = 65_472;
const BLOCK: usize = 88;

type Vector = [f64; 3];

#[derive(Clone, Copy)]
struct Quaternion {
    w: f64,
    x: f64,
    y: f64,
    z: f64,
}

#[derive(Clone, Copy)]
struct Element {
    t: Vector,
    q: Quaternion,
    v: Vector,
    s: f64,
}

enum Outcome {
    Answer([f64; 11]),
    Refused(u32),
}

fn cross(a: Vector, b: Vector) -> Vector {
    [
        a[1] * b[2] - a[2] * b[1],
        a[2] * b[0] - a[0] * b[2],
        a[0] * b[1] - a[1] * b[0],
    ]
}

fn sum(a: Vector, b: Vector) -> Vector {
    [a[0] + b[0], a[1] + b[1], a[2] + b[2]]
}

fn times(a: Vector, k: f64) -> Vector {
    [a[0] * k, a[1] * k, a[2] * k]
}

impl Quaternion {
    fn normalised(self) -> Quaternion {
        let n = ((self.x * self.x + self.z * self.z) + (self.y * self.y + self.w * self.w)).sqrt();
        Quaternion {
            w: self.w / n,
            x: self.x / n,
            y: self.y / n,
            z: self.z / n,
        }
    }

    fn product(self, r: Quaternion) -> Quaternion {
        let q = self;
        Quaternion {
            w: q.w * r.w - q.x * r.x - q.y * r.y - q.z * r.z,
            x: q.w * r.x + q.x * r.w + q.y * r.z - q.z * r.y,
            y: q.w * r.y - q.x * r.z + q.y * r.w + q.z * r.x,
            z: q.w * r.z + q.x * r.y - q.y * r.x + q.z * r.w,
        }
    }

    fn rotate(self, p: Vector) -> Vector {
        let u = [self.x, self.y, self.z];
        let c = times(cross(u, p), 2.0);
        sum(sum(times(c, self.w), cross(u, c)), p)
    }
}

impl Element {
    fn of(f: &[f64; 11]) -> Element {
        Element {
            t: [f[0], f[1], f[2]],
            q: Quaternion {
                w: f[3],
                x: f[4],
                y: f[5],
                z: f[6],
            },
            v: [f[7], f[8], f[9]],
            s: f[10],
        }
    }

    fn values(self) -> [f64; 11] {
        let Element { t, q, v, s } = self;
        [t[0], t[1], t[2], q.w, q.x, q.y, q.z, v[0], v[1], v[2], s]
    }

    fn compose(self, other: Element) -> Element {
        let r1 = self.q.normalised().normalised();
        let r2 = other.q.normalised().normalised();
        Element {
            t: sum(sum(r1.rotate(other.t), self.t), times(self.v, other.s)),
            q: r1.product(r2),
            v: sum(r1.rotate(other.v), self.v),
            s: self.s + other.s,
        }
    }
}

/// The norm that the check computes: the squares from the left, in the order w, x, y, z.
fn checked_norm(f: &[f64; 11]) -> f64 {
    (f[3] * f[3] + f[4] * f[4] + f[5] * f[5] + f[6] * f[6]).sqrt()
}

fn chain(input: &[u8]) -> Outcome {
    if input.len() > LONGEST || input.len() % BLOCK != 0 {
        return Outcome::Refused(1);
    }
    let blocks: Vec<[f64; 11]> = input
        .chunks(BLOCK)
        .map(|b| {
            std::array::from_fn(|i| f64::from_le_bytes(b[8 * i..8 * i + 8].try_into().unwrap()))
        })
        .collect();
    if blocks
        .iter()
        .any(|f| f.iter().any(|x| !x.is_finite()) || !checked_norm(f).is_finite())
    {
        return Outcome::Refused(2);
    }
    if blocks.iter().any(|f| (checked_norm(f) - 1.0).abs() > 1e-6) {
        return Outcome::Refused(3);
    }
    let mut held = Element::of(&[0.0, 0.0, 0.0, 1.0, 0.0, 0.0, 0.0, 0.0, 0.0, 0.0, 0.0]);
    for f in &blocks {
        held = held.compose(Element::of(f));
        if held.values().iter().any(|x| !x.is_finite()) {
            return Outcome::Refused(5);
        }
    }
    Outcome::Answer(held.values())
}

/// What the program prints.
pub fn report(input: &[u8]) -> String {
    match chain(input) {
        Outcome::Answer(values) => values
            .iter()
            .enumerate()
            .map(|(i, x)| format!("{i:>2} {:016X}\n", x.to_bits()))
            .collect(),
        Outcome::Refused(n) => format!("refused {n}\n"),
    }
}
