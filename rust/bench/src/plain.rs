//! The three calls in Rust, with the machine's square root, behind functions of the C entries' signatures: the source's own functions, and
//! plain Rust.
//!
//! Checks and operations are in the same order as in the library, so the answers have the same bits.
use apex::sgal3::SGal3;
use apex::LieGroup;
use handset::{CHAIN_MOST, ELEMENT_BYTES};
use std::marker::PhantomData;

#[derive(Clone, Copy)]
struct Vector {
    x: f64,
    y: f64,
    z: f64,
}

impl Vector {
    fn add(self, b: Vector) -> Vector {
        Vector {
            x: self.x + b.x,
            y: self.y + b.y,
            z: self.z + b.z,
        }
    }

    fn sub(self, b: Vector) -> Vector {
        Vector {
            x: self.x - b.x,
            y: self.y - b.y,
            z: self.z - b.z,
        }
    }

    fn neg(self) -> Vector {
        Vector {
            x: -self.x,
            y: -self.y,
            z: -self.z,
        }
    }

    fn scale(self, k: f64) -> Vector {
        Vector {
            x: self.x * k,
            y: self.y * k,
            z: self.z * k,
        }
    }

    fn cross(self, b: Vector) -> Vector {
        Vector {
            x: self.y * b.z - self.z * b.y,
            y: self.z * b.x - self.x * b.z,
            z: self.x * b.y - self.y * b.x,
        }
    }
}

#[derive(Clone, Copy)]
struct Quaternion {
    w: f64,
    x: f64,
    y: f64,
    z: f64,
}

impl Quaternion {
    fn normalize(self) -> Quaternion {
        let Quaternion { w, x, y, z } = self;
        let norm = ((x * x + z * z) + (y * y + w * w)).sqrt();
        Quaternion {
            w: w / norm,
            x: x / norm,
            y: y / norm,
            z: z / norm,
        }
    }

    fn mul(self, r: Quaternion) -> Quaternion {
        let Quaternion { w, x, y, z } = self;
        Quaternion {
            w: w * r.w - x * r.x - y * r.y - z * r.z,
            x: w * r.x + x * r.w + y * r.z - z * r.y,
            y: w * r.y - x * r.z + y * r.w + z * r.x,
            z: w * r.z + x * r.y - y * r.x + z * r.w,
        }
    }

    fn conjugate(self) -> Quaternion {
        Quaternion {
            w: self.w,
            x: -self.x,
            y: -self.y,
            z: -self.z,
        }
    }

    fn rotate(self, p: Vector) -> Vector {
        let u = Vector {
            x: self.x,
            y: self.y,
            z: self.z,
        };
        let c = u.cross(p).scale(2.0);
        c.scale(self.w).add(u.cross(c)).add(p)
    }
}

#[derive(Clone, Copy)]
pub struct Motion {
    translation: Vector,
    rotation: Quaternion,
    velocity: Vector,
    time: f64,
}

const IDENTITY: Motion = Motion {
    translation: Vector {
        x: 0.0,
        y: 0.0,
        z: 0.0,
    },
    rotation: Quaternion {
        w: 1.0,
        x: 0.0,
        y: 0.0,
        z: 0.0,
    },
    velocity: Vector {
        x: 0.0,
        y: 0.0,
        z: 0.0,
    },
    time: 0.0,
};

impl Motion {
    fn of(values: &[f64; 11]) -> Motion {
        let [t0, t1, t2, w, x, y, z, v0, v1, v2, time] = *values;
        Motion {
            translation: Vector {
                x: t0,
                y: t1,
                z: t2,
            },
            rotation: Quaternion { w, x, y, z },
            velocity: Vector {
                x: v0,
                y: v1,
                z: v2,
            },
            time,
        }
    }

    fn values(self) -> [f64; 11] {
        let Motion {
            translation: t,
            rotation: q,
            velocity: v,
            time,
        } = self;
        [t.x, t.y, t.z, q.w, q.x, q.y, q.z, v.x, v.y, v.z, time]
    }
}

/// Whose operations of the group are timed, and how far a norm may be from 1.
pub trait Way {
    const TOLERANCE: f64 = 1e-6;
    fn compose(a: Motion, b: Motion) -> Motion;
    fn inverse(a: Motion) -> Motion;
}

/// The Rust source's own functions, over a stand-in for nalgebra.
pub struct Source;

/// Plain Rust: a quaternion is normalised as often as in the source, and all calls of one compose share the result.
pub struct Plain;

/// The same at the tolerance 5e-4.
pub struct Wide<W>(PhantomData<W>);

impl<W: Way> Way for Wide<W> {
    const TOLERANCE: f64 = 5e-4;

    fn compose(a: Motion, b: Motion) -> Motion {
        W::compose(a, b)
    }

    fn inverse(a: Motion) -> Motion {
        W::inverse(a)
    }
}

impl Way for Source {
    fn compose(a: Motion, b: Motion) -> Motion {
        let (a, b) = (source(a), source(b));
        motion(&a.compose(&b, None, None))
    }

    fn inverse(a: Motion) -> Motion {
        motion(&source(a).inverse(None))
    }
}

fn source(a: Motion) -> SGal3 {
    SGal3::from_param_slice(&a.values())
}

fn motion(a: &SGal3) -> Motion {
    let values = a.as_param_slice().first_chunk();
    Motion::of(values.expect("an element has eleven values"))
}

impl Way for Plain {
    fn compose(a: Motion, b: Motion) -> Motion {
        let turn = a.rotation.normalize().normalize();
        Motion {
            translation: turn
                .rotate(b.translation)
                .add(a.translation)
                .add(a.velocity.scale(b.time)),
            rotation: turn.mul(b.rotation.normalize().normalize()),
            velocity: turn.rotate(b.velocity).add(a.velocity),
            time: a.time + b.time,
        }
    }

    fn inverse(a: Motion) -> Motion {
        let rotation = a.rotation.normalize().normalize().conjugate();
        let turn = rotation.normalize();
        Motion {
            translation: turn
                .rotate(a.translation.sub(a.velocity.scale(a.time)))
                .neg(),
            rotation,
            velocity: turn.rotate(a.velocity).neg(),
            time: -a.time,
        }
    }
}

/// An element, or the number of a refusal.
type Answer = Result<Motion, u32>;

fn all_finite(values: &[f64; 11]) -> bool {
    values.iter().all(|x| x.is_finite())
}

fn check<W: Way>(block: &[u8]) -> Answer {
    let Ok(block): Result<&[u8; ELEMENT_BYTES], _> = block.try_into() else {
        return Err(1);
    };
    let values: [f64; 11] =
        std::array::from_fn(|i| f64::from_le_bytes(std::array::from_fn(|j| block[8 * i + j])));
    if !all_finite(&values) {
        return Err(2);
    }
    let [_, _, _, w, x, y, z, ..] = values;
    let norm = (w * w + x * x + y * y + z * z).sqrt();
    if !norm.is_finite() {
        return Err(2);
    }
    if (norm - 1.0).abs() > W::TOLERANCE {
        return Err(3);
    }
    Ok(Motion::of(&values))
}

fn unless_overflow(a: Motion) -> Answer {
    if all_finite(&a.values()) {
        Ok(a)
    } else {
        Err(5)
    }
}

fn compose_answers<W: Way>(left: Answer, right: Answer) -> Answer {
    match (left, right) {
        (Ok(a), Ok(b)) => unless_overflow(W::compose(a, b)),
        (Ok(_), refused) | (refused, Ok(_)) => refused,
        (Err(m), Err(n)) => Err(m.min(n)),
    }
}

fn finish(answer: Answer, out: &mut [u8]) -> u32 {
    match answer {
        Ok(a) => {
            for (word, value) in out.chunks_exact_mut(8).zip(a.values()) {
                word.copy_from_slice(&value.to_le_bytes());
            }
            0
        }
        Err(number) => number,
    }
}

/// # Safety
///
/// Each pointer is that of a slice of as many bytes as its length says, and `out` overlaps neither input.
#[inline(never)]
pub unsafe extern "C" fn compose<W: Way>(
    left: *const u8,
    left_len: u64,
    right: *const u8,
    right_len: u64,
    out: *mut u8,
    out_len: u64,
) -> u32 {
    // SAFETY: the caller's promise.
    let (left, right, out) = unsafe {
        (
            std::slice::from_raw_parts(left, left_len as usize),
            std::slice::from_raw_parts(right, right_len as usize),
            std::slice::from_raw_parts_mut(out, out_len as usize),
        )
    };
    if out.len() != ELEMENT_BYTES {
        return 1;
    }
    finish(
        compose_answers::<W>(check::<W>(left), check::<W>(right)),
        out,
    )
}

/// # Safety
///
/// Each pointer is that of a slice of as many bytes as its length says, and `out` doesn't overlap `block`.
#[inline(never)]
pub unsafe extern "C" fn inverse<W: Way>(
    block: *const u8,
    block_len: u64,
    out: *mut u8,
    out_len: u64,
) -> u32 {
    // SAFETY: the caller's promise.
    let (block, out) = unsafe {
        (
            std::slice::from_raw_parts(block, block_len as usize),
            std::slice::from_raw_parts_mut(out, out_len as usize),
        )
    };
    if out.len() != ELEMENT_BYTES {
        return 1;
    }
    finish(
        check::<W>(block).and_then(|a| unless_overflow(W::inverse(a))),
        out,
    )
}

/// # Safety
///
/// Each pointer is that of a slice of as many bytes as its length says, and `out` doesn't overlap `blocks`.
#[inline(never)]
pub unsafe extern "C" fn chain<W: Way>(
    blocks: *const u8,
    blocks_len: u64,
    out: *mut u8,
    out_len: u64,
) -> u32 {
    // SAFETY: the caller's promise.
    let (blocks, out) = unsafe {
        (
            std::slice::from_raw_parts(blocks, blocks_len as usize),
            std::slice::from_raw_parts_mut(out, out_len as usize),
        )
    };
    if out.len() != ELEMENT_BYTES {
        return 1;
    }
    if blocks.len() > CHAIN_MOST * ELEMENT_BYTES || blocks.len() % ELEMENT_BYTES != 0 {
        return 1;
    }
    // A refusal doesn't end the pass, since a later block's refusal may be tried earlier.
    let mut held = Ok(IDENTITY);
    for block in blocks.chunks_exact(ELEMENT_BYTES) {
        held = compose_answers::<W>(held, check::<W>(block));
    }
    finish(held, out)
}
