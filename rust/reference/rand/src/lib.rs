//! A stand-in for rand: a fixed xorshift. Only `random()` of docs/src uses it, and no compared call does.
use std::cell::Cell;
use std::ops::Range;

thread_local! { static STATE: Cell<u64> = const { Cell::new(0x9e37_79b9_7f4a_7c15) }; }

fn unit() -> f64 {
    STATE.with(|s| {
        let mut x = s.get();
        x ^= x << 13;
        x ^= x >> 7;
        x ^= x << 17;
        s.set(x);
        (x >> 11) as f64 / (1u64 << 53) as f64
    })
}

pub trait Drawn {
    fn drawn() -> Self;
}
impl Drawn for f64 {
    fn drawn() -> f64 {
        unit()
    }
}
pub fn random<T: Drawn>() -> T {
    T::drawn()
}
pub struct ThreadRng;
pub fn rng() -> ThreadRng {
    ThreadRng
}
pub trait RngExt {
    fn random_range(&mut self, range: Range<f64>) -> f64 {
        range.start + (range.end - range.start) * unit()
    }
}
impl RngExt for ThreadRng {}
