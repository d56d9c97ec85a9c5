// What is measured: a kernel at one size, place and depth, as ours and as the Rust. Both read the same numbers from the same addresses.
use crate::distortion::*;
use crate::memory::lend;
use crate::random::Random;
use crate::rust::Rust;
use crate::transform::*;
use std::hint::black_box;

/// One of the two.
pub struct Side {
    /// what must be done anew before each call: the input of a kernel that works in place
    pub refill: Box<dyn Fn()>,
    /// a call: its value, 0 for a kernel without one, or `refused`
    pub call: Box<dyn Fn() -> i64>,
    /// the call alone, its answer given up
    #[cfg_attr(not(target_arch = "x86_64"), allow(dead_code))] // only instructions are counted by it
    pub once: Box<dyn Fn()>,
    /// so many times a refill and a call
    pub batch: Box<dyn Fn(usize)>,
}

pub struct Case {
    pub kernel: &'static str,
    /// where it differs from the plain case
    pub place: &'static str,
    pub w: usize,
    pub h: usize,
    pub depth: u8,
    pub ours: Side,
    pub rust: Side,
    /// the bytes of the buffer that the call writes
    pub left: Box<dyn Fn() -> Vec<u8>>,
    /// spoils that buffer before a comparison, if it isn't refilled anyway
    pub spoil: Box<dyn Fn()>,
}

pub fn side(refill: impl Fn() + Copy + 'static, call: impl Fn() -> i64 + Copy + 'static) -> Side {
    Side {
        refill: Box::new(refill),
        call: Box::new(call),
        once: Box::new(move || {
            black_box(call());
        }),
        batch: Box::new(move |n| {
            for _ in 0..n {
                refill();
                black_box(call());
            }
        }),
    }
}

/// A refusal as an answer: no value is so small.
pub fn refused(number: u8) -> i64 {
    i64::MIN + number as i64
}

pub fn valued<T: Into<i64>>(number: u8, value: T) -> i64 {
    if number == 0 {
        value.into()
    } else {
        refused(number)
    }
}

pub fn done(number: u8) -> i64 {
    valued(number, 0)
}

// ---- buffers

/// A buffer that a call writes: lent anew at each call.
pub struct Out<T: 'static> {
    pub at: *mut T,
    pub n: usize,
}
impl<T> Clone for Out<T> {
    fn clone(&self) -> Self {
        *self
    }
}
impl<T> Copy for Out<T> {}
impl<T: Copy> Out<T> {
    pub fn of(numbers: &[T]) -> Self {
        let b = lend(numbers.iter().copied());
        Out { at: b.as_mut_ptr(), n: b.len() }
    }
    /// no other lending of it is in use: each closure below lends it once, for one call
    #[allow(clippy::mut_from_ref)]
    pub fn lent(&self) -> &'static mut [T] {
        unsafe { std::slice::from_raw_parts_mut(self.at, self.n) }
    }
    pub fn bytes(self) -> Vec<u8> {
        unsafe { std::slice::from_raw_parts(self.at as *const u8, self.n * std::mem::size_of::<T>()) }.to_vec()
    }
    pub fn spoil(self) {
        unsafe { std::ptr::write_bytes(self.at as *mut u8, 0x5A, self.n * std::mem::size_of::<T>()) }
    }
}

/// Arguments, out of the compiler's sight: nothing can be worked out ahead of the calls.
pub fn hidden<A: 'static>(args: A) -> impl Fn() -> &'static A + Copy {
    let args: &'static A = Box::leak(Box::new(args));
    move || black_box(args)
}

// ---- all of them

const LOGS: [usize; 6] = [1, 2, 3, 4, 5, 6];

pub fn at<R: Rust>(seed: u64) -> Vec<Case> {
    let mut r = Random::of(seed, R::DEPTH as u64, 0, 0);
    let r = &mut r;
    let mut all = Vec::new();
    for l in LOGS {
        all.push(dquant::<R>(r, l, l));
        all.push(itxb0::<R>(r, l, l));
        all.push(itxb1::<R>(r, l, l));
        all.extend(jobs::<R>(r, l, l));
        if l > 1 {
            all.extend(sub_blocks::<R>(r, l, l));
        }
        all.push(sad_16b::<R>(r, l, Place::Inside));
        all.push(sad_16i::<R>(r, l));
        all.push(sad_bi_16b::<R>(r, l, Place::Inside));
        all.push(sad_bi_16i::<R>(r, l));
        all.push(ssd_16b::<R>(r, l));
        all.push(ssd_16i::<R>(r, l, Place::Inside));
        all.push(diff::<R>(r, l));
        all.push(satd::<R>(r, l));
        let mut places = vec![Place::Corner];
        if l == 6 {
            places.extend([Place::Left, Place::Above, Place::Outside]);
        }
        for p in places {
            all.push(sad_16b::<R>(r, l, p));
            all.push(sad_bi_16b::<R>(r, l, p));
            all.push(ssd_16i::<R>(r, l, p));
        }
    }
    for (w, h) in [(6, 2), (2, 6), (4, 3), (5, 1), (1, 6)] {
        all.extend(jobs::<R>(r, w, h));
    }
    all.push(itxb0::<R>(r, 6, 0));
    all.push(itxb1::<R>(r, 6, 0));
    all
}
