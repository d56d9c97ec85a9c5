// Buffers as a codec has them: each starts at a multiple of 64 bytes. They are never given back; a run makes a few megabytes of them.
use crate::random::Random;
use std::alloc::{alloc, Layout};

/// The numbers, in a buffer of their own.
pub fn lend<T: Copy>(numbers: impl IntoIterator<Item = T>) -> &'static mut [T] {
    let numbers: Vec<T> = numbers.into_iter().collect();
    let bytes = std::mem::size_of_val(&numbers[..]).max(64);
    // an allocation of that size, aligned beyond T's need, filled before it is lent
    unsafe {
        let at = alloc(Layout::from_size_align(bytes, 64).expect("a small size")) as *mut T;
        assert!(!at.is_null());
        at.copy_from_nonoverlapping(numbers.as_ptr(), numbers.len());
        std::slice::from_raw_parts_mut(at, numbers.len())
    }
}

pub fn coefs(r: &mut Random, n: usize) -> &'static [i16] {
    lend((0..n).map(|_| r.next() as i16))
}
pub fn longs(r: &mut Random, n: usize) -> &'static [i32] {
    lend((0..n).map(|_| r.next() as i32))
}
pub fn samples(r: &mut Random, n: usize, depth: u8) -> &'static [u16] {
    lend((0..n).map(|_| (r.next() >> (64 - depth)) as u16))
}
/// Any value that document 01 takes.
pub fn bi_values(r: &mut Random, n: usize) -> &'static [i16] {
    lend((0..n).map(|_| r.within(-16384, 32767) as i16))
}
