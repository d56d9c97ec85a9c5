// Memory that is lent to the library with guard zones around it. A room is mapped between two fences of memory that may be neither read nor written:
// a buffer that stands against a fence ends the program at the first access beyond it, a read too. On the other side, or on both, stand bytes of a
// known pattern that are looked at after the call.
use std::ffi::c_void;

extern "C" {
    fn mmap(at: *mut c_void, length: usize, protection: i32, flags: i32, file: i32, offset: i64) -> *mut c_void;
    fn mprotect(at: *mut c_void, length: usize, protection: i32) -> i32;
}
const READ_WRITE: i32 = 1 | 2;
const PRIVATE_ANONYMOUS: i32 = 2 | 0x20;
/// a multiple of every page size in use
const FENCE: usize = 1 << 16;
const ZONE: usize = 512;
const PATTERN: u8 = 0xA5;

pub struct Room {
    base: *mut u8,
    size: usize,
}

/// Where in its room a buffer stands.
#[derive(Clone, Copy, PartialEq, Debug)]
pub enum Place {
    AfterFence,
    Between,
    BeforeFence,
}

impl Room {
    pub fn new(size: usize) -> Room {
        let size = size.next_multiple_of(FENCE);
        unsafe {
            let all = mmap(std::ptr::null_mut(), size + 2 * FENCE, 0, PRIVATE_ANONYMOUS, -1, 0);
            assert!(all as isize != -1, "no memory for a room of {size} bytes");
            let base = (all as *mut u8).add(FENCE);
            assert!(mprotect(base as *mut c_void, size, READ_WRITE) == 0, "a room can't be opened");
            Room { base, size }
        }
    }
    /// Copies the numbers into the room and surrounds them.
    pub fn lend<T: Copy>(&mut self, data: &[T], place: Place) -> Lent<T> {
        let bytes = std::mem::size_of_val(data);
        assert!(bytes + 2 * ZONE <= self.size, "a buffer of {bytes} bytes is too large for its room");
        let from = match place {
            Place::AfterFence => 0,
            Place::Between => ZONE,
            Place::BeforeFence => self.size - bytes,
        };
        let (zone_before, zone_after) = (from.min(ZONE), (self.size - from - bytes).min(ZONE));
        unsafe {
            let at = self.base.add(from);
            at.sub(zone_before).write_bytes(PATTERN, zone_before);
            at.add(bytes).write_bytes(PATTERN, zone_after);
            (at as *mut T).copy_from_nonoverlapping(data.as_ptr(), data.len());
            Lent { at: at as *mut T, length: data.len(), zone_before, zone_after }
        }
    }
}

pub struct Lent<T> {
    pub at: *mut T,
    pub length: usize,
    zone_before: usize,
    zone_after: usize,
}

impl<T: Copy + PartialEq> Lent<T> {
    pub fn contents(&self) -> &[T] {
        unsafe { std::slice::from_raw_parts(self.at, self.length) }
    }
    /// The guard zones hold what they held.
    pub fn zones_whole(&self) -> bool {
        unsafe {
            let before = std::slice::from_raw_parts((self.at as *const u8).sub(self.zone_before), self.zone_before);
            let after = std::slice::from_raw_parts(self.at.add(self.length) as *const u8, self.zone_after);
            before.iter().chain(after).all(|&b| b == PATTERN)
        }
    }
}
