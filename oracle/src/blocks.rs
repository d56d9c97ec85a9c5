// Makes the distortion calls that document 01 accepts: planes, packed blocks, bi-prediction values, positions.
use crate::accepted::{over, shorts, Shape};
use crate::calls::*;
use crate::random::*;

/// The range from which a call's samples come: all of it, or a narrow window, so that differences are small.
fn range(depth: u8, r: &mut Random) -> (i64, i64) {
    let top = (1i64 << depth) - 1;
    if r.one_in(2) {
        return (0, top);
    }
    let width = 1i64 << r.below(depth as usize + 1);
    let from = r.within(0, top);
    (from, (from + width - 1).min(top))
}
fn samples(r: &mut Random, n: usize, (lo, hi): (i64, i64)) -> Vec<u16> {
    numbers(r, n, lo, hi).into_iter().map(|v| v as u16).collect()
}

/// A distortion call of the given size that is right in all but, perhaps, that size.
pub fn compare(entry: Entry, s: Shape, depth: u8, r: &mut Random) -> Compare {
    let (w, h) = if entry.by_logs() { (1 << s.w, 1 << s.h) } else { (s.w, s.h) };
    let n = w * h;
    let range = range(depth, r);
    let inside = |r: &mut Random| {
        let (x, y) = (r.some(9), r.some(9));
        let plane = plane(r, (x, x + w), (y, y + h), depth, range);
        Source::Inside { plane, x, y }
    };
    let packed = |r: &mut Random| {
        let mut v = samples(r, n, range);
        let more = over(r);
        v.resize(n + more, 65535); // never read, so no SAMPLE
        Source::Packed(v)
    };
    let bi = |r: &mut Random| {
        let (lo, hi) = if r.one_in(2) { range } else { (-16384, 32767) };
        let mut v: Vec<i16> = numbers(r, n, lo, hi).into_iter().map(|v| v as i16).collect();
        let more = over(r);
        v.resize(n + more, i16::MIN);
        Source::Bi(v)
    };
    let (x, mut y) = (signed(r, w), signed(r, h));
    if x > 9 {
        y = y.min(9); // far right and far down would take a plane of 16,384 by 16,384
    }
    let edges = |r: &mut Random| Source::Edges { plane: plane(r, read(x, w), read(y, h), depth, range), x, y };
    let (a, b) = match entry {
        Entry::Ssd16i => (edges(r), edges(r)),
        Entry::Sad16b => (inside(r), edges(r)),
        Entry::SadBi16b => (bi(r), edges(r)),
        Entry::SadBi16i => (bi(r), packed(r)),
        _ => (inside(r), packed(r)),
    };
    let diff = if entry == Entry::Diff { shorts(r, n) } else { Vec::new() };
    Compare { entry, a, b, w: s.w, h: s.h, depth, diff }
}

/// A signed position of n places: inside, mixed, wholly negative, the lowest of all, far right.
fn signed(r: &mut Random, n: usize) -> i16 {
    match r.below(12) {
        0..=2 => r.below(10) as i16,
        3..=5 if n > 1 => -(1 + r.below(n - 1) as i16),
        6 => -(n as i16) - r.below(20) as i16,
        7 => i16::MIN,
        8 => -1,
        9 if r.one_in(20) => (16384 - n.max(1)) as i16,
        _ => 0,
    }
}
/// The places from..to of a row or column that a signed position of n places reads.
fn read(at: i16, n: usize) -> (usize, usize) {
    (at.max(0) as usize, (at as i64 + n as i64).max(1) as usize)
}

/// A plane in which the columns and rows given are read. What isn't read is too large for a sample half of the time, and behind each row always.
fn plane(r: &mut Random, (left, right): (usize, usize), (top, bottom): (usize, usize), depth: u8, range: (i64, i64)) -> Plane {
    // (a side stays within 16,384 unless the block itself goes further)
    let mut side = |end: usize| (end.max(1) + r.some(9)).min(16384.max(end));
    let (mut width, mut height) = (side(right), side(bottom));
    // a side of 16,384 now and then, where that makes no huge plane
    if r.one_in(60) && height <= 16 {
        width = width.max(16384);
    } else if r.one_in(60) && width <= 16 {
        height = height.max(16384);
    }
    let mut stride = width + r.some(20);
    let over = over(r);
    let length = (height - 1) * stride + width + over;
    if height == 1 && r.one_in(2) {
        let huge = r.huge();
        stride = r.pick(&[huge, usize::MAX, isize::MAX as usize, isize::MAX as usize + 1]);
    }
    let too_large = r.pick(&[65535u16, 1 << depth]);
    let mut samples = vec![too_large; length];
    if r.one_in(2) {
        let mask = (1u64 << depth) - 1;
        for row in 0..height {
            samples[row * stride..][..width].fill_with(|| (r.next() & mask) as u16);
        }
    }
    let (columns, rows) = (right.saturating_sub(left), bottom.saturating_sub(top));
    if columns > 0 {
        for (k, v) in self::samples(r, columns * rows, range).chunks(columns).enumerate() {
            samples[(top + k) * stride + left..][..columns].copy_from_slice(v);
        }
    }
    Plane { samples, width, height, stride }
}
