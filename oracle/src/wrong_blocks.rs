// Breaks distortion calls: sizes, depths, areas, planes, samples.
use crate::calls::*;
use crate::faults::{cut, one_or_both};
use crate::random::*;

/// Breaks a distortion call so that a number applies. Where it can't be broken so any more, it stays.
pub fn spoil(c: &mut Compare, number: u8, r: &mut Random) {
    let by_logs = c.entry.by_logs();
    match number {
        1 => {
            let huge = r.huge();
            let wrong = if by_logs {
                r.pick(&[7, 8, 9, 14, 15, 16, 31, 32, 63, 64, 65, huge, usize::MAX])
            } else {
                r.pick(&[0, 65, 66, 127, 128, huge, usize::MAX, usize::MAX - 63, 1 << 63])
            };
            let odd = c.entry == Entry::Satd && r.one_in(3);
            let done = if by_logs { c.w > 6 || c.h > 6 } else { c.w > 64 || c.h > 64 || c.w == 0 || c.h == 0 };
            one_or_both(r, &mut c.w, &mut c.h, |r| if odd { 2 * r.below(32) + 1 } else { wrong }, done)
        }
        4 => {
            let any = r.next() as u8;
            let any = if (8..=14).contains(&any) { 0 } else { any };
            c.depth = r.pick(&[7, 7, 15, 15, 0, 1, 6, 16, 31, 32, 63, 64, 128, 255, any])
        }
        5 => {
            let (w, h) = sides(c);
            if c.entry == Entry::Diff && r.one_in(4) {
                return cut(r, &mut c.diff, (w * h).max(1));
            }
            let shared = c.entry == Entry::Ssd16i && r.one_in(2);
            let which = r.one_in(2);
            let s = if which { &mut c.a } else { &mut c.b };
            outside(s, w, h, r);
            if shared || c.entry == Entry::Ssd16i {
                // one position for both planes
                if let (Source::Edges { x, y, .. }, Source::Edges { x: x2, y: y2, .. }) = (&mut c.a, &mut c.b) {
                    if which {
                        (*x2, *y2) = (*x, *y)
                    } else {
                        (*x, *y) = (*x2, *y2)
                    }
                }
            }
        }
        7 => {
            let (w, h) = sides(c);
            if w > 0 && h > 0 {
                let depth = c.depth.clamp(8, 14);
                for s in [&mut c.a, &mut c.b] {
                    if r.one_in(2) {
                        bad_sample(s, w, h, depth, r);
                    }
                }
            }
        }
        _ => {}
    }
}

/// The block's sides, cut at 128 where they are wrong.
fn sides(c: &Compare) -> (usize, usize) {
    if c.entry.by_logs() {
        (1 << c.w.min(7), 1 << c.h.min(7))
    } else {
        (c.w.min(128), c.h.min(128))
    }
}

/// Puts a block outside its buffer or plane, or breaks the plane.
fn outside(s: &mut Source, w: usize, h: usize, r: &mut Random) {
    let huge = r.huge();
    let wraps = |n: usize, r: &mut Random| usize::MAX - r.below(n + 2);
    match s {
        Source::Packed(v) => cut(r, v, (w * h).max(1)),
        Source::Bi(v) => cut(r, v, (w * h).max(1)),
        Source::Inside { plane, x, y } => match r.below(12) {
            0 | 1 => *x = plane.width.saturating_add(1).saturating_sub(w),
            2 | 3 => *y = plane.height.saturating_add(1).saturating_sub(h),
            4 => *x = r.pick(&[huge, (usize::MAX - w).saturating_add(1)]),
            5 => *y = r.pick(&[huge, (usize::MAX - h).saturating_add(1)]),
            6 => (*x, *y) = (wraps(w, r), wraps(h, r)),
            _ => no_plane(plane, r),
        },
        Source::Edges { plane, x, y } => match r.below(12) {
            0 | 1 => *x = past(plane.width, w),
            2 | 3 => *y = past(plane.height, h),
            4 => *x = r.pick(&[i16::MAX, 16384, 16383]),
            5 => *y = r.pick(&[i16::MAX, 16384, 16383]),
            6 => (*x, *y) = (-1, past(plane.height, h)),
            _ => no_plane(plane, r),
        },
    }
}
/// The first position at which n places reach past a side.
fn past(side: usize, n: usize) -> i16 {
    (side as i128 - n as i128 + 1).clamp(i16::MIN as i128, i16::MAX as i128) as i16
}

fn no_plane(p: &mut Plane, r: &mut Random) {
    let huge = r.huge();
    match r.below(11) {
        0 | 1 => {
            let need = (p.height as u128).saturating_sub(1) * p.stride as u128 + p.width as u128;
            if need <= p.samples.len() as u128 {
                p.samples.truncate((need as usize).saturating_sub(1));
            }
        }
        2 => p.samples.clear(),
        3 => p.stride = p.width.saturating_sub(1),
        4 => p.stride = r.below(p.width.max(1)),
        5 | 6 if p.height > 1 => {
            // the product with the rows wraps to something small
            let rows = p.height - 1;
            p.stride = r.pick(&[huge, usize::MAX, (usize::MAX / rows).saturating_add(1), 1 << 63])
        }
        7 => p.width = r.pick(&[0, huge, 16385]),
        8 => p.height = r.pick(&[0, huge, 16385]),
        _ => {
            // one past the largest side, and all else right
            if r.one_in(2) && p.height <= 16 || p.width > 8 {
                p.width = 16385;
                p.stride = p.stride.max(p.width).min(1 << 15).max(p.width);
            } else {
                p.height = 16385;
                p.stride = p.stride.clamp(p.width.max(1), 1 << 7);
            }
            if p.width.saturating_mul(p.height.min(1 << 15)) <= 1 << 20 {
                p.samples.resize(p.samples.len().max(p.height.saturating_sub(1) * p.stride + p.width), 0);
            }
        }
    }
}

/// Puts a value that is out of range where it is read: at a corner, or anywhere in the block.
fn bad_sample(s: &mut Source, w: usize, h: usize, depth: u8, r: &mut Random) {
    let any = (r.below(h), r.below(w));
    let (j, i) = r.pick(&[(0, 0), (h - 1, w - 1), (0, w - 1), (h - 1, 0), any, any, any]);
    let limit = 1u16 << depth;
    let large = r.within(limit as i64, 65535) as u16;
    let large = r.pick(&[limit, limit, 65535, 32768.max(limit), large]);
    match s {
        Source::Inside { plane, x, y } => put(plane, y.saturating_add(j), x.saturating_add(i), large),
        Source::Edges { plane, x, y } => {
            let at = |start: i16, k: usize| (start as i64 + k as i64).max(0) as usize;
            put(plane, at(*y, j), at(*x, i), large)
        }
        Source::Packed(v) => {
            if let Some(p) = v.get_mut(j * w + i) {
                *p = large
            }
        }
        Source::Bi(v) => {
            let low = r.within(-32768, -16385) as i16;
            if let Some(p) = v.get_mut(j * w + i) {
                *p = r.pick(&[-16385, -16385, i16::MIN, low])
            }
        }
    }
}
fn put(p: &mut Plane, row: usize, column: usize, v: u16) {
    let at = row as u128 * p.stride as u128 + column as u128;
    if at < p.samples.len() as u128 {
        p.samples[at as usize] = v
    }
}
