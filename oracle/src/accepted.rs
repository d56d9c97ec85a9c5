// Makes calls that document 01 accepts, one size and depth after another. `make` also serves the faults: handed a size that isn't allowed, it makes a
// call that is right in all else.
use crate::blocks;
use crate::calls::*;
use crate::random::*;

/// A size as an entry point is handed it, and for a sub-block the flags: bit 0 Y, bit 1 U, bit 2 V.
#[derive(Clone, Copy, PartialEq, Debug)]
pub struct Shape {
    pub w: usize,
    pub h: usize,
    pub flags: u8,
}

/// Every size that an entry point allows.
pub fn shapes(entry: Entry) -> Vec<Shape> {
    let grid = |ws: std::ops::RangeInclusive<usize>, hs: std::ops::RangeInclusive<usize>, step: usize, flags: u8| {
        let hs = hs.step_by(step);
        hs.flat_map(move |h| ws.clone().step_by(step).map(move |w| Shape { w, h, flags })).collect::<Vec<_>>()
    };
    match entry {
        Entry::Dquant | Entry::Diff | Entry::Ssd16b | Entry::Ssd16i => grid(0..=6, 0..=6, 1, 0),
        // w is the log of the size, h of the lines
        Entry::Itxb0 | Entry::Itxb1 => grid(1..=6, 0..=6, 1, 0),
        Entry::Job => grid(1..=6, 1..=6, 1, 0),
        Entry::SubBlock => (0..8)
            .flat_map(|flags| match flags {
                0 => vec![Shape { w: 0, h: 0, flags }],
                1 => grid(1..=6, 1..=6, 1, flags),
                f if f & 1 == 0 => grid(2..=7, 2..=7, 1, flags),
                _ => grid(2..=6, 2..=6, 1, flags),
            })
            .collect(),
        Entry::Satd => grid(2..=64, 2..=64, 2, 0),
        _ => grid(1..=64, 1..=64, 1, 0),
    }
}

/// A call of the given size that is right in all but, perhaps, that size.
pub fn make(entry: Entry, s: Shape, depth: u8, r: &mut Random) -> Call {
    match entry {
        Entry::Dquant => {
            let coef = shorts(r, 1 << (s.w + s.h));
            let shift = any_shift(r);
            Call::Dquant { coef, log2_w: s.w, log2_h: s.h, scale: any_scale(r), offset: any_offset(r, shift), shift }
        }
        Entry::Itxb0 => {
            let n = 1 << (s.w + s.h);
            Call::Itxb0 { src: shorts(r, n), dst: longs(r, n), log2_size: s.w, log2_line: s.h }
        }
        Entry::Itxb1 => {
            let n = 1 << (s.w + s.h);
            Call::Itxb1 { src: longs(r, n), dst: shorts(r, n), log2_size: s.w, log2_line: s.h, shift: any_shift(r) }
        }
        Entry::Job => {
            let start = r.some(40);
            let coef = shorts(r, start + (1 << (s.w + s.h)));
            let (dq_shift, it_shift) = job_shifts(r);
            let job = BlockJob { start, log2_w: s.w, log2_h: s.h, qp: r.below(64) as u8, offset: any_offset(r, dq_shift), dq_shift, it_shift };
            Call::Job { coef, job }
        }
        Entry::SubBlock if s.flags == 0 => no_flag(r),
        Entry::SubBlock if matches!(s.flags, 1 | 2 | 4 | 6) && (1..7).contains(&s.w) && (1..7).contains(&s.h) && r.one_in(4) => {
            driver_sub_block(s, depth, r)
        }
        Entry::SubBlock => sub_block(s, r),
        _ => Call::Compare(blocks::compare(entry, s, depth, r)),
    }
}

// ---- arguments of the transform

/// What a buffer has beyond its need: nothing half of the time, else one sample, else some.
pub fn over(r: &mut Random) -> usize {
    match r.below(4) {
        0 | 1 => 0,
        2 => 1,
        _ => r.below(40),
    }
}
/// A buffer for n numbers, or for more.
pub fn shorts(r: &mut Random, n: usize) -> Vec<i16> {
    let n = n + over(r);
    numbers(r, n, i16::MIN as i64, i16::MAX as i64).into_iter().map(|v| v as i16).collect()
}
fn longs(r: &mut Random, n: usize) -> Vec<i32> {
    let n = n + over(r);
    numbers(r, n, i32::MIN as i64, i32::MAX as i64).into_iter().map(|v| v as i32).collect()
}
fn any_shift(r: &mut Random) -> u8 {
    if r.one_in(6) {
        r.pick(&[0, 1, 31])
    } else {
        r.below(32) as u8
    }
}
/// Half of the time shifts under which results are neither 0 nor clipped.
fn job_shifts(r: &mut Random) -> (u8, u8) {
    if r.one_in(2) {
        (any_shift(r), any_shift(r))
    } else {
        (4 + r.below(12) as u8, 8 + r.below(10) as u8)
    }
}
fn any_scale(r: &mut Random) -> i32 {
    let number = r.pick(&[40, 45, 51, 57, 64, 71]) << r.below(11);
    let any = r.next() as i32;
    r.pick(&[number, number, number, any, any, i32::MIN, i32::MAX, 0, 1, -1, -number])
}
fn any_offset(r: &mut Random, shift: u8) -> i32 {
    let half = if shift == 0 { 0 } else { 1i32 << (shift - 1).min(30) };
    let any = r.next() as i32;
    r.pick(&[half, half, half, 0, any, any, i32::MIN, i32::MAX, -1, 1])
}

// ---- sub-blocks

/// Start and qp of a component that isn't flagged: anything at all.
fn anything(r: &mut Random) -> Part {
    let (start, any) = (r.huge(), r.below(9000));
    Part { flag: false, start: r.pick(&[start, any, 0]), qp: r.next() as u8 }
}
fn no_flag(r: &mut Random) -> Call {
    let n = r.below(20);
    let (huge, small) = (r.huge(), r.below(9));
    Call::SubBlock {
        coef: shorts(r, n),
        log2_w: r.pick(&[huge, small]),
        log2_h: r.pick(&[huge, small]),
        offset: r.next() as i32,
        dq_shift: r.next() as u8,
        it_shift: r.next() as u8,
        parts: std::array::from_fn(|_| anything(r)),
    }
}
/// How many samples a component has; a chroma log below 0 counts as 0.
pub fn samples_of(log2_w: usize, log2_h: usize, component: usize) -> usize {
    let less = (component > 0) as usize;
    1 << (log2_w.saturating_sub(less).min(20) + log2_h.saturating_sub(less).min(20))
}
/// The flagged components side by side in any order, most often touching.
fn sub_block(s: Shape, r: &mut Random) -> Call {
    let orders = [[0, 1, 2], [0, 2, 1], [1, 0, 2], [1, 2, 0], [2, 0, 1], [2, 1, 0]];
    let mut parts: [Part; 3] = std::array::from_fn(|_| anything(r));
    let mut at = r.some(30);
    for c in r.pick(&orders) {
        if s.flags >> c & 1 == 1 {
            parts[c] = Part { flag: true, start: at, qp: r.below(64) as u8 };
            at += samples_of(s.w, s.h, c) + r.some(9);
        }
    }
    let last = (0..3).filter(|&c| parts[c].flag).map(|c| parts[c].start + samples_of(s.w, s.h, c)).max().unwrap_or(0);
    let (dq_shift, it_shift) = job_shifts(r);
    let coef = shorts(r, last);
    Call::SubBlock { coef, log2_w: s.w, log2_h: s.h, offset: any_offset(r, dq_shift), dq_shift, it_shift, parts }
}

/// Dequantization shift, offset and stage shift that the source's driver picks for a component of these logs.
fn driver_choice(log2_w: usize, log2_h: usize, depth: u8) -> (u8, i32, u8) {
    let odd = if (log2_w + log2_h) % 2 == 1 { 8 } else { 0 };
    let shift = depth + ((log2_w + log2_h) / 2) as u8 - 9 + odd;
    (shift, if shift == 0 { 0 } else { 1 << (shift - 1) }, 27 - depth)
}
const OWN_STARTS: [usize; 3] = [0, 4096, 5120];

/// A sub-block as the source's own call takes it: its starts, and what its driver picks. That is one choice for Y and another for U and V, and document 01's
/// call shares one, so Y never comes together with U or V here.
fn driver_sub_block(s: Shape, depth: u8, r: &mut Random) -> Call {
    let less = (s.flags & 1 == 0) as usize;
    let (log2_w, log2_h) = (s.w.max(1 + less) - less, s.h.max(1 + less) - less);
    let (dq_shift, offset, it_shift) = driver_choice(log2_w, log2_h, depth);
    let parts = std::array::from_fn(|c| Part { flag: s.flags >> c & 1 == 1, start: OWN_STARTS[c], qp: r.below(64) as u8 });
    let coef = shorts(r, 6144);
    Call::SubBlock { coef, log2_w: s.w, log2_h: s.h, offset, dq_shift, it_shift, parts }
}

/// The source's own sub-block call can be asked for this one.
pub fn has_driver_form(call: &Call, depth: u8) -> bool {
    let Call::SubBlock { coef, log2_w, log2_h, offset, dq_shift, it_shift, parts } = call else { return false };
    let flags = parts.iter().enumerate().fold(0, |f, (c, p)| f | (p.flag as u8) << c);
    let less = (flags & 1 == 0) as usize;
    matches!(flags, 1 | 2 | 4 | 6)
        && coef.len() >= 6144
        && (0..3).all(|c| parts[c].start == OWN_STARTS[c])
        && (*dq_shift, *offset, *it_shift) == driver_choice(log2_w - less, log2_h - less, depth)
}
