// Makes calls that document 01 refuses: a right call, broken so that a wanted number applies, and often broken in a second or third way too. Which number is
// answered is for the table of refusals to say.
use crate::accepted::{make, samples_of, shapes, Shape};
use crate::calls::*;
use crate::random::*;
use crate::wrong_blocks;

/// A call in which `number` applies; for a sub-block, to `component`.
pub fn refused(entry: Entry, number: u8, component: usize, case: u64, r: &mut Random) -> Call {
    let all = shapes(entry);
    let depth = 8 + (case % 7) as u8;
    let mut shape = all[if entry == Entry::SubBlock { r.below(all.len()) } else { case as usize / 7 % all.len() }];
    if entry == Entry::SubBlock {
        shape = sub_shape(number, component, r);
    } else if number == 1 && r.one_in(2) {
        shape = wrong_shape(entry, shape, r); // all else is right
    }
    let mut call = make(entry, shape, depth, r);
    spoil(&mut call, number, component, r);
    // further faults, mostly of numbers that are tested later
    while r.one_in(3) {
        let other = r.pick(entry.numbers());
        if other >= number || r.one_in(8) {
            let c = r.below(3);
            spoil(&mut call, other, c, r);
        }
    }
    call
}

/// A size just outside what is allowed, small enough that buffers for it can be had.
fn wrong_shape(entry: Entry, s: Shape, r: &mut Random) -> Shape {
    let wrong: &[usize] = match entry {
        Entry::Job => &[0, 7, 7, 8],
        Entry::Itxb0 | Entry::Itxb1 | Entry::Dquant | Entry::Diff | Entry::Ssd16b | Entry::Ssd16i => &[7, 7, 8],
        Entry::Satd => &[0, 1, 3, 5, 7, 9, 33, 63, 65, 66, 66, 72, 128],
        _ => &[0, 65, 65, 66, 100, 128],
    };
    let v = r.pick(wrong);
    let first_too = matches!(entry, Entry::Itxb0 | Entry::Itxb1) && r.one_in(3);
    match r.below(3) {
        _ if first_too => Shape { w: r.pick(&[0, 7]), ..s },
        0 => Shape { w: v, ..s },
        1 => Shape { h: v, ..s },
        _ => Shape { w: v, h: r.pick(wrong), ..s },
    }
}

/// Flags and logs under which a number can be the answer for a component: the components that are tested before it must pass.
fn sub_shape(number: u8, component: usize, r: &mut Random) -> Shape {
    let mut flags = 1u8 << component;
    let later = r.below(8) as u8 & !((1 << component) - 1);
    flags |= later;
    if matches!(number, 2 | 5) {
        flags |= r.below(8) as u8;
    }
    if number == 6 {
        flags = if component == 1 { 3 | r.pick(&[0, 4]) } else { r.pick(&[5, 6, 7]) };
    }
    if number == 1 {
        // luma 1 is a size for Y and none for U or V
        let low = component == 1 && r.one_in(2);
        flags |= low as u8;
        let wrong = if low {
            1
        } else if component == 0 {
            r.pick(&[0, 7])
        } else {
            r.pick(&[0, 1, 8])
        };
        let right = if flags & 1 == 1 { r.pick(&[2, 3, 6]) } else { r.pick(&[2, 5, 7]) };
        let (w, h) = r.pick(&[(wrong, right), (right, wrong), (wrong, wrong)]);
        return Shape { w, h, flags };
    }
    let (lo, hi) = match flags {
        1 => (1, 6),
        f if f & 1 == 0 => (2, 7),
        _ => (2, 6),
    };
    // small ones more often: they cost less
    let mut log = || if r.one_in(3) { r.within(lo, hi) as usize } else { r.within(lo, 4) as usize };
    Shape { w: log(), h: log(), flags }
}

/// Breaks a call so that a number applies, in one of several ways. Where the call can't be broken so any more, it stays.
fn spoil(call: &mut Call, number: u8, component: usize, r: &mut Random) {
    let huge = r.huge();
    let shift_above = r.pick(&[32, 32, 33, 40, 63, 64, 65, 127, 128, 255]);
    let log_above = r.pick(&[7, 8, 9, 31, 32, 63, 64, 65, 127, 128, huge, usize::MAX]);
    match (number, &mut *call) {
        (1, Call::Dquant { log2_w, log2_h, .. }) => one_or_both(r, log2_w, log2_h, |_| log_above, *log2_w > 6 || *log2_h > 6),
        (1, Call::Itxb0 { log2_size, log2_line, .. } | Call::Itxb1 { log2_size, log2_line, .. }) => {
            if r.one_in(4) {
                *log2_size = 0;
            } else {
                let done = *log2_size > 6 || *log2_size < 1 || *log2_line > 6;
                one_or_both(r, log2_size, log2_line, |_| log_above, done)
            }
        }
        (1, Call::Job { job, .. }) => {
            let done = !(1..=6).contains(&job.log2_w) || !(1..=6).contains(&job.log2_h);
            one_or_both(r, &mut job.log2_w, &mut job.log2_h, |r| r.pick(&[0, log_above]), done)
        }
        (1, Call::SubBlock { log2_w, log2_h, parts, .. }) => {
            let luma = parts[0].flag;
            let done = (*log2_w < 2 || *log2_h < 2 || *log2_w > 6 || *log2_h > 6) && !r.one_in(3);
            if !(luma && component > 0) {
                one_or_both(r, log2_w, log2_h, |r| r.pick(&[0, log_above.max(8)]), done)
            }
        }
        (2, Call::Job { job, .. }) => job.qp = qp_above(r),
        (2, Call::SubBlock { parts, .. }) => parts[component].qp = qp_above(r),
        (3, Call::Dquant { shift, .. } | Call::Itxb1 { shift, .. }) => *shift = shift_above,
        (3, Call::Job { job: BlockJob { dq_shift, it_shift, .. }, .. } | Call::SubBlock { dq_shift, it_shift, .. }) => match r.below(3) {
            0 => *dq_shift = shift_above,
            1 => *it_shift = shift_above,
            _ => (*dq_shift, *it_shift) = (shift_above, 32),
        },
        (5, Call::Dquant { coef, log2_w, log2_h, .. }) => cut(r, coef, power(*log2_w, *log2_h)),
        (5, Call::Itxb0 { src, dst, log2_size, log2_line }) => match r.below(3) {
            0 => cut(r, src, power(*log2_size, *log2_line)),
            1 => cut(r, dst, power(*log2_size, *log2_line)),
            _ => (cut(r, src, power(*log2_size, *log2_line)), cut(r, dst, power(*log2_size, *log2_line))).0,
        },
        (5, Call::Itxb1 { src, dst, log2_size, log2_line, .. }) => match r.below(3) {
            0 => cut(r, src, power(*log2_size, *log2_line)),
            1 => cut(r, dst, power(*log2_size, *log2_line)),
            _ => (cut(r, src, power(*log2_size, *log2_line)), cut(r, dst, power(*log2_size, *log2_line))).0,
        },
        (5, Call::Job { coef, job }) => {
            let n = power(job.log2_w, job.log2_h);
            if r.one_in(3) {
                cut(r, coef, job.start.saturating_add(n))
            } else {
                job.start = start_beyond(r, coef.len(), n)
            }
        }
        (5, Call::SubBlock { coef, log2_w, log2_h, parts, .. }) => {
            let n = samples_of(*log2_w, *log2_h, component);
            let start = parts[component].start;
            // cut the buffer where no other component stands behind
            let behind = (0..3).any(|c| parts[c].flag && c != component && parts[c].start > start);
            if r.one_in(3) && !behind {
                cut(r, coef, start.saturating_add(n))
            } else {
                parts[component].start = start_beyond(r, coef.len(), n)
            }
        }
        (6, Call::SubBlock { coef, log2_w, log2_h, parts, .. }) => overlap(coef, (*log2_w, *log2_h), parts, component, r),
        (_, Call::Compare(c)) => wrong_blocks::spoil(c, number, r),
        _ => {}
    }
}

/// Makes one of two sides wrong, or both.
pub fn one_or_both(r: &mut Random, a: &mut usize, b: &mut usize, mut wrong: impl FnMut(&mut Random) -> usize, done: bool) {
    if done {
        return; // made wrong already: leave it just outside
    }
    match r.below(3) {
        0 => *a = wrong(r),
        1 => *b = wrong(r),
        _ => (*a, *b) = (wrong(r), wrong(r)),
    }
}
fn qp_above(r: &mut Random) -> u8 {
    let any = r.within(64, 255) as u8;
    r.pick(&[64, 64, 65, 127, 128, 255, any])
}
fn power(log2_w: usize, log2_h: usize) -> usize {
    1 << log2_w.saturating_add(log2_h).min(20)
}
/// One short most of the time, else empty or far short.
pub fn cut<T>(r: &mut Random, buffer: &mut Vec<T>, need: usize) {
    let far = r.below(need.max(1));
    buffer.truncate(r.pick(&[need - 1, need - 1, need - 1, 0, far]))
}
/// A start whose area ends one sample past the buffer, or further, or wraps into it.
fn start_beyond(r: &mut Random, length: usize, n: usize) -> usize {
    let huge = r.huge();
    let one_later = (length + 1).saturating_sub(n);
    let wraps = usize::MAX - r.below(2 * n + 2);
    r.pick(&[one_later, one_later, one_later, length, length + 1, huge, wraps, usize::MAX - n + 1, usize::MAX - n, usize::MAX])
}

/// Moves two flagged components onto each other, often by one sample alone; the later one is `component`.
fn overlap(coef: &mut Vec<i16>, (log2_w, log2_h): (usize, usize), parts: &mut [Part; 3], component: usize, r: &mut Random) {
    let first = match component {
        1 => 0,
        _ if parts[0].flag && parts[1].flag => r.below(2),
        _ if parts[0].flag => 0,
        _ => 1,
    };
    if component == 0 || !parts[first].flag || !parts[component].flag || log2_w > 7 || log2_h > 7 {
        return;
    }
    let (n, m) = (samples_of(log2_w, log2_h, first), samples_of(log2_w, log2_h, component));
    // room before and after for every way to overlap, clear of the third component
    let base = coef.len() + m;
    let more = numbers(r, 2 * m + n, -300, 300);
    coef.extend(more.into_iter().map(|v| v as i16));
    parts[first].start = base;
    let any = base - m + 1 + r.below(n + m - 1);
    parts[component].start = r.pick(&[base - m + 1, base + n - 1, base, any, any]);
    // the other chroma on top, now and then: the first pair counts
    if component == 1 && parts[2].flag && r.one_in(2) {
        let again = base - m + 1 + r.below(n + m - 1);
        parts[2].start = r.pick(&[again, parts[1].start]);
    }
}
