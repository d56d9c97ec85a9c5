// The expected refusals: document 01's table, "Refusal numbers, in the order they are tested", and nothing else. Written without a look at the
// library, its definitions or the Rust. All arithmetic on starts, sides, strides and lengths is exact, in u128 and i128.
use crate::calls::*;

/// A test that is broken: its number and, in a sub-block call, the component that it names.
#[derive(Clone, Copy, PartialEq, Debug)]
pub struct Broken {
    pub number: u8,
    pub component: Option<u8>,
}

const SIZE: u8 = 1;
const QP: u8 = 2;
const SHIFT: u8 = 3;
const DEPTH: u8 = 4;
const AREA: u8 = 5;
const OVERLAP: u8 = 6;
const SAMPLE: u8 = 7;

/// The number that is answered (0 where nothing is broken) and the component that it names.
pub fn answer(call: &Call) -> (u8, Option<u8>) {
    broken(call).first().map_or((0, None), |b| (b.number, b.component))
}

/// The broken tests, in the order in which they are tested. SAMPLE has a meaning only where sizes, depth and areas hold, OVERLAP where all else does.
pub fn broken(call: &Call) -> Vec<Broken> {
    let mut out = Vec::new();
    match call {
        Call::Dquant { coef, log2_w, log2_h, shift, .. } => {
            test(&mut out, SIZE, *log2_w > 6 || *log2_h > 6);
            test(&mut out, SHIFT, *shift > 31);
            test(&mut out, AREA, coef.len() as u128 <= last(0, *log2_w, *log2_h));
        }
        Call::Itxb0 { src, dst, log2_size, log2_line } => {
            test(&mut out, SIZE, !(1..=6).contains(log2_size) || *log2_line > 6);
            let last = last(0, *log2_size, *log2_line);
            test(&mut out, AREA, src.len() as u128 <= last || dst.len() as u128 <= last);
        }
        Call::Itxb1 { src, dst, log2_size, log2_line, shift } => {
            test(&mut out, SIZE, !(1..=6).contains(log2_size) || *log2_line > 6);
            test(&mut out, SHIFT, *shift > 31);
            let last = last(0, *log2_size, *log2_line);
            test(&mut out, AREA, src.len() as u128 <= last || dst.len() as u128 <= last);
        }
        Call::Job { coef, job } => one_job(&mut out, None, coef.len(), job, false),
        Call::SubBlock { coef, log2_w, log2_h, offset, dq_shift, it_shift, parts } => {
            for (c, p) in parts.iter().enumerate().filter(|(_, p)| p.flag) {
                // a chroma log of one less than 0 is no size, so it is SIZE
                let less = (c > 0) as usize;
                let none = *log2_w < less || *log2_h < less;
                let (log2_w, log2_h) = (log2_w.saturating_sub(less), log2_h.saturating_sub(less));
                let job = BlockJob { start: p.start, log2_w, log2_h, qp: p.qp, offset: *offset, dq_shift: *dq_shift, it_shift: *it_shift };
                one_job(&mut out, Some(c as u8), coef.len(), &job, none);
            }
            if out.is_empty() {
                for (c, d) in [(0, 1), (0, 2), (1, 2)] {
                    let samples = |k: usize| {
                        let from = parts[k].start as u128;
                        from..from + (1u128 << (log2_w + log2_h - if k > 0 { 2 } else { 0 }))
                    };
                    if parts[c].flag && parts[d].flag {
                        let (a, b) = (samples(c), samples(d));
                        if a.start < b.end && b.start < a.end {
                            out.push(Broken { number: OVERLAP, component: Some(d as u8) });
                        }
                    }
                }
            }
        }
        Call::Compare(c) => {
            test(&mut out, SIZE, !side_allowed(c.entry, c.w) || !side_allowed(c.entry, c.h));
            test(&mut out, DEPTH, !(8..=14).contains(&c.depth));
            let (w, h) = if c.entry.by_logs() { (power(c.w), power(c.h)) } else { (c.w as u128, c.h as u128) };
            let short = c.entry == Entry::Diff && (c.diff.len() as u128) < w.saturating_mul(h);
            test(&mut out, AREA, outside(&c.a, w, h) || outside(&c.b, w, h) || short);
            if out.is_empty() {
                test(&mut out, SAMPLE, bad_sample(&c.a, w, h, c.depth) || bad_sample(&c.b, w, h, c.depth));
            }
        }
    }
    out
}

fn test(out: &mut Vec<Broken>, number: u8, broken: bool) {
    if broken {
        out.push(Broken { number, component: None });
    }
}

/// The tests 1 to 5 of a job.
fn one_job(out: &mut Vec<Broken>, component: Option<u8>, length: usize, j: &BlockJob, no_size: bool) {
    let mut t = |number, broken| {
        if broken {
            out.push(Broken { number, component });
        }
    };
    t(SIZE, no_size || !(1..=6).contains(&j.log2_w) || !(1..=6).contains(&j.log2_h));
    t(QP, j.qp > 63);
    t(SHIFT, j.dq_shift > 31 || j.it_shift > 31);
    t(AREA, length as u128 <= last(j.start, j.log2_w, j.log2_h));
}

/// 2^log; a log above 100 is cut there, which is beyond every buffer all the same.
fn power(log: usize) -> u128 {
    1u128 << log.min(100)
}

/// The place of the last sample of a packed area.
fn last(start: usize, log2_w: usize, log2_h: usize) -> u128 {
    start as u128 + power(log2_w.saturating_add(log2_h)) - 1
}

fn side_allowed(entry: Entry, side: usize) -> bool {
    match entry {
        Entry::Satd => (2..=64).contains(&side) && side % 2 == 0,
        Entry::Diff | Entry::Ssd16b | Entry::Ssd16i => side <= 6,
        _ => (1..=64).contains(&side),
    }
}

/// A plane that breaks document 01's rule for planes.
fn no_plane(p: &Plane) -> bool {
    let (width, height, stride) = (p.width as u128, p.height as u128, p.stride as u128);
    let sides = (1..=16384).contains(&width) && (1..=16384).contains(&height);
    !sides || stride < width || (p.samples.len() as u128) < (height - 1) * stride + width
}

/// The block isn't wholly inside its buffer or plane.
fn outside(s: &Source, w: u128, h: u128) -> bool {
    match s {
        Source::Inside { plane, x, y } => no_plane(plane) || *x as u128 + w > plane.width as u128 || *y as u128 + h > plane.height as u128,
        Source::Edges { plane, x, y } => {
            // w and h may be far above every plane's sides: cut where that changes nothing
            let past = |at: i16, n: u128, side: usize| at as i128 + n.min(1 << 70) as i128 > side as i128;
            no_plane(plane) || past(*x, w, plane.width) || past(*y, h, plane.height)
        }
        Source::Packed(v) => (v.len() as u128) < w.saturating_mul(h),
        Source::Bi(v) => (v.len() as u128) < w.saturating_mul(h),
    }
}

/// Some sample that is read is out of range. Sides and areas hold here.
fn bad_sample(s: &Source, w: u128, h: u128, depth: u8) -> bool {
    let (w, h) = (w as usize, h as usize);
    let large = |v: u16| v as u128 >= 1u128 << depth;
    match s {
        Source::Inside { plane, x, y } => (*y..y + h).any(|r| plane.samples[r * plane.stride + x..][..w].iter().any(|&v| large(v))),
        Source::Edges { plane, x, y } => {
            let reads = |at: i16, k: usize| (at as i128 + k as i128).max(0) as usize;
            (0..h).any(|j| (0..w).any(|i| large(plane.samples[reads(*y, j) * plane.stride + reads(*x, i)])))
        }
        Source::Packed(v) => v[..w * h].iter().any(|&v| large(v)),
        Source::Bi(v) => v[..w * h].iter().any(|&v| v < -16384),
    }
}
