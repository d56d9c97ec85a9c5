// Document 01's arithmetic, directly: no halving, no shortcuts, quotients by div_euclid. A third reading beside the Rust and the library; its twists are
// the mutants of mutants.rs. Only for calls that are accepted.
use crate::calls::*;
use std::sync::OnceLock;

/// A way to get it wrong.
#[derive(Clone, Copy, PartialEq, Debug)]
pub enum Twist {
    None,
    /// the SSD's total is shifted, not each square
    SsdTotal,
    /// each absolute difference of a SAD is shifted, not the total
    SadPerSample,
    /// negative quotients are rounded toward zero
    TowardZero,
    /// the rounding number for shift 0 is 1
    OneAtShiftZero,
    /// a stage leaves its output untransposed
    Untransposed,
    /// only the first tile's DC is divided by 4
    FirstTileOnly,
    /// a signed position is cut at 0 once, for the whole block
    CutOnce,
}

/// The value and the written buffer of an accepted call.
pub fn result(call: &Call, twist: Twist) -> (Option<i64>, Left) {
    match call {
        Call::Dquant { coef, log2_w, log2_h, scale, offset, shift } => {
            let mut out = coef.clone();
            dequantize(&mut out[..1 << (log2_w + log2_h)], *scale as i64, *offset, *shift, twist);
            (None, Left::Short(out))
        }
        Call::Itxb0 { src, dst, log2_size, log2_line } => {
            let mut out = dst.clone();
            let x: Vec<i64> = src.iter().map(|&v| v as i64).collect();
            stage(&x, 1 << log2_size, 1 << log2_line, twist, |at, sum| out[at] = clip(sum, 31) as i32);
            (None, Left::Long(out))
        }
        Call::Itxb1 { src, dst, log2_size, log2_line, shift } => {
            let mut out = dst.clone();
            let x: Vec<i64> = src.iter().map(|&v| v as i64).collect();
            stage(&x, 1 << log2_size, 1 << log2_line, twist, |at, sum| out[at] = rounded(sum, *shift, twist));
            (None, Left::Short(out))
        }
        Call::Job { coef, job } => {
            let mut out = coef.clone();
            run_job(&mut out, job, twist);
            (None, Left::Short(out))
        }
        Call::SubBlock { coef, log2_w, log2_h, offset, dq_shift, it_shift, parts } => {
            let mut out = coef.clone();
            for (c, p) in parts.iter().enumerate().filter(|(_, p)| p.flag) {
                let less = (c > 0) as usize;
                let (log2_w, log2_h) = (log2_w - less, log2_h - less);
                let job = BlockJob { start: p.start, log2_w, log2_h, qp: p.qp, offset: *offset, dq_shift: *dq_shift, it_shift: *it_shift };
                run_job(&mut out, &job, twist);
            }
            (None, Left::Short(out))
        }
        Call::Compare(c) => compare(c, twist),
    }
}

// ---- the transform

/// A quotient by 2^shift, rounded toward minus infinity.
fn quotient(n: i64, shift: u8, twist: Twist) -> i64 {
    let d = 1i64 << shift;
    if twist == Twist::TowardZero {
        n / d
    } else {
        n.div_euclid(d)
    }
}

fn clip(v: i64, bits: u32) -> i64 {
    v.clamp(-(1i64 << bits), (1i64 << bits) - 1)
}

pub fn scale(qp: u8) -> i64 {
    [40i64, 45, 51, 57, 64, 71][qp as usize % 6] * 2i64.pow(qp as u32 / 6)
}

fn dequantize(area: &mut [i16], scale: i64, offset: i32, shift: u8, twist: Twist) {
    for v in area {
        *v = clip(quotient(*v as i64 * scale + offset as i64, shift, twist), 15) as i16;
    }
}

const C: [i32; 63] = [
    90, 90, 90, 90, 90, 90, 89, 89, 88, 88, 87, 87, 86, 85, 84, 84, 83, 82, 81, 80, 79, 78, 76, 75, 74, 73, 71, 70, 69, 67, 66, 64, 62, 61, 59, 57,
    56, 54, 52, 50, 48, 47, 45, 43, 41, 39, 37, 35, 33, 30, 28, 26, 24, 22, 20, 18, 15, 13, 11, 9, 7, 4, 2,
];

/// Row k, column n of size 64.
fn entry(k: usize, n: usize) -> i64 {
    let c = |m: usize| C[m - 1] as i64;
    match (2 * n + 1) * k % 256 {
        _ if k == 0 => 64,
        r @ 1..=63 => c(r),
        r @ 65..=127 => -c(128 - r),
        r @ 129..=191 => -c(r - 128),
        r @ 193..=255 => c(256 - r),
        r => unreachable!("{r} is a multiple of 64"),
    }
}

/// The table of a size, row after row.
pub fn table(size: usize) -> Vec<i64> {
    (0..size * size).map(|p| entry(p / size * (64 / size), p % size)).collect()
}

fn tables() -> &'static [Vec<i64>; 7] {
    static TABLES: OnceLock<[Vec<i64>; 7]> = OnceLock::new();
    TABLES.get_or_init(|| std::array::from_fn(|log| table(1 << log)))
}

/// Sum over k of table[k][n]·in[k·L+j], to place j·N+n.
fn stage(x: &[i64], size: usize, lines: usize, twist: Twist, mut put: impl FnMut(usize, i64)) {
    let table = &tables()[size.trailing_zeros() as usize];
    for j in 0..lines {
        let mut sums = [0i64; 64];
        for k in 0..size {
            let v = x[k * lines + j];
            for (sum, t) in sums.iter_mut().zip(&table[k * size..][..size]) {
                *sum += t * v;
            }
        }
        for (n, &sum) in sums[..size].iter().enumerate() {
            put(if twist == Twist::Untransposed { n * lines + j } else { j * size + n }, sum);
        }
    }
}

/// Stage two's end: the rounding number, the quotient, the clip.
fn rounded(sum: i64, shift: u8, twist: Twist) -> i16 {
    let add = match shift {
        0 => (twist == Twist::OneAtShiftZero) as i64,
        s => 1i64 << (s - 1),
    };
    clip(quotient(sum + add, shift, twist), 15) as i16
}

fn run_job(coef: &mut [i16], j: &BlockJob, twist: Twist) {
    let (w, h) = (1usize << j.log2_w, 1usize << j.log2_h);
    let area = &mut coef[j.start..j.start + w * h];
    dequantize(area, scale(j.qp), j.offset, j.dq_shift, twist);
    let x: Vec<i64> = area.iter().map(|&v| v as i64).collect();
    let mut between = vec![0i64; w * h];
    stage(&x, h, w, twist, |at, sum| between[at] = clip(sum, 31));
    stage(&between, w, h, twist, |at, sum| area[at] = rounded(sum, j.it_shift, twist));
}

// ---- distortion

fn compare(c: &Compare, twist: Twist) -> (Option<i64>, Left) {
    let (w, h) = if c.entry.by_logs() { (1 << c.w, 1 << c.h) } else { (c.w, c.h) };
    let (a, b) = (read(&c.a, w, h, twist), read(&c.b, w, h, twist));
    let d: Vec<i64> = a.iter().zip(&b).map(|(a, b)| a - b).collect();
    let shift = c.depth as u32 - 8;
    match c.entry {
        Entry::Diff => {
            let mut out = c.diff.clone();
            for (o, v) in out.iter_mut().zip(&d) {
                *o = *v as i16;
            }
            (None, Left::Short(out))
        }
        Entry::Satd => (Some(satd(&d, w, h, twist) >> shift), Left::Nothing),
        Entry::Ssd16b | Entry::Ssd16i => {
            let squares = d.iter().map(|v| v * v);
            let total = if twist == Twist::SsdTotal { squares.sum::<i64>() >> (2 * shift) } else { squares.map(|v| v >> (2 * shift)).sum() };
            (Some(total), Left::Nothing)
        }
        _ => {
            let sizes = d.iter().map(|v| v.abs());
            let total = if twist == Twist::SadPerSample { sizes.map(|v| v >> shift).sum() } else { sizes.sum::<i64>() >> shift };
            (Some(total), Left::Nothing)
        }
    }
}

/// The w by h numbers that a call reads, row after row.
fn read(s: &Source, w: usize, h: usize, twist: Twist) -> Vec<i64> {
    match s {
        Source::Inside { plane: p, x, y } => (0..w * h).map(|k| p.samples[(y + k / w) * p.stride + x + k % w] as i64).collect(),
        Source::Edges { plane: p, x, y } => {
            let at = |start: i16, k: usize| match twist {
                Twist::CutOnce => start.max(0) as usize + k,
                _ => (start as i64 + k as i64).max(0) as usize,
            };
            // (cut once, a place may lie outside the plane: it reads as 0 then)
            (0..w * h).map(|k| p.samples.get(at(*y, k / w).saturating_mul(p.stride).saturating_add(at(*x, k % w))).map_or(0, |&v| v as i64)).collect()
        }
        Source::Packed(v) => v[..w * h].iter().map(|&v| v as i64).collect(),
        Source::Bi(v) => v[..w * h].iter().map(|&v| v as i64).collect(),
    }
}

fn satd(d: &[i64], w: usize, h: usize, twist: Twist) -> i64 {
    let side = if w % 8 == 0 && h % 8 == 0 {
        8
    } else if w % 4 == 0 && h % 4 == 0 {
        4
    } else {
        2
    };
    let mut total = 0;
    for v in (0..h).step_by(side) {
        for u in (0..w).step_by(side) {
            let mut s = 0;
            for a in 0..side {
                for b in 0..side {
                    let mut c = 0i64;
                    for j in 0..side {
                        for i in 0..side {
                            let odd = ((a & j).count_ones() + (b & i).count_ones()) % 2 == 1;
                            let v = d[(v + j) * w + u + i];
                            c += if odd { -v } else { v };
                        }
                    }
                    let divided = (a, b) == (0, 0) && (twist != Twist::FirstTileOnly || (u, v) == (0, 0));
                    s += if divided { c.abs() / 4 } else { c.abs() };
                }
            }
            total += match side {
                8 => (s + 2) / 4,
                4 => (s + 1) / 2,
                _ => s,
            };
        }
    }
    total
}
