// The cases of the transform: dequantizer, stages, jobs, sub-blocks.
use crate::cases::*;
use crate::exports::*;
use crate::memory::*;
use crate::random::Random;
use crate::rust::Rust;
use std::hint::black_box;

/// Between low and high quality.
const QP: u8 = 22;

/// Offset, dequantization shift and stage shift as the Rust's own driver picks them.
pub fn driver(depth: u8, log2_w: usize, log2_h: usize) -> (i32, u8, u8) {
    let odd = (log2_w + log2_h) % 2 == 1;
    let shift = depth + ((log2_w + log2_h) / 2) as u8 - 9 + if odd { 8 } else { 0 };
    let offset = if shift == 0 { 0 } else { 1 << (shift - 1) };
    (offset, shift, 19 - (depth - 8))
}

fn in_place<R: Rust>(kernel: &'static str, w: usize, h: usize, ours: Side, rust: Side, coef: Out<i16>) -> Case {
    Case { kernel, place: "", w, h, depth: R::DEPTH, ours, rust, left: Box::new(move || coef.bytes()), spoil: Box::new(|| ()) }
}

pub fn dquant<R: Rust>(r: &mut Random, log2_w: usize, log2_h: usize) -> Case {
    let n = 1 << (log2_w + log2_h);
    let from = coefs(r, n);
    let coef = Out::of(from);
    let refill = move || coef.lent().copy_from_slice(black_box(from));
    let (offset, shift, _) = driver(R::DEPTH, log2_w.max(1), log2_h.max(1));
    let args = hidden((log2_w, log2_h, R::scale(QP), offset, shift));
    let ours = side(refill, move || {
        let (w, h, scale, offset, shift) = *args();
        done(unsafe { tv_dquant(coef.at, coef.n, w, h, scale, offset, shift) })
    });
    let rust = side(refill, move || {
        let (w, h, scale, offset, shift) = *args();
        R::dquant(coef.lent(), w, h, scale, offset, shift);
        0
    });
    in_place::<R>("dquant", 1 << log2_w, 1 << log2_h, ours, rust, coef)
}

/// Logs, qp, offset and shifts.
type JobArgs = (usize, usize, u8, i32, u8, u8);

/// A job by each of its calls, on the same coefficients.
pub fn jobs<R: Rust>(r: &mut Random, log2_w: usize, log2_h: usize) -> [Case; 2] {
    let from = coefs(r, 1 << (log2_w + log2_h));
    [
        job::<R>("job", from, log2_w, log2_h, |coef, (w, h, qp, offset, dq_shift, it_shift)| unsafe {
            tv_job(coef.at, coef.n, 0, w, h, qp, offset, dq_shift, it_shift)
        }),
        job::<R>("job_reported", from, log2_w, log2_h, |coef, (w, h, qp, offset, dq_shift, it_shift)| unsafe {
            tv_job_reported(coef.at, coef.n, 0, w, h, qp, offset, dq_shift, it_shift).answer
        }),
    ]
}

fn job<R: Rust>(
    kernel: &'static str,
    from: &'static [i16],
    log2_w: usize,
    log2_h: usize,
    call: impl Fn(Out<i16>, JobArgs) -> u8 + Copy + 'static,
) -> Case {
    let coef = Out::of(from);
    let refill = move || coef.lent().copy_from_slice(black_box(from));
    let (offset, dq_shift, it_shift) = driver(R::DEPTH, log2_w, log2_h);
    let args = hidden((log2_w, log2_h, QP, offset, dq_shift, it_shift));
    let ours = side(refill, move || done(call(coef, *args())));
    let args = hidden((log2_w, log2_h, R::scale(QP)));
    let rust = side(refill, move || {
        let (w, h, scale) = *args();
        R::itdq(coef.lent(), w, h, scale);
        0
    });
    in_place::<R>(kernel, 1 << log2_w, 1 << log2_h, ours, rust, coef)
}

/// Logs, offset and shifts; qp, flag and start of Y, U and V.
type SubBlockArgs = (usize, usize, i32, u8, u8, [u8; 3], [u8; 3], [usize; 3]);

/// U and V of a sub-block by each of its calls, on the same coefficients, at the Rust's own starts. Not Y beside them: there the Rust's driver picks another
/// shift for Y, and document 01 shares one.
pub fn sub_blocks<R: Rust>(r: &mut Random, log2_w: usize, log2_h: usize) -> [Case; 2] {
    let from = coefs(r, 6144);
    [
        sub_block::<R>("sub_block", from, log2_w, log2_h, |coef, (w, h, offset, dq_shift, it_shift, qp, flag, start)| unsafe {
            let mut part = 0u8;
            tv_sub_block(
                coef.at, coef.n, w, h, offset, dq_shift, it_shift, flag[0], flag[1], flag[2], start[0], start[1], start[2], qp[0], qp[1], qp[2],
                &mut part,
            )
        }),
        sub_block::<R>("sub_block_reported", from, log2_w, log2_h, |coef, (w, h, offset, dq_shift, it_shift, qp, flag, start)| {
            let report = unsafe {
                tv_sub_block_reported(
                    coef.at, coef.n, w, h, offset, dq_shift, it_shift, flag[0], flag[1], flag[2], start[0], start[1], start[2], qp[0], qp[1], qp[2],
                )
            };
            report.answer
        }),
    ]
}

fn sub_block<R: Rust>(
    kernel: &'static str,
    from: &'static [i16],
    log2_w: usize,
    log2_h: usize,
    call: impl Fn(Out<i16>, SubBlockArgs) -> u8 + Copy + 'static,
) -> Case {
    const U: usize = 4096;
    const V: usize = 5120;
    let n = 1 << (log2_w + log2_h - 2);
    let coef = Out::of(from);
    let refill = move || {
        coef.lent()[U..U + n].copy_from_slice(black_box(&from[U..U + n]));
        coef.lent()[V..V + n].copy_from_slice(black_box(&from[V..V + n]));
    };
    let (offset, dq_shift, it_shift) = driver(R::DEPTH, log2_w - 1, log2_h - 1);
    let args = hidden((log2_w, log2_h, offset, dq_shift, it_shift, [QP, QP + 1, QP + 2], [0u8, 1, 1], [0usize, U, V]));
    let ours = side(refill, move || done(call(coef, *args())));
    let args = hidden((log2_w as u8, log2_h as u8, [QP, QP + 1, QP + 2], [false, true, true]));
    let rust = side(refill, move || {
        let (w, h, qp, flag) = args();
        R::sub_block(coef.lent(), *w, *h, *qp, flag);
        0
    });
    in_place::<R>(kernel, 1 << log2_w, 1 << log2_h, ours, rust, coef)
}

pub fn itxb0<R: Rust>(r: &mut Random, log2_size: usize, log2_line: usize) -> Case {
    let src = coefs(r, 1 << (log2_size + log2_line));
    let dst = Out::of(longs(r, src.len()));
    let args = hidden((src, log2_size, log2_line));
    let ours = side(
        || (),
        move || {
            let (src, size, line) = *args();
            done(unsafe { tv_itxb0(src.as_ptr(), src.len(), dst.at, dst.n, size, line) })
        },
    );
    let rust = side(
        || (),
        move || {
            let (src, size, line) = *args();
            R::itxb0(src, dst.lent(), size, line);
            0
        },
    );
    stage::<R, i32>("itxb0", log2_size, log2_line, ours, rust, dst)
}

pub fn itxb1<R: Rust>(r: &mut Random, log2_size: usize, log2_line: usize) -> Case {
    let src = longs(r, 1 << (log2_size + log2_line));
    let dst = Out::of(coefs(r, src.len()));
    let (_, _, shift) = driver(R::DEPTH, log2_size, log2_size);
    let args = hidden((src, log2_size, log2_line, shift));
    let ours = side(
        || (),
        move || {
            let (src, size, line, shift) = *args();
            done(unsafe { tv_itxb1(src.as_ptr(), src.len(), dst.at, dst.n, size, line, shift) })
        },
    );
    let rust = side(
        || (),
        move || {
            let (src, size, line, shift) = *args();
            R::itxb1(src, dst.lent(), size, line, shift);
            0
        },
    );
    stage::<R, i16>("itxb1", log2_size, log2_line, ours, rust, dst)
}

fn stage<R: Rust, T: Copy + 'static>(kernel: &'static str, log2_size: usize, log2_line: usize, ours: Side, rust: Side, dst: Out<T>) -> Case {
    Case {
        kernel,
        place: if log2_size == log2_line { "" } else { "one line" },
        w: 1 << log2_size,
        h: 1 << log2_line,
        depth: R::DEPTH,
        ours,
        rust,
        left: Box::new(move || dst.bytes()),
        spoil: Box::new(move || dst.spoil()),
    }
}
