// The cases of DIFF, SATD, SSD and SAD.
use crate::cases::*;
use crate::exports::*;
use crate::memory::*;
use crate::random::Random;
use crate::rust::Rust;

const WIDTH: usize = 160;
const HEIGHT: usize = 120;
const STRIDE: usize = 176;
/// where the block of a plane starts
const X: usize = 24;
const Y: usize = 16;

struct Planes<R: Rust> {
    org: &'static [u16],
    reference: &'static [u16],
    org_region: &'static R::Region,
    reference_region: &'static R::Region,
}

fn planes<R: Rust>(r: &mut Random) -> Planes<R> {
    let org = samples(r, STRIDE * HEIGHT, R::DEPTH);
    let reference = samples(r, STRIDE * HEIGHT, R::DEPTH);
    let region = |s| -> &'static R::Region { Box::leak(Box::new(R::region(s, WIDTH, HEIGHT, STRIDE))) };
    Planes { org, reference, org_region: region(org), reference_region: region(reference) }
}

fn value<R: Rust>(kernel: &'static str, place: &'static str, w: usize, h: usize, ours: Side, rust: Side) -> Case {
    Case { kernel, place, w, h, depth: R::DEPTH, ours, rust, left: Box::new(Vec::new), spoil: Box::new(|| ()) }
}

pub fn diff<R: Rust>(r: &mut Random, log2: usize) -> Case {
    let p = planes::<R>(r);
    let cur = samples(r, 1 << (2 * log2), R::DEPTH);
    let out = Out::of(coefs(r, cur.len()));
    let args = hidden((p.org, WIDTH, HEIGHT, STRIDE, X, Y, log2, log2, cur, R::DEPTH));
    let ours = side(
        || (),
        move || {
            let (org, width, height, stride, x, y, w, h, cur, depth) = *args();
            done(unsafe { tv_diff(org.as_ptr(), org.len(), width, height, stride, x, y, w, h, cur.as_ptr(), cur.len(), depth, out.at, out.n) })
        },
    );
    let args = hidden((X, Y, log2, log2, p.org_region, cur));
    let rust = side(
        || (),
        move || {
            let (x, y, w, h, org, cur) = *args();
            R::diff(x, y, w, h, org, cur, out.lent());
            0
        },
    );
    Case {
        kernel: "diff",
        place: "",
        w: 1 << log2,
        h: 1 << log2,
        depth: R::DEPTH,
        ours,
        rust,
        left: Box::new(move || out.bytes()),
        spoil: Box::new(move || out.spoil()),
    }
}

/// SATD, SAD 16i and SSD 16b: a part of a plane against a packed block, the same arguments in the same order.
macro_rules! plane_and_block {
    ($name:ident, $export:ident, $value:ty, $side:expr) => {
        pub fn $name<R: Rust>(r: &mut Random, log2: usize) -> Case {
            let p = planes::<R>(r);
            let cur = samples(r, 1 << (2 * log2), R::DEPTH);
            let n: usize = $side(log2);
            let args = hidden((p.org, WIDTH, HEIGHT, STRIDE, X, Y, n, n, cur, R::DEPTH));
            let ours = side(
                || (),
                move || {
                    let (org, width, height, stride, x, y, w, h, cur, depth) = *args();
                    let mut v: $value = 0;
                    let number =
                        unsafe { $export(org.as_ptr(), org.len(), width, height, stride, x, y, w, h, cur.as_ptr(), cur.len(), depth, &mut v) };
                    valued(number, v)
                },
            );
            let args = hidden((X, Y, n, n, p.org_region, cur));
            let rust = side(
                || (),
                move || {
                    let (x, y, w, h, org, cur) = *args();
                    R::$name(x, y, w, h, org, cur).into()
                },
            );
            value::<R>(stringify!($name), "", 1 << log2, 1 << log2, ours, rust)
        }
    };
}
fn as_side(log2: usize) -> usize {
    1 << log2
}
fn as_log(log2: usize) -> usize {
    log2
}
plane_and_block!(satd, tv_satd, u32, as_side);
plane_and_block!(sad_16i, tv_sad_16i, u32, as_side);
plane_and_block!(ssd_16b, tv_ssd_16b, i64, as_log);

/// Where a signed position lies; what is negative reads as row or column 0.
#[derive(Clone, Copy, PartialEq)]
pub enum Place {
    Inside,
    /// half of the rows and half of the columns
    Corner,
    /// half of the columns
    Left,
    /// half of the rows
    Above,
    /// all of both
    Outside,
}

impl Place {
    fn name(self) -> &'static str {
        match self {
            Place::Inside => "",
            Place::Corner => "corner",
            Place::Left => "left",
            Place::Above => "above",
            Place::Outside => "outside",
        }
    }
    fn at(self, side: usize) -> (i16, i16) {
        let half = -(side as i16 / 2);
        match self {
            Place::Inside => (19, 13),
            Place::Corner => (half, half),
            Place::Left => (half, 13),
            Place::Above => (19, half),
            Place::Outside => (-100, -100),
        }
    }
}

pub fn ssd_16i<R: Rust>(r: &mut Random, log2: usize, place: Place) -> Case {
    let p = planes::<R>(r);
    let (x, y) = place.at(1 << log2);
    let args = hidden((p.org, WIDTH, HEIGHT, STRIDE, p.reference, x, y, log2, log2, R::DEPTH));
    let ours = side(
        || (),
        move || {
            let (one, width, height, stride, two, x, y, w, h, depth) = *args();
            let mut v = 0i64;
            let number = unsafe {
                tv_ssd_16i(one.as_ptr(), one.len(), width, height, stride, two.as_ptr(), two.len(), width, height, stride, x, y, w, h, depth, &mut v)
            };
            valued(number, v)
        },
    );
    let args = hidden((x, y, log2, log2, p.org_region, p.reference_region));
    let rust = side(
        || (),
        move || {
            let (x, y, w, h, one, two) = *args();
            R::ssd_16i(x, y, w, h, one, two)
        },
    );
    value::<R>("ssd_16i", place.name(), 1 << log2, 1 << log2, ours, rust)
}

pub fn sad_16b<R: Rust>(r: &mut Random, log2: usize, place: Place) -> Case {
    let p = planes::<R>(r);
    let n = 1 << log2;
    let (mv_x, mv_y) = place.at(n);
    let args = hidden((p.org, WIDTH, HEIGHT, STRIDE, X, Y, p.reference, mv_x, mv_y, n, n, R::DEPTH));
    let ours = side(
        || (),
        move || {
            let (org, width, height, stride, x, y, reference, mv_x, mv_y, w, h, depth) = *args();
            let mut v = 0u32;
            let number = unsafe {
                tv_sad_16b(
                    org.as_ptr(),
                    org.len(),
                    width,
                    height,
                    stride,
                    x,
                    y,
                    reference.as_ptr(),
                    reference.len(),
                    width,
                    height,
                    stride,
                    mv_x,
                    mv_y,
                    w,
                    h,
                    depth,
                    &mut v,
                )
            };
            valued(number, v)
        },
    );
    let args = hidden((X, Y, mv_x, mv_y, n, n, p.org_region, p.reference_region));
    let rust = side(
        || (),
        move || {
            let (x, y, mv_x, mv_y, w, h, org, reference) = *args();
            R::sad_16b(x, y, mv_x, mv_y, w, h, org, reference).into()
        },
    );
    value::<R>("sad_16b", place.name(), n, n, ours, rust)
}

pub fn sad_bi_16b<R: Rust>(r: &mut Random, log2: usize, place: Place) -> Case {
    let p = planes::<R>(r);
    let n = 1 << log2;
    let bi = bi_values(r, n * n);
    let (mv_x, mv_y) = place.at(n);
    let args = hidden((bi, p.reference, WIDTH, HEIGHT, STRIDE, mv_x, mv_y, n, n, R::DEPTH));
    let ours = side(
        || (),
        move || {
            let (bi, reference, width, height, stride, mv_x, mv_y, w, h, depth) = *args();
            let mut v = 0u32;
            let number = unsafe {
                tv_sad_bi_16b(bi.as_ptr(), bi.len(), reference.as_ptr(), reference.len(), width, height, stride, mv_x, mv_y, w, h, depth, &mut v)
            };
            valued(number, v)
        },
    );
    let args = hidden((mv_x, mv_y, n, n, bi, p.reference_region));
    let rust = side(
        || (),
        move || {
            let (mv_x, mv_y, w, h, bi, reference) = *args();
            R::sad_bi_16b(mv_x, mv_y, w, h, bi, reference).into()
        },
    );
    value::<R>("sad_bi_16b", place.name(), n, n, ours, rust)
}

pub fn sad_bi_16i<R: Rust>(r: &mut Random, log2: usize) -> Case {
    let n = 1 << log2;
    let bi = bi_values(r, n * n);
    let pred = samples(r, n * n, R::DEPTH);
    let args = hidden((bi, pred, n, n, R::DEPTH));
    let ours = side(
        || (),
        move || {
            let (bi, pred, w, h, depth) = *args();
            let mut v = 0u32;
            let number = unsafe { tv_sad_bi_16i(bi.as_ptr(), bi.len(), pred.as_ptr(), pred.len(), w, h, depth, &mut v) };
            valued(number, v)
        },
    );
    let args = hidden((n, n, bi, pred));
    let rust = side(
        || (),
        move || {
            let (w, h, bi, pred) = *args();
            R::sad_bi_16i(w, h, bi, pred).into()
        },
    );
    value::<R>("sad_bi_16i", "", n, n, ours, rust)
}
