//! The distortion calls. Each refuses `Size`, `Depth` (not in 8..=14), `Area` and `Sample`.
use crate::{answer, raw, Refusal};

/// A plane of samples: row `y`, column `x` stands at `y * stride + x`. Width and height are 1..=16384, the stride is at least the width, and
/// there are at least `(height - 1) * stride + width` samples; any other plane is `Area`.
#[derive(Clone, Copy, Debug, PartialEq, Eq)]
pub struct Plane<'a> {
    /// The samples, row after row.
    pub samples: &'a [u16],
    /// How many samples a row has.
    pub width: usize,
    /// How many rows there are.
    pub height: usize,
    /// How far a row's start is from the one before.
    pub stride: usize,
}

impl<'a> Plane<'a> {
    /// A plane without gaps between its rows.
    pub fn packed(samples: &'a [u16], width: usize, height: usize) -> Plane<'a> {
        Plane { samples, width, height, stride: width }
    }
}

/// DIFF: the differences of the plane's block at `(x, y)` and the packed block `cur`, row after row into `out`, whose rest is unchanged. Logs
/// 0..=6.
///
/// ```
/// use tashvelun::{diff, Plane};
/// let mut out = [9; 5];
/// assert_eq!(diff(Plane::packed(&[1, 2, 3, 4, 5, 6], 3, 2), 1, 0, 1, 1, &[7, 7, 7, 7], 8, &mut out), Ok(()));
/// assert_eq!(out, [-5, -4, -2, -1, 9]);
/// ```
#[allow(clippy::too_many_arguments)]
pub fn diff(
    org: Plane, x: usize, y: usize, log2_w: usize, log2_h: usize, cur: &[u16], depth: u8, out: &mut [i16],
) -> Result<(), Refusal> {
    // SAFETY: a slice's pointer is valid for its length, aligned and not null; a `&mut` overlaps nothing. The same holds for every call below.
    answer(unsafe {
        raw::tv_diff(
            org.samples.as_ptr(), org.samples.len(), org.width, org.height, org.stride, x, y, log2_w, log2_h, cur.as_ptr(), cur.len(),
            depth, out.as_mut_ptr(), out.len(),
        )
    })
}

/// SATD of the plane's block at `(x, y)`, `w` by `h`, and the packed block `cur`. Sides are even, 2..=64.
///
/// ```
/// use tashvelun::{satd, Plane, Refusal};
/// assert_eq!(satd(Plane::packed(&[1; 64], 8, 8), 0, 0, 8, 8, &[0; 64], 8), Ok(4));
/// assert_eq!(satd(Plane::packed(&[1; 64], 8, 8), 0, 0, 8, 7, &[0; 64], 8), Err(Refusal::Size));
/// ```
#[allow(clippy::too_many_arguments)]
pub fn satd(org: Plane, x: usize, y: usize, w: usize, h: usize, cur: &[u16], depth: u8) -> Result<u32, Refusal> {
    let mut value = 0;
    let number = unsafe {
        raw::tv_satd(
            org.samples.as_ptr(), org.samples.len(), org.width, org.height, org.stride, x, y, w, h, cur.as_ptr(), cur.len(), depth,
            &mut value,
        )
    };
    answer(number).map(|()| value)
}

/// SSD of the plane's block at `(x, y)` and the packed block `cur`, logs 0..=6. Each square is divided by `2^(2 * (depth - 8))` before it is
/// added.
///
/// ```
/// use tashvelun::{ssd_16b, Plane};
/// assert_eq!(ssd_16b(Plane::packed(&[3; 4], 2, 2), 0, 0, 1, 1, &[0; 4], 10), Ok(0));
/// assert_eq!(ssd_16b(Plane::packed(&[4; 4], 2, 2), 0, 0, 1, 1, &[0; 4], 10), Ok(4));
/// ```
#[allow(clippy::too_many_arguments)]
pub fn ssd_16b(org: Plane, x: usize, y: usize, log2_w: usize, log2_h: usize, cur: &[u16], depth: u8) -> Result<i64, Refusal> {
    let mut value = 0;
    let number = unsafe {
        raw::tv_ssd_16b(
            org.samples.as_ptr(), org.samples.len(), org.width, org.height, org.stride, x, y, log2_w, log2_h, cur.as_ptr(), cur.len(),
            depth, &mut value,
        )
    };
    answer(number).map(|()| value)
}

/// SSD of two planes' blocks at one position, logs 0..=6. A negative row or column reads as row or column 0, sample by sample.
///
/// ```
/// use tashvelun::{ssd_16i, Plane};
/// let (one, two) = (Plane::packed(&[1, 2], 2, 1), Plane::packed(&[0, 0], 2, 1));
/// // columns -1 and 0 both read column 0
/// assert_eq!(ssd_16i(one, two, -1, 0, 1, 0, 8), Ok(2));
/// assert_eq!(ssd_16i(one, two, 0, 0, 1, 0, 8), Ok(5));
/// ```
pub fn ssd_16i(one: Plane, two: Plane, x: i16, y: i16, log2_w: usize, log2_h: usize, depth: u8) -> Result<i64, Refusal> {
    let mut value = 0;
    let number = unsafe {
        raw::tv_ssd_16i(
            one.samples.as_ptr(), one.samples.len(), one.width, one.height, one.stride, two.samples.as_ptr(), two.samples.len(),
            two.width, two.height, two.stride, x, y, log2_w, log2_h, depth, &mut value,
        )
    };
    answer(number).map(|()| value)
}

/// SAD of the plane's block at `(x, y)` and the reference's at `(mv_x, mv_y)`, sides 1..=64. A negative row or column of the reference reads as
/// row or column 0. The total is divided by `2^(depth - 8)`.
///
/// ```
/// use tashvelun::{sad_16b, Plane, Refusal};
/// let (org, reference) = (Plane::packed(&[5, 5], 2, 1), Plane::packed(&[1, 2, 3], 3, 1));
/// assert_eq!(sad_16b(org, 0, 0, reference, 1, 0, 2, 1, 8), Ok(5));
/// assert_eq!(sad_16b(org, 0, 0, reference, -1, 0, 2, 1, 8), Ok(8));
/// assert_eq!(sad_16b(org, 0, 0, reference, 2, 0, 2, 1, 8), Err(Refusal::Area));
/// ```
#[allow(clippy::too_many_arguments)]
pub fn sad_16b(
    org: Plane, x: usize, y: usize, reference: Plane, mv_x: i16, mv_y: i16, w: usize, h: usize, depth: u8,
) -> Result<u32, Refusal> {
    let mut value = 0;
    let number = unsafe {
        raw::tv_sad_16b(
            org.samples.as_ptr(), org.samples.len(), org.width, org.height, org.stride, x, y, reference.samples.as_ptr(),
            reference.samples.len(), reference.width, reference.height, reference.stride, mv_x, mv_y, w, h, depth, &mut value,
        )
    };
    answer(number).map(|()| value)
}

/// SAD of packed bi-prediction values and the reference's block at `(mv_x, mv_y)`, as in [`sad_16b`].
///
/// ```
/// use tashvelun::{sad_bi_16b, Plane, Refusal};
/// let reference = Plane::packed(&[1, 2], 2, 1);
/// assert_eq!(sad_bi_16b(&[-16384, 0], reference, 0, 0, 2, 1, 8), Ok(16387));
/// assert_eq!(sad_bi_16b(&[-16385, 0], reference, 0, 0, 2, 1, 8), Err(Refusal::Sample));
/// ```
#[allow(clippy::too_many_arguments)]
pub fn sad_bi_16b(bi: &[i16], reference: Plane, mv_x: i16, mv_y: i16, w: usize, h: usize, depth: u8) -> Result<u32, Refusal> {
    let mut value = 0;
    let number = unsafe {
        raw::tv_sad_bi_16b(
            bi.as_ptr(), bi.len(), reference.samples.as_ptr(), reference.samples.len(), reference.width, reference.height,
            reference.stride, mv_x, mv_y, w, h, depth, &mut value,
        )
    };
    answer(number).map(|()| value)
}

/// SAD of the plane's block at `(x, y)`, `w` by `h`, and the packed prediction, sides 1..=64.
///
/// ```
/// use tashvelun::{sad_16i, Plane};
/// assert_eq!(sad_16i(Plane::packed(&[3; 4], 2, 2), 0, 0, 2, 2, &[0; 4], 10), Ok(3));
/// ```
#[allow(clippy::too_many_arguments)]
pub fn sad_16i(org: Plane, x: usize, y: usize, w: usize, h: usize, pred: &[u16], depth: u8) -> Result<u32, Refusal> {
    let mut value = 0;
    let number = unsafe {
        raw::tv_sad_16i(
            org.samples.as_ptr(), org.samples.len(), org.width, org.height, org.stride, x, y, w, h, pred.as_ptr(), pred.len(), depth,
            &mut value,
        )
    };
    answer(number).map(|()| value)
}

/// SAD of packed bi-prediction values and a packed prediction, sides 1..=64.
///
/// ```
/// assert_eq!(tashvelun::sad_bi_16i(&[-1, 4], &[1, 1], 2, 1, 8), Ok(5));
/// ```
pub fn sad_bi_16i(bi: &[i16], pred: &[u16], w: usize, h: usize, depth: u8) -> Result<u32, Refusal> {
    let mut value = 0;
    let number = unsafe { raw::tv_sad_bi_16i(bi.as_ptr(), bi.len(), pred.as_ptr(), pred.len(), w, h, depth, &mut value) };
    answer(number).map(|()| value)
}
