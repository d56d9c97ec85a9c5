//! The inverse transform's calls.
use crate::{answer, component, raw, Component, Refusal};

/// The dequantizer on the first `2^(log2_w + log2_h)` coefficients, logs 0..=6: each `v` becomes `(v * scale + offset) / 2^shift`, rounded
/// toward minus infinity and clipped to 16 bits. The rest of the buffer is unchanged. Refuses `Size`, `Shift`, `Area`.
///
/// ```
/// let mut coef = [-1, 32767, 9];
/// assert_eq!(tashvelun::dquant(&mut coef, 1, 0, 45, 0, 1), Ok(()));
/// assert_eq!(coef, [-23, 32767, 9]);
/// ```
pub fn dquant(coef: &mut [i16], log2_w: usize, log2_h: usize, scale: i32, offset: i32, shift: u8) -> Result<(), Refusal> {
    // SAFETY: a slice's pointer is valid for its length, aligned and not null; a `&mut` overlaps nothing. The same holds for every call below.
    answer(unsafe { raw::tv_dquant(coef.as_mut_ptr(), coef.len(), log2_w, log2_h, scale, offset, shift) })
}

/// Stage one: size `N = 2^log2_size` (logs 1..=6) over `L = 2^log2_line` lines (logs 0..=6). `dst[j * N + n]` becomes the sum over `k` of
/// `table[k][n] * src[k * L + j]`: the output is transposed. Only the first `N * L` numbers of `dst` are written. Refuses `Size`, `Area`.
///
/// ```
/// let mut out = [0; 5];
/// assert_eq!(tashvelun::itxb0(&[1, 2, 3, 4], &mut out, 1, 1), Ok(()));
/// assert_eq!(out, [256, -128, 384, -128, 0]);
/// ```
pub fn itxb0(src: &[i16], dst: &mut [i32], log2_size: usize, log2_line: usize) -> Result<(), Refusal> {
    answer(unsafe { raw::tv_itxb0(src.as_ptr(), src.len(), dst.as_mut_ptr(), dst.len(), log2_size, log2_line) })
}

/// Stage two: the same sum plus `2^(shift - 1)` (0 for shift 0), divided by `2^shift` toward minus infinity, clipped to 16 bits. Only the first
/// `N * L` numbers of `dst` are written. Refuses `Size`, `Shift`, `Area`.
///
/// ```
/// let mut out = [5; 2];
/// assert_eq!(tashvelun::itxb1(&[-3, 0], &mut out, 1, 0, 7), Ok(()));
/// assert_eq!(out, [-1, -1]);
/// assert_eq!(tashvelun::itxb1(&[i32::MAX, 0], &mut out, 1, 0, 0), Ok(()));
/// assert_eq!(out, [32767, 32767]);
/// ```
pub fn itxb1(src: &[i32], dst: &mut [i16], log2_size: usize, log2_line: usize, shift: u8) -> Result<(), Refusal> {
    answer(unsafe { raw::tv_itxb1(src.as_ptr(), src.len(), dst.as_mut_ptr(), dst.len(), log2_size, log2_line, shift) })
}

/// A block job: which samples of a buffer it transforms, and by which numbers.
#[derive(Clone, Copy, Debug, PartialEq, Eq)]
pub struct Job {
    /// The place of its first sample; the others follow, row after row.
    pub start: usize,
    /// The logarithm of its width, 1..=6.
    pub log2_w: usize,
    /// The logarithm of its height, 1..=6.
    pub log2_h: usize,
    /// The number that gives its scale, 0..=63.
    pub qp: u8,
    /// What the dequantizer adds.
    pub offset: i32,
    /// What the dequantizer shifts by, 0..=31.
    pub dq_shift: u8,
    /// What stage two shifts by, 0..=31.
    pub it_shift: u8,
}

/// Does a job: dequantizer, stage one, stage two, back into the job's own samples. The rest of the buffer is unchanged. Refuses `Size`, `Qp`,
/// `Shift`, `Area`.
///
/// A job knows its own area, not whose it is. Before several jobs run on one buffer, ask whether two of them share a sample: see
/// `docs/FENCE.md` and `examples/fence.rs`.
pub fn job(coef: &mut [i16], job: &Job) -> Result<(), Refusal> {
    let Job { start, log2_w, log2_h, qp, offset, dq_shift, it_shift } = *job;
    answer(unsafe { raw::tv_job(coef.as_mut_ptr(), coef.len(), start, log2_w, log2_h, qp, offset, dq_shift, it_shift) })
}

/// What a component of a sub-block has of its own.
#[derive(Clone, Copy, Debug, PartialEq, Eq)]
pub struct Part {
    /// The place of its first sample.
    pub start: usize,
    /// Its qp.
    pub qp: u8,
}

/// A sub-block call. A component that is `None` is neither tested nor touched.
#[derive(Clone, Copy, Debug, PartialEq, Eq)]
pub struct SubBlock {
    /// The logarithm of luma's width; chroma's is one less.
    pub log2_w: usize,
    /// The logarithm of luma's height; chroma's is one less.
    pub log2_h: usize,
    /// What the dequantizer adds.
    pub offset: i32,
    /// What the dequantizer shifts by.
    pub dq_shift: u8,
    /// What stage two shifts by.
    pub it_shift: u8,
    /// Luma.
    pub y: Option<Part>,
    /// The first chroma component.
    pub u: Option<Part>,
    /// The second chroma component.
    pub v: Option<Part>,
}

impl SubBlock {
    /// Flag, start and qp of Y, U and V. At a component that is not there the library doesn't look.
    pub(crate) fn parts(&self) -> [(u8, Part); 3] {
        [self.y, self.u, self.v].map(|part| (u8::from(part.is_some()), part.unwrap_or(Part { start: 0, qp: 0 })))
    }
}

/// Why a sub-block call is refused, and for which component. For `Overlap` it is the later one of the pair.
#[derive(Clone, Copy, Debug, PartialEq, Eq)]
pub struct SubBlockRefusal {
    /// The component that broke the test.
    pub component: Component,
    /// The test that it broke.
    pub refusal: Refusal,
}

impl std::fmt::Display for SubBlockRefusal {
    fn fmt(&self, f: &mut std::fmt::Formatter<'_>) -> std::fmt::Result {
        write!(f, "component {:?}: {}", self.component, self.refusal)
    }
}

impl std::error::Error for SubBlockRefusal {}

/// Does one job for each component that is there, after all tests of all components have passed. Refuses `Size`, `Qp`, `Shift`, `Area` for each
/// component in the order Y, U, V, then `Overlap`.
///
/// ```
/// use tashvelun::{sub_block, Component, Part, Refusal, SubBlock, SubBlockRefusal};
/// let part = |start| Some(Part { start, qp: 4 });
/// let call = SubBlock { log2_w: 2, log2_h: 2, offset: 32, dq_shift: 6, it_shift: 12, y: None, u: part(0), v: part(4) };
/// let mut coef = [4, 0, 0, 0, 8, 0, 0, 0];
/// assert_eq!(sub_block(&mut coef, &call), Ok(()));
/// assert_eq!(coef, [4, 4, 4, 4, 8, 8, 8, 8]);
///
/// let refused = SubBlockRefusal { component: Component::V, refusal: Refusal::Overlap };
/// assert_eq!(sub_block(&mut coef, &SubBlock { v: part(3), ..call }), Err(refused));
/// assert_eq!(coef, [4, 4, 4, 4, 8, 8, 8, 8]);
/// ```
pub fn sub_block(coef: &mut [i16], call: &SubBlock) -> Result<(), SubBlockRefusal> {
    let SubBlock { log2_w, log2_h, offset, dq_shift, it_shift, .. } = *call;
    let [(fy, y), (fu, u), (fv, v)] = call.parts();
    let mut named = 0;
    let number = unsafe {
        raw::tv_sub_block(
            coef.as_mut_ptr(), coef.len(), log2_w, log2_h, offset, dq_shift, it_shift, fy, fu, fv, y.start, u.start, v.start, y.qp, u.qp,
            v.qp, &mut named,
        )
    };
    answer(number).map_err(|refusal| SubBlockRefusal { component: component(named), refusal })
}
