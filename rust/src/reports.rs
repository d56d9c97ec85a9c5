//! The calls that tell why they are refused.
use crate::{answer, component, raw, Component, Job, Refusal, SubBlock};
use std::fmt;

/// Which number of a call broke a limit.
#[derive(Clone, Copy, Debug, PartialEq, Eq, Hash)]
pub enum Named {
    /// The logarithm of the width, as handed in: for U and V it is luma's.
    Width,
    /// The logarithm of the height, as handed in.
    Height,
    /// The component's qp.
    Qp,
    /// What the dequantizer shifts by.
    DequantizationShift,
    /// What stage two shifts by.
    StageShift,
    /// The place of the component's first sample.
    Start,
}

impl fmt::Display for Named {
    fn fmt(&self, f: &mut fmt::Formatter<'_>) -> fmt::Result {
        f.write_str(match self {
            Named::Width => "width log",
            Named::Height => "height log",
            Named::Qp => "qp",
            Named::DequantizationShift => "dequantization shift",
            Named::StageShift => "stage shift",
            Named::Start => "its area from",
        })
    }
}

/// Why a job or a sub-block is refused: the first test that is broken, in the order in which they are made, and by which number. It prints as one
/// sentence.
#[derive(Clone, Copy, Debug, PartialEq, Eq, Hash)]
pub struct Report {
    /// The component that broke the test; a job is `Y`. For `Overlap` it is the later one of the pair.
    pub component: Component,
    /// The test that it broke.
    pub refusal: Refusal,
    /// Which number is `given`: the width before the height, the dequantization shift before the stage shift.
    pub named: Named,
    /// That number.
    pub given: usize,
    /// What it broke. `Size`: the end that it is beyond, 1 or 6, for U and V 2 or 7. `Qp`: 63. `Shift`: 31. `Area`: the buffer's length. `Overlap`:
    /// the lowest position that both areas hold.
    pub limit: usize,
}

impl fmt::Display for Report {
    fn fmt(&self, f: &mut fmt::Formatter<'_>) -> fmt::Result {
        let Report { component, refusal, named, given, limit } = self;
        let broke = match refusal {
            Refusal::Area => "ends past the buffer's end at",
            Refusal::Overlap => "overlaps an earlier one at",
            _ if given < limit => "is below",
            _ => "is above",
        };
        write!(f, "{component:?} refused: {named} {given} {broke} {limit}")
    }
}

impl std::error::Error for Report {}

/// The library's report on a call with these numbers.
fn report(told: raw::TvReport, log2_w: usize, dq_shift: u8) -> Result<(), Report> {
    // both come from a `usize` of the call
    let (given, limit) = (told.given as usize, told.limit as usize);
    answer(told.answer).map_err(|refusal| Report {
        component: component(told.component),
        refusal,
        named: match refusal {
            // a height is told only where the width is allowed, so there they differ; so it is with the shifts
            Refusal::Size if given == log2_w => Named::Width,
            Refusal::Size => Named::Height,
            Refusal::Qp => Named::Qp,
            Refusal::Shift if given == usize::from(dq_shift) => Named::DequantizationShift,
            Refusal::Shift => Named::StageShift,
            _ => Named::Start,
        },
        given,
        limit,
    })
}

/// Does a job as [`job`](crate::job) does it; a refusal comes with its numbers.
///
/// ```
/// use tashvelun::{job_reported, Job};
/// let mut coef = [4, 0, 0, 0, 7];
/// let small = Job { start: 0, log2_w: 1, log2_h: 1, qp: 4, offset: 32, dq_shift: 6, it_shift: 12 };
/// assert_eq!(job_reported(&mut coef, &small), Ok(()));
/// assert_eq!(coef, [4, 4, 4, 4, 7]);
///
/// let late = job_reported(&mut coef, &Job { start: 2, ..small }).unwrap_err();
/// assert_eq!(late.to_string(), "Y refused: its area from 2 ends past the buffer's end at 5");
/// assert_eq!(coef, [4, 4, 4, 4, 7]);
/// ```
pub fn job_reported(coef: &mut [i16], job: &Job) -> Result<(), Report> {
    let Job { start, log2_w, log2_h, qp, offset, dq_shift, it_shift } = *job;
    // SAFETY: a slice's pointer is valid for its length, aligned and not null; a `&mut` overlaps nothing. The same holds for the call below.
    let told = unsafe { raw::tv_job_reported(coef.as_mut_ptr(), coef.len(), start, log2_w, log2_h, qp, offset, dq_shift, it_shift) };
    report(told, log2_w, dq_shift)
}

/// Does a sub-block as [`sub_block`](crate::sub_block) does it; a refusal comes with its numbers.
///
/// ```
/// use tashvelun::{sub_block_reported, Component, Named, Part, Refusal, Report, SubBlock};
/// let part = |start| Some(Part { start, qp: 4 });
/// let call = SubBlock { log2_w: 4, log2_h: 4, offset: 32, dq_shift: 6, it_shift: 12, y: None, u: part(0), v: part(64) };
/// let mut coef = [0; 176];
/// assert_eq!(sub_block_reported(&mut coef, &call), Ok(()));
///
/// // U and V have 64 samples each: V has 96 to 159, U 112 to 175
/// let refused = sub_block_reported(&mut coef, &SubBlock { u: part(112), v: part(96), ..call }).unwrap_err();
/// assert_eq!(refused.to_string(), "V refused: its area from 96 overlaps an earlier one at 112");
///
/// let refused = sub_block_reported(&mut coef, &SubBlock { log2_h: 8, ..call }).unwrap_err();
/// assert_eq!(refused.to_string(), "U refused: height log 8 is above 7");
/// assert_eq!(refused, Report { component: Component::U, refusal: Refusal::Size, named: Named::Height, given: 8, limit: 7 });
/// ```
pub fn sub_block_reported(coef: &mut [i16], call: &SubBlock) -> Result<(), Report> {
    let SubBlock { log2_w, log2_h, offset, dq_shift, it_shift, .. } = *call;
    let [(fy, y), (fu, u), (fv, v)] = call.parts();
    let told = unsafe {
        raw::tv_sub_block_reported(
            coef.as_mut_ptr(), coef.len(), log2_w, log2_h, offset, dq_shift, it_shift, fy, fu, fv, y.start, u.start, v.start, y.qp, u.qp,
            v.qp,
        )
    };
    report(told, log2_w, dq_shift)
}
