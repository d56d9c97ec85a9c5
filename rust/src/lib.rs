//! EVC's inverse transform and distortion, after two modules of revc: a safe face of a library whose every function is proved.
//!
//! **The promise.** Each function here is one call of the proved function of the same name (`tv_` before it in
//! `include/tashvelun.h`). At every input it ends and either is accepted, with exactly the result that its definition gives, or is
//! refused with the lowest [`Refusal`] that applies; then no buffer has changed. It doesn't panic. [`job_reported`] and
//! [`sub_block_reported`] also tell which number broke which limit: a [`Report`], which prints as a sentence.
//!
//! **What is proved and what is not.** The library's side of each call is proved (crates/capi). This crate is Rust: it hands over pointers
//! and lengths of slices, which Rust's own rules make valid, aligned and free of overlap where they are written, the one thing that the library
//! assumes. That it hands over the right ones is tested, not proved.
//!
//! ```
//! use tashvelun::{job, Job, Refusal};
//! let mut coef = [4, 0, 0, 0, 7];
//! let small = Job { start: 0, log2_w: 1, log2_h: 1, qp: 4, offset: 32, dq_shift: 6, it_shift: 12 };
//! assert_eq!(job(&mut coef, &small), Ok(()));
//! assert_eq!(coef, [4, 4, 4, 4, 7]);
//!
//! // one place further there is still room for it, two places further there is none
//! assert_eq!(job(&mut coef, &Job { start: 1, ..small }), Ok(()));
//! let before = coef;
//! assert_eq!(job(&mut coef, &Job { start: 2, ..small }), Err(Refusal::Area));
//! assert_eq!(coef, before);
//! ```
#![warn(missing_docs)]

mod distortion;
mod raw;
mod reports;
mod transform;

pub use distortion::{diff, sad_16b, sad_16i, sad_bi_16b, sad_bi_16i, satd, ssd_16b, ssd_16i, Plane};
pub use reports::{job_reported, sub_block_reported, Named, Report};
pub use transform::{dquant, itxb0, itxb1, job, sub_block, Job, Part, SubBlock, SubBlockRefusal};

/// Why a call is refused. Where several apply, the lowest is answered.
#[derive(Clone, Copy, Debug, PartialEq, Eq, PartialOrd, Ord, Hash)]
#[repr(u8)]
pub enum Refusal {
    /// A side or its logarithm is not allowed for that call.
    Size = 1,
    /// qp is above 63.
    Qp = 2,
    /// A shift is above 31.
    Shift = 3,
    /// The depth is not in 8..=14.
    Depth = 4,
    /// Something to be read or written isn't wholly inside its buffer or plane.
    Area = 5,
    /// Two components of one sub-block share a sample.
    Overlap = 6,
    /// A sample read is 2^depth or more, or a bi-prediction value read is below -16384.
    Sample = 7,
}

impl Refusal {
    /// The number that the library answers.
    pub fn number(self) -> u8 {
        self as u8
    }
}

impl std::fmt::Display for Refusal {
    fn fmt(&self, f: &mut std::fmt::Formatter<'_>) -> std::fmt::Result {
        f.write_str(match self {
            Refusal::Size => "a side is not allowed",
            Refusal::Qp => "qp is above 63",
            Refusal::Shift => "a shift is above 31",
            Refusal::Depth => "the depth is not in 8 to 14",
            Refusal::Area => "the area isn't wholly inside its buffer or plane",
            Refusal::Overlap => "two components share a sample",
            Refusal::Sample => "a sample is out of range",
        })
    }
}

impl std::error::Error for Refusal {}

/// A component of a sub-block.
#[derive(Clone, Copy, Debug, PartialEq, Eq, PartialOrd, Ord, Hash)]
pub enum Component {
    /// Luma.
    Y,
    /// The first chroma component.
    U,
    /// The second chroma component.
    V,
}

/// The library's number as a result.
fn answer(number: u8) -> Result<(), Refusal> {
    Err(match number {
        0 => return Ok(()),
        1 => Refusal::Size,
        2 => Refusal::Qp,
        3 => Refusal::Shift,
        4 => Refusal::Depth,
        5 => Refusal::Area,
        6 => Refusal::Overlap,
        7 => Refusal::Sample,
        _ => unreachable!("the library is proved to answer 0 to 7"),
    })
}

/// The component that the library names.
fn component(number: u8) -> Component {
    match number {
        0 => Component::Y,
        1 => Component::U,
        2 => Component::V,
        _ => unreachable!("the library is proved to name 0, 1 or 2"),
    }
}
