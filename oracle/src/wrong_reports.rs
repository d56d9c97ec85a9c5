// Wrong reports, one a function: each says what a tempting reading of document 02, One, would report of a call with these faults, and nothing where that
// reading has no say.
use crate::calls::*;
use crate::exports::TvReport;
use crate::reports::*;

type Wrong = Option<TvReport>;

/// The first fault, if it is one of those that the reading speaks of, told otherwise.
fn first(faults: &[Fault], of: fn(&Fault) -> bool, change: impl FnOnce(Fault) -> Fault) -> Wrong {
    faults.first().filter(|f| of(f)).map(|f| change(*f).report())
}
fn log(f: &Fault) -> bool {
    f.reason() == 1
}
fn chroma_log(f: &Fault) -> bool {
    log(f) && f.component > 0
}
fn outside(f: &Fault) -> bool {
    f.what == What::Area
}
fn shared(f: &Fault) -> bool {
    f.reason() == 6
}
/// The fault of the first one's component that is told in its place.
fn instead(faults: &[Fault], of: What, what: What) -> Wrong {
    let f = faults.first().filter(|f| f.what == of)?;
    faults.iter().find(|g| g.component == f.component && g.what == what).map(|g| g.report())
}
fn logs(call: &Call) -> (usize, usize) {
    match call {
        Call::Job { job, .. } => (job.log2_w, job.log2_h),
        Call::SubBlock { log2_w, log2_h, .. } => (*log2_w, *log2_h),
        _ => unreachable!("a call without a report"),
    }
}
fn end(call: &Call, f: Fault) -> u128 {
    area(f.component, logs(call), f.given as usize).end
}

pub fn exchanged(_: &Call, faults: &[Fault]) -> Wrong {
    first(faults, |_| true, |f| Fault { given: f.limit, limit: f.given, ..f })
}
pub fn height_for_width(call: &Call, faults: &[Fault]) -> Wrong {
    first(faults, |f| f.what == What::Width, |f| Fault { given: logs(call).1 as u128, ..f })
}
pub fn height_first(_: &Call, faults: &[Fault]) -> Wrong {
    instead(faults, What::Width, What::Height)
}
pub fn stage_first(_: &Call, faults: &[Fault]) -> Wrong {
    instead(faults, What::DequantizationShift, What::StageShift)
}
pub fn lower_limit(_: &Call, faults: &[Fault]) -> Wrong {
    first(faults, |f| log(f) && f.given > f.limit, |f| Fault { limit: limits(f.component).0, ..f })
}
pub fn upper_limit(_: &Call, faults: &[Fault]) -> Wrong {
    first(faults, |f| log(f) && f.given < f.limit, |f| Fault { limit: limits(f.component).1, ..f })
}
pub fn first_refused(_: &Call, faults: &[Fault]) -> Wrong {
    first(faults, |f| f.reason() < 5, |f| Fault { limit: if f.given > f.limit { f.limit + 1 } else { f.limit - 1 }, ..f })
}
pub fn luma_limits(_: &Call, faults: &[Fault]) -> Wrong {
    first(faults, chroma_log, |f| Fault { limit: f.limit - 1, ..f })
}
pub fn own_logs(_: &Call, faults: &[Fault]) -> Wrong {
    first(faults, chroma_log, |f| Fault { given: f.given.wrapping_sub(1), limit: f.limit - 1, ..f })
}
pub fn area_end(call: &Call, faults: &[Fault]) -> Wrong {
    first(faults, outside, |f| Fault { given: end(call, f), ..f })
}
pub fn area_end_for_limit(call: &Call, faults: &[Fault]) -> Wrong {
    first(faults, outside, |f| Fault { limit: end(call, f), ..f })
}
pub fn last_place(_: &Call, faults: &[Fault]) -> Wrong {
    first(faults, outside, |f| Fault { limit: f.limit.wrapping_sub(1), ..f })
}
fn earlier(f: Fault) -> (u8, u128) {
    match f.what {
        What::Overlap { earlier, its_start } => (earlier, its_start),
        _ => unreachable!("no overlap"),
    }
}
pub fn earlier_start(_: &Call, faults: &[Fault]) -> Wrong {
    first(faults, shared, |f| Fault { given: earlier(f).1, ..f })
}
pub fn earlier_named(_: &Call, faults: &[Fault]) -> Wrong {
    first(faults, shared, |f| Fault { component: earlier(f).0, ..f })
}
pub fn limit_is_later_start(_: &Call, faults: &[Fault]) -> Wrong {
    first(faults, shared, |f| Fault { limit: f.given, ..f })
}
pub fn limit_is_earlier_start(_: &Call, faults: &[Fault]) -> Wrong {
    first(faults, shared, |f| Fault { limit: earlier(f).1, ..f })
}
pub fn v_for_u(_: &Call, faults: &[Fault]) -> Wrong {
    first(faults, |f| f.component == 1, |f| Fault { component: 2, ..f })
}
pub fn last_fault(_: &Call, faults: &[Fault]) -> Wrong {
    faults.last().map(|f| f.report())
}
pub fn lowest_reason(_: &Call, faults: &[Fault]) -> Wrong {
    faults.iter().min_by_key(|f| f.reason()).map(|f| f.report())
}

// ---- of accepted calls

fn accepted(faults: &[Fault], report: TvReport) -> Wrong {
    faults.is_empty().then_some(report)
}
pub fn numbers_accepted(call: &Call, faults: &[Fault]) -> Wrong {
    let (given, limit) = match call {
        Call::Job { coef, job } => (job.start, coef.len()),
        Call::SubBlock { coef, parts, .. } => (parts[0].start, coef.len()),
        _ => unreachable!("a call without a report"),
    };
    accepted(faults, TvReport { given: given as u64, limit: limit as u64, ..NONE })
}
pub fn answer_accepted(_: &Call, faults: &[Fault]) -> Wrong {
    accepted(faults, TvReport { answer: 1, ..NONE })
}
pub fn component_accepted(_: &Call, faults: &[Fault]) -> Wrong {
    accepted(faults, TvReport { component: 1, ..NONE })
}
