// Mutants of the expected side. Each is a tempting way to be wrong; the library's answers are held against it, and it must be caught: on some case the
// two differ. A mutant that no case catches says that the cases are too weak.
//   twists       a wrong definition, on accepted calls
//   swapped      width and height exchanged, on accepted calls: the mutant may refuse, or accept and give another result
//   tables       a wrong table of refusals, on all calls: a limit one off, or another order of the tests
//   reports      a wrong report, on jobs and sub-blocks
use crate::calls::*;
use crate::definition::Twist;
use crate::expected;
use crate::exports::TvReport;
use crate::limits;
use crate::random::Random;
use crate::refusals;
use crate::reports::Fault;
use crate::wrong_reports as wrong;

const MANY: u64 = 20_000;

pub struct Mutant {
    pub name: &'static str,
    pub entry: Entry,
    kind: Kind,
    /// cases held against it, cases that caught it, and those of them where both accept and results differ
    pub tried: u64,
    pub caught: u64,
    pub by_result: u64,
}

enum Kind {
    Twist(Twist),
    Swapped,
    /// the table of refusals answers for this call instead
    Limit(fn(&mut Call) -> bool),
    /// the table of refusals answers another one of its broken tests
    Order(fn(&[refusals::Broken]) -> Option<refusals::Broken>),
    Report(fn(&Call, &[Fault]) -> Option<TvReport>),
}

pub struct Mutants(pub Vec<Mutant>);

impl Mutants {
    /// Every mutant of these entry points.
    pub fn of(asked: &[Entry]) -> Mutants {
        use Entry::*;
        let mut all = Vec::new();
        let mut add = |name, entries: &[Entry], kind: fn() -> Kind| {
            for &entry in entries.iter().filter(|e| asked.contains(e)) {
                all.push(Mutant { name, entry, kind: kind(), tried: 0, caught: 0, by_result: 0 });
            }
        };
        let sads = [Sad16b, SadBi16b, Sad16i, SadBi16i];
        let compares = [Diff, Satd, Ssd16b, Ssd16i, Sad16b, SadBi16b, Sad16i, SadBi16i];
        let planes = &compares[..7]; // those that read a plane
        add("SSD: the total is shifted", &[Ssd16b, Ssd16i], || Kind::Twist(Twist::SsdTotal));
        add("SAD: each sample is shifted", &sads, || Kind::Twist(Twist::SadPerSample));
        add("negative quotients toward zero", &[Dquant, Itxb1, Job, SubBlock], || Kind::Twist(Twist::TowardZero));
        add("1 is added for shift 0", &[Itxb1, Job, SubBlock], || Kind::Twist(Twist::OneAtShiftZero));
        add("the output is left untransposed", &[Itxb0, Itxb1, Job, SubBlock], || Kind::Twist(Twist::Untransposed));
        add("only the first tile's DC is divided", &[Satd], || Kind::Twist(Twist::FirstTileOnly));
        add("a position is cut at 0 once a block", &[Ssd16i, Sad16b, SadBi16b], || Kind::Twist(Twist::CutOnce));
        add("width and height are swapped", &[Itxb0, Itxb1, Job, SubBlock], || Kind::Swapped);
        // (a dequantizer's area and a SAD of two packed blocks are the same either way)
        add("width and height are swapped", planes, || Kind::Swapped);
        add("qp 64 is allowed", &[Job, SubBlock], || Kind::Limit(limits::qp));
        add("shift 32 is allowed", &[Dquant, Itxb1, Job, SubBlock], || Kind::Limit(limits::shift));
        add("depth 7 is allowed", &compares, || Kind::Limit(limits::depth_7));
        add("depth 15 is allowed", &compares, || Kind::Limit(limits::depth_15));
        add("one place more of size is allowed", &ENTRIES, || Kind::Limit(limits::size));
        add("one sample short is allowed", &ENTRIES, || Kind::Limit(limits::short));
        add("one column past the edge is allowed", planes, || Kind::Limit(limits::column));
        add("one row past the edge is allowed", planes, || Kind::Limit(limits::row));
        add("a plane's side of 16,385 is allowed", planes, || Kind::Limit(limits::plane_side));
        add("a stride one below the width is allowed", planes, || Kind::Limit(limits::stride));
        add("starts and positions wrap at 2^64", &[Job, SubBlock, Diff, Satd, Ssd16b, Sad16b, Sad16i], || Kind::Limit(limits::wrap));
        add("a sample of 2^depth is allowed", &compares, || Kind::Limit(limits::sample));
        add("a bi-prediction value of -16,385 is allowed", &[SadBi16b, SadBi16i], || Kind::Limit(limits::bi));
        add("the highest broken number is answered", &ENTRIES, || Kind::Order(|b| b.iter().copied().max_by_key(|b| b.number)));
        add("the lowest number goes before the component", &[SubBlock], || Kind::Order(|b| b.iter().copied().min_by_key(|b| b.number)));
        add("the last broken component is named", &[SubBlock], || Kind::Order(|b| b.last().copied()));
        let both = [Job, SubBlock];
        add("report: given and limit are exchanged", &both, || Kind::Report(wrong::exchanged));
        add("report: the height where the width is broken", &both, || Kind::Report(wrong::height_for_width));
        add("report: the height goes before the width", &both, || Kind::Report(wrong::height_first));
        add("report: the stage shift goes first", &both, || Kind::Report(wrong::stage_first));
        add("report: the lower limit for a log too high", &both, || Kind::Report(wrong::lower_limit));
        add("report: the upper limit for a log too low", &both, || Kind::Report(wrong::upper_limit));
        add("report: the limit is the first number refused", &both, || Kind::Report(wrong::first_refused));
        add("report: luma's limits for chroma", &[SubBlock], || Kind::Report(wrong::luma_limits));
        add("report: chroma's own logs", &[SubBlock], || Kind::Report(wrong::own_logs));
        add("report: AREA gives the area's end", &both, || Kind::Report(wrong::area_end));
        add("report: AREA's limit is the area's end", &both, || Kind::Report(wrong::area_end_for_limit));
        add("report: AREA's limit is the last place", &both, || Kind::Report(wrong::last_place));
        add("report: OVERLAP gives the earlier start", &[SubBlock], || Kind::Report(wrong::earlier_start));
        add("report: OVERLAP names the earlier one", &[SubBlock], || Kind::Report(wrong::earlier_named));
        add("report: OVERLAP's limit is the start given", &[SubBlock], || Kind::Report(wrong::limit_is_later_start));
        add("report: OVERLAP's limit is the other's start", &[SubBlock], || Kind::Report(wrong::limit_is_earlier_start));
        add("report: U's fault is told for V", &[SubBlock], || Kind::Report(wrong::v_for_u));
        add("report: the last fault is told", &both, || Kind::Report(wrong::last_fault));
        add("report: the lowest reason goes first", &[SubBlock], || Kind::Report(wrong::lowest_reason));
        add("report: an accepted call gives numbers", &both, || Kind::Report(wrong::numbers_accepted));
        add("report: an accepted call answers 1", &both, || Kind::Report(wrong::answer_accepted));
        add("report: an accepted call names U", &both, || Kind::Report(wrong::component_accepted));
        Mutants(all)
    }

    /// Holds the library's outcome of a call against every mutant of its entry point; once each has seen many calls, against one in eight.
    pub fn hold(&mut self, call: &Call, got: &Outcome, broken: &[refusals::Broken], r: &mut Random) {
        for m in self.0.iter_mut().filter(|m| m.entry == call.entry()) {
            if m.passes(r) {
                continue;
            }
            let same = match &m.kind {
                Kind::Twist(twist) if got.number == 0 => {
                    let same = expected::twisted(call, *twist) == *got;
                    m.by_result += !same as u64;
                    same
                }
                Kind::Swapped if got.number == 0 => {
                    let mut swapped = call.clone();
                    swap(&mut swapped);
                    let wrong = expected::twisted(&swapped, Twist::None);
                    m.by_result += (wrong.number == 0 && wrong != *got) as u64;
                    wrong == *got
                }
                Kind::Limit(change) if got.number != 0 => {
                    let mut changed = call.clone();
                    if !change(&mut changed) {
                        continue;
                    }
                    refusals::answer(&changed) == (got.number, got.component)
                }
                Kind::Order(other) if got.number != 0 => other(broken).is_some_and(|b| (b.number, b.component) == (got.number, got.component)),
                _ => continue,
            };
            m.tried += 1;
            m.caught += !same as u64;
        }
    }

    /// The same with the library's report.
    pub fn hold_report(&mut self, call: &Call, got: &TvReport, faults: &[Fault], r: &mut Random) {
        for m in self.0.iter_mut().filter(|m| m.entry == call.entry()) {
            let Kind::Report(wrong) = m.kind else { continue };
            let Some(told) = wrong(call, faults) else { continue };
            if !m.passes(r) {
                m.tried += 1;
                m.caught += (told != *got) as u64;
            }
        }
    }
}

impl Mutant {
    /// It has seen many calls, and lets seven of eight go.
    fn passes(&self, r: &mut Random) -> bool {
        self.tried >= MANY && !r.one_in(8)
    }
}

fn swap(call: &mut Call) {
    match call {
        Call::Dquant { log2_w, log2_h, .. } | Call::SubBlock { log2_w, log2_h, .. } => std::mem::swap(log2_w, log2_h),
        Call::Itxb0 { log2_size, log2_line, .. } | Call::Itxb1 { log2_size, log2_line, .. } => std::mem::swap(log2_size, log2_line),
        Call::Job { job, .. } => std::mem::swap(&mut job.log2_w, &mut job.log2_h),
        Call::Compare(c) => std::mem::swap(&mut c.w, &mut c.h),
    }
}
