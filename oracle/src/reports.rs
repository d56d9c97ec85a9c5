// The expected reports, from document 02, One, with document 01's order of the tests. Written without a look at the definitions (evc/specs) or at the code
// that makes the reports (job_tests); the exports' contracts and the calls above that code were seen. All arithmetic on starts, areas and lengths is
// exact, in u128.
use crate::calls::*;
use crate::exports::TvReport;

/// Which number of a call broke a limit.
#[derive(Clone, Copy, PartialEq, Debug)]
pub enum What {
    Width,
    Height,
    Qp,
    DequantizationShift,
    StageShift,
    Area,
    /// with a component that is tested earlier, and where that one starts
    Overlap {
        earlier: u8,
        its_start: u128,
    },
}
use What::*;

/// A test that is broken: by which component (Y for a job), by which number, and what that number broke.
#[derive(Clone, Copy, PartialEq, Debug)]
pub struct Fault {
    pub component: u8,
    pub what: What,
    pub given: u128,
    pub limit: u128,
}

impl Fault {
    pub fn reason(self) -> u8 {
        match self.what {
            Width | Height => 1,
            Qp => 2,
            DequantizationShift | StageShift => 3,
            Area => 5,
            Overlap { .. } => 6,
        }
    }
    pub fn report(self) -> TvReport {
        TvReport { given: self.given as u64, limit: self.limit as u64, answer: self.reason(), component: self.component }
    }
}

/// What an accepted call reports.
pub const NONE: TvReport = TvReport { given: 0, limit: 0, answer: 0, component: 0 };

/// What a call with these faults reports.
pub fn report(faults: &[Fault]) -> TvReport {
    faults.first().map_or(NONE, |f| f.report())
}

/// Every broken test of a job or a sub-block, in the order in which they are tested; of another call nothing is reported. AREA has a meaning only where
/// the size holds, OVERLAP where all else does.
pub fn faults(call: &Call) -> Option<Vec<Fault>> {
    let mut out = Vec::new();
    match call {
        Call::Job { coef, job: j } => component(&mut out, 0, (j.log2_w, j.log2_h), j.qp, (j.dq_shift, j.it_shift), j.start, coef.len()),
        Call::SubBlock { coef, log2_w, log2_h, dq_shift, it_shift, parts, .. } => {
            for (c, p) in parts.iter().enumerate().filter(|(_, p)| p.flag) {
                component(&mut out, c as u8, (*log2_w, *log2_h), p.qp, (*dq_shift, *it_shift), p.start, coef.len());
            }
            let pairs: &[(usize, usize)] = if out.is_empty() { &[(0, 1), (0, 2), (1, 2)] } else { &[] };
            for &(c, d) in pairs.iter().filter(|&&(c, d)| parts[c].flag && parts[d].flag) {
                let places = |k: usize| area(k as u8, (*log2_w, *log2_h), parts[k].start);
                if let Some(lowest) = places(c).find(|at| places(d).contains(at)) {
                    let what = Overlap { earlier: c as u8, its_start: parts[c].start as u128 };
                    out.push(Fault { component: d as u8, what, given: parts[d].start as u128, limit: lowest });
                }
            }
        }
        _ => return None,
    }
    Some(out)
}

/// The tests of one component. Its logs are as handed in: those of chroma are luma's, and its limits are one more.
fn component(out: &mut Vec<Fault>, component: u8, logs: (usize, usize), qp: u8, shifts: (u8, u8), start: usize, length: usize) {
    let mut found = |what, given, limit| out.push(Fault { component, what, given, limit });
    let (lowest, highest) = limits(component);
    let mut size = true;
    for (what, log) in [(Width, logs.0 as u128), (Height, logs.1 as u128)] {
        if log < lowest {
            found(what, log, lowest);
            size = false;
        } else if log > highest {
            found(what, log, highest);
            size = false;
        }
    }
    if qp > 63 {
        found(Qp, qp as u128, 63);
    }
    for (what, shift) in [(DequantizationShift, shifts.0), (StageShift, shifts.1)] {
        if shift > 31 {
            found(what, shift as u128, 31);
        }
    }
    if size && area(component, logs, start).end > length as u128 {
        found(Area, start as u128, length as u128);
    }
}

/// The lowest and the highest log that a component allows, as handed in.
pub fn limits(component: u8) -> (u128, u128) {
    if component == 0 {
        (1, 6)
    } else {
        (2, 7)
    }
}

/// The places of a component whose logs, as handed in, are allowed.
pub fn area(component: u8, (log2_w, log2_h): (usize, usize), start: usize) -> std::ops::Range<u128> {
    let less = if component == 0 { 0 } else { 2 };
    start as u128..start as u128 + (1 << (log2_w + log2_h - less))
}

// ---- the cells: what a report can be about

/// Of a component; of OVERLAP by the earlier component, and where the later one starts beside it.
const OF_EACH: [&str; 11] = [
    "width below",
    "width above",
    "height below",
    "height above",
    "both logs",
    "qp",
    "dequantization shift",
    "stage shift",
    "both shifts",
    "area",
    "several faults",
];
const OF_PAIRS: [[&str; 3]; 2] = [["before Y", "with Y", "after Y"], ["before U", "with U", "after U"]];

/// The components of an entry point, each with what some report must be about.
pub fn required(entry: Entry) -> Vec<(u8, Vec<&'static str>)> {
    match entry {
        Entry::Job => vec![(0, OF_EACH.to_vec())],
        Entry::SubBlock => (0..3).map(|c| (c, OF_EACH.into_iter().chain(OF_PAIRS[..c as usize].concat()).collect())).collect(),
        _ => Vec::new(),
    }
}

/// What the report of these faults is about.
pub fn about(faults: &[Fault]) -> Vec<&'static str> {
    let Some(first) = faults.first() else { return Vec::new() };
    let too = |what| faults.iter().any(|f| f.component == first.component && f.what == what);
    let mut on = Vec::new();
    match first.what {
        Width | Height => {
            let above = (first.given > first.limit) as usize;
            on.push(OF_EACH[above + if first.what == Width { 0 } else { 2 }]);
            on.extend((first.what == Width && too(Height)).then_some("both logs"));
        }
        Qp => on.push("qp"),
        DequantizationShift => {
            on.push("dequantization shift");
            on.extend(too(StageShift).then_some("both shifts"));
        }
        StageShift => on.push("stage shift"),
        Area => on.push("area"),
        Overlap { earlier, its_start } => on.push(OF_PAIRS[earlier as usize][(first.given.cmp(&its_start) as i8 + 1) as usize]),
    }
    on.extend((faults.len() > 1).then_some("several faults"));
    on
}
