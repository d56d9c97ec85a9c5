// Differential runs: the proved library against the unchanged Rust, in one process. ../README.md says what is compared; ../run builds and starts this.
//   oracle [COUNT [SEED [ENTRY..]]]
// The exit status is 0 if and only if nothing differs, no cell is empty and every mutant is caught.
mod accepted;
mod blocks;
mod calls;
mod cells;
mod definition;
mod edges;
mod expected;
mod exports;
mod faults;
mod library;
mod limits;
mod mutants;
mod random;
mod refusals;
mod reports;
mod room;
mod shim;
mod wrong_blocks;
mod wrong_reports;

use calls::*;
use cells::Cells;
use library::Library;
use mutants::Mutants;
use random::Random;
use shim::Ran;
use std::time::Instant;

/// Fewer accepted cases than this for an entry point leave shifts and edges to chance.
const LEAST_ACCEPTED: u64 = 4000;
const LEAST_REFUSED: u64 = 1000;
const SHOWN: usize = 5;

struct Run {
    seed: u64,
    library: Library,
    cells: Cells,
    mutants: Mutants,
    differences: u64,
    /// sub-blocks that the source's own call was asked for too
    own_calls: u64,
    compared: u64,
    /// of those, jobs and sub-blocks called with a report too
    reported: u64,
}

/// COUNT, SEED and the entry points, from the command line.
fn arguments() -> (u64, u64, Vec<Entry>) {
    let stop = |what: &str| -> ! {
        let names: Vec<&str> = ENTRIES.iter().map(|e| e.name()).collect();
        eprintln!("{what}\nusage: run [COUNT [SEED [ENTRY..]]]; entry points: {}", names.join(" "));
        std::process::exit(2)
    };
    let given: Vec<String> = std::env::args().skip(1).collect();
    let number = |k: usize, default: u64| match given.get(k) {
        None => default,
        Some(text) => text.replace(['_', ','], "").parse().unwrap_or_else(|_| stop(&format!("no whole number: {text}"))),
    };
    let named: Vec<Entry> =
        given.iter().skip(2).map(|n| ENTRIES.into_iter().find(|e| e.name() == n).unwrap_or_else(|| stop(&format!("no entry point: {n}")))).collect();
    (number(0, 100_000), number(1, 1), if named.is_empty() { ENTRIES.to_vec() } else { named })
}

fn main() {
    let (count, seed, entries) = arguments();
    let per_number = LEAST_REFUSED.max(count / 50);
    println!("seed {seed}; at least {count} accepted cases for each entry point and {per_number} refused ones for each of its numbers");
    shim::keep_traps();
    let mut run = Run {
        seed,
        library: Library::new(),
        cells: Cells::new(&entries),
        mutants: Mutants::of(&entries),
        differences: 0,
        own_calls: 0,
        compared: 0,
        reported: 0,
    };
    let tables = expected::tables_agree();
    for &entry in &entries {
        let began = Instant::now();
        let before = run.differences;
        let k = ENTRIES.iter().position(|&e| e == entry).unwrap_or(0) as u64;
        run.accepted(k, entry, count);
        run.refused(k, entry, per_number);
        println!("{:<11} {} differences, {:.1} s", entry.name(), run.differences - before, began.elapsed().as_secs_f64());
    }
    std::process::exit(run.report(&entries, count, per_number, tables))
}

impl Run {
    /// Every size and depth in turn, as often as it takes.
    fn accepted(&mut self, k: u64, entry: Entry, count: u64) {
        let shapes = accepted::shapes(entry);
        let count = count.max(LEAST_ACCEPTED).max(shapes.len() as u64 * 7);
        for case in 0..count {
            let r = &mut Random::of(self.seed, k, 0, case);
            let cell = case as usize % (shapes.len() * 7);
            let (shape, depth) = (cell / 7, 8 + (cell % 7) as u8);
            let call = accepted::make(entry, shapes[shape], depth, r);
            let id = format!("{} accepted {case}", entry.name());
            let broken = refusals::broken(&call);
            if !broken.is_empty() {
                self.differ(&id, &call, &format!("the case isn't one that document 01 accepts: {broken:?}"));
                continue;
            }
            let want = match expected::accepted(&call, depth) {
                Ok(want) => want,
                Err(why) => {
                    self.differ(&id, &call, &why);
                    continue;
                }
            };
            if accepted::has_driver_form(&call, depth) {
                self.own_calls += 1;
                match shim::own_sub_block(&call, depth) {
                    Ran::Answered { left, .. } if left == want.left => {}
                    _ => self.differ(&id, &call, "the source's own sub-block call and its composed jobs differ"),
                }
            }
            self.cells.accepted(&call, shape, depth);
            self.hold(&id, &call, want, &broken, r);
        }
    }

    /// Each number (and component), until it has been answered often enough.
    fn refused(&mut self, k: u64, entry: Entry, per_number: u64) {
        for &number in entry.numbers() {
            for component in cells::components(entry, number) {
                let mut case = 0;
                while self.cells.count_refused(entry, number, component) < per_number && case < per_number * 40 {
                    let phase = 1 + number as u64 * 4 + component.unwrap_or(0) as u64;
                    let r = &mut Random::of(self.seed, k, phase, case);
                    let call = faults::refused(entry, number, component.unwrap_or(0) as usize, case, r);
                    let id = format!("{} refused {number}/{component:?} {case}", entry.name());
                    case += 1;
                    let broken = refusals::broken(&call);
                    let Some(first) = broken.first().copied() else { continue };
                    self.cells.refused(entry, first.number, first.component);
                    self.beyond(&call, first.number, 8 + (case % 7) as u8);
                    let want = expected::refused(&call, first.number, first.component);
                    self.hold(&id, &call, want, &broken, r);
                }
            }
        }
    }

    /// The library's outcome against the expected one, and against the mutants.
    fn hold(&mut self, id: &str, call: &Call, want: Outcome, broken: &[refusals::Broken], r: &mut Random) {
        self.cells.edges(call, want.number, broken);
        self.compared += 1;
        match self.library.run(call, r) {
            Err(damage) => self.differ(id, call, &damage),
            Ok(got) => {
                if got != want {
                    self.differ(id, call, &format!("expected {}\n    got      {}", want.describe(), got.describe()));
                }
                self.mutants.hold(call, &got, broken, r);
            }
        }
        if let Some(faults) = reports::faults(call) {
            self.hold_report(id, call, &want, &faults, r);
        }
    }

    /// The same call with a report, on a fresh copy of its buffer.
    fn hold_report(&mut self, id: &str, call: &Call, want: &Outcome, faults: &[reports::Fault], r: &mut Random) {
        let due = reports::report(faults);
        if (due.answer, due.component) != (want.number, want.component.unwrap_or(0)) {
            self.differ(id, call, &format!("two readings of the refusals differ: {}, {due:?}", want.describe()));
        }
        self.cells.reported(call.entry(), faults);
        self.reported += 1;
        match self.library.reported(call, r) {
            Err(damage) => self.differ(id, call, &damage),
            Ok((got, left)) => {
                if got != due {
                    self.differ(id, call, &format!("expected {due:?}\n    got      {got:?}"));
                }
                if left != want.left {
                    self.differ(id, call, "with a report it leaves another buffer");
                }
                self.mutants.hold_report(call, &got, faults, r);
            }
        }
    }

    /// Counts what the Rust does with a call that document 01 refuses.
    fn beyond(&mut self, call: &Call, number: u8, build: u8) {
        let depth = if let Call::Compare(c) = call { c.depth } else { build };
        let b = self.cells.beyond.entry((call.entry(), number)).or_default();
        match shim::run(call, depth) {
            Ran::Answered { .. } => b.answered += 1,
            Ran::Trapped { text, left } => {
                *b.trapped.entry(kind_of(&text)).or_default() += 1;
                b.half_done += (left != call.before()) as u64;
            }
            Ran::NotRun(why) => *b.not_run.entry(why).or_default() += 1,
        }
    }

    fn differ(&mut self, id: &str, call: &Call, what: &str) {
        self.differences += 1;
        if self.differences <= SHOWN as u64 {
            println!("DIFFERENCE in case {id} of seed {}:\n    {}\n    {what}", self.seed, call.describe());
        }
    }

    /// Prints the tables and the summary; the exit status.
    fn report(&self, entries: &[Entry], count: u64, per_number: u64, tables: Result<usize, String>) -> i32 {
        let (mut empty, cells) = self.cells.print(count, per_number);
        self.cells.print_beyond();
        println!(
            "\nMutants of the expected side: cases that caught each (of those held against it; of twists: where both accept and results differ)"
        );
        let mut uncaught = Vec::new();
        for m in &self.mutants.0 {
            println!("{:<46} {:<11} {:>8} of {:>8} ({})", m.name, m.entry.name(), m.caught, m.tried, m.by_result);
            if m.caught == 0 {
                uncaught.push(format!("{}, {}", m.name, m.entry.name()));
            }
        }
        if entries.contains(&Entry::SubBlock) && self.own_calls == 0 {
            empty.push("sub_block: none was put to the source's own call".to_string());
        }
        for e in empty.iter().take(20) {
            println!("EMPTY CELL: {e}");
        }
        for m in &uncaught {
            println!("NOT CAUGHT: {m}");
        }
        let accepted: u64 = entries.iter().map(|&e| self.cells.count_accepted(e)).sum();
        println!("\nSummary (seed {})", self.seed);
        println!(
            "  tables      {}",
            tables.as_ref().map_or_else(|why| format!("DIFFER: {why}"), |n| format!("{n} numbers of tbl.rs are document 01's"))
        );
        println!(
            "  cases       {} compared: {accepted} accepted, {} refused; {} of 13 entry points",
            self.compared,
            self.cells.all_refused(),
            entries.len()
        );
        println!("  reports     {} of these called with a report as well", self.reported);
        println!("  own calls   {} sub-blocks were put to the source's own call as well", self.own_calls);
        println!("  cells       {cells}, of which {} empty", empty.len());
        println!("  mutants     {}, of which {} not caught", self.mutants.0.len(), uncaught.len());
        println!("  differences {}", self.differences);
        let good = self.differences == 0 && empty.is_empty() && uncaught.is_empty() && tables.is_ok();
        println!("{}", if good { "PASSED" } else { "FAILED" });
        !good as i32
    }
}

/// The kind of a trap, by its text.
fn kind_of(text: &str) -> &'static str {
    if text.contains("overflow") {
        "overflow"
    } else if text.contains("index") || text.contains("range") {
        "index"
    } else if text.contains("assert") {
        "assertion"
    } else {
        "other trap"
    }
}
