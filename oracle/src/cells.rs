// Counts the cases by cells and prints the table. A cell is an entry point with a size and a depth, a refusal number (of a sub-block also a component), a
// shift, a qp, an edge, or what a report is about. A cell that should have a case and has none is an error.
use crate::accepted::{shapes, Shape};
use crate::calls::*;
use crate::edges;
use crate::refusals::Broken;
use crate::reports::{self, Fault};
use std::collections::HashMap;

/// What the Rust did with the calls that document 01 refuses with one number.
#[derive(Default, Clone)]
pub struct Beyond {
    pub answered: u64,
    /// by the kind of the trap
    pub trapped: HashMap<&'static str, u64>,
    /// trapped with part of the buffer written
    pub half_done: u64,
    pub not_run: HashMap<&'static str, u64>,
}

pub struct Cells {
    entries: Vec<Entry>,
    shapes: HashMap<Entry, Vec<Shape>>,
    /// accepted cases by entry point, place in `shapes` and depth
    sized: HashMap<(Entry, usize, u8), u64>,
    /// refused cases by number and component
    refused: HashMap<(Entry, u8, Option<u8>), u64>,
    /// accepted cases by a number that they were handed
    valued: HashMap<(Entry, &'static str, u8), u64>,
    edges: HashMap<(Entry, &'static str), u64>,
    /// reports by component and by what they are about
    reported: HashMap<(Entry, u8, &'static str), u64>,
    pub beyond: HashMap<(Entry, u8), Beyond>,
}

/// The components that a sub-block's refusal with a number can name.
pub fn components(entry: Entry, number: u8) -> Vec<Option<u8>> {
    match (entry, number) {
        (Entry::SubBlock, 6) => vec![Some(1), Some(2)],
        (Entry::SubBlock, _) => vec![Some(0), Some(1), Some(2)],
        _ => vec![None],
    }
}

impl Cells {
    pub fn new(entries: &[Entry]) -> Cells {
        Cells {
            entries: entries.to_vec(),
            shapes: entries.iter().map(|&e| (e, shapes(e))).collect(),
            sized: HashMap::new(),
            refused: HashMap::new(),
            valued: HashMap::new(),
            edges: HashMap::new(),
            reported: HashMap::new(),
            beyond: HashMap::new(),
        }
    }
    pub fn accepted(&mut self, call: &Call, shape: usize, depth: u8) {
        let entry = call.entry();
        *self.sized.entry((entry, shape, depth)).or_default() += 1;
        let mut value = |name, v| *self.valued.entry((entry, name, v)).or_default() += 1;
        match call {
            Call::Dquant { shift, .. } => value("shift", *shift),
            Call::Itxb1 { shift, .. } => value("shift", *shift),
            Call::Job { job, .. } => {
                value("shift", job.dq_shift);
                value("stage shift", job.it_shift);
                value("qp", job.qp);
            }
            Call::SubBlock { dq_shift, it_shift, parts, .. } => {
                value("shift", *dq_shift);
                value("stage shift", *it_shift);
                parts.iter().filter(|p| p.flag).for_each(|p| value("qp", p.qp));
            }
            _ => {}
        }
    }
    pub fn refused(&mut self, entry: Entry, number: u8, component: Option<u8>) {
        *self.refused.entry((entry, number, component)).or_default() += 1;
    }
    pub fn edges(&mut self, call: &Call, number: u8, broken: &[Broken]) {
        for name in edges::of(call, number, broken) {
            *self.edges.entry((call.entry(), name)).or_default() += 1;
        }
    }
    pub fn reported(&mut self, entry: Entry, faults: &[Fault]) {
        for name in reports::about(faults) {
            *self.reported.entry((entry, faults[0].component, name)).or_default() += 1;
        }
    }
    pub fn count_refused(&self, entry: Entry, number: u8, component: Option<u8>) -> u64 {
        self.refused.get(&(entry, number, component)).copied().unwrap_or(0)
    }
    pub fn count_accepted(&self, entry: Entry) -> u64 {
        self.sized.iter().filter(|((e, ..), _)| *e == entry).map(|(_, n)| n).sum()
    }
    pub fn all_refused(&self) -> u64 {
        self.refused.values().sum()
    }
    fn at(&self, entry: Entry, shape: usize, depth: u8) -> u64 {
        self.sized.get(&(entry, shape, depth)).copied().unwrap_or(0)
    }
    fn of_shape(&self, entry: Entry, shape: usize) -> u64 {
        (8..=14).map(|d| self.at(entry, shape, d)).sum()
    }

    /// Prints all cells; the names of those that have fewer cases than they need, and how many there are in all.
    pub fn print(&self, accepted: u64, refused: u64) -> (Vec<String>, usize) {
        let mut empty = Vec::new();
        let mut cells = 0;
        self.print_depths(accepted, &mut empty, &mut cells);
        self.print_sizes();
        self.print_refusals(refused, &mut empty, &mut cells);
        self.print_values(&mut empty, &mut cells);
        self.print_edges(&mut empty, &mut cells);
        self.print_reports(&mut empty, &mut cells);
        (empty, cells)
    }

    fn print_depths(&self, accepted: u64, empty: &mut Vec<String>, cells: &mut usize) {
        println!(
            "\nAccepted cases, by depth (for the transform: by the build of the Rust), and the least and most in one cell of a size and a depth"
        );
        println!("{:<11} {:>8} {:>6} {}  {:>6} {:>6} {:>6}", "", "cases", "sizes", depths_heading(), "cells", "least", "most");
        for &e in &self.entries {
            let n = self.shapes[&e].len();
            let all = self.count_accepted(e);
            let counts = (0..n).flat_map(|s| (8..=14).map(move |d| (s, d))).map(|(s, d)| (s, d, self.at(e, s, d)));
            let (least, most) = counts.clone().fold((u64::MAX, 0), |(l, m), (.., c)| (l.min(c), m.max(c)));
            let by_depth: String = (8..=14).map(|d| format!(" {:>7}", (0..n).map(|s| self.at(e, s, d)).sum::<u64>())).collect();
            println!("{:<11} {all:>8} {n:>6} {by_depth}  {:>6} {least:>6} {most:>6}", e.name(), n * 7);
            *cells += n * 7;
            for (s, d, _) in counts.filter(|c| c.2 == 0) {
                let s = self.shapes[&e][s];
                empty.push(format!("{}: size {} by {}, flags {}, depth {d}", e.name(), s.w, s.h, s.flags));
            }
            if all < accepted {
                empty.push(format!("{}: {all} accepted cases of {accepted}", e.name()));
            }
        }
    }

    fn print_sizes(&self) {
        println!("\nAccepted cases, by size. Columns: the first size argument (width, log of it, log of a stage's size); rows: the second");
        for &e in &self.entries {
            let shapes = &self.shapes[&e];
            let wide = shapes.len() > 500;
            let flags: Vec<u8> = if e == Entry::SubBlock { (0..8).collect() } else { vec![0] };
            for f in flags {
                let title = if e == Entry::SubBlock {
                    format!("{}, flags{}", e.name(), ["", " Y", " U", " Y U", " V", " Y V", " U V", " Y U V"][f as usize])
                } else {
                    e.name().to_string()
                };
                // of SATD and SAD each column stands for eight sides, and what is printed is the least count of one size among them
                let band = |v: usize| if wide { (v - 1) / 8 } else { v };
                let mut grid: std::collections::BTreeMap<(usize, usize), u64> = Default::default();
                for (k, s) in shapes.iter().enumerate().filter(|(_, s)| s.flags == f) {
                    let count = self.of_shape(e, k);
                    grid.entry((band(s.h), band(s.w))).and_modify(|n| *n = (*n).min(count)).or_insert(count);
                }
                let columns: std::collections::BTreeSet<usize> = grid.keys().map(|k| k.1).collect();
                let rows: std::collections::BTreeSet<usize> = grid.keys().map(|k| k.0).collect();
                let label = |b: usize| if wide { format!("{}..{}", 8 * b + 1, 8 * b + 8) } else { b.to_string() };
                println!("  {title}{}", if wide { " (least count of one size in each band of eight by eight)" } else { "" });
                println!("    {:>7}{}", "", columns.iter().map(|&c| format!("{:>8}", label(c))).collect::<String>());
                for row in rows {
                    println!(
                        "    {:>7}{}",
                        label(row),
                        columns.iter().map(|&c| format!("{:>8}", grid.get(&(row, c)).copied().unwrap_or(0))).collect::<String>()
                    );
                }
            }
        }
    }

    fn print_refusals(&self, refused: u64, empty: &mut Vec<String>, cells: &mut usize) {
        println!("\nRefused cases, by number (a sub-block's by component Y/U/V); '-': document 01 has no such test there");
        println!(
            "{:<11} {:>20} {:>20} {:>20} {:>8} {:>20} {:>13} {:>8}",
            "", "1 SIZE", "2 QP", "3 SHIFT", "4 DEPTH", "5 AREA", "6 OVERLAP", "7 SAMPLE"
        );
        for &e in &self.entries {
            let mut line = format!("{:<11}", e.name());
            for number in 1..=7 {
                let text = if e.numbers().contains(&number) {
                    let counts: Vec<u64> = components(e, number).into_iter().map(|c| self.count_refused(e, number, c)).collect();
                    *cells += counts.len();
                    for (k, n) in counts.iter().enumerate().filter(|(_, n)| **n < refused) {
                        empty.push(format!("{}: refusal {number}, place {k}: {n} cases of {refused}", e.name()));
                    }
                    counts.iter().map(u64::to_string).collect::<Vec<_>>().join("/")
                } else {
                    "-".to_string()
                };
                let width = match number {
                    1 | 2 | 3 | 5 => 20,
                    6 => 13,
                    _ => 8,
                };
                line.push_str(&format!(" {text:>width$}"));
            }
            println!("{line}");
        }
    }

    fn print_values(&self, empty: &mut Vec<String>, cells: &mut usize) {
        println!("\nAccepted cases by shift (0..31) and qp (0..63): the least count of one value");
        use Entry::*;
        for (e, name, top) in [
            (Dquant, "shift", 31),
            (Itxb1, "shift", 31),
            (Job, "shift", 31),
            (Job, "stage shift", 31),
            (Job, "qp", 63),
            (SubBlock, "shift", 31),
            (SubBlock, "stage shift", 31),
            (SubBlock, "qp", 63),
        ]
        .into_iter()
        .filter(|v| self.entries.contains(&v.0))
        {
            let count = |v: u8| self.valued.get(&(e, name, v)).copied().unwrap_or(0);
            println!("{:<11} {name:<12} {:>8}", e.name(), (0..=top).map(count).min().unwrap_or(0));
            *cells += top as usize + 1;
            empty.extend((0..=top).filter(|&v| count(v) == 0).map(|v| format!("{}: {name} {v}", e.name())));
        }
    }

    fn print_edges(&self, empty: &mut Vec<String>, cells: &mut usize) {
        println!("\nEdge inputs (cases)");
        for &e in &self.entries {
            let list: Vec<String> = edges::required(e)
                .into_iter()
                .map(|name| {
                    let n = self.edges.get(&(e, name)).copied().unwrap_or(0);
                    *cells += 1;
                    if n == 0 {
                        empty.push(format!("{}: edge '{name}'", e.name()));
                    }
                    format!("{name} {n}")
                })
                .collect();
            println!("{:<11} {}", e.name(), list.join("; "));
        }
    }

    fn print_reports(&self, empty: &mut Vec<String>, cells: &mut usize) {
        println!("\nReports of refused calls, by component and by what broke its limit; before, with, after: where it starts beside the one that it overlaps");
        for &e in &self.entries {
            for (component, names) in reports::required(e) {
                *cells += names.len();
                let count = |name| self.reported.get(&(e, component, name)).copied().unwrap_or(0);
                let list: Vec<String> = names.iter().map(|name| format!("{name} {}", count(*name))).collect();
                empty.extend(names.iter().filter(|name| count(**name) == 0).map(|name| format!("{}: report {component}, {name}", e.name())));
                println!("{:<11} {} {}", e.name(), ["Y", "U", "V"][component as usize], list.join("; "));
            }
        }
    }

    /// Where document 01 refuses: what the Rust trapped on and what it answered.
    pub fn print_beyond(&self) {
        println!(
            "\nWhat the Rust did where document 01 refuses (run on a copy): trapped (of those with part of a buffer written) / answered / not run"
        );
        for &e in &self.entries {
            for &number in e.numbers() {
                let b = self.beyond.get(&(e, number)).cloned().unwrap_or_default();
                let sum = |m: &HashMap<&str, u64>| m.values().sum::<u64>();
                let mut why: Vec<String> = b.trapped.iter().chain(&b.not_run).map(|(k, n)| format!("{k} {n}")).collect();
                why.sort();
                println!(
                    "{:<11} {number}: {:>7} ({}) / {:>7} / {:>7}   {}",
                    e.name(),
                    sum(&b.trapped),
                    b.half_done,
                    b.answered,
                    sum(&b.not_run),
                    why.join("; ")
                );
            }
        }
    }
}

fn depths_heading() -> String {
    (8..=14).map(|d| format!(" {d:>7}")).collect()
}
