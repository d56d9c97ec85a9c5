// The benchmark's program: compares, times and counts each case, and writes one line for each to standard output. ../run builds it and ../report.py reads
// the lines.
//   bench [self]      self: the Rust on both sides, which shows how far a ratio is off by chance alone
// BATCHES (default 200) for each side, case and round; ROUNDS (default 3) through all cases; SEED (default 1); KERNELS: only these.
mod cases;
mod clock;
mod distortion;
#[path = "../../oracle/src/exports.rs"]
mod exports;
mod memory;
#[path = "../../oracle/src/random.rs"]
#[allow(dead_code)]
mod random;
mod rust;
mod steps;
mod transform;

use cases::{Case, Side};
use rust::{Depth10, Depth14, Depth8};

/// Instructions are counted at this depth alone: each costs microseconds, and another depth is another shift.
const COUNTED: u8 = 10;

fn number(name: &str, default: u64) -> u64 {
    match std::env::var(name) {
        Ok(s) => s.parse().unwrap_or_else(|_| panic!("{name} has to be a number")),
        Err(_) => default,
    }
}

fn answer(side: &Side, case: &Case) -> (i64, Vec<u8>) {
    (case.spoil)();
    (side.refill)();
    ((side.call)(), (case.left)())
}

/// "same", or what is wrong.
fn compared(case: &Case) -> String {
    let (rust, ours) = (answer(&case.rust, case), answer(&case.ours, case));
    if rust == ours {
        "same".into()
    } else if ours.0 == cases::refused(255) {
        "not in the archive".into()
    } else if (1..=7).any(|n| ours.0 == cases::refused(n)) {
        format!("refused with {}", ours.0 - i64::MIN)
    } else {
        "another answer".into()
    }
}

fn ours(case: &Case, myself: bool) -> &Side {
    if myself {
        &case.rust
    } else {
        &case.ours
    }
}

fn main() {
    let myself = std::env::args().nth(1).as_deref() == Some("self");
    let (batches, rounds, seed) = (number("BATCHES", 200) as usize, number("ROUNDS", 3), number("SEED", 1));
    let mut all = Vec::new();
    all.extend(cases::at::<Depth8>(seed));
    all.extend(cases::at::<Depth10>(seed));
    all.extend(cases::at::<Depth14>(seed));
    if let Ok(names) = std::env::var("KERNELS") {
        all.retain(|c| names.split_whitespace().any(|n| n == c.kernel));
    }
    let said: Vec<String> = all.iter().map(|c| if myself { "same".into() } else { compared(c) }).collect();
    let mut times: Vec<clock::Times> = all.iter().map(|_| Default::default()).collect();
    for round in 1..=rounds {
        for (i, c) in all.iter().enumerate().filter(|(i, _)| said[*i] == "same") {
            clock::measure(ours(c, myself), &c.rust, batches, &mut times[i]);
        }
        eprintln!("bench: round {round} of {rounds} timed");
    }
    println!("kernel\tplace\twidth\theight\tdepth\tanswer\tours ns\tRust ns\tmiddle\tours steps\tRust steps");
    for (i, c) in all.iter().enumerate() {
        print!("{}\t{}\t{}\t{}\t{}\t{}", c.kernel, c.place, c.w, c.h, c.depth, said[i]);
        if said[i] == "same" {
            let count =
                |s: &Side| if c.depth == COUNTED && !myself { steps::steps(s).map_or(String::new(), |n| n.to_string()) } else { String::new() };
            let (o, r) = times[i].best();
            println!("\t{o:.2}\t{r:.2}\t{:.4}\t{}\t{}", times[i].middle(), count(ours(c, myself)), count(&c.rust));
        } else {
            println!("\t\t\t\t\t");
        }
    }
}
