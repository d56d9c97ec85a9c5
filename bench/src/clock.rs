// Best of many batches, ours and the Rust's in turn, so that a busy machine hurts both alike.
use crate::cases::Side;
use std::time::Instant;

/// Of one case.
#[derive(Default)]
pub struct Times {
    /// nanoseconds a call, the smallest seen
    best: Option<(f64, f64)>,
    /// ours by the Rust's, of two batches that ran one after the other
    pairs: Vec<f64>,
}

impl Times {
    fn add(&mut self, ours: f64, rust: f64) {
        let (o, r) = self.best.unwrap_or((ours, rust));
        self.best = Some((o.min(ours), r.min(rust)));
        self.pairs.push(ours / rust);
    }
    pub fn best(&self) -> (f64, f64) {
        self.best.expect("a measured case")
    }
    /// Half of the pairs are below it. On a quiet machine it is the ratio of the bests; where it isn't, that ratio is in doubt.
    pub fn middle(&self) -> f64 {
        let mut p = self.pairs.clone();
        p.sort_by(f64::total_cmp);
        p[p.len() / 2]
    }
}

fn time(side: &Side, calls: usize) -> f64 {
    let start = Instant::now();
    (side.batch)(calls);
    start.elapsed().as_nanos() as f64 / calls as f64
}

/// Calls that take about as many nanoseconds as a batch should: short enough that most batches run undisturbed.
fn calls(side: &Side) -> usize {
    const BATCH: f64 = 60_000.0;
    let mut n = 1;
    while time(side, n) * (n as f64) < BATCH / 4.0 {
        n *= 2;
    }
    let each = (0..5).map(|_| time(side, n)).fold(f64::INFINITY, f64::min);
    ((BATCH / each) as usize).max(1)
}

pub fn measure(ours: &Side, rust: &Side, batches: usize, times: &mut Times) {
    let (n, m) = (calls(ours), calls(rust));
    for b in 0..batches {
        if b % 2 == 0 {
            let o = time(ours, n);
            times.add(o, time(rust, m));
        } else {
            let r = time(rust, m);
            times.add(time(ours, n), r);
        }
    }
}
