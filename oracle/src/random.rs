// Numbers by chance from a seed (splitmix64), and the patterns by which a buffer is filled. The same seed gives the same cases on every machine.

pub struct Random(u64);

impl Random {
    /// A stream of its own for each case, so that no case depends on how many came before it.
    pub fn of(seed: u64, entry: u64, phase: u64, case: u64) -> Random {
        let mut r = Random(seed);
        for n in [entry, phase, case] {
            r.0 = r.next() ^ n;
        }
        r
    }
    pub fn next(&mut self) -> u64 {
        self.0 = self.0.wrapping_add(0x9E37_79B9_7F4A_7C15);
        let mut z = self.0;
        z = (z ^ (z >> 30)).wrapping_mul(0xBF58_476D_1CE4_E5B9);
        z = (z ^ (z >> 27)).wrapping_mul(0x94D0_49BB_1331_11EB);
        z ^ (z >> 31)
    }
    /// lo..=hi
    pub fn within(&mut self, lo: i64, hi: i64) -> i64 {
        let span = (hi as i128 - lo as i128 + 1) as u128;
        (lo as i128 + (self.next() as u128 * span >> 64) as i128) as i64
    }
    /// 0..n
    pub fn below(&mut self, n: usize) -> usize {
        (self.next() as u128 * n as u128 >> 64) as usize
    }
    pub fn one_in(&mut self, n: usize) -> bool {
        self.below(n) == 0
    }
    pub fn pick<T: Copy>(&mut self, from: &[T]) -> T {
        from[self.below(from.len())]
    }
    /// 0 half of the time, else 1..=most
    pub fn some(&mut self, most: usize) -> usize {
        if self.one_in(2) {
            0
        } else {
            1 + self.below(most)
        }
    }
    /// a number near the largest usize, or one whose product or sum with a small one wraps to something small
    pub fn huge(&mut self) -> usize {
        let near = usize::MAX - self.below(70);
        self.pick(&[
            usize::MAX,
            usize::MAX - 1,
            near,
            near,
            1 << 63,
            (1 << 63) - 1,
            (1 << 63) + 1,
            1 << 62,
            1 << 32,
            (1 << 32) + 1,
            usize::MAX / 3 + 1,
        ])
    }
}

/// n numbers of lo..=hi by one of several patterns: anything, both ends, one end, in turn, few, a single one, near the ends, a narrow window.
pub fn numbers(r: &mut Random, n: usize, lo: i64, hi: i64) -> Vec<i64> {
    let (low, high) = if r.one_in(3) { (lo, hi) } else { window(r, lo, hi) };
    match r.below(10) {
        0 => (0..n).map(|_| if r.one_in(2) { low } else { high }).collect(),
        1 => vec![if r.one_in(2) { low } else { high }; n],
        2 => (0..n).map(|i| if i % 2 == 0 { high } else { low }).collect(),
        3 => (0..n).map(|_| if r.one_in(6) { r.within(low, high) } else { 0i64.clamp(lo, hi) }).collect(),
        4 => {
            let mut v = vec![0i64.clamp(lo, hi); n];
            if n > 0 {
                let at = if r.one_in(3) { 0 } else { r.below(n) };
                v[at] = if r.one_in(2) { 1i64.clamp(lo, hi) } else { r.within(low, high) };
            }
            v
        }
        5 => (0..n)
            .map(|_| {
                let d = r.within(0, 3);
                if r.one_in(2) {
                    (lo + d).min(hi)
                } else {
                    (hi - d).max(lo)
                }
            })
            .collect(),
        _ => (0..n).map(|_| r.within(low, high)).collect(),
    }
}

/// A part of lo..=hi that is a power of two wide, around 0 half of the time.
fn window(r: &mut Random, lo: i64, hi: i64) -> (i64, i64) {
    let bits = 64 - ((hi - lo) as u64).leading_zeros() as usize;
    let width = 1i64 << r.below(bits + 1);
    let from = if r.one_in(2) { -(width / 2) } else { r.within(lo, hi) };
    let from = from.clamp(lo, hi);
    (from, (from + width).min(hi))
}
