// The proved library: a call of one of its exports with every buffer in a room of its own. Whatever a call leaves that its outcome can't say (a
// changed guard zone, a changed input, a value or component written where it must not be) comes back as damage.
use crate::calls::*;
use crate::exports::*;
use crate::random::Random;
use crate::room::*;

/// Rooms for a call's first and second buffer, and for its value or component.
pub struct Library {
    first: Room,
    second: Room,
    third: Room,
    value: Room,
}

impl Library {
    pub fn new() -> Library {
        let large = || Room::new(16 << 20);
        Library { first: large(), second: large(), third: large(), value: Room::new(1 << 16) }
    }

    /// The outcome of a call, or the damage that it did.
    pub fn run(&mut self, call: &Call, r: &mut Random) -> Result<Outcome, String> {
        let (p, q, s) = (place(r), place(r), place(r));
        let mut damage = Vec::new();
        let mut outcome = Outcome { number: 0, component: None, value: None, left: Left::Nothing };
        match call {
            Call::Dquant { coef, log2_w, log2_h, scale, offset, shift } => {
                let c = self.first.lend(coef, p);
                outcome.number = unsafe { tv_dquant(c.at, c.length, *log2_w, *log2_h, *scale, *offset, *shift) };
                outcome.left = written(&c, Left::Short, &mut damage);
            }
            Call::Itxb0 { src, dst, log2_size, log2_line } => {
                let (x, d) = (self.first.lend(src, p), self.second.lend(dst, q));
                outcome.number = unsafe { tv_itxb0(x.at, x.length, d.at, d.length, *log2_size, *log2_line) };
                only_read(&x, src, &mut damage);
                outcome.left = written(&d, Left::Long, &mut damage);
            }
            Call::Itxb1 { src, dst, log2_size, log2_line, shift } => {
                let (x, d) = (self.first.lend(src, p), self.second.lend(dst, q));
                outcome.number = unsafe { tv_itxb1(x.at, x.length, d.at, d.length, *log2_size, *log2_line, *shift) };
                only_read(&x, src, &mut damage);
                outcome.left = written(&d, Left::Short, &mut damage);
            }
            Call::Job { coef, job: j } => {
                let c = self.first.lend(coef, p);
                outcome.number = unsafe { tv_job(c.at, c.length, j.start, j.log2_w, j.log2_h, j.qp, j.offset, j.dq_shift, j.it_shift) };
                outcome.left = written(&c, Left::Short, &mut damage);
            }
            Call::SubBlock { coef, log2_w, log2_h, offset, dq_shift, it_shift, parts: [y, u, v] } => {
                let c = self.first.lend(coef, p);
                let was = 3 + (r.next() % 253) as u8; // no component's number
                let (flag_y, flag_u, flag_v) = (flag(y, r), flag(u, r), flag(v, r));
                let component = self.value.lend(&[was], Place::BeforeFence);
                outcome.number = unsafe {
                    tv_sub_block(
                        c.at,
                        c.length,
                        *log2_w,
                        *log2_h,
                        *offset,
                        *dq_shift,
                        *it_shift,
                        flag_y,
                        flag_u,
                        flag_v,
                        y.start,
                        u.start,
                        v.start,
                        y.qp,
                        u.qp,
                        v.qp,
                        component.at,
                    )
                };
                outcome.left = written(&c, Left::Short, &mut damage);
                outcome.component = once(&component, was, outcome.number != 0, "component", &mut damage);
            }
            Call::Compare(c) => self.compare(c, [p, q, s], r, &mut outcome, &mut damage),
        }
        if damage.is_empty() {
            Ok(outcome)
        } else {
            Err(format!("answered {} and {}", outcome.number, damage.join(", ")))
        }
    }

    /// The report of a job or a sub-block and the buffer that it leaves, or the damage that it did.
    pub fn reported(&mut self, call: &Call, r: &mut Random) -> Result<(TvReport, Left), String> {
        let p = place(r);
        let (c, report) = match call {
            Call::Job { coef, job: j } => {
                let c = self.first.lend(coef, p);
                let report = unsafe { tv_job_reported(c.at, c.length, j.start, j.log2_w, j.log2_h, j.qp, j.offset, j.dq_shift, j.it_shift) };
                (c, report)
            }
            Call::SubBlock { coef, log2_w, log2_h, offset, dq_shift, it_shift, parts: [y, u, v] } => {
                let c = self.first.lend(coef, p);
                let (flag_y, flag_u, flag_v) = (flag(y, r), flag(u, r), flag(v, r));
                let report = unsafe {
                    tv_sub_block_reported(
                        c.at, c.length, *log2_w, *log2_h, *offset, *dq_shift, *it_shift, flag_y, flag_u, flag_v, y.start, u.start, v.start, y.qp,
                        u.qp, v.qp,
                    )
                };
                (c, report)
            }
            _ => unreachable!("a call without a report"),
        };
        let mut damage = Vec::new();
        let left = written(&c, Left::Short, &mut damage);
        if damage.is_empty() {
            Ok((report, left))
        } else {
            Err(format!("reported {report:?} and {}", damage.join(", ")))
        }
    }

    fn compare(&mut self, c: &Compare, [p, q, s]: [Place; 3], r: &mut Random, outcome: &mut Outcome, damage: &mut Vec<String>) {
        let was = r.next();
        let short = self.value.lend(&[was as u32], Place::BeforeFence);
        let (w, h, depth) = (c.w, c.h, c.depth);
        macro_rules! valued {
            ($number:expr, $slot:expr, $was:expr) => {{
                outcome.number = $number;
                outcome.value = once(&$slot, $was, outcome.number == 0, "value", damage).map(i64::from);
            }};
        }
        match (c.entry, &c.a, &c.b) {
            (Entry::Diff, Source::Inside { plane: a, x, y }, Source::Packed(b)) => {
                let (one, two, d) = (self.first.lend(&a.samples, p), self.second.lend(b, q), self.third.lend(&c.diff, s));
                outcome.number =
                    unsafe { tv_diff(one.at, one.length, a.width, a.height, a.stride, *x, *y, w, h, two.at, two.length, depth, d.at, d.length) };
                only_read(&one, &a.samples, damage);
                only_read(&two, b, damage);
                outcome.left = written(&d, Left::Short, damage);
            }
            (entry @ (Entry::Satd | Entry::Sad16i | Entry::Ssd16b), Source::Inside { plane: a, x, y }, Source::Packed(b)) => {
                let (one, two) = (self.first.lend(&a.samples, p), self.second.lend(b, q));
                if entry == Entry::Ssd16b {
                    let long = self.value.lend(&[was as i64], Place::BeforeFence);
                    let number =
                        unsafe { tv_ssd_16b(one.at, one.length, a.width, a.height, a.stride, *x, *y, w, h, two.at, two.length, depth, long.at) };
                    valued!(number, long, was as i64);
                } else {
                    let f = if entry == Entry::Satd { tv_satd } else { tv_sad_16i };
                    let number = unsafe { f(one.at, one.length, a.width, a.height, a.stride, *x, *y, w, h, two.at, two.length, depth, short.at) };
                    valued!(number, short, was as u32);
                }
                only_read(&one, &a.samples, damage);
                only_read(&two, b, damage);
            }
            (Entry::Ssd16i, Source::Edges { plane: a, x, y }, Source::Edges { plane: b, .. }) => {
                let (one, two) = (self.first.lend(&a.samples, p), self.second.lend(&b.samples, q));
                let long = self.value.lend(&[was as i64], Place::BeforeFence);
                let number = unsafe {
                    tv_ssd_16i(
                        one.at, one.length, a.width, a.height, a.stride, two.at, two.length, b.width, b.height, b.stride, *x, *y, w, h, depth,
                        long.at,
                    )
                };
                valued!(number, long, was as i64);
                only_read(&one, &a.samples, damage);
                only_read(&two, &b.samples, damage);
            }
            (Entry::Sad16b, Source::Inside { plane: a, x, y }, Source::Edges { plane: b, x: mv_x, y: mv_y }) => {
                let (one, two) = (self.first.lend(&a.samples, p), self.second.lend(&b.samples, q));
                let number = unsafe {
                    tv_sad_16b(
                        one.at, one.length, a.width, a.height, a.stride, *x, *y, two.at, two.length, b.width, b.height, b.stride, *mv_x, *mv_y, w, h,
                        depth, short.at,
                    )
                };
                valued!(number, short, was as u32);
                only_read(&one, &a.samples, damage);
                only_read(&two, &b.samples, damage);
            }
            (Entry::SadBi16b, Source::Bi(a), Source::Edges { plane: b, x: mv_x, y: mv_y }) => {
                let (one, two) = (self.first.lend(a, p), self.second.lend(&b.samples, q));
                let number = unsafe {
                    tv_sad_bi_16b(one.at, one.length, two.at, two.length, b.width, b.height, b.stride, *mv_x, *mv_y, w, h, depth, short.at)
                };
                valued!(number, short, was as u32);
                only_read(&one, a, damage);
                only_read(&two, &b.samples, damage);
            }
            (Entry::SadBi16i, Source::Bi(a), Source::Packed(b)) => {
                let (one, two) = (self.first.lend(a, p), self.second.lend(b, q));
                let number = unsafe { tv_sad_bi_16i(one.at, one.length, two.at, two.length, w, h, depth, short.at) };
                valued!(number, short, was as u32);
                only_read(&one, a, damage);
                only_read(&two, b, damage);
            }
            _ => unreachable!("no such entry point"),
        }
    }
}

fn place(r: &mut Random) -> Place {
    r.pick(&[Place::AfterFence, Place::Between, Place::BeforeFence, Place::BeforeFence])
}

/// Any number but 0 is set.
fn flag(p: &Part, r: &mut Random) -> u8 {
    if p.flag {
        r.pick(&[1, 1, 1, 2, 128, 255])
    } else {
        0
    }
}

/// The final contents of a buffer that the call may write.
fn written<T: Copy + PartialEq>(lent: &Lent<T>, left: impl FnOnce(Vec<T>) -> Left, damage: &mut Vec<String>) -> Left {
    if !lent.zones_whole() {
        damage.push("wrote outside its output buffer".to_string());
    }
    left(lent.contents().to_vec())
}

/// A buffer that the call may only read.
fn only_read<T: Copy + PartialEq>(lent: &Lent<T>, before: &[T], damage: &mut Vec<String>) {
    if !lent.zones_whole() || lent.contents() != before {
        damage.push("wrote to or around an input".to_string());
    }
}

/// What stands in a slot that is written exactly when `expected`. A slot left as it was is no damage where that could be the number itself.
fn once<T: Copy + PartialEq + std::fmt::Debug>(slot: &Lent<T>, was: T, expected: bool, what: &str, damage: &mut Vec<String>) -> Option<T> {
    let now = slot.contents()[0];
    if !slot.zones_whole() {
        damage.push(format!("wrote around its {what}"));
    }
    if !expected && now != was {
        damage.push(format!("wrote its {what}, {now:?}"));
    }
    expected.then_some(now)
}
