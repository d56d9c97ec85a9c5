//! A job, a refusal, and the smear of docs/FENCE.md with what prevents it: a question asked of the list, or a slice for each theatre.
//! examples/run builds and runs this; fence.c is the same in C and prints the same.
use tashvelun::{job, Job, Refusal};

#[derive(Clone, Copy)]
struct Task {
    theatre: char,
    job: Job,
}

fn task(theatre: char, start: usize, log2_w: usize, log2_h: usize) -> Task {
    Task { theatre, job: Job { start, log2_w, log2_h, qp: 4, offset: 32, dq_shift: 6, it_shift: 12 } }
}

/// Does a task, and gives the library's number.
fn run(coef: &mut [i16], task: Task) -> u8 {
    job(coef, &task.job).map_or_else(Refusal::number, |()| 0)
}

/// How many samples a job owns on a buffer of `len`: none where it would be refused. All else that it is given here is allowed. No sum can wrap.
fn owned(len: usize, j: &Job) -> usize {
    let allowed = (1..=6).contains(&j.log2_w) && (1..=6).contains(&j.log2_h) && j.start <= len;
    if allowed && 1 << (j.log2_w + j.log2_h) <= len - j.start { 1 << (j.log2_w + j.log2_h) } else { 0 }
}

/// The two jobs share a sample: they are accepted, and their positions meet. It is a question about positions.
fn share(len: usize, a: &Job, b: &Job) -> bool {
    let (m, n) = (owned(len, a), owned(len, b));
    m != 0 && n != 0 && if a.start < b.start { b.start - a.start < m } else { a.start - b.start < n }
}

/// Whether two jobs of the list share a sample: of any two, or of two that different theatres have handed in.
fn shared(len: usize, list: &[Task], any_two: bool) -> bool {
    let pairs = |i: usize, a: &Task| list[i + 1..].iter().any(|b| (any_two || a.theatre != b.theatre) && share(len, &a.job, &b.job));
    list.iter().enumerate().any(|(i, a)| pairs(i, a))
}

fn print(what: &str, coef: &[i16]) {
    print!("{what}:");
    coef.iter().for_each(|v| print!(" {v}"));
    println!();
}

fn yes(it: bool) -> &'static str {
    if it { "yes" } else { "no" }
}

fn main() {
    let (a, b) = (task('A', 0, 1, 1), task('B', 4, 1, 1));
    let retry = task('A', 0, 2, 1); // kept its old size, 4 by 2
    let past = task('B', 6, 2, 1); // of no account: it is refused
    let (first, only) = ([400, 0, 0, 0, 400, 0, 0, 0], [400, 0, 0, 0, 0, 0, 0, 0]);

    let mut small = [4, 0, 0, 0];
    println!("a job answers {}", run(&mut small, a));
    print("its samples", &small);

    println!("one place later it answers {}", run(&mut small, task('A', 1, 1, 1)));
    print("nothing has changed", &small);

    let mut coef = first;
    println!("two of A's and B's accepted jobs share a sample: {}", yes(shared(8, &[a, b, past], true)));
    println!("they answer {} and {}", run(&mut coef, a), run(&mut coef, b));
    print("in this order", &coef);
    coef = first;
    println!("they answer {} and {}", run(&mut coef, b), run(&mut coef, a));
    print("in the other", &coef);

    // what happens when nobody asks: every job is accepted, and B's picture is lost
    coef = first;
    println!("unasked, B and A's retry answer {} and {}", run(&mut coef, b), run(&mut coef, retry));
    print("the smear", &coef);

    // the question, asked before the list is run
    coef = first;
    let list = [b, retry];
    println!("B and A's retry share a sample: {}", yes(shared(8, &list, false)));
    if !shared(8, &list, false) {
        list.iter().for_each(|&task| {
            run(&mut coef, task);
        });
    }
    print("so the list is not run", &coef);

    // the slice: theatre A is lent its own four samples, and its retry can reach no others
    println!("A's retry on its own slice answers {}", run(&mut coef[..4], retry));
    print("nothing has changed", &coef);

    // jobs of one theatre may share samples; then its own order has to be kept
    let own = [a, retry];
    println!("jobs of different theatres share a sample: {}, any two jobs: {}", yes(shared(8, &own, false)), yes(shared(8, &own, true)));
    coef = only;
    println!("they answer {} and {}", run(&mut coef, a), run(&mut coef, retry));
    print("in A's order", &coef);
    coef = only;
    println!("they answer {} and {}", run(&mut coef, retry), run(&mut coef, a));
    print("in the other", &coef);
}
