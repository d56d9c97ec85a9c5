// What a call is expected to give: where the table of refusals answers a number, that number and every buffer as it was; else what the unchanged Rust
// gives, whole buffers included. The definition is held against the Rust here, so that three readings of document 01 agree or the case is reported.
use crate::calls::*;
use crate::definition::{self, Twist};
use crate::refusals;
use crate::shim::{self, Ran};

/// The outcome of a call that is refused.
pub fn refused(call: &Call, number: u8, component: Option<u8>) -> Outcome {
    Outcome { number, component, value: None, left: call.before() }
}

/// The outcome of a call that is accepted, by the Rust in the build of `depth`; or how that can't be.
pub fn accepted(call: &Call, depth: u8) -> Result<Outcome, String> {
    let (value, left) = match shim::run(call, depth) {
        Ran::Answered { value, left } => (value, left),
        Ran::Trapped { text, .. } => return Err(format!("the Rust trapped inside document 01's domain: {text}")),
        Ran::NotRun(why) => return Err(format!("the Rust couldn't be run inside document 01's domain: {why}")),
    };
    if (value, left.clone()) != definition::result(call, Twist::None) {
        return Err("the Rust and document 01's definition differ".to_string());
    }
    Ok(Outcome { number: 0, component: None, value, left })
}

/// What a call is expected to give if the definition is twisted.
pub fn twisted(call: &Call, twist: Twist) -> Outcome {
    match refusals::answer(call) {
        (0, _) => {
            let (value, left) = definition::result(call, twist);
            Outcome { number: 0, component: None, value, left }
        }
        (number, component) => refused(call, number, component),
    }
}

/// The tables and scales of tbl.rs are document 01's: how many numbers were compared, or what differs.
pub fn tables_agree() -> Result<usize, String> {
    let mut compared = 0;
    for (k, theirs) in shim::tables().iter().enumerate() {
        let ours = definition::table(2 << k);
        if ours.len() != theirs.len() || ours.iter().zip(*theirs).any(|(a, b)| *a != *b as i64) {
            return Err(format!("the table of size {} in tbl.rs isn't document 01's", 2 << k));
        }
        compared += ours.len();
    }
    for qp in 0..64 {
        if shim::scale(qp) as i64 != definition::scale(qp) {
            return Err(format!("the scale of qp {qp} isn't document 01's"));
        }
        compared += 1;
    }
    Ok(compared)
}
