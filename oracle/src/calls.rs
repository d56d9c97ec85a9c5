// The thirteen entry points (a job or a sub-block with a report is the same call), and a call and its outcome as data: what the case makers write, and what
// the library, the Rust, the table of refusals and the definition each read in their own way.

#[derive(Clone, Copy, PartialEq, Eq, Hash, Debug)]
pub enum Entry {
    Dquant,
    Itxb0,
    Itxb1,
    Job,
    SubBlock,
    Diff,
    Satd,
    Ssd16b,
    Ssd16i,
    Sad16b,
    SadBi16b,
    Sad16i,
    SadBi16i,
}
use Entry::*;

pub const ENTRIES: [Entry; 13] = [Dquant, Itxb0, Itxb1, Job, SubBlock, Diff, Satd, Ssd16b, Ssd16i, Sad16b, SadBi16b, Sad16i, SadBi16i];

impl Entry {
    pub fn name(self) -> &'static str {
        match self {
            Dquant => "dquant",
            Itxb0 => "itxb0",
            Itxb1 => "itxb1",
            Job => "job",
            SubBlock => "sub_block",
            Diff => "diff",
            Satd => "satd",
            Ssd16b => "ssd_16b",
            Ssd16i => "ssd_16i",
            Sad16b => "sad_16b",
            SadBi16b => "sad_bi_16b",
            Sad16i => "sad_16i",
            SadBi16i => "sad_bi_16i",
        }
    }
    /// The refusal numbers that document 01 gives this entry point a test for.
    pub fn numbers(self) -> &'static [u8] {
        match self {
            Dquant | Itxb1 => &[1, 3, 5],
            Itxb0 => &[1, 5],
            Job => &[1, 2, 3, 5],
            SubBlock => &[1, 2, 3, 5, 6],
            _ => &[1, 4, 5, 7],
        }
    }
    /// Its sides are given as logarithms.
    pub fn by_logs(self) -> bool {
        !matches!(self, Satd | Sad16b | SadBi16b | Sad16i | SadBi16i)
    }
}

#[derive(Clone, Copy, PartialEq, Debug)]
pub struct BlockJob {
    pub start: usize,
    pub log2_w: usize,
    pub log2_h: usize,
    pub qp: u8,
    pub offset: i32,
    pub dq_shift: u8,
    pub it_shift: u8,
}

/// Flag, start and qp of a sub-block's Y, U or V.
#[derive(Clone, Copy, PartialEq, Debug)]
pub struct Part {
    pub flag: bool,
    pub start: usize,
    pub qp: u8,
}

#[derive(Clone, PartialEq, Debug)]
pub struct Plane {
    pub samples: Vec<u16>,
    pub width: usize,
    pub height: usize,
    pub stride: usize,
}

/// One of the two blocks that a distortion call compares.
#[derive(Clone, PartialEq, Debug)]
pub enum Source {
    /// part of a plane
    Inside {
        plane: Plane,
        x: usize,
        y: usize,
    },
    /// part of a plane, from a signed position: what is negative reads as 0
    Edges {
        plane: Plane,
        x: i16,
        y: i16,
    },
    Packed(Vec<u16>),
    Bi(Vec<i16>),
}

#[derive(Clone, PartialEq, Debug)]
pub struct Compare {
    pub entry: Entry,
    pub a: Source,
    pub b: Source,
    /// as handed in: logarithms where the entry point takes logarithms
    pub w: usize,
    pub h: usize,
    pub depth: u8,
    /// DIFF's output; empty elsewhere
    pub diff: Vec<i16>,
}

#[derive(Clone, PartialEq, Debug)]
pub enum Call {
    Dquant {
        coef: Vec<i16>,
        log2_w: usize,
        log2_h: usize,
        scale: i32,
        offset: i32,
        shift: u8,
    },
    Itxb0 {
        src: Vec<i16>,
        dst: Vec<i32>,
        log2_size: usize,
        log2_line: usize,
    },
    Itxb1 {
        src: Vec<i32>,
        dst: Vec<i16>,
        log2_size: usize,
        log2_line: usize,
        shift: u8,
    },
    Job {
        coef: Vec<i16>,
        job: BlockJob,
    },
    /// logs are luma's
    SubBlock {
        coef: Vec<i16>,
        log2_w: usize,
        log2_h: usize,
        offset: i32,
        dq_shift: u8,
        it_shift: u8,
        parts: [Part; 3],
    },
    Compare(Compare),
}

impl Call {
    pub fn entry(&self) -> Entry {
        match self {
            Call::Dquant { .. } => Dquant,
            Call::Itxb0 { .. } => Itxb0,
            Call::Itxb1 { .. } => Itxb1,
            Call::Job { .. } => Job,
            Call::SubBlock { .. } => SubBlock,
            Call::Compare(c) => c.entry,
        }
    }
    /// The buffer that the call may write, as it is before the call.
    pub fn before(&self) -> Left {
        match self {
            Call::Dquant { coef, .. } | Call::Job { coef, .. } | Call::SubBlock { coef, .. } => Left::Short(coef.clone()),
            Call::Itxb0 { dst, .. } => Left::Long(dst.clone()),
            Call::Itxb1 { dst, .. } => Left::Short(dst.clone()),
            Call::Compare(c) if c.entry == Diff => Left::Short(c.diff.clone()),
            Call::Compare(_) => Left::Nothing,
        }
    }
    /// One line for a report: the arguments, and of each buffer its length and first numbers.
    pub fn describe(&self) -> String {
        shorten(&format!("{self:?}"))
    }
}

/// The whole buffer that the call may write, after the call.
#[derive(Clone, PartialEq, Debug)]
pub enum Left {
    Nothing,
    Short(Vec<i16>),
    Long(Vec<i32>),
}

#[derive(Clone, PartialEq, Debug)]
pub struct Outcome {
    /// 0 accepted, else document 01's number
    pub number: u8,
    /// 0, 1, 2 for Y, U, V: on a sub-block's refusal, and there alone
    pub component: Option<u8>,
    /// on an accepted call that has a value, and there alone
    pub value: Option<i64>,
    pub left: Left,
}

impl Outcome {
    pub fn describe(&self) -> String {
        shorten(&format!("{self:?}"))
    }
}

/// Long lists keep their first twelve numbers.
fn shorten(s: &str) -> String {
    let mut out = String::new();
    let mut rest = s;
    while let Some(open) = rest.find('[') {
        let close = rest[open..].find(']').map_or(rest.len(), |c| open + c);
        let list: Vec<&str> = rest[open + 1..close].split(", ").collect();
        out.push_str(&rest[..open]);
        if list.len() > 12 && !rest[open..close].contains('{') {
            out.push_str(&format!("[{}, .. {} in all]", list[..12].join(", "), list.len()));
            rest = rest.get(close + 1..).unwrap_or("");
        } else {
            out.push('[');
            rest = &rest[open + 1..];
        }
    }
    out.push_str(rest);
    out
}
