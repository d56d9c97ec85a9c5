// Which edge inputs a call is. Each entry point has a list of edges that some case must stand on; a list with an empty place is an error, like an empty
// cell. The names are read off the call and its answer, not off the maker of the call.
use crate::calls::*;
use crate::refusals::Broken;

const NEAR: usize = usize::MAX - (1 << 20);

/// The edges that an entry point must be tried on.
pub fn required(entry: Entry) -> Vec<&'static str> {
    use Entry::*;
    let mut all = vec!["several faults at once", "buffer exact", "buffer one long", "buffer one short", "size near 2^64"];
    match entry {
        Dquant => all.extend(["offset lowest", "offset highest", "scale lowest", "scale highest", "i16 lowest", "i16 highest"]),
        Itxb0 => all.extend(["i16 lowest", "i16 highest"]),
        Itxb1 => all.extend(["i32 lowest", "i32 highest"]),
        Job => all.extend(["offset lowest", "offset highest", "i16 lowest", "i16 highest", "one sample later", "start near 2^64"]),
        SubBlock => all.extend([
            "offset lowest",
            "offset highest",
            "one sample later",
            "start near 2^64",
            "luma log 7, chroma alone",
            "luma log 0 or 1 with chroma",
            "components touch",
            "components share one sample",
            "two pairs overlap",
            "an earlier component's higher number",
            "no flag, all else wrong",
        ]),
        _ => all.extend(["largest sample", "sample 2^depth"]),
    }
    if matches!(entry, Diff | Satd | Ssd16b | Sad16b | Sad16i) {
        all.extend(["block ends at the plane's end", "x near 2^64", "y near 2^64"]);
    }
    if matches!(entry, Ssd16i | Sad16b | SadBi16b) {
        all.extend(["position mixed", "position wholly negative", "position -32768", "position 32767"]);
    }
    if matches!(entry, Diff | Satd | Ssd16b | Ssd16i | Sad16b | SadBi16b | Sad16i) {
        all.extend([
            "one column past",
            "one row past",
            "plane's side 16,384",
            "plane's side 16,385",
            "stride wraps",
            "stride below the width",
            "unread sample too large",
        ]);
        // SATD's blocks have two rows at least
        if entry != Satd {
            all.push("stride above 2^63, one row");
        }
    }
    if matches!(entry, SadBi16b | SadBi16i) {
        all.extend(["bi -16,384", "bi -16,385", "bi 32,767"]);
    }
    if matches!(entry, Satd | Sad16b | SadBi16b | Sad16i | SadBi16i) {
        all.push("side 0");
    }
    all
}

/// The edges that a call stands on, by the number that it is expected to answer.
pub fn of(call: &Call, number: u8, broken: &[Broken]) -> Vec<&'static str> {
    let mut on = Vec::new();
    let mut mark = |name, is: bool| {
        if is {
            on.push(name)
        }
    };
    mark("several faults at once", broken.len() > 1);
    let sole = broken.len() == 1;
    let buffer = |length: usize, need: usize| match (number, length as i128 - need as i128) {
        (0, 0) => "buffer exact",
        (0, 1) => "buffer one long",
        (5, -1) if sole => "buffer one short",
        _ => "",
    };
    let power = |a: usize, b: usize| 1usize << a.saturating_add(b).min(40);
    let ends = |v: &[i16], mark: &mut dyn FnMut(&'static str, bool)| {
        mark("i16 lowest", number == 0 && v.contains(&i16::MIN));
        mark("i16 highest", number == 0 && v.contains(&i16::MAX));
    };
    match call {
        Call::Dquant { coef, log2_w, log2_h, scale, offset, .. } => {
            mark(buffer(coef.len(), power(*log2_w, *log2_h)), true);
            mark("size near 2^64", number == 1 && (*log2_w > NEAR || *log2_h > NEAR));
            mark("scale lowest", number == 0 && *scale == i32::MIN);
            mark("scale highest", number == 0 && *scale == i32::MAX);
            mark("offset lowest", number == 0 && *offset == i32::MIN);
            mark("offset highest", number == 0 && *offset == i32::MAX);
            ends(coef, &mut mark);
        }
        Call::Itxb0 { src, dst, log2_size, log2_line } => {
            mark(buffer(src.len(), power(*log2_size, *log2_line)), true);
            mark(buffer(dst.len(), power(*log2_size, *log2_line)), true);
            mark("size near 2^64", number == 1 && (*log2_size > NEAR || *log2_line > NEAR));
            ends(src, &mut mark);
        }
        Call::Itxb1 { src, dst, log2_size, log2_line, .. } => {
            mark(buffer(src.len(), power(*log2_size, *log2_line)), true);
            mark(buffer(dst.len(), power(*log2_size, *log2_line)), true);
            mark("size near 2^64", number == 1 && (*log2_size > NEAR || *log2_line > NEAR));
            mark("i32 lowest", number == 0 && src.contains(&i32::MIN));
            mark("i32 highest", number == 0 && src.contains(&i32::MAX));
        }
        Call::Job { coef, job } => {
            let n = power(job.log2_w, job.log2_h);
            mark(buffer(coef.len(), job.start.saturating_add(n)), true);
            mark("one sample later", number == 5 && sole && job.start.checked_add(n) == Some(coef.len() + 1));
            mark("start near 2^64", number == 5 && sole && job.start > NEAR);
            mark("size near 2^64", number == 1 && (job.log2_w > NEAR || job.log2_h > NEAR));
            mark("offset lowest", number == 0 && job.offset == i32::MIN);
            mark("offset highest", number == 0 && job.offset == i32::MAX);
            ends(coef, &mut mark);
        }
        Call::SubBlock { coef, log2_w, log2_h, offset, dq_shift, parts, .. } => {
            let chroma = parts[1].flag || parts[2].flag;
            let flagged: Vec<(usize, usize)> = (0..3)
                .filter(|&c| parts[c].flag)
                .map(|c| (parts[c].start, power(log2_w.saturating_sub((c > 0) as usize), log2_h.saturating_sub((c > 0) as usize))))
                .collect();
            let end = flagged.iter().map(|(s, n)| s.saturating_add(*n)).max().unwrap_or(0);
            if !flagged.is_empty() {
                mark(buffer(coef.len(), end), true);
            }
            mark("one sample later", number == 5 && sole && end == coef.len() + 1);
            mark("start near 2^64", number == 5 && sole && flagged.iter().any(|p| p.0 > NEAR));
            mark("size near 2^64", number == 1 && (*log2_w > NEAR || *log2_h > NEAR));
            mark("offset lowest", number == 0 && *offset == i32::MIN);
            mark("offset highest", number == 0 && *offset == i32::MAX);
            mark("luma log 7, chroma alone", number == 0 && chroma && (*log2_w == 7 || *log2_h == 7));
            mark("luma log 0 or 1 with chroma", number == 1 && chroma && (*log2_w < 2 || *log2_h < 2));
            mark("no flag, all else wrong", number == 0 && flagged.is_empty() && *log2_w > 7 && *dq_shift > 31);
            let pairs =
                || flagged.iter().enumerate().flat_map(|(k, a)| flagged[k + 1..].iter().map(move |b| if a.0 <= b.0 { (*a, *b) } else { (*b, *a) }));
            mark("components touch", number == 0 && pairs().any(|(a, b)| a.0 + a.1 == b.0));
            mark("components share one sample", number == 6 && pairs().any(|(a, b)| a.0 + a.1 == b.0 + 1));
            mark("two pairs overlap", number == 6 && broken.iter().any(|b| b.component != broken[0].component));
            let first = broken.first();
            mark(
                "an earlier component's higher number",
                first.is_some_and(|f| broken.iter().any(|b| b.number < f.number && b.component > f.component)),
            );
        }
        Call::Compare(c) => compare(c, number, sole, &buffer, &mut mark),
    }
    on.retain(|name| !name.is_empty());
    on
}

fn compare(c: &Compare, number: u8, sole: bool, buffer: &dyn Fn(usize, usize) -> &'static str, mark: &mut dyn FnMut(&'static str, bool)) {
    mark("size near 2^64", number == 1 && (c.w > NEAR || c.h > NEAR));
    mark("side 0", number == 1 && sole && !c.entry.by_logs() && (c.w == 0 || c.h == 0));
    let small = if c.entry.by_logs() { c.w <= 6 && c.h <= 6 } else { c.w <= 64 && c.h <= 64 };
    if !small {
        return;
    }
    let (w, h) = if c.entry.by_logs() { (1usize << c.w, 1usize << c.h) } else { (c.w, c.h) };
    if c.entry == Entry::Diff {
        mark(buffer(c.diff.len(), w * h), true);
    }
    let largest = if (8..=14).contains(&c.depth) { (1u16 << c.depth) - 1 } else { 0 };
    let area_alone = number == 5 && sole;
    for s in [&c.a, &c.b] {
        match s {
            Source::Packed(v) => {
                mark(buffer(v.len(), w * h), true);
                mark("largest sample", number == 0 && v[..w * h].contains(&largest));
                mark("sample 2^depth", number == 7 && v[..w * h].contains(&(largest + 1)));
            }
            Source::Bi(v) => {
                mark(buffer(v.len(), w * h), true);
                mark("bi -16,384", number == 0 && v[..w * h].contains(&-16384));
                mark("bi 32,767", number == 0 && v[..w * h].contains(&32767));
                mark("bi -16,385", number == 7 && v[..w * h].contains(&-16385));
            }
            Source::Inside { plane: p, x, y } => {
                in_plane(p, number, area_alone, (largest, x.saturating_add(w), y.saturating_add(h)), buffer, mark);
                let need = (p.height as u128).saturating_sub(1) * p.stride as u128 + p.width as u128;
                let exact = p.samples.len() as u128 == need;
                mark("block ends at the plane's end", number == 0 && exact && x + w == p.width && y + h == p.height);
                mark("x near 2^64", area_alone && *x > NEAR);
                mark("y near 2^64", area_alone && *y > NEAR);
            }
            Source::Edges { plane: p, x, y } => {
                let end = |at: i16, n: usize| (at as i64 + n as i64).max(1) as usize;
                in_plane(p, number, area_alone, (largest, end(*x, w), end(*y, h)), buffer, mark);
                for (at, n) in [(*x, w), (*y, h)] {
                    mark("position mixed", number == 0 && at < 0 && at as i64 + n as i64 > 0);
                    mark("position wholly negative", number == 0 && (at as i64 + n as i64) <= 0);
                    mark("position -32768", number == 0 && at == i16::MIN);
                    mark("position 32767", number == 5 && at == i16::MAX);
                }
            }
        }
    }
}

/// Edges of a plane of which a block is read that ends before column `right` and row `bottom`.
fn in_plane(
    p: &Plane,
    number: u8,
    area_alone: bool,
    (largest, right, bottom): (u16, usize, usize),
    buffer: &dyn Fn(usize, usize) -> &'static str,
    mark: &mut dyn FnMut(&'static str, bool),
) {
    let need = (p.height as u128).saturating_sub(1) * p.stride as u128 + p.width as u128;
    if need < 1 << 40 {
        mark(buffer(p.samples.len(), need as usize), true);
    }
    let there = p.samples.len() as u128 >= need && p.stride >= p.width;
    mark("one column past", area_alone && there && right == p.width + 1 && bottom <= p.height);
    mark("one row past", area_alone && there && p.height < 1 << 20 && bottom == p.height + 1 && right <= p.width);
    mark("plane's side 16,384", number == 0 && (p.width == 16384 || p.height == 16384));
    mark("plane's side 16,385", area_alone && there && (p.width == 16385 || p.height == 16385));
    mark("stride above 2^63, one row", number == 0 && p.stride > 1 << 63);
    let wrapped = p.height.saturating_sub(1).wrapping_mul(p.stride).wrapping_add(p.width);
    mark("stride wraps", area_alone && need > 1 << 64 && wrapped <= p.samples.len());
    mark("stride below the width", area_alone && p.stride < p.width);
    mark("unread sample too large", number == 0 && p.samples.iter().any(|v| *v > largest));
    mark("largest sample", number == 0 && p.samples.contains(&largest));
    mark("sample 2^depth", number == 7 && p.samples.contains(&(largest + 1)));
}
