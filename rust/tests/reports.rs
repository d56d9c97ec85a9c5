//! Each reason that a report can have: its numbers and its sentence. The answer is that of the call without a report, and no sample changes.
use tashvelun::*;

const HUGE: usize = usize::MAX;

fn told(result: Result<(), Report>) -> String {
    result.map_or_else(|report| report.to_string(), |()| "accepted".to_string())
}

#[test]
fn jobs() {
    let good = Job { start: 0, log2_w: 1, log2_h: 1, qp: 4, offset: 32, dq_shift: 6, it_shift: 12 };
    let first = [4, 0, 0, 0, 9];
    for (call, named, sentence) in [
        (Job { log2_w: 0, ..good }, Named::Width, "Y refused: width log 0 is below 1"),
        (Job { log2_w: 7, ..good }, Named::Width, "Y refused: width log 7 is above 6"),
        (Job { log2_h: 0, ..good }, Named::Height, "Y refused: height log 0 is below 1"),
        (Job { log2_h: HUGE, ..good }, Named::Height, "Y refused: height log 18446744073709551615 is above 6"),
        (Job { log2_w: 9, log2_h: 0, ..good }, Named::Width, "Y refused: width log 9 is above 6"),
        // the two are alike: it is the width
        (Job { log2_w: 0, log2_h: 0, ..good }, Named::Width, "Y refused: width log 0 is below 1"),
        (Job { qp: 64, ..good }, Named::Qp, "Y refused: qp 64 is above 63"),
        (Job { dq_shift: 32, ..good }, Named::DequantizationShift, "Y refused: dequantization shift 32 is above 31"),
        (Job { it_shift: 255, ..good }, Named::StageShift, "Y refused: stage shift 255 is above 31"),
        (Job { dq_shift: 40, it_shift: 33, ..good }, Named::DequantizationShift, "Y refused: dequantization shift 40 is above 31"),
        (Job { start: 2, ..good }, Named::Start, "Y refused: its area from 2 ends past the buffer's end at 5"),
        (Job { start: HUGE, ..good }, Named::Start, "Y refused: its area from 18446744073709551615 ends past the buffer's end at 5"),
    ] {
        let mut coef = first;
        let report = job_reported(&mut coef, &call).unwrap_err();
        assert_eq!((report.to_string().as_str(), report.named, report.component), (sentence, named, Component::Y));
        assert_eq!(job(&mut coef, &call), Err(report.refusal));
        assert_eq!(coef, first);
    }
    assert_eq!(told(job_reported(&mut [], &good)), "Y refused: its area from 0 ends past the buffer's end at 0");
    let mut coef = first;
    assert_eq!(job_reported(&mut coef, &good), Ok(()));
    assert_eq!(coef, [4, 4, 4, 4, 9]);
}

/// All faults at once, mended one by one: the first that is left is told.
#[test]
fn first_reason() {
    let mut coef = [4, 0, 0, 0];
    let mut call = Job { start: HUGE, log2_w: 0, log2_h: 7, qp: 64, offset: 32, dq_shift: 32, it_shift: 33 };
    let mend: [(&str, fn(&mut Job)); 6] = [
        ("Y refused: width log 0 is below 1", |j| j.log2_w = 1),
        ("Y refused: height log 7 is above 6", |j| j.log2_h = 1),
        ("Y refused: qp 64 is above 63", |j| j.qp = 4),
        ("Y refused: dequantization shift 32 is above 31", |j| j.dq_shift = 6),
        ("Y refused: stage shift 33 is above 31", |j| j.it_shift = 12),
        ("Y refused: its area from 18446744073709551615 ends past the buffer's end at 4", |j| j.start = 0),
    ];
    for (sentence, mended) in mend {
        assert_eq!(told(job_reported(&mut coef, &call)), sentence);
        assert_eq!(coef, [4, 0, 0, 0]);
        mended(&mut call);
    }
    assert_eq!(job_reported(&mut coef, &call), Ok(()));
    assert_eq!(coef, [4; 4]);
}

#[test]
fn sub_blocks() {
    let first: Vec<i16> = (0..24).collect();
    let part = |start, qp| Some(Part { start, qp });
    let good = SubBlock { log2_w: 2, log2_h: 2, offset: 32, dq_shift: 6, it_shift: 12, y: part(0, 4), u: part(16, 4), v: part(20, 4) };
    for (call, sentence) in [
        // luma's logs, as handed in
        (SubBlock { log2_w: 0, ..good }, "Y refused: width log 0 is below 1"),
        (SubBlock { log2_h: 7, ..good }, "Y refused: height log 7 is above 6"),
        (SubBlock { y: None, log2_w: 1, ..good }, "U refused: width log 1 is below 2"),
        (SubBlock { y: None, log2_w: 8, log2_h: 0, ..good }, "U refused: width log 8 is above 7"),
        (SubBlock { y: None, u: None, log2_h: 0, ..good }, "V refused: height log 0 is below 2"),
        (SubBlock { y: None, u: None, log2_h: HUGE, ..good }, "V refused: height log 18446744073709551615 is above 7"),
        // luma log 1 is a size for Y and none for U
        (SubBlock { log2_h: 1, ..good }, "U refused: height log 1 is below 2"),
        (SubBlock { y: part(0, 65), ..good }, "Y refused: qp 65 is above 63"),
        (SubBlock { u: part(16, 64), v: part(20, 255), ..good }, "U refused: qp 64 is above 63"),
        (SubBlock { v: part(20, 255), ..good }, "V refused: qp 255 is above 63"),
        (SubBlock { dq_shift: 33, it_shift: 32, ..good }, "Y refused: dequantization shift 33 is above 31"),
        (SubBlock { it_shift: 40, y: None, u: None, ..good }, "V refused: stage shift 40 is above 31"),
        // Y's AREA goes before U's QP, and each component's own tests before any OVERLAP
        (SubBlock { y: part(9, 4), u: part(9, 64), ..good }, "Y refused: its area from 9 ends past the buffer's end at 24"),
        (SubBlock { u: part(15, 4), v: part(21, 4), ..good }, "V refused: its area from 21 ends past the buffer's end at 24"),
        // the later one starts after, at the same place, before
        (SubBlock { u: part(15, 4), v: part(15, 4), ..good }, "U refused: its area from 15 overlaps an earlier one at 15"),
        (SubBlock { u: part(0, 4), ..good }, "U refused: its area from 0 overlaps an earlier one at 0"),
        (SubBlock { y: part(8, 4), u: part(5, 4), v: part(0, 4), ..good }, "U refused: its area from 5 overlaps an earlier one at 8"),
        (SubBlock { v: part(14, 4), ..good }, "V refused: its area from 14 overlaps an earlier one at 14"),
        (SubBlock { v: part(19, 4), ..good }, "V refused: its area from 19 overlaps an earlier one at 19"),
        (SubBlock { u: part(17, 4), v: part(16, 4), ..good }, "V refused: its area from 16 overlaps an earlier one at 17"),
    ] {
        let mut coef = first.clone();
        let report = sub_block_reported(&mut coef, &call).unwrap_err();
        assert_eq!(report.to_string(), sentence);
        assert_eq!(sub_block(&mut coef, &call), Err(SubBlockRefusal { component: report.component, refusal: report.refusal }));
        assert_eq!(coef, first);
    }
    // nothing is tested where nothing is asked
    let mut coef = first.clone();
    assert_eq!(sub_block_reported(&mut coef, &SubBlock { log2_w: HUGE, dq_shift: 99, y: None, u: None, v: None, ..good }), Ok(()));
    assert_eq!(coef, first);
    // an accepted call does the same with a report and without
    let mut without = first;
    assert_eq!(sub_block_reported(&mut coef, &good), Ok(()));
    assert_eq!(sub_block(&mut without, &good), Ok(()));
    assert_eq!(coef, without);
}
