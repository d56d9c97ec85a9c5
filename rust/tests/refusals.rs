//! Each call with all of its faults at once, which are then mended one by one: the lowest refusal that is left is answered, no buffer changes
//! before the last fault is gone, and the accepted call at the end does its work.
use tashvelun::*;

const HUGE: usize = usize::MAX;

#[test]
fn dequantizer() {
    let first = [1, -1, 3, 9];
    let mut coef = first;
    for (log2_w, shift, refusal) in [(7, 32, Refusal::Size), (HUGE, 32, Refusal::Size), (2, 32, Refusal::Shift), (2, 0, Refusal::Area)] {
        assert_eq!(dquant(&mut coef, log2_w, 1, 2, 1, shift), Err(refusal));
        assert_eq!(coef, first);
    }
    assert_eq!(dquant(&mut coef, 0, 1, 2, 1, 0), Ok(()));
    assert_eq!(coef, [3, -1, 3, 9]);
}

#[test]
fn stages() {
    let mut mid = [5; 4];
    for (log2_size, log2_line, refusal) in [(0, 0, Refusal::Size), (7, 0, Refusal::Size), (1, 7, Refusal::Size), (2, 1, Refusal::Area)] {
        assert_eq!(itxb0(&[1; 4], &mut mid, log2_size, log2_line), Err(refusal));
        assert_eq!(mid, [5; 4]);
    }
    // too short on one side
    assert_eq!(itxb0(&[1; 3], &mut mid, 1, 1), Err(Refusal::Area));
    assert_eq!(itxb0(&[1; 4], &mut mid[..3], 1, 1), Err(Refusal::Area));
    assert_eq!(itxb0(&[0, 1, 0, 0], &mut mid, 2, 0), Ok(()));
    assert_eq!(mid, [84, 35, -35, -84]);

    let mut out = [5; 2];
    for (log2_size, shift, refusal) in [(0, 32, Refusal::Size), (2, 32, Refusal::Shift), (2, 31, Refusal::Area)] {
        assert_eq!(itxb1(&[-1, 0], &mut out, log2_size, 0, shift), Err(refusal));
        assert_eq!(out, [5; 2]);
    }
    assert_eq!(itxb1(&[-1, 0], &mut out, 1, 0, 7), Ok(()));
    assert_eq!(out, [0; 2]);
}

#[test]
fn jobs() {
    let mut coef = [4, 0, 0, 0];
    let good = Job { start: 0, log2_w: 1, log2_h: 1, qp: 4, offset: 32, dq_shift: 6, it_shift: 12 };
    let mut bad = Job { start: HUGE, log2_w: 0, log2_h: 7, qp: 64, dq_shift: 32, it_shift: 32, ..good };
    let mend: [(Refusal, fn(&mut Job)); 6] = [
        (Refusal::Size, |j| j.log2_w = 1),
        (Refusal::Size, |j| j.log2_h = 1),
        (Refusal::Qp, |j| j.qp = 4),
        (Refusal::Shift, |j| j.dq_shift = 6),
        (Refusal::Shift, |j| j.it_shift = 12),
        (Refusal::Area, |j| j.start = 0),
    ];
    for (refusal, mended) in mend {
        assert_eq!(job(&mut coef, &bad), Err(refusal));
        assert_eq!(coef, [4, 0, 0, 0]);
        mended(&mut bad);
    }
    assert_eq!(job(&mut coef, &bad), Ok(()));
    assert_eq!(coef, [4; 4]);
    assert_eq!(job(&mut [], &good), Err(Refusal::Area));
}

#[test]
fn sub_blocks() {
    let first: Vec<i16> = (0..24).collect();
    let mut coef = first.clone();
    let part = |start, qp| Some(Part { start, qp });
    let good = SubBlock { log2_w: 2, log2_h: 2, offset: 32, dq_shift: 6, it_shift: 12, y: part(0, 4), u: part(16, 4), v: part(20, 4) };
    let refused = |component, refusal| Err(SubBlockRefusal { component, refusal });
    for (call, answer) in [
        // Y's AREA goes before U's QP, and each component's own tests before any OVERLAP
        (SubBlock { y: part(9, 4), u: part(9, 64), ..good }, refused(Component::Y, Refusal::Area)),
        (SubBlock { y: part(8, 4), u: part(9, 64), ..good }, refused(Component::U, Refusal::Qp)),
        (SubBlock { u: part(15, 4), v: part(21, 4), ..good }, refused(Component::V, Refusal::Area)),
        (SubBlock { u: part(15, 4), v: part(15, 4), ..good }, refused(Component::U, Refusal::Overlap)),
        (SubBlock { v: part(15, 4), ..good }, refused(Component::V, Refusal::Overlap)),
        (SubBlock { v: part(17, 4), ..good }, refused(Component::V, Refusal::Overlap)),
        // a chroma log of 0
        (SubBlock { log2_w: 1, log2_h: 1, y: None, ..good }, refused(Component::U, Refusal::Size)),
        (SubBlock { log2_w: 0, log2_h: 0, y: None, u: None, ..good }, refused(Component::V, Refusal::Size)),
        // nothing is tested where nothing is asked
        (SubBlock { log2_w: HUGE, log2_h: 9, dq_shift: 99, y: None, u: None, v: None, ..good }, Ok(())),
    ] {
        assert_eq!(sub_block(&mut coef, &call), answer);
        assert_eq!(coef, first);
    }
    // an accepted call is its jobs
    assert_eq!(sub_block(&mut coef, &good), Ok(()));
    let mut one_by_one = first;
    for (start, log) in [(0, 2), (16, 1), (20, 1)] {
        let own = Job { start, log2_w: log, log2_h: log, qp: 4, offset: 32, dq_shift: 6, it_shift: 12 };
        assert_eq!(job(&mut one_by_one, &own), Ok(()));
    }
    assert_eq!(coef, one_by_one);
}

#[test]
fn differences() {
    let org = Plane { samples: &[1, 2, 99, 3, 4], width: 2, height: 2, stride: 3 };
    let mut out = [7; 4];
    for (x, log2_w, cur, depth, len, refusal) in [
        (HUGE, 7, [256, 0, 0, 0], 15, 3, Refusal::Size),
        (HUGE, 1, [256, 0, 0, 0], 15, 3, Refusal::Depth),
        (HUGE, 1, [256, 0, 0, 0], 8, 3, Refusal::Area),
        (0, 1, [256, 0, 0, 0], 8, 3, Refusal::Area),
        (0, 1, [256, 0, 0, 0], 8, 4, Refusal::Sample),
    ] {
        assert_eq!(diff(org, x, 0, log2_w, 1, &cur, depth, &mut out[..len]), Err(refusal));
        assert_eq!(out, [7; 4]);
    }
    assert_eq!(diff(org, 0, 0, 1, 1, &[256, 0, 0, 0], 9, &mut out), Ok(()));
    assert_eq!(out, [-255, 2, 3, 4]);
}

#[test]
fn distortions() {
    let samples = [1, 2, 99, 3, 4];
    let good = Plane { samples: &samples, width: 2, height: 2, stride: 3 };
    // planes that are none, though their numbers would wrap to something small
    for plane in [
        Plane { width: 0, ..good },
        Plane { height: 16385, ..good },
        Plane { stride: 1, ..good },
        Plane { stride: HUGE, ..good },
        Plane { samples: &samples[..4], ..good },
        Plane { samples: &[], ..good },
    ] {
        assert_eq!(satd(plane, 0, 0, 2, 2, &[0; 4], 8), Err(Refusal::Area));
        assert_eq!(ssd_16b(plane, 0, 0, 1, 1, &[0; 4], 8), Err(Refusal::Area));
        assert_eq!(ssd_16i(good, plane, 0, 0, 1, 1, 8), Err(Refusal::Area));
        assert_eq!(sad_16b(good, 0, 0, plane, 0, 0, 2, 2, 8), Err(Refusal::Area));
        assert_eq!(sad_bi_16b(&[0; 4], plane, 0, 0, 2, 2, 8), Err(Refusal::Area));
        assert_eq!(sad_16i(plane, 0, 0, 2, 2, &[0; 4], 8), Err(Refusal::Area));
    }
    // a sample that is not read is not tested: 99 stands between the rows
    assert_eq!(satd(good, 0, 0, 2, 2, &[0; 4], 8), Ok(2 + 2 + 4));
    assert_eq!(ssd_16b(good, 0, 0, 1, 1, &[0; 4], 8), Ok(1 + 4 + 9 + 16));
    assert_eq!(ssd_16i(good, good, -7, -7, 1, 1, 8), Ok(0));
    assert_eq!(sad_16b(good, 0, 0, good, -1, -1, 2, 2, 8), Ok(1 + 2 + 3));
    assert_eq!(sad_bi_16b(&[1, 2, 3, 4], good, 0, 0, 2, 2, 8), Ok(0));
    assert_eq!(sad_16i(good, 0, 0, 2, 2, &[0; 4], 8), Ok(10));

    for (w, depth, pred, refusal) in [
        (65, 7, &[16384, 0, 0, 0][..], Refusal::Size),
        (2, 7, &[16384, 0, 0][..], Refusal::Depth),
        (2, 14, &[16384, 0, 0][..], Refusal::Area),
        (2, 14, &[16384, 0, 0, 0][..], Refusal::Sample),
    ] {
        assert_eq!(sad_bi_16i(&[0; 4], pred, w, 2, depth), Err(refusal));
        assert_eq!(sad_16i(good, 0, 0, w, 2, pred, depth), Err(refusal));
        assert_eq!(satd(good, 0, 0, w, 2, pred, depth), Err(refusal));
    }
    assert_eq!(sad_bi_16i(&[-16385, 0, 0, 0], &[0; 4], 2, 2, 8), Err(Refusal::Sample));
    assert_eq!(sad_bi_16i(&[i16::MAX; 4], &[0; 4], 2, 2, 14), Ok(32767 * 4 / 64));
}
