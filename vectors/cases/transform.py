"""Calls of the dequantizer, the stages, the job and the sub-block. Nearly all are accepted."""
from cases.fills import *
from definition import table

HALF = [0] + [1 << (s - 1) for s in range(1, 32)]  # the offset that rounds at each shift


def dquant(r, lw, lh, scale, offset, shift, more=0, how=any_, lo=I16[0], hi=I16[1]):
    return given_dquant(lw, lh, scale, offset, shift, fill(r, how, 2**(lw + lh) + more, lo, hi))


def given_dquant(lw, lh, scale, offset, shift, coef):
    return dict(call='dquant', LOG2_W=lw, LOG2_H=lh, SCALE=scale, OFFSET=offset, SHIFT=shift, COEF=coef)


def stage(two, size, line, src, dst, shift=0):
    c = dict(call='itxb1' if two else 'itxb0', LOG2_SIZE=size, LOG2_LINE=line, SRC=src, DST=dst)
    return dict(c, SHIFT=shift) if two else c


def stage_one(r, size, line, more_src=0, more_dst=0, how=any_, lo=I16[0], hi=I16[1]):
    n = 2**(size + line)
    return stage(False, size, line, fill(r, how, n + more_src, lo, hi), before(r, n + more_dst, I32))


def stage_two(r, size, line, shift, more_src=0, more_dst=0, how=any_, lo=I32[0], hi=I32[1]):
    n = 2**(size + line)
    return stage(True, size, line, fill(r, how, n + more_src, lo, hi), before(r, n + more_dst, I16), shift)


def before(r, n, span):
    """What stands in an output buffer before the call: a long one holds one number throughout."""
    return fill(r, any_ if n < 70 else low, n, *span)


def job(r, before, after, lw, lh, qp, offset, dq, it, how=any_, lo=-120, hi=120):
    return given_job(before, lw, lh, qp, offset, dq, it, fill(r, how, before + 2**(lw + lh) + after, lo, hi))


def given_job(start, lw, lh, qp, offset, dq, it, coef):
    return dict(call='job', START=start, LOG2_W=lw, LOG2_H=lh, QP=qp, OFFSET=offset, DQ_SHIFT=dq, IT_SHIFT=it, COEF=coef)


def sub_block(r, length, lw, lh, offset, dq, it, y, u, v, how=any_, lo=-120, hi=120):
    """y, u, v: flag, start, qp"""
    c = dict(call='sub_block', LOG2_W=lw, LOG2_H=lh, OFFSET=offset, DQ_SHIFT=dq, IT_SHIFT=it, COEF=fill(r, how, length, lo, hi))
    for k, (flag, start, qp) in zip('YUV', (y, u, v)):
        c.update({'FLAG_' + k: flag, 'START_' + k: start, 'QP_' + k: qp})
    return c


def dquants(r):
    (lo, hi), (l16, h16) = I32, I16
    yield 'dquant: scales, offsets and shifts of every kind; buffers exact and longer', [dquant(r, *a) for a in [
        (0, 0, 40, 0, 0), (0, 0, 45, 0, 1, 2), (1, 0, 51, 32, 6, 1), (0, 1, 57, 512, 10), (1, 1, 64, 0, 5, 0, ends), (1, 1, 71, 1, 1, 3),
        (2, 1, 40 << 10, 1 << 14, 15), (1, 2, 45 << 10, -5, 16, 5), (2, 2, 51 << 10, 1 << 19, 20), (3, 0, 57 << 10, 7, 8),
        (0, 3, 64 << 9, 0, 14, 1, near), (3, 1, 71 << 9, 0, 31), (2, 2, hi, hi, 31, 0, ends), (2, 2, lo, lo, 31, 0, ends),
        (2, 1, lo, hi, 31, 0, near), (1, 2, hi, lo, 30, 1, near), (2, 2, -45, 0, 1, 0, small), (2, 2, -1, 0, 0, 0, near), (2, 2, 1, 0, 0, 0, ends),
        (2, 1, 0, lo, 16), (2, 1, 0, hi, 16, 4), (2, 2, 0, lo, 15, 0, small), (3, 2, 1, -1, 31, 0, small), (3, 3, 40, 32, 6, 2),
        (4, 2, 71, 128, 8, 0, sparse), (6, 0, 57, 16, 5, 3), (0, 6, 64, -16, 6), (2, 2, 58368, 0, 31, 0, ends),
    ]]
    yield 'dquant: every size', [dquant(r, lw, lh, 40 + 5 * lw, HALF[6 + lh], 6 + lh, (lw + lh) % 2, sparse) for lw in range(7) for lh in range(7)]
    yield 'dquant: every shift, negative quotients among them', [c for s in range(32) for c in (
        dquant(r, 1, 1, 71 << 9, HALF[s], s), given_dquant(1, 2, 1, 0, s, [-1, 0, 1, -2, l16, h16, -3, 5]),
            dquant(r, 1, 1, max(1, (1 << s) // 3), 0, s, 1))]
    yield 'dquant: the ends of scale, offset and shift together', [given_dquant(2, 0, s, o, sh, [l16, -1, 1, h16]) for s in (lo, -1, 0, 1, hi)
        for o in (lo, -1, 0, 1, hi) for sh in (0, 1, 31)]
    yield 'dquant: at both clips', [given_dquant(2, 0, s, o, sh, v) for s, o, sh, v in [
        (1, 0, 0, [h16, h16 - 1, l16, l16 + 1]), (1, 1, 0, [h16, h16 - 1, l16, l16 + 1]), (1, -1, 0, [h16, h16 - 1, l16, l16 + 1]),
        (2, 0, 0, [16383, 16384, -16384, -16385]), (2, 1, 0, [16383, 16384, -16384, -16385]), (2, -1, 0, [16383, 16384, -16384, -16385]),
        (2, 2, 1, [h16, h16 - 1, l16, l16 + 1]), (2, -2, 1, [h16, h16 - 1, l16, l16 + 1]), (2, 1, 1, [h16, h16 - 1, l16, l16 + 1]),
        (2, -1, 1, [h16, h16 - 1, l16, l16 + 1]), (65536, 65535, 16, [h16, 0, l16, -1]), (65536, -65536, 16, [h16, 0, l16, -1])]]


def stages(r):
    fills = [any_, any_, any_, any_, ends, ends, low, high, turn, near, sparse, small, 'one']
    for size in range(1, 7):
        n = 2**size
        yield f'itxb0: size {n}, the whole table out of one call', [stage(False, size, size, [int(k == j) for k in range(n) for j in range(n)],
            [-5] * (n * n + 1))]
        yield f'itxb0: size {n}, 1 to 64 lines', [stage_one(r, size, line, line % 2, (line + 1) % 2, any_ if size + line < 7 else sparse)
            for line in range(7)]
        yield f'itxb0: size {n}, fillings', [stage_one(r, size, (c % 3) * (size < 5), c % 3 * (c % 2), c % 4 * ((c + 1) % 2), fills[c % 13])
            for c in range(26 if size < 5 else 13)]
        yield f'itxb0: size {n}, the largest sums', [stage(False, size, 0, [(I16[1] if t > 0 else I16[0]) if s > 0 else (I16[0] if t > 0 else I16[1])
            for t in (table(n, k, c) for k in range(n))], [0] * n) for c in (0, n // 2, n - 1) for s in (1, -1)]
    for size in range(1, 7):
        n = 2**size
        yield f'itxb1: size {n}, the whole table out of one call at shift 0, of the smaller ones from -1 too', [stage(True, size, size,
            [v * (k == j) for k in range(n) for j in range(n)], [-5] * (n * n + 1), 0) for v in (1, -1)[:2 if size < 5 else 1]]
        yield f'itxb1: size {n}, shift 0, nothing clipped', [stage_two(r, size, line, 0, line % 2, 1, any_, -m, m)
            for line in ((0, 0, 1, 2) if size < 5 else (0, 1)) for m in (max(1, 32767 // (90 * n)),)] + [stage_two(r, size, 0, 0, 0, 0, how, 0,
            300 // n) for how in (sparse, 'one')]
        yield f'itxb1: size {n}, 1 to 64 lines', [stage_two(r, size, line, (0, 7, 12, 20, 24, 30, 31)[(size + line) % 7], line % 2, (line + 1) % 2,
            any_ if size + line < 6 else sparse) for line in range(7)]
        yield f'itxb1: size {n}, every shift, mostly unclipped', [stage_two(r, size, 0, s, s % 2, (s // 2) % 2, any_, -m, m) for s in range(32)
            for m in (min(2**31 - 1, max(1, (20000 << s) // (60 * n))),)]
        yield f'itxb1: size {n}, fillings', [stage_two(r, size, (c % 3) * (size < 4),
            (0, 31, 7, 12, 1, 20, 0, 31, 16, 24, 30, 10, 2)[(c + size) % 13], c % 3 * (c % 2), c % 4 * ((c + 1) % 2), fills[c % 13],
            *((-200000, 200000) if c % 4 == 2 else I32)) for c in range(26 if size < 4 else 13)]
        yield f'itxb1: size {n}, at both clips, shifts 0 and 5', [stage(True, size, 0, reach(n, t * 2**s + d), [1] * n, s) for s in (0, 5)
            for t in (32767, 32768, -32768, -32769) for d in ((0,) if s == 0 else (-17, -16, 15, 16))]
    yield 'itxb1: exact halves and their neighbours at every shift', [stage(True, 1, 1, [a, b, 0, 0], [9] * 4, s) for s in range(7, 32)
        for h in (1 << (s - 7),) for a, b in ((h, h - 1), (-h, -h - 1), (3 * h, -3 * h))]


def reach(n, total):
    """Inputs whose sum for output 0 is the given one or, for size 2, just below it: input 0 counts 64 times, another one an odd number of times."""
    if n == 2:
        return [total // 64, 0]
    k = next(k for k in range(n - 1, 0, -1) if table(n, k, 0) % 2)
    times = table(n, k, 0)
    v = total * pow(times, -1, 64) % 64
    return [(total - times * v) // 64] + [v * (i == k) for i in range(1, n)]


def jobs(r):
    wide = I16
    logs = range(1, 7)
    yield 'job: blocks of many shapes, starts and shifts', [job(r, *a) for a in [
        (0, 0, 1, 1, 4, 32, 6, 12, small), (3, 2, 1, 1, 0, 0, 0, 0, any_, *wide), (5, 0, 1, 1, 63, 0, 0, 31, ends, *wide),
        (2, 1, 2, 1, 23, 32, 6, 12), (1, 2, 1, 2, 24, 32, 6, 12), (4, 3, 2, 2, 25, 32, 6, 12), (0, 0, 2, 2, 26, 64, 7, 10, any_, *wide),
        (1, 1, 3, 1, 27, 16, 5, 12), (1, 1, 1, 3, 28, 16, 5, 12), (2, 2, 3, 2, 29, 16, 5, 8, sparse, *wide),
        (2, 2, 2, 3, 30, 16, 5, 8, sparse, *wide), (9, 4, 3, 3, 31, 128, 8, 12, any_, *wide), (0, 1, 3, 3, 51, 0, 14, 11, sparse, *wide),
        (1, 0, 1, 4, 35, 32, 6, 12), (0, 1, 4, 1, 36, 32, 6, 12), (6, 6, 2, 2, 37, 0, 0, 20, low, *wide), (6, 6, 2, 2, 38, 0, 0, 20, high, *wide),
        (1, 1, 1, 5, 14, 32, 6, 12), (1, 1, 5, 1, 15, 32, 6, 12), (2, 0, 1, 6, 16, 32, 6, 12, sparse), (0, 2, 6, 1, 17, 32, 6, 12, sparse),
        (1, 2, 4, 3, 20, 32, 6, 12, sparse), (1, 2, 3, 4, 21, 32, 6, 12, sparse), (0, 0, 4, 4, 29, 32, 6, 12, sparse, *wide),
        (3, 1, 4, 4, 18, 32, 6, 12), (1, 3, 5, 3, 19, 32, 6, 10), (3, 1, 3, 5, 11, 32, 6, 11), (5, 2, 6, 2, 10, 32, 6, 12, any_, *wide),
        (2, 5, 2, 6, 9, 32, 6, 12, any_, *wide), (7, 3, 3, 3, 29, 32, 6, 12),
    ]]
    yield 'job: every shape', [job(r, (lw + lh) % 3, (lw * lh) % 3, lw, lh, 20 + 3 * lw + 2 * lh, HALF[7], 7, 12, any_ if lw + lh < 7 else sparse)
        for lw in logs for lh in logs]
    yield 'job: shapes at stage shift 0, nothing clipped', [given_job(1, lw, lh, 4, HALF[6], 6, 0, [5] + one(r, 2**(lw + lh)) + [6])
        for lw in logs for lh in logs if lw + lh < 10 or lw == lh == 6]
    yield 'job: every qp', [job(r, 1, 1, 2, 1, qp, HALF[5 + qp // 6], 5 + qp // 6, 11, any_, -900, 900) for qp in range(64)]
    yield 'job: every dequantization shift, offset 0 and half', [job(r, 0, 1, 1, 2, (s * 5) % 64, o, s, 12, any_, *wide) for s in range(32)
        for o in sorted({0, HALF[s]})]
    yield 'job: every stage shift', [job(r, 1, 0, 2, 1, 10, HALF[6], 6, s, any_, *((-3, 3) if s < 4 else (-120, 120) if s < 12 else wide))
        for s in range(32)]
    yield 'job: the same block at every start of a buffer that it fits in', [given_job(s, 2, 1, 22, HALF[6], 6, 12, list(range(-6, 7)))
        for s in range(6)]
    yield 'job: in a long buffer, to its last sample', [given_job(8188, 1, 1, 30, HALF[6], 6, 10, [0] * 8188 + [100, -50, 25, 3]),
        given_job(100, 6, 6, 28, HALF[6], 6, 12, [1] * 100 + fill(r, few, 4096, -60, 60))]


def one(r, n):
    """A single coefficient of -3..3, not 0."""
    at, v = r.next() % n, r.pick((-3, -2, -1, 1, 2, 3))
    return [v * (i == at) for i in range(n)]


def sub_blocks(r):
    t, f, wide = True, False, I16
    yield 'sub_block: layouts', [sub_block(r, *a) for a in [
        (30, 2, 2, 32, 6, 12, (t, 0, 22), (t, 16, 23), (t, 20, 24)), (30, 2, 2, 32, 6, 12, (t, 8, 0), (t, 0, 1), (t, 4, 2), any_, *wide),
        (30, 2, 2, 0, 0, 0, (t, 3, 3), (t, 19, 4), (t, 26, 5), any_, *wide), (30, 2, 2, 0, 31, 31, (t, 10, 63), (t, 0, 62), (t, 26, 61), ends, *wide),
        (50, 3, 2, 128, 8, 12, (t, 1, 36), (t, 33, 37), (t, 41, 38)), (50, 2, 3, 128, 8, 12, (t, 17, 39), (t, 9, 40), (t, 0, 41)),
        (100, 3, 3, 256, 9, 12, (t, 2, 42), (t, 66, 43), (t, 83, 44), sparse), (100, 3, 3, 16, 5, 7, (t, 33, 45), (t, 17, 46), (t, 1, 47), sparse,
            *wide),
        (33, 3, 3, 64, 7, 10, (f, 2, 42), (t, 0, 43), (t, 16, 44), any_, *wide), (33, 3, 3, 64, 7, 10, (f, 2, 42), (t, 17, 43), (t, 1, 44), ends,
            *wide),
        (5, 1, 1, 32, 6, 12, (t, 1, 34), (f, 0, 0), (f, 0, 0)), (9, 1, 2, 32, 6, 12, (t, 1, 35), (f, 0, 0), (f, 0, 0)),
        (70, 4, 2, 1024, 11, 12, (t, 0, 53), (f, 17, 50), (f, 30, 51), sparse), (66, 5, 2, 1024, 11, 12, (f, 0, 53), (t, 0, 54), (t, 32, 55), sparse),
        (66, 2, 5, 1024, 11, 12, (f, 0, 53), (t, 32, 56), (t, 0, 57), sparse), (130, 7, 2, 1024, 11, 12, (f, 0, 53), (t, 2, 58), (f, 64, 59), sparse),
        (130, 2, 7, 1024, 11, 12, (f, 0, 53), (f, 2, 58), (t, 2, 59), sparse),
        (4097, 7, 7, 32, 6, 12, (f, 0, 53), (t, 1, 20), (f, 64, 59), few)]]
    yield 'sub_block: each set of flags; what is not flagged holds numbers that nothing accepts', [
        sub_block(r, 26, 2, 2, 32, 6, 12, *[(bool(flags >> k & 1), s, q) if flags >> k & 1 else (f, MAX - k, 255 - k) for k,
            (s, q) in enumerate(((1, 22), (18, 28), (22, 34)))]) for flags in range(8)]
    yield 'sub_block: no flag, whatever else is asked for', [sub_block(r, n, lw, lh, 0, dq, it, (f, 2, 99), (f, 3, 99), (f, 20, 99)) for n, lw, lh,
        dq, it in [(6, 2, 2, 6, 12), (0, 0, 9, 60, 80), (3, MAX, MAX, 255, 255), (4, 0, 0, 0, 32), (4, 1, 1, 32, 0)]]
    orders = [(0, 16, 20), (0, 20, 16), (4, 0, 20), (8, 0, 4), (8, 4, 0), (4, 20, 0)]
    yield 'sub_block: the three areas side by side in every order', [sub_block(r, 24, 2, 2, 32, 6, 12, (t, a, 22), (t, b, 27), (t, c, 33)) for a, b,
        c in orders]
    yield 'sub_block: shapes of luma with both chromas', [
        sub_block(r, n + n // 2 + 2, lw, lh, HALF[7], 7, 12, (t, n // 4 + 1, 20 + lw), (t, 1, 21 + lh), (t, n + n // 4 + 2, 30),
            any_ if lw + lh < 7 else few)
        for lw in range(2, 7) for lh in range(2, 7) if lw + lh < 9 or lw == lh == 6 for n in (2**(lw + lh),)]
    bare = lambda lw, lh: dict(sub_block(r, n := 2**(lw + lh), lw, lh, 32, 6, 0, (t, 0, 4), (t, n, 4), (t, n + n // 4, 4)),
        COEF=one(r, n) + one(r, n // 4) + one(r, n // 4))
    yield 'sub_block: stage shift 0, nothing clipped', [bare(*s) for s in ((2, 2), (2, 2), (2, 3), (3, 2), (3, 3), (4, 2), (2, 5), (5, 3), (3, 6),
        (6, 4))]
    yield 'sub_block: each component with a qp of its own', [sub_block(r, 24, 2, 2, 32, 6, 11, *[(t, s, q) for s, q in zip((0, 16, 20), qps)], any_,
        -30, 30) for qps in [(0, 63, 0), (63, 0, 0), (0, 0, 63), (1, 2, 3), (51, 40, 29), (63, 63, 63)]]


def odd_offsets(r):
    """Offsets that are neither 0 nor half of 2^shift."""
    t, f, wide, (lo, hi) = True, False, I16, I32
    yield 'job: other offsets', [job(r, *a) for a in [
        (0, 7, 1, 1, 22, -7, 31, 0, any_, *wide), (0, 0, 2, 2, 33, hi, 31, 0, ends, *wide), (0, 0, 2, 2, 34, lo, 31, 1, ends, *wide),
        (0, 3, 4, 2, 40, 1, 9, 9), (3, 0, 2, 4, 41, 1, 9, 9), (0, 0, 3, 3, 12, lo, 16, 6, any_, *wide), (1, 9, 3, 2, 8, -3, 4, 7),
        (4, 4, 2, 3, 7, 5, 3, 9), (2, 2, 4, 3, 32, 100, 9, 13), (0, 0, 1, 1, 4, 1, 0, 12), (0, 0, 1, 1, 4, -1, 0, 12)]]
    yield 'job: an empty block and an offset that lifts it', [given_job(1, 1, 1, 22, o, s, it, [9] + [0] * 4 + [9]) for o, s,
        it in [(64, 6, 12), (640, 6, 10), (-1, 6, 12), (-64, 6, 10), (hi, 16, 12), (lo, 16, 12), (1, 0, 6), (lo, 31, 0), (hi, 31, 0), (hi, 0, 0),
        (lo, 0, 0)]]
    yield 'job: beside half, at every shift', [job(r, 0, 0, 1, 1, 30, o, s, 10, any_, *wide) for s in range(32)
        for o in (HALF[s] - 1, HALF[s] + 1, -max(HALF[s], 1), 2**s) if o not in (0, HALF[s]) and lo <= o <= hi][::2]
    yield 'job: another offset and another fault', [given_job(s, lw, lh, qp, 7, dq, it, [3] * 9) for s, lw, lh, qp, dq, it in [
        (0, 0, 1, 22, 6, 12), (0, 1, 7, 22, 6, 12), (0, 1, 1, 64, 6, 12), (0, 1, 1, 22, 32, 12), (0, 1, 1, 22, 6, 32), (6, 1, 1, 22, 6, 12),
        (MAX, 1, 1, 22, 6, 12), (6, 0, 1, 64, 32, 32), (6, 1, 1, 64, 32, 6), (6, 1, 1, 22, 32, 6)]]
    yield 'sub_block: other offsets', [sub_block(r, *a) for a in [
        (40, 3, 2, -9, 3, 9, (f, 2, 42), (t, 17, 48), (t, 30, 49), any_, *wide), (40, 2, 3, lo, 17, 9, (f, 2, 42), (t, 17, 50), (t, 30, 51), any_,
            *wide), (40, 2, 3, hi, 17, 0, (t, 4, 52), (f, 17, 50), (f, 30, 51), small),
        (24, 2, 2, 1, 0, 12, (t, 0, 22), (t, 16, 22), (t, 20, 22)), (24, 2, 2, 33, 6, 12, (t, 0, 22), (t, 16, 22), (t, 20, 22)),
        (24, 2, 2, 31, 6, 12, (f, 0, 22), (f, 16, 22), (t, 20, 22)), (24, 2, 2, -32, 6, 12, (f, 0, 22), (t, 16, 22), (f, 20, 22)),
        (24, 2, 2, 64, 6, 12, (t, 0, 22), (t, 16, 22), (f, 20, 22)), (6, 2, 2, 5, 6, 12, (f, 0, 22), (f, 16, 22), (f, 20, 22))]]
    yield 'sub_block: another offset and another fault', [sub_block(r, *a) for a in [
        (24, 0, 2, 7, 6, 12, (t, 0, 22), (t, 16, 22), (t, 20, 22)), (24, 1, 1, 7, 6, 12, (t, 0, 22), (t, 16, 22), (t, 20, 22)),
        (24, 2, 2, 7, 6, 12, (t, 0, 64), (t, 16, 22), (t, 20, 22)), (24, 2, 2, 7, 6, 12, (t, 0, 22), (t, 16, 64), (t, 20, 22)),
        (24, 2, 2, 7, 32, 12, (t, 0, 22), (t, 16, 22), (t, 20, 22)), (24, 2, 2, 7, 6, 32, (f, 0, 22), (f, 16, 22), (t, 20, 22)),
        (24, 2, 2, 7, 6, 12, (t, 9, 22), (t, 16, 22), (t, 20, 22)), (24, 2, 2, 7, 6, 12, (t, 0, 22), (t, 21, 22), (t, 20, 22)),
        (24, 2, 2, 7, 6, 12, (t, 0, 22), (t, 15, 22), (t, 20, 22)), (24, 2, 2, 7, 6, 12, (t, 0, 22), (t, 16, 22), (t, 19, 22)),
        (24, 2, 2, 7, 6, 12, (t, 0, 22), (t, 16, 22), (t, MAX, 22))]]


def groups():
    yield 'scale: every qp', [dict(call='scale', QP=qp) for qp in range(64)]
    for seed, part in enumerate((dquants, stages, jobs, sub_blocks, odd_offsets), 1):
        yield from part(Chance(seed))
