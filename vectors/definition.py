"""A third reading of document 01, for calls that are accepted: plain sums in exact integers, no halving, nothing taken from the Rust or the library.
check.py holds the recorded answers against it; the cases use its table to aim at clips."""
from math import cos, pi, sqrt

import lines
import refusals

# the magnitudes and the fold of the table of size 64
MAGNITUDE = [None] + [int(64 * sqrt(2) * cos(m * pi / 128) + 0.5) for m in range(1, 64)]


def entry(k, n):
    if k == 0:
        return 64
    r = (2 * n + 1) * k % 256
    return MAGNITUDE[r] if r < 64 else -MAGNITUDE[128 - r] if r < 128 else -MAGNITUDE[r - 128] if r < 192 else MAGNITUDE[256 - r]


TABLE = [[entry(k, n) for n in range(64)] for k in range(64)]


def table(size, k, n):
    return TABLE[k * (64 // size)][n]


def clip(v, bits):
    return max(-2**(bits - 1), min(2**(bits - 1) - 1, v))


def scale(qp):
    return (40, 45, 51, 57, 64, 71)[qp % 6] * 2**(qp // 6)


def dequantized(coef, by, offset, shift):
    return [clip((v * by + offset) // 2**shift, 16) for v in coef]


def stage(src, size, lines, finish):
    """out[j*N+n] from in[k*L+j]"""
    out = []
    for j in range(lines):
        column = [(TABLE[k * (64 // size)], v) for k, v in enumerate(src[j:size * lines:lines]) if v]
        out += [finish(sum(row[n] * v for row, v in column)) for n in range(size)]
    return out


def stage_one(src, size, lines):
    return stage(src, size, lines, lambda v: clip(v, 32))


def stage_two(src, size, lines, shift):
    half = 2**(shift - 1) if shift else 0
    return stage(src, size, lines, lambda v: clip((v + half) // 2**shift, 16))


def job(coef, start, log2_w, log2_h, qp, offset, dq_shift, it_shift):
    w, h = 2**log2_w, 2**log2_h
    area = dequantized(coef[start:start + w * h], scale(qp), offset, dq_shift)
    return coef[:start] + stage_two(stage_one(area, h, w), w, h, it_shift) + coef[start + w * h:]


def tile(d, side):
    """A tile's number; d[j][i] are its differences."""
    ones = lambda v: bin(v).count('1')
    s = 0
    for a in range(side):
        row = [sum(-d[j][i] if ones(a & j) % 2 else d[j][i] for j in range(side)) for i in range(side)]
        for b in range(side):
            c = abs(sum(-row[i] if ones(b & i) % 2 else row[i] for i in range(side)))
            s += c if a or b else c // 4
    return {8: (s + 2) // 4, 4: (s + 1) // 2, 2: s}[side]


def satd(w, h, d, depth):
    side = next(n for n in (8, 4, 2) if w % n == 0 and h % n == 0)
    tiles = [[d[(y + j) * w + x:][:side] for j in range(side)] for y in range(0, h, side) for x in range(0, w, side)]
    return sum(tile(t, side) for t in tiles) >> (depth - 8)


def result(c):
    """The value of an accepted call, or what it leaves of the buffer that it may write."""
    call = c['call'].removesuffix(lines.REPORTED)
    if call == 'scale':
        return scale(c['QP'])
    if call == 'dquant':
        n = 2**(c['LOG2_W'] + c['LOG2_H'])
        return dequantized(c['COEF'][:n], c['SCALE'], c['OFFSET'], c['SHIFT']) + c['COEF'][n:]
    if call in ('itxb0', 'itxb1'):
        size, count = 2**c['LOG2_SIZE'], 2**c['LOG2_LINE']
        out = stage_one(c['SRC'], size, count) if call == 'itxb0' else stage_two(c['SRC'], size, count, c['SHIFT'])
        return out + c['DST'][size * count:]
    if call == 'job':
        return job(c['COEF'], c['START'], c['LOG2_W'], c['LOG2_H'], c['QP'], c['OFFSET'], c['DQ_SHIFT'], c['IT_SHIFT'])
    if call == 'sub_block':
        out = c['COEF']
        for k in 'YUV':
            if c['FLAG_' + k]:
                out = job(out, c['START_' + k], c['LOG2_W'] - (k != 'Y'), c['LOG2_H'] - (k != 'Y'), c['QP_' + k], c['OFFSET'], c['DQ_SHIFT'], c['IT_SHIFT'])
        return out
    a, b = refusals.blocks(c)
    d = [p - q for p, q in zip(a.read(), b.read())]
    if call == 'diff':
        return d + c['DIFF'][len(d):]
    if call == 'satd':
        return satd(a.w, a.h, d, c['DEPTH'])
    if call.startswith('ssd'):
        return sum(v * v >> 2 * (c['DEPTH'] - 8) for v in d)
    return sum(map(abs, d)) >> (c['DEPTH'] - 8)
