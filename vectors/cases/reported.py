"""Jobs and sub-blocks that report why they are refused, and some that are accepted. Most that are refused before an area is looked at have an empty
buffer, so that the recorded answers stay short."""
from itertools import combinations

from cases import transform as T
from cases.fills import *
from cases.refused import put, spoilt
from lines import REPORTED
from refusals import AREA, refusal

LOGS = (0, 1, 2, 6, 7, 8, MAX)  # both ends of a job's and luma's, 1 and 6, and of chroma's, 2 and 7, and beside them
PAIRS = [p for k in LOGS for p in ((k, 2), (2, k), (k, k))] + [(0, MAX), (8, 0), (1, 8), (7, 1), (0, 1), (1, 0), (7, 8), (8, 7)]
SHIFTS = [(32, 12), (6, 32), (32, 32), (40, 32), (32, 40), (31, 32), (32, 31), (255, 0), (0, 255), (255, 255), (64, 33)]
FAR = (MAX, 2**64 - 3, 2**64 - 4, 2**64 - 5, 2**63, 2**32)  # starts from which a sum of 64 bits would wrap, or just not


def reported(c):
    return dict(c, call=c['call'] + REPORTED)


def coef(n):
    return [(3 * k + 1) % 10 for k in range(n)]


def job(start, lw, lh, length, qp=22, dq=6, it=12):
    return reported(T.given_job(start, lw, lh, qp, 0, dq, it, coef(length)))


def jobs():
    yield 'job: logs below, at, inside and above the ends; the width goes first', [job(0, *s, 0) for s in PAIRS]
    yield 'job: qp', [job(0, 1, 1, n, qp) for qp, n in ((63, 4), (63, 3), (64, 0), (65, 4), (127, 0), (128, 0), (255, 4))]
    yield 'job: shifts; the dequantization shift goes first', [job(0, 1, 1, 4, 22, *s) for s in SHIFTS + [(31, 31)]]
    yield 'job: an area that ends with the buffer, and one sample later', [job(start, w, h, start + 2**(w + h) - short) for start, w, h, short in [
        (0, 1, 1, 0), (0, 1, 1, 1), (3, 1, 1, 0), (3, 1, 1, 1), (1, 2, 1, 0), (1, 2, 1, 1), (2, 1, 2, 1), (0, 2, 2, 1), (5, 1, 1, 4), (5, 1, 1, 5)]]
    yield 'job: starts past the buffer, and near the largest', [job(start, *rest) for rest in ((1, 1, 5), (6, 6, 0)) for start in (2, 5, 6, *FAR)]
    faults = [put(LOG2_W=7), put(LOG2_H=0), put(QP=64), put(DQ_SHIFT=32), put(IT_SHIFT=33), put(START=2)]
    yield 'job: several faults; the first is told', [spoilt(job(0, 1, 1, 4), fs) for k in (2, 6) for fs in combinations(faults, k)]


def call(lw, lh, y=None, u=None, v=None, length=0, dq=6, it=12):
    """y, u, v: start and qp, or None where there is no flag: then both are numbers that nothing accepts."""
    parts = [(True, *p) if p else (False, MAX - k, 255 - k) for k, p in enumerate((y, u, v))]
    return reported(dict(T.sub_block(None, 0, lw, lh, 0, dq, it, *parts), COEF=coef(length)))


def lean(c):
    """The call with an empty buffer, where it is refused for the same."""
    empty = dict(c, COEF=[])
    return empty if refusal(empty) == refusal(c) != (AREA, 'Y') else c


def sub_blocks():
    yield 'sub_block: luma alone, its logs', [call(*s, y=(0, 22)) for s in PAIRS]
    yield 'sub_block: chroma alone, its logs as they are handed in', [call(*s, v=(0, 22)) for s in PAIRS]
    yield 'sub_block: both chromas, the first of them', [call(*s, u=(0, 22), v=(0, 22)) for k in LOGS for s in ((k, 2), (7, k))]
    yield 'sub_block: logs that luma has and chroma has not, and the other way round', [
        call(*s, y=(0, 22), u=(n, 22), v=(n, 22), length=n) for *s, n in [
            (1, 1, 4), (1, 2, 8), (2, 1, 8), (1, 1, 3), (7, 2, 0), (2, 7, 0), (1, 7, 0), (7, 1, 0), (1, 3, 16), (8, 1, 0), (0, 1, 0)]] + [
        call(1, 2, y=(0, 22), v=(0, 22), length=8)]
    flagged = ('y', 'u', 'v', 'yu', 'yv', 'uv', 'yuv')
    full = ((0, 22), (16, 23), (20, 24))
    some = lambda flags, parts=full: [p if k in flags else None for k, p in zip('yuv', parts)]
    yield 'sub_block: qp of each component', [call(2, 2, *some(flags, [(s, high if k in broken else 63) for k, high, (s, _) in zip('yuv', (64, 65, 66), full)]),
        length=24) for flags, broken in [('yuv', 'y'), ('yuv', 'u'), ('yuv', 'v'), ('yuv', 'yuv'), ('yuv', 'uv'), ('y', 'y'), ('u', 'u'), ('v', 'v'),
            ('yv', 'uv'), ('yu', 'u')]] + [call(2, 2, v=(0, 255)), call(2, 2, (0, 255), (0, 255))]
    yield 'sub_block: shifts, by the first component with a flag', [call(2, 2, *some(flags), dq=dq, it=it) for flags in flagged
        for dq, it in (SHIFTS if flags == 'yuv' else SHIFTS[:4])]
    yield 'sub_block: areas one sample too long, from past the buffer, and from near the largest start', [
        call(2, 2, *[(start if k == late else s, qp) for k, (s, qp) in enumerate(full)], length=24) for late in range(3)
        for start in ((9, 21, 21)[late], 24, *FAR[:5 if late == 2 else 2])]
    yield 'sub_block: areas in an empty buffer and in one that is a sample short', [call(2, 2, *some(flags)) for flags in flagged] + [
        call(2, 2, *full, length=23), call(2, 2, *full[:2], length=19), call(2, 2, full[0], length=15), call(7, 7, u=(0, 22)), call(6, 6, (0, 22))]
    pair = lambda a, b, c, n=24: call(2, 2, *[s if s is None else (s, 22) for s in (a, b, c)], length=n)
    yield 'sub_block: Y and U share samples, or just do not', [pair(*s, None) for s in [
        (0, 0), (0, 1), (0, 12), (0, 15), (0, 16), (4, 0), (4, 1), (4, 3), (4, 4), (4, 10), (4, 16), (4, 19), (4, 20), (8, 4), (8, 5)]]
    yield 'sub_block: Y and V share samples', [pair(s[0], None, s[1]) for s in [(0, 0), (0, 7), (0, 15), (0, 16), (3, 0), (4, 0), (8, 5), (8, 20)]]
    yield 'sub_block: U and V share samples', [pair(None, *s, 12) for s in [(0, 0), (0, 1), (0, 3), (0, 4), (5, 2), (5, 1), (5, 4), (5, 8), (5, 5), (8, 8)]]
    yield 'sub_block: all three; the first pair of YU, YV, UV, and the lowest place that it shares', [pair(*s) for s in [
        (0, 0, 0), (0, 16, 15), (0, 16, 13), (4, 0, 1), (4, 0, 2), (4, 0, 0), (4, 20, 19), (4, 20, 3), (0, 16, 17), (0, 20, 17), (0, 17, 20), (8, 5, 2),
        (8, 4, 7), (8, 0, 7), (4, 3, 2), (4, 1, 20), (0, 16, 20), (8, 4, 0)]]
    yield 'sub_block: V from before Y, and larger', [call(4, 3, (112, 22), None, (96, 22), 240), call(4, 3, None, (112, 22), (96, 22), 144)]
    yield 'sub_block: two faults; the first is told', [lean(spoilt(call(2, 2, *full, length=24), [f for _, f in fs])) for fs in combinations([
        ('w', put(LOG2_W=7)), ('w', put(LOG2_W=1)), ('h', put(LOG2_H=0)), ('qY', put(QP_Y=64)), ('qU', put(QP_U=65)), ('qV', put(QP_V=66)),
        ('dq', put(DQ_SHIFT=32)), ('it', put(IT_SHIFT=33)), ('Y', put(START_Y=9)), ('Y', put(START_Y=1)), ('U', put(START_U=21)), ('V', put(START_V=MAX)),
        ('V', put(START_V=18))], 2) if fs[0][0] != fs[1][0]]
    yield 'sub_block: accepted; what has no flag holds numbers that nothing accepts', [call(2, 2, *some(f), length=24) for f in flagged] + [
        call(2, 2), call(MAX, 0, dq=255, it=255), call(7, 2, u=(1, 22), length=129), call(1, 1, (0, 22), length=4)]


def groups():
    yield from jobs()
    yield from sub_blocks()
