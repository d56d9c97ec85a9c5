"""Calls with one fault, two, three and more: every number is the lowest in some, and every other one stands behind it."""
from itertools import combinations

from cases import distortion as D
from cases import transform as T
from cases.fills import *
from refusals import AREA, DEPTH, QP, SAMPLE, SHIFT, SIZE, refusal


# ---- a fault is a function from a call to the names that it changes
def put(**names):
    return lambda c: names


def cut(name, n=1):
    return lambda c: {name: c[name][:max(len(c[name]) - n, 0)]}


def sample(name, at, v):
    return lambda c: {name: c[name][:at] + [v] + c[name][at + 1:] if at < len(c[name]) else c[name]}


def spoilt(c, faults):
    for f in faults:
        c = dict(c, **f(c))
    return c


def combined(c, faults):
    """Each fault alone, then for each set of two and more numbers faults of these numbers together: as many calls as the longest of their lists. The answer
    has to be the lowest number of the set."""
    out = []
    for count in range(1, len(faults) + 1):
        for numbers in combinations(faults, count):
            lists = [faults[n] for n in numbers]
            for k in range(max(map(len, lists))):
                # another step through each list, so that the pairs differ from set to set
                out.append(spoilt(c, [fs[(k * (i + 1) + count) % len(fs)] for i, fs in enumerate(lists)]))
                assert refusal(out[-1]) == (min(numbers), None), (numbers, out[-1])
    return out


# ---- the transform
def transforms(r):
    yield 'scale: qp above 63', [dict(call='scale', QP=qp) for qp in (64, 65, 66, 69, 70, 71, 100, 127, 128, 191, 254, 255)]
    logs = lambda w, h, bad: [put(**{n: v}) for v in bad for n in (w, h)] + [put(**{w: bad[0], h: bad[0]})]
    yield 'dquant: faults together', combined(T.dquant(r, 2, 1, 40, 0, 6, 0, small), {
        SIZE: logs('LOG2_W', 'LOG2_H', (7, 8, 64, MAX)), SHIFT: [put(SHIFT=v) for v in (32, 33, 63, 64, 255)], AREA: [cut('COEF'), cut('COEF', 9)]})
    yield 'dquant: one short', [T.given_dquant(w, h, 40, 0, (w + h) % 32, [1] * (2**(w + h) - 1)) for w in range(7) for h in range(7) if w + h < 10]
    for two in (False, True):
        c = T.stage_two(r, 2, 1, 7, 0, 0, small) if two else T.stage_one(r, 2, 1, 0, 0, small)
        faults = {SIZE: [put(LOG2_SIZE=v) for v in (0, 7, 64, MAX)] + [put(LOG2_LINE=v) for v in (7, 8, 64, MAX)] + [put(LOG2_SIZE=0, LOG2_LINE=7)],
                  AREA: [cut('SRC'), cut('DST'), cut('SRC', 99), cut('DST', 99), lambda c: {'SRC': c['SRC'][:-1], 'DST': c['DST'][:-1]}]}
        if two:
            faults = {SIZE: faults[SIZE], SHIFT: [put(SHIFT=v) for v in (32, 33, 63, 64, 255)], AREA: faults[AREA]}
        yield f'{c["call"]}: faults together', combined(c, faults)
        yield f'{c["call"]}: each buffer one short, in every size', [T.stage(two, size, line, [2] * (n - s), [3] * (n - d), 31 * (s + d - 1))
            for size in range(1, 7) for line in (0, 1, 6 - size) for n in (2**(size + line),) for s, d in ((1, 0), (0, 1), (1, 1))]
        yield f'{c["call"]}: sizes that are not allowed, with room for them', [T.stage(two, size, line, [2] * 256, [3] * 256, 0) for size,
            line in ((0, 0), (0, 6), (0, 7), (7, 0), (7, 1), (1, 7), (8, 0))]
    job = T.given_job(3, 2, 1, 22, 32, 6, 12, fill(r, small, 11, *I16))
    yield 'job: faults together', combined(job, {
        SIZE: logs('LOG2_W', 'LOG2_H', (0, 7, 64, MAX)), QP: [put(QP=v) for v in (64, 128, 255)],
            SHIFT: [put(DQ_SHIFT=32, OFFSET=0), put(IT_SHIFT=32), put(DQ_SHIFT=255, OFFSET=0), put(IT_SHIFT=255),
            put(DQ_SHIFT=32, IT_SHIFT=32, OFFSET=0)],
        AREA: [put(START=4), put(START=11), put(START=MAX), put(START=2**64 - 8), put(START=2**64 - 7), put(START=2**63), put(START=2**32 + 3),
            cut('COEF'), cut('COEF', 99)]})
    yield 'job: one sample too few, and from one sample too late', [c for w in range(1, 7) for h in range(1, 7) if w + h < 10 for n in (2**(w + h),)
        for c in [T.given_job(0, w, h, 22, 32, 6, 12, [1] * (n - 1))] + ([T.given_job(1, w, h, 22, 32, 6, 12, [1] * n)] if w + h < 8 else [])]


def sub_blocks(r):
    """A sub-block of Y, U and V with every set of up to three of these faults, with all flags set; pairs with fewer flags too, where a fault that nobody
    looks at leaves the call accepted."""
    t = True
    c = T.sub_block(r, 30, 2, 2, 32, 6, 12, (t, 1, 22), (t, 18, 23), (t, 24, 24), small)
    faults = [('logs', put(LOG2_W=7)), ('logs', put(LOG2_H=1)), ('logs', put(LOG2_W=0)), ('qY', put(QP_Y=64)), ('qU', put(QP_U=200)),
        ('qV', put(QP_V=64)), ('dq', put(DQ_SHIFT=32, OFFSET=0)), ('it', put(IT_SHIFT=99)), ('Y', put(START_Y=15)), ('U', put(START_U=27)),
        ('V', put(START_V=MAX - 3)), ('Y', put(START_Y=4)), ('V', put(START_V=16)), ('V', put(START_V=19)), ('V', put(START_V=27))]
    sets = [s for k in (1, 2, 3) for s in combinations(faults, k) if len({name for name, _ in s}) == k]
    yield 'sub_block: up to three faults together', [spoilt(c, [f for _, f in s]) for s in sets]
    flags = [dict(zip(('FLAG_Y', 'FLAG_U', 'FLAG_V'), map(bool, f))) for f in ((1, 0, 0), (0, 1, 0), (0, 0, 1), (1, 1, 0), (1, 0, 1), (0, 1, 1))]
    few_faults = [s for s in sets if len(s) < 3]
    yield 'sub_block: faults of components that are flagged or not', [spoilt(dict(c, **flags[(k + j) % 6]), [f for _, f in s]) for k,
        s in enumerate(few_faults) for j in (0, 2)]
    at = lambda y, u, v, **more: dict(c, START_Y=y, START_U=u, START_V=v, **more)
    yield 'sub_block: areas that share samples, the first pair of YU, YV, UV', [at(*s) for s in [
        (0, 15, 20), (0, 16, 20), (3, 0, 20), (4, 0, 20), (0, 16, 12), (0, 16, 19), (0, 16, 13), (0, 0, 0), (4, 18, 2), (0, 16, 15), (4, 20, 0),
        (4, 20, 1), (14, 0, 3), (14, 0, 4), (14, 10, 13), (14, 11, 7), (14, 6, 10), (14, 5, 11), (0, 6, 6), (0, 26, 26), (10, 26, 3), (10, 3, 26),
        (14, 0, 26)]]
    yield 'sub_block: logs of 0, 1, 7 and 8 and the largest, chroma flagged or not', [dict(c, LOG2_W=w, LOG2_H=h, **f) for w,
        h in ((0, 0), (1, 1), (0, 2), (2, 0), (1, 2), (2, 1), (7, 2), (2, 7), (8, 2), (2, 8), (MAX, 2), (2, MAX), (MAX, MAX))
        for f in (flags[0], flags[1], flags[2])]
    yield 'sub_block: starts near the largest usize', [at(*s) for s in [(MAX, 18, 24), (2**64 - 16, 18, 24), (2**64 - 15, 18, 24), (1, MAX, 24),
        (1, 2**64 - 4, 24), (1, 18, MAX), (1, 18, 2**64 - 4), (1, 18, 2**63), (2**32, 18, 24), (1, 2**32 + 18, 24)]]


# ---- distortion
def plane_faults(samples, width, height, stride, x, y, signed, w, h):
    """Ways in which a plane breaks its rule, or the block lies outside. In the call the block ends at the plane's last column and row."""
    out = [cut(samples), cut(samples, 999), put(**{width: 0}), put(**{height: 0}), lambda c: {stride: c[width] - 1}, put(**{width: 16385}),
        put(**{height: 16385}), put(**{stride: MAX}), put(**{stride: 2**63}), put(**{width: MAX}), put(**{height: MAX}),
           put(**{height: 4097, stride: 2**52}), put(**{height: 16384, stride: 2**50 + 1}), lambda c: {height: c[height] + 1},
               lambda c: {stride: c[stride] + 1}]
    out += [lambda c: {x: c[x] + 1}, lambda c: {y: c[y] + 1}]
    if signed:
        return out + [put(**{x: 32767}), put(**{y: 32767}), put(**{x: 32767 - w + 1, y: -3}), put(**{x: -3, y: 32767 - h + 1})]
    return out + [put(**{x: MAX}), put(**{y: MAX}), put(**{x: 2**64 - w}), put(**{y: 2**64 - h}), put(**{x: 2**63, y: 2**63}), put(**{x: 2**32})]


ORG = ('ORG', 'WIDTH', 'HEIGHT', 'STRIDE', 'X', 'Y', False)
REF = ('REF', 'REF_WIDTH', 'REF_HEIGHT', 'REF_STRIDE', 'MV_X', 'MV_Y', True)
ONE = ('ONE', 'WIDTH1', 'HEIGHT1', 'STRIDE1', 'X', 'Y', True)
TWO = ('TWO', 'WIDTH2', 'HEIGHT2', 'STRIDE2', 'X', 'Y', True)


def distortions(r):
    around = D.Around(left=1, above=1, gap=2)
    for call in ('diff', 'satd', 'ssd_16b', 'ssd_16i', 'sad_16b', 'sad_bi_16b', 'sad_16i', 'sad_bi_16i'):
        logs = call in D.LOGS
        side, (nw, nh) = (1, ('LOG2_W', 'LOG2_H')) if logs else (2, ('W', 'H'))
        c = D.any_call(r, call, 10, side, side, around, 0, small, small)
        if call in ('sad_16b', 'sad_bi_16b'):
            c['MV_X'], c['MV_Y'] = c['REF_WIDTH'] - 2, c['REF_HEIGHT'] - 2
        if call == 'ssd_16i':
            c.update(WIDTH2=c['WIDTH1'], HEIGHT2=c['HEIGHT1'], STRIDE2=c['STRIDE1'], TWO=fill(r, small, len(c['ONE']), 0, 1023))
        bad = (7, 8, 63, 64, MAX) if logs else (0, 1, 3, 63, 65, 66, MAX, MAX - 1) if call == 'satd' else (0, 65, 66, 2**32 + 2, MAX)
        sizes = [put(**{n: v}) for v in bad for n in (nw, nh)] + [put(**{nw: bad[0], nh: bad[-1]})]
        depths = [put(DEPTH=v) for v in (7, 15, 0, 6, 16, 255)]
        areas, samples = [], []
        for kind in (ORG, REF, ONE, TWO):
            if kind[0] in c:
                areas += plane_faults(*kind, 2, 2)
                first = max(c[kind[5]], 0) * c[kind[3]] + max(c[kind[4]], 0)
                samples += [sample(kind[0], first, 1024), sample(kind[0], first + c[kind[3]] + 1, 65535), sample(kind[0], first + 1, 32768)]
        for name in ('CUR', 'PRED'):
            if name in c:
                c[name] = c[name][:4]
                areas += [cut(name), cut(name, 9)]
                samples += [sample(name, 0, 1024), sample(name, 3, 65535), sample(name, 1, 32768)]
        if 'BI' in c:
            c['BI'] = c['BI'][:4]
            areas += [cut('BI'), cut('BI', 9)]
            samples += [sample('BI', 0, -16385), sample('BI', 3, -32768)]
        if 'DIFF' in c:
            c['DIFF'] = c['DIFF'][:4]
            areas += [cut('DIFF'), cut('DIFF', 9)]
        samples.append(lambda c, fs=list(samples): dict(kv for f in (fs[0], fs[-1]) for kv in f(c).items()))
        yield f'{call}: faults together', combined(c, {SIZE: sizes, DEPTH: depths, AREA: areas, SAMPLE: samples})


def malformed(r):
    """Planes that break their rule under a block that lies at negative positions, where nothing but the first sample would be read."""
    for call, kinds in (('ssd_16i', (ONE, TWO)), ('sad_16b', (REF,)), ('sad_bi_16b', (REF,))):
        out = []
        for x, y in ((-9, -9), (-9, 0), (0, -9)):
            c = D.ssd_16i(r, 8, x, y, 1, 1, 4, 4, (2, 1)) if call == 'ssd_16i' else (D.sad_16b if call == 'sad_16b' else D.sad_bi_16b)(r, 8, 2, 2,
                D.TIGHT, x, y, 4, 4, 3)
            for samples, width, height, stride, *_ in kinds:
                full = dict(c, **{samples: [5] * 40})
                out += [spoilt(full, [f]) for f in [put(**{width: 0}), put(**{height: 0}), put(**{width: 0, height: 0, stride: 0}),
                    put(**{width: 0, height: 0, stride: 0, samples: []}), put(**{stride: 3}), put(**{stride: 0}), put(**{width: 16385}),
                    put(**{height: 16385, stride: 4}),
                                                    put(**{samples: []}), put(**{samples: [5] * (3 * c[stride] + 3)}),
                                                        put(**{samples: [5] * (3 * c[stride] + 4)}), put(**{stride: MAX}), put(**{stride: 2**62}),
                                                        put(**{height: MAX, stride: MAX}), put(**{width: MAX, stride: MAX})]]
        yield f'{call}: malformed planes under a block at negative positions', out


def largest(r):
    """Planes of the largest width and height, where there is room for them."""
    for call in ('diff', 'satd', 'ssd_16b', 'sad_16i', 'sad_16b', 'sad_bi_16b'):
        names = REF if 'REF' in D.any_call(r, call, 8, 1, 1) else ORG
        out = []
        for n in (16383, 16384, 16385):
            for w, h in ((n, 1), (1, n)):
                if call != 'satd':
                    c = D.any_call(r, call, 8, *((0, 0) if call in D.LOGS else (1, 1)))
                    out.append(dict(c, **{names[0]: [7] * n, names[1]: w, names[2]: h, names[3]: w, names[4]: w - 1, names[5]: h - 1}))
        yield f'{call}: planes of the largest width and height, read at the last sample', out


def samples(r):
    """The limit of each depth, and samples out of range beside the block, which nobody reads."""
    for call in ('diff', 'satd', 'ssd_16b', 'ssd_16i', 'sad_16b', 'sad_bi_16b', 'sad_16i', 'sad_bi_16i'):
        out = []
        side = 1 if call in D.LOGS else 2
        for d in range(8, 15):
            c = D.any_call(r, call, d, side, side, D.TIGHT, 0, small, small)
            names = [n for n in ('ORG', 'CUR', 'ONE', 'TWO', 'REF', 'PRED') if n in c]
            n = names[d % len(names)]
            out += [spoilt(c, [sample(n, d % 2 * 2, 2**d - 1)]), spoilt(c, [sample(n, d % 2 * 2, 2**d)])]
        if 'BI' in c:
            out += [spoilt(c, [sample('BI', k, v)]) for k in range(4) for v in (-16384, -16385)]
        yield f'{call}: the largest sample of each depth and the next one', out


def far_edges(r):
    """Past the right and the bottom edge, by one and by far, with the other coordinate below 0, inside and past too."""
    xs = (-32768, -3, 0, 2, 3, 5, 6, 40, 32765, 32766, 32767)
    past = [(x, y) for x in xs for y in xs if x > 2 or y > 2]
    for call in ('ssd_16i', 'sad_16b', 'sad_bi_16b'):
        out = []
        for k, (x, y) in enumerate(past):
            d = D.depth_of(k)
            if call == 'ssd_16i':
                c = D.ssd_16i(r, d, x, y, 1, 1, 4, 4, (k % 2, k % 3), 0)
                out.append(c)
            else:
                out.append((D.sad_16b if call == 'sad_16b' else D.sad_bi_16b)(r, d, 2, 2, D.TIGHT, x, y, 4, 4, k % 3))
        yield f'{call}: past the right or the bottom edge of 4 by 4', out
    one = lambda **k: dict(D.ssd_16i(r, 10, 1, 1, 2, 2, 5, 5, (1, 1)), **k)
    yield 'ssd_16i: past an edge of one plane and not of the other', [one(WIDTH1=4), one(HEIGHT1=4), one(WIDTH2=4), one(HEIGHT2=4),
        one(WIDTH1=1, X=-3), one(X=-2, WIDTH2=1), one(Y=-3, HEIGHT1=1), one(Y=-2, HEIGHT1=1), one(Y=-2, HEIGHT2=1), one(WIDTH1=1, HEIGHT2=1)]
    bad = lambda c, name, at: spoilt(c, [sample(name, at, 65535)])
    yield 'past an edge, with a sample out of range that is read, or that none reads', [
        bad(one(X=3), 'ONE', 7), bad(one(X=3), 'TWO', 12), bad(one(X=3), 'ONE', 0), bad(one(X=3), 'TWO', 0), bad(one(Y=32767), 'ONE', 0),
            bad(one(Y=32767), 'ONE', 28), *[bad(f(r, 10, 4, 4, D.TIGHT, x, y, 5, 5), 'REF', at) for f in (D.sad_16b, D.sad_bi_16b) for x, y,
            at in ((3, 0, 4), (3, 0, 0), (0, 3, 24), (0, 3, 0), (9, 9, 24), (9, 9, 23))]]
    lots = [(8, 8, 3, 3, 4, 4), (16, 4, -5, 0, 7, 7), (64, 64, 0, 0, 8, 8), (64, 64, -70, -62, 1, 1), (1, 1, 1, 0, 1, 1), (1, 1, 0, 1, 1, 1),
        (5, 3, 1, 1, 5, 9), (5, 3, 1, 1, 9, 3), (33, 2, -20, -1, 12, 5), (2, 33, -1, -20, 5, 12)]
    yield 'blocks that reach past the edges with most of their samples', [f(r, 10, w, h, D.TIGHT, x, y, pw, ph, 1, few if w * h > 64 else any_)
        for f in (D.sad_16b, D.sad_bi_16b) for w, h, x, y, pw, ph in lots] + [
        D.ssd_16i(r, 10, x, y, w.bit_length() - 1, h.bit_length() - 1, pw, ph, (1, 0)) for w, h, x, y, pw, ph in lots]


def groups():
    for seed, part in enumerate((transforms, sub_blocks, distortions, samples, far_edges, malformed, largest), 300):
        yield from part(Chance(seed))
