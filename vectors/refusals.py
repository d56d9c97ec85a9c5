#!/usr/bin/env python3
"""Which calls are refused, and with what: document 01's table of refusal numbers and its "Numbers of the domain", in exact integers. Written from these
alone, without a look at the library, its definitions or the Rust. What a refused call reports is from document 02's request One, and is by the hand that
wrote how `calls` says it.
  refusals.py < LINES     for each call the expected line where it is refused, and 'accepted' where it isn't"""
import sys

import lines

SIZE, QP, SHIFT, DEPTH, AREA, OVERLAP, SAMPLE = range(1, 8)


def power(log):
    """2^log. Above 99 the log is cut: the result is larger than any buffer all the same."""
    return 1 << min(log, 99)


def sides(c):
    return (power(c['LOG2_W']), power(c['LOG2_H'])) if 'LOG2_W' in c else (c['W'], c['H'])


# ---- what is read: a test whether it is wholly inside, and the samples
class Plane:
    """A block of w by h at (x, y) of a plane. edges: a negative row or column reads as 0."""
    def __init__(self, samples, width, height, stride, x, y, w, h, edges=False):
        self.samples, self.width, self.height, self.stride, self.x, self.y, self.w, self.h, self.edges = samples, width, height, stride, x, y, w, h, edges

    def malformed(self):
        return not (1 <= self.width <= 16384 and 1 <= self.height <= 16384 and self.stride >= self.width
                    and len(self.samples) >= (self.height - 1) * self.stride + self.width)

    def past(self):
        """past the right or the bottom edge"""
        return self.x + self.w > self.width or self.y + self.h > self.height

    def outside(self):
        return self.malformed() or self.past()

    def read(self):
        return [self.samples[max(self.y + j, 0) * self.stride + max(self.x + i, 0)] for j in range(self.h) for i in range(self.w)]

    def bad(self, v, depth):
        return v >= 1 << depth


class Packed(Plane):
    def __init__(self, samples, w, h):
        self.samples, self.w, self.h, self.edges = samples, w, h, False

    def outside(self):
        return len(self.samples) < self.w * self.h

    def read(self):
        return self.samples[:self.w * self.h]


class Bi(Packed):
    def bad(self, v, depth):
        return v < -16384


def blocks(c):
    """The two blocks that a distortion call compares."""
    w, h = sides(c)
    org = lambda: Plane(c['ORG'], c['WIDTH'], c['HEIGHT'], c['STRIDE'], c['X'], c['Y'], w, h)
    ref = lambda: Plane(c['REF'], c['REF_WIDTH'], c['REF_HEIGHT'], c['REF_STRIDE'], c['MV_X'], c['MV_Y'], w, h, edges=True)
    both = lambda s, k: Plane(c[s], c['WIDTH' + k], c['HEIGHT' + k], c['STRIDE' + k], c['X'], c['Y'], w, h, edges=True)
    return {
        'diff': lambda: [org(), Packed(c['CUR'], w, h)],
        'satd': lambda: [org(), Packed(c['CUR'], w, h)],
        'ssd_16b': lambda: [org(), Packed(c['CUR'], w, h)],
        'ssd_16i': lambda: [both('ONE', '1'), both('TWO', '2')],
        'sad_16b': lambda: [org(), ref()],
        'sad_bi_16b': lambda: [Bi(c['BI'], w, h), ref()],
        'sad_16i': lambda: [org(), Packed(c['PRED'], w, h)],
        'sad_bi_16i': lambda: [Bi(c['BI'], w, h), Packed(c['PRED'], w, h)],
    }[c['call']]()


# ---- the tests, in the order of their numbers
def size_allowed(call, side):
    if call in ('diff', 'ssd_16b', 'ssd_16i'):
        return side <= 6
    if call == 'satd':
        return 2 <= side <= 64 and side % 2 == 0
    return 1 <= side <= 64


def distortion(c):
    first, second = ('LOG2_W', 'LOG2_H') if 'LOG2_W' in c else ('W', 'H')
    if not (size_allowed(c['call'], c[first]) and size_allowed(c['call'], c[second])):
        return SIZE
    if not 8 <= c['DEPTH'] <= 14:
        return DEPTH
    w, h = sides(c)
    if any(b.outside() for b in blocks(c)) or (c['call'] == 'diff' and len(c['DIFF']) < w * h):
        return AREA
    if any(b.bad(v, c['DEPTH']) for b in blocks(c) for v in b.read()):
        return SAMPLE


def area(start, length, log2_w, log2_h):
    return start + power(log2_w) * power(log2_h) > length


def one_job(log2_w, log2_h, qp, dq_shift, it_shift, start, length):
    if not (1 <= log2_w <= 6 and 1 <= log2_h <= 6):
        return SIZE
    if qp > 63:
        return QP
    if dq_shift > 31 or it_shift > 31:
        return SHIFT
    if area(start, length, log2_w, log2_h):
        return AREA


def sub_block(c):
    flagged = [k for k in 'YUV' if c['FLAG_' + k]]
    logs = {k: (c['LOG2_W'] - (k != 'Y'), c['LOG2_H'] - (k != 'Y')) for k in 'YUV'}
    for k in flagged:
        number = one_job(*logs[k], c['QP_' + k], c['DQ_SHIFT'], c['IT_SHIFT'], c['START_' + k], len(c['COEF']))
        if number:
            return number, k
    samples = lambda k: range(c['START_' + k], c['START_' + k] + 2 ** sum(logs[k]))
    for a, b in ('YU', 'YV', 'UV'):
        if a in flagged and b in flagged:
            p, q = samples(a), samples(b)
            if p.start < q.stop and q.start < p.stop:
                return OVERLAP, b


def reports(c):
    """What each rule that a job or a sub-block breaks has to report, in the order of the tests: the refusal's number, the component, what was given, its
    number and the limit. Only the first is asked for: what comes behind a size that is not allowed has no meaning."""
    parts = [('Y', c['START'], c['QP'])] if 'START' in c else [(k, c['START_' + k], c['QP_' + k]) for k in 'YUV' if c['FLAG_' + k]]
    areas = {}
    for k, start, qp in parts:
        less = int(k != 'Y')
        for side, log in (('width', c['LOG2_W']), ('height', c['LOG2_H'])):
            if log < 1 + less:
                yield SIZE, k, side + ' log', log, 1 + less
            if log > 6 + less:
                yield SIZE, k, side + ' log', log, 6 + less
        if qp > 63:
            yield QP, k, 'qp', qp, 63
        for kind, shift in (('dequantization', c['DQ_SHIFT']), ('stage', c['IT_SHIFT'])):
            if shift > 31:
                yield SHIFT, k, kind + ' shift', shift, 31
        areas[k] = range(start, start + 2 ** (c['LOG2_W'] - less + c['LOG2_H'] - less))
        if areas[k][-1] >= len(c['COEF']):
            yield AREA, k, 'its area from', start, len(c['COEF'])
    for a, b in ('YU', 'YV', 'UV'):
        shared = set(areas.get(a, ())) & set(areas.get(b, ()))
        if shared:
            yield OVERLAP, b, 'its area from', areas[b].start, min(shared)


def refusal(c):
    """None where the call is accepted; else its number and, for a sub-block, the component."""
    call = c['call'].removesuffix(lines.REPORTED)
    if call == 'sub_block':
        return sub_block(c)
    if call == 'scale':
        number = QP if c['QP'] > 63 else None
    elif call == 'dquant':
        number = (SIZE if c['LOG2_W'] > 6 or c['LOG2_H'] > 6 else SHIFT if c['SHIFT'] > 31
                  else AREA if area(0, len(c['COEF']), c['LOG2_W'], c['LOG2_H']) else None)
    elif call in ('itxb0', 'itxb1'):
        size, line = c['LOG2_SIZE'], c['LOG2_LINE']
        number = (SIZE if not 1 <= size <= 6 or line > 6 else SHIFT if c.get('SHIFT', 0) > 31
                  else AREA if area(0, min(len(c['SRC']), len(c['DST'])), size, line) else None)
    elif call == 'job':
        number = one_job(c['LOG2_W'], c['LOG2_H'], c['QP'], c['DQ_SHIFT'], c['IT_SHIFT'], c['START'], len(c['COEF']))
    else:
        number = distortion(c)
    return (number, None) if number else None


def refused_line(c, found):
    """The expected line of a refused call: its buffer is as it was. A report has to name what the call without one is refused with."""
    number, component = found
    left = c.get(lines.WRITES.get(c['call']))
    if not c['call'].endswith(lines.REPORTED):
        return lines.answer(c, number, component=component, left=left)
    first = next(reports(c))
    assert first[:2] == (number, component or 'Y'), (first, found, c)
    return lines.answer(c, number, why=lines.sentence(*first), left=left)


if __name__ == '__main__':
    for line in sys.stdin:
        if line.strip() and not line.startswith('#'):
            c = lines.parse(line)
            found = refusal(c)
            print(refused_line(c, found) if found else 'accepted')
