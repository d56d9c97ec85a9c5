"""Numbers by chance from a seed (splitmix64, so that every machine gets the same ones) and the ways in which a buffer is filled."""

I16 = (-2**15, 2**15 - 1)
I32 = (-2**31, 2**31 - 1)
MAX = 2**64 - 1  # the largest usize


class Chance:
    def __init__(self, seed):
        self.state = seed

    def next(self):
        self.state = (self.state + 0x9E3779B97F4A7C15) % 2**64
        z = self.state
        z = (z ^ (z >> 30)) * 0xBF58476D1CE4E5B9 % 2**64
        z = (z ^ (z >> 27)) * 0x94D049BB133111EB % 2**64
        return z ^ (z >> 31)

    def of(self, lo, hi):
        """lo..hi, both of them too"""
        return lo + self.next() % (hi - lo + 1)

    def pick(self, among):
        return among[self.next() % len(among)]


# a fill: (chance, place, lo, hi) -> number
def any_(r, i, lo, hi): return r.of(lo, hi)
def small(r, i, lo, hi): return r.of(max(lo, -9), min(hi, 9))
def ends(r, i, lo, hi): return r.pick((lo, hi))
def low(r, i, lo, hi): return lo
def high(r, i, lo, hi): return hi
def near(r, i, lo, hi): return r.pick((lo + r.of(0, 3), hi - r.of(0, 3)))
def turn(r, i, lo, hi): return lo if i % 2 else hi
def sparse(r, i, lo, hi): return r.of(lo, hi) if r.next() % 4 == 0 else 0
def few(r, i, lo, hi): return r.of(lo, hi) if r.next() % 24 == 0 else (lo + hi) // 2


def fill(r, how, n, lo, hi):
    if how == 'one':
        one = r.next() % max(n, 1)
        return [int(i == one) for i in range(n)]
    return [how(r, i, lo, hi) for i in range(n)]
