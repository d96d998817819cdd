"""Seeded values for scripts: floats, poses, instants, ages and frames, plain, wild and at the edges.

Floats are the 16 hexadecimal digits of their bits, so that a NaN keeps them; some become decimals in a line.
"""
import math
import struct

from decimals import MOST, near

LAST = 2**64 - 1
SECOND = 10**9
ONE = 0x3FF0 << 48
ABOVE, BELOW = 4503599627, 9007199254  # steps from 1 up and down to the last w that is taken

SPECIAL = [
    0x0000000000000000, 0x8000000000000000,  # zeros
    0x7FF0000000000000, 0xFFF0000000000000,  # infinities
    0x7FF8000000000000, 0xFFF8000000000000, 0x7FF0000000000001, 0xFFFFFFFFFFFFFFFF,  # NaN
    0x0000000000000001, 0x8000000000000001, 0x000FFFFFFFFFFFFF, 0x0010000000000000,  # subnormals
    0x7FEFFFFFFFFFFFFF, 0xFFEFFFFFFFFFFFFF, 0x7FE0000000000000,  # the greatest
    0x3FF0000000000000, 0xBFF0000000000000, 0x3FF0000000000001, 0x3FEFFFFFFFFFFFFF,  # about 1
    0x3FEFFFFFFFFFFFFE, 0x3FEFFFFFFFFFFFFD, 0x3FE0000000000000, 0x4000000000000000,
    0x3CB0000000000000, 0x3CAFFFFFFFFFFFFF, 0x3CB0000000000001, 0x3CA0000000000000,  # about 2^-52
    0x5FEFFFFFFFFFFFFF, 0x5FF0000000000000, 0x6000000000000000,  # squares about the greatest
    0x1E60000000000000, 0x1E5FFFFFFFFFFFFF, 0x2000000000000000,  # squares about the least
    0x3FF921FB54442D18, 0x3FE6A09E667F3BCD, 0xBFE6A09E667F3BCC,  # pi/2, root of 1/2
]  # fmt: skip


def line(*parts):
    return " ".join(map(str, parts))


def word(x):
    return struct.pack(">d", x).hex()


def words(floats):
    return [word(x) for x in floats]


class Values:
    def __init__(self, rng):
        self.rng = rng

    # Floats

    def special(self):
        return f"{self.rng.choice(SPECIAL):016x}"

    def plain(self):
        """A float as in use."""
        rng = self.rng
        kind = rng.randrange(5)
        if kind == 0:
            return float(rng.randrange(-4, 5))
        if kind == 1:
            return rng.randrange(-64, 65) / 16
        if kind == 2:
            return rng.uniform(-1, 1)
        return rng.gauss(0, 10 ** rng.randrange(-3, 4))

    def scaled(self):
        """Any exponent."""
        rng = self.rng
        return math.ldexp(rng.uniform(-2, 2), rng.randrange(-1074, 1024))

    def wild(self):
        rng = self.rng
        kind = rng.randrange(5)
        if kind < 2:
            return self.special()
        if kind == 2:
            return f"{rng.getrandbits(64):016x}"
        return word(self.scaled() if kind == 3 else self.plain())

    # Rotations and poses, as floats

    def unit(self):
        rng = self.rng
        q = [rng.gauss(0, 1) for _ in range(4)]
        n = math.sqrt(sum(c * c for c in q)) or 1.0
        return [c / n for c in q] if any(q) else [1.0, 0.0, 0.0, 0.0]

    def turn(self):
        """A turn about an axis: none, a quarter, a half, a third, or the same the other way round."""
        rng = self.rng
        if rng.random() < 0.2:
            return [rng.choice([0.5, -0.5]) for _ in range(4)]
        q = [0.0, 0.0, 0.0, 0.0]
        half = math.sqrt(0.5)
        a, b = rng.sample(range(4), 2)
        q[a], q[b] = rng.choice([(1.0, 0.0), (half, half), (half, -half), (0.6, 0.8)])
        return [-c for c in q] if rng.random() < 0.2 else q

    def edge(self):
        """A rotation at the tolerance, on either side of it."""
        rng = self.rng
        if rng.random() < 0.5:
            step = ABOVE if rng.random() < 0.5 else -BELOW
            bits = ONE + step + rng.randrange(-2, 3)
            q = [struct.unpack(">d", bits.to_bytes(8, "big"))[0], 0.0, 0.0, 0.0]
            rng.shuffle(q)
            return q
        off = rng.choice([1e-6, -1e-6]) * (1 + rng.gauss(0, 1) * 10.0 ** rng.randrange(-12, -1))
        return [c * (1 + off) for c in self.unit()]

    def near(self, q):
        """A rotation close to another: itself, its opposite, or some last bits away."""
        rng = self.rng
        sign = rng.choice([1.0, -1.0])
        width = rng.choice([0.0, 2.0**-53, 2.0**-50, 1e-12, 1e-8, 1e-7])
        return [sign * c * (1 + rng.gauss(0, 1) * width) + rng.gauss(0, 1) * width for c in q]

    def rotation(self):
        kind = self.rng.randrange(10)
        if kind < 3:
            return [1.0, 0.0, 0.0, 0.0]
        return self.turn() if kind < 5 else self.unit()

    def translation(self):
        rng = self.rng
        if rng.random() < 0.06:
            return [self.scaled() for _ in range(3)]
        if rng.random() < 0.06:
            return [rng.choice([1.0, -1.0]) * rng.uniform(0.2, 1.79e308) for _ in range(3)]
        return [self.plain() for _ in range(3)]

    def pose(self):
        """A pose that validate takes, but for a few at the tolerance."""
        q = self.edge() if self.rng.random() < 0.05 else self.rotation()
        return words(self.translation() + q)

    def wild_pose(self):
        """A pose with one wild component, or all of them."""
        if self.rng.random() < 0.4:
            return [self.wild() for _ in range(7)]
        p = self.pose()
        p[self.rng.randrange(7)] = self.wild()
        return p

    def not_finite(self):
        p = self.pose()
        p[self.rng.randrange(7)] = f"{self.rng.choice(SPECIAL[2:8]):016x}"
        return p

    def not_unit(self):
        rng = self.rng
        factor = rng.choice([0.0, 0.5, 2.0, 1 + 1.1e-6, 1 - 1.1e-6, 1e200, 1e-200])
        return words(self.translation() + [c * factor for c in self.rotation()])

    def said(self, pose):
        """A pose as a line has it: a fifth of all floats are decimals, and some of those in translations are short."""
        rng = self.rng
        share = rng.choice([0, 0, 0, 0, 0, 0, 0.3, 0.3, 0.4, 1])
        most = [rng.choice([2, 3, 6, MOST]) for _ in range(3)] + 4 * [MOST]
        return [near(rng, word, m) if rng.random() < share else word for word, m in zip(pose, most)]

    # Instants, ages, frames

    def clock(self):
        """Rising instants that a scene draws from."""
        rng = self.rng
        kind = rng.randrange(8)
        n = rng.randrange(2, 9)
        if kind == 0:
            return list(range(n))
        if kind == 1:
            return [10 * k for k in range(1, n + 1)]
        if kind == 2:
            return [k * SECOND for k in range(n)]
        if kind == 3:
            start = 1_700_000_000 * SECOND + rng.randrange(SECOND)
            return [start + k * 10_000_000 for k in range(n)]
        if kind == 4:
            return [LAST - k for k in reversed(range(n))]
        if kind == 5:
            return [0, 1, 2**32, 2**53, 2**53 + 1, 2**63, LAST - 1, LAST]
        if kind == 6:
            return sorted(rng.sample(range(3 * n), n))
        return sorted({rng.getrandbits(rng.randrange(1, 65)) for _ in range(n + 1)} | {5, LAST // 3})

    def instant(self, clock):
        """An instant of the clock, beside one, between two, or outside."""
        rng = self.rng
        at = rng.choice(clock)
        kind = rng.randrange(10)
        if kind < 4:
            return at
        if kind < 6:
            return min(max(at + rng.choice([-1, 1]), 0), LAST)
        if kind < 9:
            return rng.randint(clock[0], clock[-1])
        return rng.choice([0, LAST, rng.getrandbits(64), max(clock[0] - 1, 0), min(clock[-1] + 1, LAST)])

    def age(self, clock):
        """None, or an age about the spans and instants of the clock."""
        rng = self.rng
        kind = rng.randrange(10)
        if kind < 4:
            return None
        if kind == 4:
            return 0
        if kind < 8:
            late, early = rng.choice(clock), rng.choice(clock)
            return min(max(abs(late - early) + rng.choice([-1, 0, 0, 1]), 0), LAST)
        if kind == 8:
            return min(clock[-1] + rng.choice([-1, 0, 1]), LAST) if clock[-1] else 1
        return rng.choice([1, LAST, rng.getrandbits(64)])

    def frames(self, n):
        """Numbers of frames, in no order."""
        rng = self.rng
        kind = rng.randrange(5)
        if kind == 0:
            pool = range(n)
        elif kind == 1:
            pool = range(2**32 - n, 2**32)
        elif kind == 2:
            pool = sorted({d * 10**k for d in (1, 2, 9, 11) for k in range(8)} | set(range(n)))
        elif kind == 3:
            pool = range(2 * n)
        else:
            pool = range(2**32)
        return rng.sample(pool, n)
