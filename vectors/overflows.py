"""Scenes of both modes in which poses are not finite (M-103).

Products and interpolations have, at every place, a component that is infinite, a NaN or huge. The hops of lookups have
translations up to the greatest float, so that the target's side overflows, the source's, both, or only their product;
at the same time a hop further up may not be served (11), or the frames are in two trees (10). In the second mode people
ask, too, and 1 and 2 come first.
"""
import sys
from itertools import product

from values import LAST, line, word, words

GREATEST = sys.float_info.max
INFINITY, MINUS_INFINITY, NAN = "7ff0000000000000", "fff0000000000000", "7ff8000000000000"
ONE = [1.0, 0.0, 0.0, 0.0]
# Sums that stay finite, or do not: 2^970 is half of the greatest float's last place, and a tie goes to even.
SUMS = [
    (GREATEST, -GREATEST),
    (GREATEST, 2.0**970 - 2.0**917),
    (GREATEST, 2.0**970),
    (GREATEST / 2, GREATEST / 2),
    (2.0**1023, 2.0**1023),
]
# FROM, TO and QUERY of an interpolation.
IN_ORDER = [(10, 20, 10), (10, 20, 13), (10, 20, 15), (10, 20, 20), (10, 20, 21), (10, 20, 30), (0, 1, LAST)]
ONE_INSTANT = [(10, 10, 10), (10, 10, 9), (10, 10, 20)]
REVERSED = [(20, 10, 15), (20, 10, 25), (10, 20, 9), (LAST, 0, LAST)]
# Two chains from one base, and another tree: child to parent.
ABOVE = {"hand": "arm", "arm": "stand", "stand": "base", "foot": "leg", "leg": "base", "other": "away"}
# Signs of the translations of the first five; 0 is a plain one.
SIGNS = {
    "++000": "One side overflows.",
    "000++": "The other side overflows.",
    "++0++": "Both sides overflow.",
    "00+0-": "Only the product of the sides overflows.",
    "00+0+": "The product of the sides cancels.",
    "++-00": "A side overflows before it would cancel.",
    "-++00": "A side cancels before it would overflow.",
    "+-+-+": "Every hop cancels the one below it.",
}
ENDS = [("hand", "foot"), ("base", "hand"), ("base", "foot"), ("hand", "other")]
PAIRS = [*ENDS, *((source, target) for target, source in ENDS), ("arm", "leg"), ("arm", "arm")]


def huge(rng, sign):
    return sign * rng.choice([GREATEST, GREATEST, 2.0**1023, rng.uniform(0.5, 1) * GREATEST])


# Pose operations


def odd_floats(rng):
    """One of each kind that makes a pose not finite, or may."""
    return rng.choice([INFINITY, MINUS_INFINITY]), NAN, word(huge(rng, rng.choice([1, -1])))


def operands(values):
    """Two poses with one odd float, for every place and every kind."""
    for place in range(14):
        for odd in odd_floats(values.rng):
            floats = values.said(values.pose()) + values.said(values.pose())
            floats[place] = odd
            yield floats


def huge_pose(values, sign, rotation):
    return words([huge(values.rng, sign) for _ in range(3)] + rotation)


def moved(rng, axis, sizes):
    """Poses without a turn, moved along one axis, one way or the other."""
    sign = rng.choice([1, -1])
    return [words([sign * size if k == axis else 0.0 for k in range(3)] + ONE) for size in rng.sample(sizes, 2)]


def product_scene(values):
    rng = values.rng
    lines = ["# Products that are not finite, or nearly so."]
    lines += [line("mul", *floats) for floats in operands(values)]
    for axis in range(3):
        for sizes in SUMS:
            first, second = moved(rng, axis, sizes)
            lines.append(line("mul", *first, *second))
    for signs in product((1, -1), repeat=2):
        for _ in range(2):
            first, second = (huge_pose(values, sign, values.rotation()) for sign in signs)
            lines.append(line("mul", *first, *second))
    zeros = words([0.0] * 3)
    for turn in range(4):  # the rotation alone, by one of its components
        for root in ("5fefffffffffffff", "5ff0000000000000"):  # the last whose square is finite, and the next
            second = [root if k == turn else word(0.0) for k in range(4)]
            lines.append(line("mul", *zeros, root, *zeros, *zeros, *second))
    return lines


def interpolation_scene(values):
    rng = values.rng
    lines = ["# Interpolations that are not finite, or nearly so."]
    for floats in operands(values):
        for spans in (IN_ORDER, ONE_INSTANT, REVERSED):
            lines.append(line("interp", *floats, *rng.choice(spans)))
    for signs in product((1, -1), repeat=2):
        for span in IN_ORDER:
            first, second = (huge_pose(values, sign, ONE) for sign in signs)
            lines.append(line("interp", *first, *second, *span))
    for span in IN_ORDER + ONE_INSTANT:  # finite rotations whose dot is a NaN, or infinite
        size = rng.choice([1e160, 1e200, GREATEST])
        first, second = [0.0] * 7, [0.0] * 7
        a, b = rng.sample(range(3, 7), 2)
        first[a], first[b], second[a], second[b] = size, size, size, rng.choice([-size, size])
        lines.append(line("interp", *words(first), *words(second), *span))
    return lines


# Lookups


class Overflows:
    """The lines of a scene; `moving` has the children that move."""

    def __init__(self, values, mode, moving, turned):
        self.values, self.rng = values, values.rng
        self.people, self.moving, self.turned = mode == "bound", moving, turned
        self.number = dict(zip([*ABOVE, "base", "away"], values.frames(8)))
        self.lines = ["# Lookups whose poses overflow."]
        self.open()

    def say(self, *parts):
        self.lines.append(line(*parts))

    def open(self):
        rows, samples = (6, 2) if self.people else (8, 4)
        self.say("open", rows, samples, self.rng.choice(["none", 10]))

    def add(self, child, pose, at=10):
        frames = self.number[child], self.number[ABOVE[child]]
        self.say("add", *frames, int(child in self.moving), at, *self.values.said(pose))

    def wipe(self, child):
        self.say("wipe", self.number[child], LAST)

    def pose(self, axis, sign):
        """A pose that is huge along one axis, or plain; a turned one may be huge along the others, too."""
        signs = [sign if k == axis else self.rng.choice([0, 0, 1, -1]) if self.turned else 0 for k in range(3)]
        translation = [huge(self.rng, sign) if sign else self.values.plain() for sign in signs]
        return words(translation + (self.values.rotation() if self.turned else ONE))

    def cover(self, signs):
        """Every hop; a moving one has two samples, the second of the same sign or the other."""
        axis = self.rng.randrange(3)
        for child, letter in zip(ABOVE, signs + self.rng.choice("+-0")):
            sign = {"+": 1, "-": -1, "0": 0}[letter]
            self.add(child, self.pose(axis, sign))
            if child in self.moving:
                self.add(child, self.pose(axis, sign * self.rng.choice([1, 1, -1])), 20)

    def when(self):
        return self.rng.choice([10, 10, 13, 15, 15, 20, 9, 21])

    def two(self, pair):
        return [self.number[name] for name in pair]

    def ask(self, count=len(PAIRS)):
        for pair in self.rng.sample(PAIRS, count):
            self.say("lookup", *self.two(pair), self.when())
        self.say("common", *self.two(self.rng.choice(PAIRS)))
        if self.people:
            for name in ("show", "why"):
                self.say(name, *self.two(self.rng.choice(PAIRS)), self.when())


def lookup_scene(values, mode, moving, turned=False):
    scene = Overflows(values, mode, moving, turned)
    for signs, note in SIGNS.items():
        scene.lines.append(f"# {note}")
        scene.cover(signs)
        scene.ask()
    scene.cover("++0++")
    for child in scene.rng.sample(["stand", "leg"], 2):  # where they are static they keep their pose
        scene.wipe(child)
        scene.ask()
    scene.add("hand", values.not_finite(), 20)
    scene.ask(3)
    if mode == "bound":
        scene.say("lend 29 12 83")  # a float short
        scene.ask(2)
        scene.say("lend 29 12 84")
        scene.say("set", "poses", scene.rng.randrange(84), scene.rng.choice([INFINITY, NAN]))
        scene.ask(2)
    scene.open()
    scene.ask(3)
    return scene.lines


def scenes(values, mode):
    """The scenes of each mode. In lookups no hop moves, the upper ones do, or all do; then there are turns, too."""
    lookups = [lookup_scene(values, mode, moving) for moving in ([], ["stand", "leg", "other"], list(ABOVE))]
    turned = lookup_scene(values, mode, ["arm", "foot", "other"], turned=True)
    return [product_scene(values), interpolation_scene(values), *lookups, turned]
