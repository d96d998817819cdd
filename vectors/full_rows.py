"""Scenes of both modes with one full row of 1,024 samples: every search inside a row, at its bounds.

The row is filled in any order, so that samples come late at every place; then it is asked at its first and last
samples, between samples and outside, samples are replaced, expire and are wiped. In the second mode there are also
samples too many.
"""
from values import LAST, SECOND, line, words

SAMPLES = 1024
# The first, the last, and those about which halving goes one way or the other.
PLACES = sorted({k + by for n in range(11) for k in (2**n, SAMPLES - 2**n) for by in (-1, 0, 1)} & set(range(SAMPLES)))


class FullRow:
    """The lines of a scene; the row's samples lie `step` apart."""

    def __init__(self, values, age):
        self.values, self.rng = values, values.rng
        self.child, self.parent = values.frames(2)
        self.step = self.rng.choice([2, 7, 1000, SECOND])
        span = (SAMPLES - 1) * self.step
        first = self.rng.choice([1, SECOND, 10**18, LAST - 2 * span])
        self.clock = range(first, first + span + 1, self.step)
        self.lines = ["# A full row of 1,024 samples."]
        self.lines.append(line("open", self.rng.randint(1, 2), SAMPLES, span if age else "none"))
        for at in self.rng.sample(self.clock, SAMPLES):
            self.add(at)

    def add(self, at):
        pose = words(self.values.translation() + self.values.rotation())
        self.lines.append(line("add", self.child, self.parent, 1, at, *self.values.said(pose)))

    def wipe(self, at):
        self.lines.append(line("wipe", self.child, at))

    def ask(self, *instants):
        for at in instants:
            ends = self.rng.choice([(self.child, self.parent), (self.parent, self.child)])
            self.lines.append(line("lookup", *ends, at))

    def between(self, place):
        """An instant behind a sample and before the next."""
        return self.clock[place] + self.rng.randrange(1, self.step)

    def ask_about(self, places):
        """At each of the samples and behind it, and about both ends of the row."""
        self.ask(0, self.clock[0] - 1, self.clock[-1] + 1, self.clock[-1] + self.step, LAST)
        for place in places:
            self.ask(self.clock[place], self.between(place))

    def replace(self, *places):
        for place in places:
            self.add(self.clock[place])
            self.ask(self.clock[place], self.between(place))


def full_scene(values, age):
    """A row that stays within its 1,024 samples; with an age, its first samples expire as newer ones come."""
    row = FullRow(values, age)
    row.ask_about(PLACES)
    row.replace(0, 511, 512, SAMPLES - 1)
    if age:
        last = row.clock[-1]
        for newer in (last + row.step, last + 4 * row.step + 1):  # one expires, then four
            row.add(newer)
            row.ask(*row.clock[:6], newer - 1, newer, newer + 1)
    for at in (0, row.clock[0], row.clock[8], row.between(8)):
        row.wipe(at)
        row.ask(*row.clock[:11], row.clock[-1], row.clock[-1] + 1)
    row.add(row.between(700))  # a late one, where the wipes made room
    row.ask(row.clock[700], *(row.between(700) for _ in range(3)), row.clock[701])
    for at in (row.clock[-1], LAST):
        row.wipe(at)
        row.ask(row.clock[-2], row.clock[-1], LAST)
    row.add(row.between(0))
    row.ask(*row.clock[:2])
    return row.lines


def overfull_scene(values):
    """A sample too many at every kind of place, then after a wipe of one sample."""
    row = FullRow(values, age=False)
    row.ask_about(PLACES[:8] + PLACES[-8:])
    for _ in range(2):
        for at in (row.clock[0] - 1, *map(row.between, PLACES)):
            row.add(at)
        row.replace(1, 511, SAMPLES - 1)
        row.wipe(row.clock[1])
    return row.lines


def scenes(values, mode):
    """The scenes of each mode."""
    if mode == "bound":
        return [overfull_scene(values)]
    return [full_scene(values, age) for age in (False, True)]
