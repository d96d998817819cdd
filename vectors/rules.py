"""Ways to break a store from outside, one rule of document 01's "Sound means" at a time.

The store has five rows of three samples: 0 static, 1 moving with two samples, 2 moving and full,
3 moving and emptied, 4 unused. A change is (slice, place, number), floats as their bits.
"""
from values import ABOVE, BELOW, LAST, ONE

E, S = 5, 3
NAN, INFINITY, MINUS_ZERO, LEAST = 0x7FF8 << 48, 0x7FF0 << 48, 1 << 63, 1
CHILD, PARENT, KIND, COUNT = range(4)


def head(row, part, number):
    return ("head", 5 + 4 * row + part, number)


def instant(row, sample, number):
    return ("instants", row * S + sample, number)


def pose(row, sample, part, number):
    return ("poses", 7 * (row * S + sample) + part, number)


def broken(store):
    """(what is broken, changes): each leaves a store that is refused with 2."""
    words, times = store.head, store.instants
    flag, age = words[3:5]
    a, b, c, d = (words[5 + 4 * row] for row in range(4))
    first, last = times[2 * S], times[2 * S + S - 1]
    yield "N above E", [("head", 2, E + 1)]
    yield "N far above E", [("head", 2, LAST)]
    yield "a used row of zeros", [("head", 2, E)]
    yield "an unused row that is not zero", [("head", 2, 3)]
    yield "children equal", [head(3, CHILD, c)]
    yield "children equal, and own parent", [head(1, CHILD, a)]
    yield "children falling", [head(1, CHILD, a - 1)]
    yield "the last child falling", [head(3, CHILD, b)]
    for number in (2**32, LAST):
        yield "a child of more than 32 bits", [head(3, CHILD, number)]
        yield "a parent of more than 32 bits", [head(0, PARENT, number)]
    yield "own parent, first row", [head(0, PARENT, a)]
    yield "own parent, last row", [head(3, PARENT, d)]
    yield "a circle of two", [head(0, PARENT, b)]
    yield "a circle of two past other rows", [head(0, PARENT, d)]
    yield "a circle of three", [head(0, PARENT, c)]
    yield "a circle of all four", [head(0, PARENT, c), head(3, PARENT, a), head(1, PARENT, d)]
    for number in (2, LAST):
        yield "flag without a name", [("head", 3, number)]
        yield "kind without a name, static row", [head(0, KIND, number)]
        yield "kind without a name, moving row", [head(1, KIND, number)]
        yield "kind without a name, emptied row", [head(3, KIND, number)]
    if flag:
        yield "age without the flag", [("head", 3, 0)]
        yield "a sample below the last less the age", [instant(2, 0, last - age - 1)]
        yield "an age too short for its rows", [("head", 4, last - first - 1)]
    else:
        yield "age without the flag", [("head", 4, 1)]
        yield "the greatest age without the flag", [("head", 4, LAST)]
        yield "an age of 0 with older samples", [("head", 3, 1)]
    yield "static, count 0", [head(0, COUNT, 0)]
    yield "static, count 0 and nothing held", [head(0, COUNT, 0)] + [pose(0, 0, k, 0) for k in range(7)]
    yield "static, count 2", [head(0, COUNT, 2), pose(0, 1, 3, ONE)]
    yield "static, count 2 rising", [head(0, COUNT, 2), pose(0, 1, 3, ONE), instant(0, 1, 1)]
    for number in (1, LAST):
        yield "static, instant not 0", [instant(0, 0, number)]
    yield "static with two samples", [head(1, KIND, 0)]
    yield "static with none", [head(3, KIND, 0)]
    for number in (S + 1, LAST):
        yield "count above S", [head(2, COUNT, number)]
    yield "count above the samples", [head(1, COUNT, 3)]
    yield "count below the samples", [head(1, COUNT, 1)]
    yield "count 0 with samples", [head(2, COUNT, 0)]
    yield "instants equal", [instant(1, 1, times[S])]
    yield "instants falling", [instant(1, 1, times[S] - 1)]
    yield "the last instants equal", [instant(2, 1, last)]
    yield "the last instants falling", [instant(2, 2, times[2 * S + 1] - 1)]
    for part in range(7):
        yield "a held pose with a NaN", [pose(2, part % 3, part, NAN + part)]
        yield "a held pose with an infinity", [pose(1, part % 2, part, INFINITY | part % 2 << 63)]
    for number in (0, 2 * ONE - ONE // 2, ONE + ABOVE + 1, ONE - BELOW - 1, MINUS_ZERO | ONE + ABOVE + 1):
        yield "a held rotation off the unit", [pose(0, 0, 3, number)]
    for part in range(4):
        yield "unused head word", [head(4, part, 1)]
    for row, sample in ((0, 1), (0, 2), (1, 2), (3, 0), (3, 2), (4, 0), (4, 2)):
        yield "unused instant", [instant(row, sample, LAST if sample else 1)]
        for part, number in ((sample, MINUS_ZERO), (3, ONE), (6 - sample, LEAST), (sample + 2, NAN)):
            yield "unused float", [pose(row, sample, part, number)]


def wrong_sizes(store):
    """Changes that are refused with 1."""
    for number in (0, E - 1, E + 1, 257, 2**32 + E, LAST):
        yield "E", [("head", 0, number)]
    for number in (0, S - 1, S + 1, 1025, 2**32 + S, 2**61 + S, LAST):
        yield "S", [("head", 1, number)]
    yield "E and S changed over", [("head", 0, S), ("head", 1, E)]
    yield "E, and a rule as well", [("head", 0, 0), ("head", 3, 2)]


def kept(store):
    """Changes after which the store is sound again, and another."""
    words, times = store.head, store.instants
    c, d = words[13], words[17]
    yield "a rotation at the tolerance", [pose(0, 0, 3, ONE + ABOVE)]
    yield "a rotation at the lower tolerance, turned over", [pose(0, 0, 3, MINUS_ZERO | ONE - BELOW)]
    yield "a translation", [pose(2, 1, 0, ONE), pose(2, 1, 1, MINUS_ZERO), pose(2, 1, 2, LEAST)]
    yield "another parent", [head(3, PARENT, c)]
    yield "a child renamed", [head(3, CHILD, d + 1)]
    yield "a root renamed", [head(0, PARENT, d + 1)]
    yield "a static row made moving", [head(0, KIND, 1)]
    yield "an instant moved", [instant(2, 1, times[2 * S + 2] - 1)]
    yield "an age that keeps all", [("head", 4, LAST), ("head", 3, 1)]
    yield "no age", [("head", 3, 0), ("head", 4, 0)]
    last = [instant(1, 1, 0), head(1, COUNT, 1)] + [pose(1, 1, k, 0) for k in range(7)]
    yield "a sample taken out", last
    yield "a row taken out", [("head", 2, 3)] + [head(3, k, 0) for k in range(4)]
    yield "a row put in", [("head", 2, 5), head(4, CHILD, d + 2), head(4, PARENT, d), head(4, KIND, 1)]
