"""Scenes for people, of the second mode: `show`, `why`, `tree` and `dot` among the other operations.

Trees of every shape and as large as the sizes allow, and poses whose figures lie at the bounds of their form.
"""
import math

from scenes import Tree, opened
from values import LAST, Values, line

ROWS = 256
SHAPES = {  # the place of a frame's parent among those before it; pairs have a root for each child
    "chain": lambda k: k - 1,
    "two chains": lambda k: max(k - 2, 0),
    "star": lambda k: 0,
    "halves": lambda k: (k - 1) // 2,
    "pairs": lambda k: k - 1,
}


def asked(tree):
    """One of the four; `show` and `why` over the frames and instants of a tree."""
    name = tree.rng.choices(["show", "why", "tree", "dot"], [5, 5, 2, 2])[0]
    if name in ("tree", "dot"):
        return name
    _, target, source, *at = tree.question().split(" ")
    return line(name, target, source, *(at or [tree.when()]))


class Figures(Values):
    """Values with translations whose figures lie at a bound of their form."""

    def beside(self, x):
        """A float, or one some last bits away from it."""
        for _ in range(self.rng.randrange(3)):
            x = math.nextafter(x, self.rng.choice([0.0, math.inf]))
        return x

    def size(self, kind):
        rng = self.rng
        if kind == 0:  # a half behind the sixth place, exactly
            return (2 * rng.getrandbits(rng.randrange(1, 24)) + 1) / 128
        if kind == 1:  # rounded up to a whole number, or to the next power of ten
            return 10.0 ** rng.randrange(-12, 20) * (1 - 10.0 ** -rng.randrange(8, 14))
        if kind == 2:
            return self.beside(10.0 ** rng.randrange(-320, 308))
        if kind == 3:  # where the power of ten begins to be written
            return self.beside(rng.choice([1e-6, 1e15]))
        if kind == 4:
            return rng.uniform(0.2, 1.79e308)
        if kind == 5:
            return math.ldexp(rng.getrandbits(rng.randrange(1, 53)), -1074)
        if kind == 6:
            return float(rng.getrandbits(rng.randrange(1, 60)))
        return abs(self.scaled())

    def translation(self):
        kinds = self.rng.choices(range(8), k=3) if self.rng.random() < 0.7 else 3 * [self.rng.randrange(8)]
        return [self.rng.choice([1.0, -1.0]) * self.size(kind) for kind in kinds]


class Huge(Values):
    """Values with translations that overflow in sums and products."""

    def translation(self):
        return [self.rng.choice([1.0, -1.0]) * self.rng.uniform(2e307, 1.79e308) for _ in range(3)]


def told(script):
    """A tree of any shape, asked while it grows, moves and is wiped."""
    rng = script.rng
    values = rng.choices([script.values, Figures(rng), Huge(rng)], [6, 3, 1])[0]
    tree = Tree(values, rng.randrange(2, 12))
    lines = tree.cover() if rng.random() < 0.7 else []
    for _ in range(rng.randrange(10, 60)):
        kind = rng.random()
        if kind < 0.06:
            lines.append(line("wipe", rng.choice(list(tree.above)), LAST))
        else:
            lines.append(asked(tree) if kind < 0.6 else tree.any())
    script.say_all(opened(script.values, tree.clock, lines))


def figures(script):
    """A static frame with figures of every kind, and under it a chain of two moving ones."""
    rng, values = script.rng, Figures(script.rng)
    script.say("open", 3, 2, "none")
    for _ in range(rng.randrange(5, 25)):
        script.say("add", 1, 0, 0, 0, *values.said(values.pose()))
        script.say("show", *rng.choice([(0, 1), (1, 0)]), 0)
        if rng.random() < 0.3:
            for child in (2, 3):
                script.say("add", child, child - 1, 1, rng.choice([0, 8]), *values.said(values.pose()))
            script.say("show", *rng.sample(range(4), 2), rng.randrange(9))


def long_row(script):
    """One row of many samples, filled in any order."""
    rng = script.rng
    tree = Tree(script.values, 2)
    (child,) = tree.above
    most = rng.choices([10, 11, 100, 101, 1000, 1024], [4, 4, 2, 2, 1, 1])[0]
    start, step = rng.choice([0, 10**9 - 7, LAST - 1024 * 10**9]), rng.choice([1, 10, 999_999_999, 10**9])
    tree.kind[child], tree.clock = 1, [start + k * step for k in range(most)]
    script.say("open", rng.randint(1, 2), most, "none")
    for at in rng.sample(tree.clock, most):
        while script.say(tree.sample(child, at)) != "done":
            pass
        if rng.random() < 4 / most:
            script.say(asked(tree))
    script.say_all(["tree", "dot", *(asked(tree) for _ in range(3))])


def deep(script, shape=None):
    """As many frames as the sizes allow, a few or all of them moving; the longest answers."""
    rng = script.rng
    shape = shape or rng.choice(list(SHAPES))
    tree = Tree(script.values, 2)
    tree.frames = script.values.frames(2 * ROWS if shape == "pairs" else ROWS + 1)
    step = 2 if shape == "pairs" else 1
    tree.above = {tree.frames[k]: tree.frames[SHAPES[shape](k)] for k in range(1, len(tree.frames), step)}
    share = rng.choice([0.1, 0.1, 0.1, 1.0])
    tree.kind = {child: int(rng.random() < share) for child in tree.above}
    script.say("open", ROWS, 2, "none")
    for child in rng.sample(list(tree.above), ROWS):
        for at in (tree.clock[0], tree.clock[-1])[: 1 + tree.kind[child]]:
            while script.say(tree.sample(child, at)) != "done":
                pass
    first, *_, last = tree.frames
    script.say_all(["tree", "dot", line("why", first, last, tree.clock[0]), line("why", last, first, tree.clock[-1])])
    script.say_all(asked(tree) for _ in range(6))
