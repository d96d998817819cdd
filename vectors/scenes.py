"""Scenes of the first mode: trees with their questions, and pose operations.

A scene is a list of lines. E and S of its opening are chosen last, so that they never bind.
"""
import math
from collections import Counter

from decimals import LIKE_DECIMALS, NOT_TAKEN, TAKEN, almost, any_decimal
from map_scenes import big_map_scene, byte_scene, map_scene, odd_scene
from values import ABOVE, BELOW, LAST, ONE, SPECIAL, Values, line, word, words


def parents(rng, frames):
    """A forest over two frames or more, the last of them a child: child to parent."""
    shape = rng.choice(["chain", "star", "any", "any", "forest", "forest", "halves", "comb"])
    roots = {frames[0]} | {f for f in frames[1:-1] if shape == "forest" and rng.random() < 0.25}
    above = {}
    for k, frame in enumerate(frames):
        if frame in roots:
            continue
        if shape == "chain":
            place = k - 1
        elif shape == "star":
            place = 0
        elif shape == "halves":
            place = (k - 1) // 2
        elif shape == "comb":
            place = k - 1 if k % 2 else max(k - 2, 0)
        else:
            place = rng.randrange(k)
        above[frame] = frames[place]
    return above


class Tree:
    """A planned tree and lines that speak of it."""

    def __init__(self, values, count):
        self.values, self.rng = values, values.rng
        self.frames = values.frames(count)
        self.above = parents(self.rng, self.frames)
        still = self.rng.choice([0.0, 0.2, 0.5, 1.0])
        self.kind = {child: int(self.rng.random() >= still) for child in self.above}
        self.clock = values.clock()

    def frame(self):
        return self.rng.choice(self.frames) if self.rng.random() < 0.98 else self.rng.getrandbits(32)

    def when(self):
        return self.values.instant(self.clock)

    def sample(self, child, instant=None):
        at = self.when() if instant is None else instant
        return line("add", child, self.above[child], self.kind[child], at, *self.values.said(self.values.pose()))

    def cover(self):
        """Every edge in any order, moving ones with both ends of the clock."""
        lines = []
        for child in self.rng.sample(list(self.above), len(self.above)):
            lines.append(self.sample(child, self.clock[0]))
            if self.kind[child]:
                lines.append(self.sample(child, self.clock[-1]))
        return lines

    def refused(self):
        """An addition that breaks one rule or several."""
        rng, values = self.rng, self.values
        child = rng.choice(list(self.above))
        parent, kind = self.above[child], self.kind[child]
        pose = values.pose()
        kind_of_no = rng.randrange(8)
        if kind_of_no == 0:
            pose = values.not_finite()
        elif kind_of_no == 1:
            pose = values.not_unit()
        elif kind_of_no == 2:
            parent = child
        elif kind_of_no == 3:
            parent = self.frame()
        elif kind_of_no == 4:
            child, parent = self.root(child), child
        elif kind_of_no == 5:
            kind = 1 - kind
        if kind_of_no == 6 or rng.random() < 0.4:
            child = child if rng.random() < 0.5 else self.frame()
            parent = rng.choice([parent, child, self.frame()])
            kind = rng.choice([kind, 1 - kind])
            pose = rng.choice([pose, values.pose(), values.not_finite(), values.not_unit(), values.wild_pose()])
        pose = values.said(pose)
        if kind_of_no == 7:
            pose[rng.randrange(7)] = almost(rng)
        return line("add", child, parent, kind, self.when(), *pose)

    def root(self, frame):
        while frame in self.above:
            frame = self.above[frame]
        return frame

    def question(self):
        target, source = self.frame(), self.frame()
        if self.rng.random() < 0.4:
            target = self.root(source) if self.rng.random() < 0.7 else self.above.get(source, target)
        if self.rng.random() < 0.3:
            target, source = source, target
        if target == source and self.rng.random() < 0.8:
            target = self.frame()
        if self.rng.random() < 0.3:
            return line("common", target, source)
        return line("lookup", target, source, self.when())

    def wipe(self):
        at = LAST if self.rng.random() < 0.2 else self.when()
        return line("wipe", self.frame(), at)

    def any(self):
        rng = self.rng
        kind = rng.random()
        if kind < 0.38:
            return self.sample(rng.choice(list(self.above)))
        if kind < 0.50:
            return self.refused()
        if kind < 0.56:
            return self.wipe()
        return self.question()


def opened(values, clock, lines):
    """The lines after an opening whose sizes leave room for all of them."""
    adds = Counter(text.split(" ", 2)[1] for text in lines if text.startswith("add "))
    e, s = max(len(adds), 1), max(adds.values(), default=1)
    if values.rng.random() < 0.5:
        e, s = min(e + values.rng.randrange(3), 256), min(s + values.rng.randrange(3), 1024)
    assert e <= 256 and s <= 1024 and e * s <= 65_536
    age = values.age(clock)
    return [line("open", e, s, "none" if age is None else age)] + lines


def tree_scene(values):
    rng = values.rng
    tree = Tree(values, rng.randrange(2, 12))
    lines = tree.cover() if rng.random() < 0.75 else []
    lines += [tree.any() for _ in range(rng.randrange(10, 120))]
    return opened(values, tree.clock, lines)


def flow_scene(values):
    """Streams that run through the whole clock, asked about within it."""
    rng = values.rng
    tree = Tree(values, rng.randrange(2, 10))
    tree.kind = {child: int(rng.random() < 0.85) for child in tree.above}
    lines = tree.cover()
    for _ in range(rng.randrange(20, 100)):
        at = rng.choice([rng.choice(tree.clock), rng.randint(tree.clock[0], tree.clock[-1])])
        kind = rng.random()
        if kind < 0.3:
            lines.append(tree.sample(rng.choice(list(tree.above)), at))
        elif kind < 0.32:
            lines.append(tree.any())
        elif kind < 0.4:
            lines.append(line("common", tree.frame(), tree.frame()))
        else:
            lines.append(line("lookup", tree.frame(), tree.frame(), at))
    return opened(values, [0, LAST], lines) if rng.random() < 0.8 else opened(values, tree.clock, lines)


def big_scene(values):
    """Chains of up to 255 hops, stars of 255 children, and other big trees."""
    rng = values.rng
    tree = Tree(values, rng.choice([40, 100, 256]))
    if rng.random() < 0.5:
        tree.above = dict(zip(tree.frames[1:], tree.frames))
    tree.kind = {frame: int(rng.random() < 0.1) for frame in tree.above}
    return opened(values, tree.clock, tree.cover() + [tree.question() for _ in range(60)])


def long_scene(values):
    """Long rows, filled in any order."""
    rng = values.rng
    tree = Tree(values, 3)
    start, step = rng.choice([0, 10**18, LAST - 10**6]), rng.choice([1, 7, 1000])
    tree.clock = [start + k * step for k in range(rng.randrange(20, 400))]
    tree.kind = {f: 1 for f in tree.above}
    lines = [tree.any() for _ in range(2 * len(tree.clock))]
    return opened(values, tree.clock, lines)


# Pose operations


def said(values, *poses):
    """Poses as a pose operation has them; now and then one word is no float."""
    floats = [word for pose in poses for word in values.said(pose)]
    if values.rng.random() < 0.03:
        floats[values.rng.randrange(len(floats))] = almost(values.rng)
    return floats


def ends(values):
    """Two poses for an interpolation."""
    rng = values.rng
    kind = rng.randrange(10)
    if kind < 3:
        return values.pose(), values.pose()
    if kind < 7:
        q = values.rotation()
        return words(values.translation() + q), words(values.translation() + values.near(q))
    if kind == 7:  # a blend that may vanish at one end
        q = values.unit()
        big, small = [c * 1e300 for c in q], [c * 10.0 ** rng.randrange(-30, -10) for c in q]
        pair = [words(values.translation() + big), words(values.translation() + small)]
        return rng.sample(pair, 2)
    return values.wild_pose(), values.wild_pose()


def interp(values):
    rng = values.rng
    clock = values.clock()
    start, end = sorted([rng.choice(clock), rng.choice(clock)])
    if rng.random() < 0.15:
        start, end = end, start
    query = rng.choice([start, end, values.instant(clock), values.instant(sorted([start, end]))])
    a, b = ends(values)
    return line("interp", *said(values, a, b), start, end, query)


def inv(values):
    rng = values.rng
    kind = rng.randrange(4)
    if kind == 0:
        return line("inv", *said(values, values.wild_pose()))
    q = values.rotation()
    if kind == 1:  # about the smallest norm, or any
        factor = rng.choice([2.0**-52, 2.0**-53, 2.0**-52 * (1 - 2.0**-53), 1e154, 1e155, abs(values.scaled())])
        q = [c * factor for c in q]
    return line("inv", *said(values, words(values.translation() + q)))


def mul(values):
    a, b = (values.wild_pose() if values.rng.random() < 0.3 else values.pose() for _ in range(2))
    return line("mul", *said(values, a, b))


def leaf(values):
    rng = values.rng
    name = rng.choice(["sqrt", "acos", "sin"])
    kind = rng.randrange(9)
    if kind == 0:
        value = values.wild()
    elif kind == 1:
        value = word(rng.uniform(0, 1))
    elif kind == 2:
        value = word(1 - rng.randrange(2**rng.randrange(1, 40)) * 2.0**-53)
    elif kind == 3:
        value = word(rng.uniform(0, math.pi / 2))
    elif kind == 4:
        value = f"{rng.getrandbits(rng.randrange(1, 64)):016x}"
    elif kind == 5:
        value = almost(rng)
    elif kind < 8:
        value = any_decimal(rng)
    else:
        near = rng.choice(SPECIAL) + rng.randrange(-3, 4)
        value = f"{near % 2**64:016x}"
    return line(name, value)


def edge_scene(values):
    """Every special float under each function, and rotations on both sides of every test."""
    lines = [line(name, f"{bits:016x}") for name in ("sqrt", "acos", "sin") for bits in SPECIAL]
    zero = 3 * ["0000000000000000"]
    for bits in SPECIAL:  # norms about 2^-52, finite or not
        lines.append(line("inv", *zero, f"{bits:016x}", *zero))
    for step in range(-2, 4):  # the tolerance, above and below 1, either sign
        for bits in (ONE + ABOVE + step, ONE - BELOW - step):
            for sign in (0, 1 << 63):
                lines.append(line("add", 2, 1, 0, 0, *zero, f"{bits | sign:016x}", *zero))
                lines.append(line("lookup", 2, 1, 0))
    one = f"{ONE:016x}"
    for bits in SPECIAL:  # the dot about 1 - 2^-52, then other dots
        for query in (0, 1, 2, 4, 5):
            a, b = zero + [one] + zero, zero + [f"{bits:016x}"] + zero
            lines.append(line("interp", *a, *b, 0, 4, query))
    return opened(values, [5], lines)


def decimal_scene(values):
    """Every bound of a decimal's form: under a function, as a pose, in a pose; and decimals at the tolerance."""
    rng = values.rng
    lines = [line(rng.choice(["sqrt", "acos", "sin"]), text) for text in TAKEN + LIKE_DECIMALS + NOT_TAKEN]
    floats = TAKEN + LIKE_DECIMALS
    for place in range(0, len(floats), 7):  # between equal instants the first pose is answered as it is
        first = (floats[place:] + floats)[:7]
        lines.append(line("interp", *first, *7 * ["0"], 3, 3, 3))
    for text in NOT_TAKEN:
        pose = ["0", "0", "0", "1", "0", "0", "0"]
        pose[rng.randrange(7)] = text
        lines.append(line("inv", *pose))
    about = ["1.000001", "1.0000010001", "1.00000099999999", "0.999999", "0.9999989999", "0.99999900000001"]
    for text in ("1", "0.6", *about):
        for sign in ("", "-"):
            lines.append(line("add", 2, 1, 0, 0, "-0.25", "1e3", "-0", sign + text, "0", "-0", "0e5"))
            lines.append(line("lookup", 2, 1, 0))
    return opened(values, [5], lines)


def pose_scene(values):
    kinds = values.rng.choices([interp, inv, mul, leaf], [4, 2, 2, 3], k=values.rng.randrange(5, 30))
    return [kind(values) for kind in kinds]


def scenes(rng):
    """Scenes without end; the first have every edge, every bound of decimals, every byte of a map and odd record."""
    values = Values(rng)
    yield from (edge_scene(values), decimal_scene(values), byte_scene(values), odd_scene(values))
    kinds = [tree_scene, flow_scene, pose_scene, big_scene, long_scene, map_scene, big_map_scene]
    while True:
        yield rng.choices(kinds, [45, 25, 50, 1, 1, 9, 0.5])[0](values)
