"""The frame tree of document 01: three lent slices of words, and the map of frames that they hold.

The words are what is lent; floats are kept as their bits. A call first tests sizes (1) and soundness
(2) on the words and reads the map from them. As long as nothing but calls touches the words, the map
is kept and the words are written from it when somebody looks.
"""
import struct
from bisect import bisect_left
from functools import reduce

from poses import IDENTITY, Refusal, finite, interpolate, inverse, product, validate

HEAD, INSTANTS, POSES = 5 + 4 * 256, 65_536, 7 * 65_536
STATIC, MOVING = 0, 1


def bits(pose):
    return struct.unpack("<7Q", struct.pack("<7d", *pose))


def floats(words):
    return struct.unpack("<7d", struct.pack("<7Q", *words))


class Row:
    """A child's parent, kind and poses by instant; a static child has its one pose at 0."""

    def __init__(self, parent, kind, samples):
        self.parent, self.kind, self.samples = parent, kind, samples

    def range(self):
        return (min(self.samples), max(self.samples)) if self.samples else None

    def at(self, instant):
        """The pose at an instant, or None."""
        if self.kind == STATIC:
            return self.samples[0]
        if instant in self.samples:
            return self.samples[instant]
        held = sorted(self.samples)
        place = bisect_left(held, instant)
        if place == 0 or place == len(held):
            return None
        start, end = held[place - 1], held[place]
        return interpolate(self.samples[start], self.samples[end], start, end, instant)


def oldest(newest, age):
    """Samples below this have expired; an age above the newest instant evicts nothing."""
    return 0 if age is None else max(newest - age, 0)


def fold(poses):
    """The poses of one side from its frame up, the parent's on the left."""
    return reduce(lambda below, above: product(above, below), poses)


class Store:
    def __init__(self, strict=False):
        self.strict = strict  # the words are written and read again in every call
        self.head, self.instants, self.poses = [0] * HEAD, [0] * INSTANTS, [0] * POSES
        self.lent = (0, 0, 0)
        self.rows = None  # the map by child; None where the words must be read again
        self.stale = False  # the map is ahead of the words

    # Words

    def write(self):
        """Writes the map into the words."""
        if not self.stale:
            return
        self.stale = False
        e, s = self.head[:2]
        self.head[2] = len(self.rows)
        words, instants, poses = [], [], []
        for child, row in sorted(self.rows.items()):
            held = sorted(row.samples)
            words += [child, row.parent, row.kind, len(held)]
            instants += held + [0] * (s - len(held))
            for instant in held:
                poses += bits(row.samples[instant])
            poses += [0] * (7 * (s - len(held)))
        for memory, at, used, size in (
            (self.head, 5, words, 4 * e),
            (self.instants, 0, instants, e * s),
            (self.poses, 0, poses, 7 * e * s),
        ):
            memory[at : at + size] = used + [0] * (size - len(used))

    def read(self):
        """Begins a call: 1, 2, then the map."""
        if self.strict:
            self.write()
            self.rows = None
        if self.rows is None:
            self.sizes()
            self.sound()
            self.rows = {}
            s = self.head[1]
            for r, (child, parent, kind, count) in enumerate(self.used()):
                places = range(r * s, r * s + count)
                samples = {self.instants[p]: floats(self.poses[7 * p : 7 * p + 7]) for p in places}
                self.rows[child] = Row(parent, kind, samples)
        return self.rows

    def sizes(self):
        h, i, p = self.lent
        e, s = self.head[:2]
        if h < 5 or not (1 <= e <= 256 and 1 <= s <= 1024):
            raise Refusal(1)
        if (h, i, p) != (5 + 4 * e, e * s, 7 * e * s):
            raise Refusal(1)

    def used(self):
        return [tuple(self.head[5 + 4 * r : 9 + 4 * r]) for r in range(self.head[2])]

    def sound(self):
        e, s, n, flag, age = self.head[:5]
        if n > e or flag > 1 or (flag == 0 and age != 0):
            raise Refusal(2)
        rows = self.used()
        above = {child: parent for child, parent, _, _ in rows}
        for (child, _, _, _), (later, _, _, _) in zip(rows, rows[1:]):
            if child >= later:
                raise Refusal(2)
        for r, (child, parent, kind, count) in enumerate(rows):
            if child >= 2**32 or parent >= 2**32 or parent == child or kind > 1:
                raise Refusal(2)
            if count > s or (kind == STATIC and count != 1):
                raise Refusal(2)
            self.sound_row(r * s, s, kind, count, age if flag else None)
        for child in above:
            frame = above[child]
            for _ in rows:
                if frame == child:
                    raise Refusal(2)
                frame = above.get(frame, frame)
        unused = self.head[5 + 4 * n : 5 + 4 * e]
        if any(unused) or any(self.instants[n * s : e * s]) or any(self.poses[7 * n * s : 7 * e * s]):
            raise Refusal(2)

    def sound_row(self, at, s, kind, count, age):
        held = self.instants[at : at + count]
        if kind == STATIC and held != [0]:
            raise Refusal(2)
        if any(a >= b for a, b in zip(held, held[1:])):
            raise Refusal(2)
        if kind == MOVING and held and held[0] < oldest(held[-1], age):
            raise Refusal(2)
        for p in range(at, at + count):
            try:
                validate(floats(self.poses[7 * p : 7 * p + 7]))
            except Refusal:
                raise Refusal(2) from None
        free = slice(at + count, at + s)
        if any(self.instants[free]) or any(self.poses[7 * free.start : 7 * free.stop]):
            raise Refusal(2)

    # Opening, and what is done to the memory from outside

    def open(self, e, s, age):
        if not (1 <= e <= 256 and 1 <= s <= 1024):
            raise Refusal(1)
        self.write()
        self.lent = h, i, p = 5 + 4 * e, e * s, 7 * e * s
        self.head[:h] = [e, s, 0, 0 if age is None else 1, age or 0] + [0] * (4 * e)
        self.instants[:i], self.poses[:p] = [0] * i, [0] * p
        self.rows = None

    def lend(self, h, i, p):
        self.write()
        self.lent, self.rows = (h, i, p), None

    def set(self, name, place, word):
        self.write()
        getattr(self, name)[place] = word
        self.rows = None

    def words(self):
        self.write()
        h, i, p = self.lent
        return self.head[:h], self.instants[:i], self.poses[:p]

    def put_back(self, words):
        """Every lent word as it was."""
        self.write()
        for memory, lent in zip((self.head, self.instants, self.poses), words):
            memory[: len(lent)] = lent
        self.rows = None

    # Calls

    def age(self):
        return self.head[4] if self.head[3] else None

    def add(self, child, parent, kind, instant, pose):
        rows = self.read()
        row = rows.get(child)
        if row is None and child in self.climb(parent)[1:]:
            raise Refusal(7)
        validate(pose)
        if parent == child:
            raise Refusal(5)
        if row and row.parent != parent:
            raise Refusal(6, row.parent)
        if row and row.kind != kind:
            raise Refusal(8)
        if row is None and len(rows) == self.head[0]:
            raise Refusal(16)
        if kind == STATIC:
            samples = {0: pose}
        else:
            samples = {**(row.samples if row else {}), instant: pose}
            first = oldest(max(samples), self.age())
            if first > 0:
                samples = {at: held for at, held in samples.items() if at >= first}
        if len(samples) > self.head[1]:
            raise Refusal(17)
        rows[child] = Row(parent, kind, samples)
        self.stale = True

    def wipe(self, child, instant):
        row = self.read().get(child)
        if row is None:
            raise Refusal(9, child)
        if row.kind == MOVING:
            row.samples = {at: held for at, held in row.samples.items() if at >= instant}
            self.stale = True

    def climb(self, frame):
        """The frame and every frame above it, up to its root."""
        frames = [frame]
        while frames[-1] in self.rows:
            frames.append(self.rows[frames[-1]].parent)
        return frames

    def path(self, target, source):
        """Both climbs, cut at the frame where they meet: children of hops, and whether they meet."""
        for frame in (target, source):
            if frame not in self.rows and all(row.parent != frame for row in self.rows.values()):
                raise Refusal(9, frame)
        up, down = self.climb(target), self.climb(source)
        if up[-1] != down[-1]:
            return up[:-1], down[:-1], False
        meet = next(frame for frame in up if frame in down)
        return up[: up.index(meet)], down[: down.index(meet)], True

    def lookup(self, target, source, instant):
        rows = self.read()
        target_side, source_side, connected = self.path(target, source)
        if target == source:
            return IDENTITY
        hops = target_side + source_side
        poses = [rows[child].at(instant) for child in hops]
        if None in poses:
            child = hops[poses.index(None)]
            raise Refusal(11, child, *(rows[child].range() or ("none",)))
        if not connected:
            raise Refusal(10)
        turn = len(target_side)
        sides = [inverse(fold(poses[:turn]))] if target_side else []
        sides += [fold(poses[turn:])] if source_side else []
        return finite(reduce(product, sides))  # on the pose that comes out, never before

    def common(self, target, source):
        """The latest common time, or None for static."""
        rows = self.read()
        target_side, source_side, connected = self.path(target, source)
        if target == source:
            return None
        if not connected:
            raise Refusal(10)
        hops = [child for child in target_side + source_side if rows[child].kind == MOVING]
        for child in hops:
            if not rows[child].samples:
                raise Refusal(12, child, "none")
        if not hops:
            return None
        latest = max(hops, key=lambda child: rows[child].range()[0])  # the first of equals
        end = min(rows[child].range()[1] for child in hops)
        if rows[latest].range()[0] > end:
            raise Refusal(12, latest, *rows[latest].range())
        return end
