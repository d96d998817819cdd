"""Map files, good and damaged, and scenes that lend them, ask of them and load them (document 02's M-100).

A record is (child, parent, pose), the names being bytes and the pose words as in values.py.
"""
from values import LAST, line, words

HEAD, PART, MOST = 7, 240, 65_536  # bytes: of a file's head, of a line, of a file
ODD = 7  # kinds of odd records


def head(count):
    return b"FRM" + (1).to_bytes(2, "little") + count.to_bytes(2, "little")


def record_bytes(child, parent, pose):
    floats = b"".join(bytes.fromhex(word)[::-1] for word in pose)
    return bytes([len(child)]) + child + bytes([len(parent)]) + parent + floats


def file_bytes(records):
    return head(len(records)) + b"".join(record_bytes(*record) for record in records)


def lengths(records):
    """The places of the length bytes."""
    at = HEAD
    for child, parent, _ in records:
        yield at
        yield at + 1 + len(child)
        at += 58 + len(child) + len(parent)


def changed(file, place, number):
    return file[:place] + bytes([number % 256]) + file[place + 1 :]


def names(rng, count):
    """Different names of 1 to 32 bytes of any value."""
    stem = rng.randbytes(32)
    draws = [
        lambda: rng.randbytes(rng.randint(1, 32)),
        lambda: bytes(rng.choices(b"abcdefgh_", k=rng.randint(1, 8))),
        lambda: rng.randbytes(1),
        lambda: stem[: rng.randint(1, 32)],  # one begins another
        lambda: stem[:31] + rng.randbytes(1),  # different in the last byte alone
        lambda: bytes(rng.choices(range(34), k=rng.randint(1, 32))),  # bytes that could be lengths
        lambda: bytes(rng.randint(1, 32)),  # zeros, different in their count alone
    ]
    draw = rng.choice(draws)
    found = {}
    while len(found) < count:
        found[draw() if rng.random() < 0.9 else draws[0]()] = None
    return list(found)


class Map:
    """A planned map and lines that speak of it."""

    def __init__(self, values, count):
        self.values, self.rng = values, values.rng
        self.names, self.clock = names(values.rng, count), values.clock()
        self.records = self.tree()
        if self.rng.random() < 0.5:
            for _ in range(self.rng.randint(1, 3)):
                self.records.insert(self.rng.randint(0, len(self.records)), self.odd())
        if self.rng.random() < 0.03:
            self.records = []

    def tree(self):
        """A record for every name but the first, under one before it, in any order."""
        rng = self.rng
        place = rng.choice([rng.randrange, rng.randrange, lambda k: k - 1, lambda k: 0])
        tree = [(self.names[k], self.names[place(k)], self.values.pose()) for k in range(1, len(self.names))]
        return rng.sample(tree, len(tree)) if rng.random() < 0.7 else tree

    def odd(self):
        """A record that replaces a pose, or breaks one rule or several."""
        rng, values = self.rng, self.values
        child, parent, pose = self.one_odd(rng.randrange(ODD))
        if rng.random() < 0.2:
            pose = rng.choice([values.not_finite(), values.not_unit(), values.wild_pose()])
        return child, parent, pose

    def one_odd(self, kind):
        rng, values = self.rng, self.values
        child, parent, _ = rng.choice(self.records)
        pose = values.pose()
        if kind == 0:
            pose = values.not_finite()
        elif kind == 1:
            pose = values.not_unit()
        elif kind == 2:
            parent = child
        elif kind == 3:
            parent = rng.choice(self.names)
        elif kind == 4:
            child, parent = parent, child
        elif kind == 5:
            child = self.names[0]
        return child, parent, pose

    def damaged(self):
        """The file with one fault, which most often is one of its form."""
        rng, file = self.rng, file_bytes(self.records)
        count = len(self.records)
        kind = rng.randrange(9 if count else 5)
        if kind == 0:
            return file[: rng.randrange(len(file))]
        if kind == 1:
            return file + rng.randbytes(rng.choice([1, 2, 56, 60]))
        if kind == 2:
            return changed(file, rng.randrange(len(file)), rng.getrandbits(8))
        if kind == 3:
            place = rng.randrange(HEAD)
            return changed(file, place, rng.choice([0, 1, 255, file[place] + 1, file[place] - 1, rng.getrandbits(8)]))
        if kind == 4:  # the count, by one or with its bytes changed over
            return head(rng.choice([count + 1, max(count - 1, 0), 256 * count, 65_535])) + file[HEAD:]
        if kind == 5:
            return file[: rng.randrange(HEAD, len(file))]
        if kind == 6:
            return file + record_bytes(*rng.choice(self.records))
        if kind == 7:  # a byte put in or left out
            place = rng.randrange(HEAD, len(file))
            return file[:place] + rng.choice([rng.randbytes(1) + file[place:], file[place + 1 :]])
        place = rng.choice(list(lengths(self.records)))
        return changed(file, place, rng.choice([0, 32, 33, 255, file[place] + 1, file[place] - 1]))

    def lent(self):
        return lent(self.rng, file_bytes(self.records) if self.rng.random() < 0.65 else self.damaged())

    def asked(self):
        """A question to the name book."""
        rng = self.rng
        if rng.random() < 0.4:
            number = rng.choice([rng.randrange(len(self.names) + 2)] * 9 + [2**32 - 1, 2**32, rng.getrandbits(32)])
            return line("name", str(number).rjust(rng.choice([1, 1, 1, 12]), "0"))
        name = rng.choice(self.names)
        kind = rng.randrange(12)
        if kind == 0:
            name = name[:-1]
        elif kind == 1:
            name += rng.choice([b"\0", rng.randbytes(1)])
        elif kind == 2:
            name = changed(name, rng.randrange(len(name)), rng.getrandbits(8))
        elif kind == 3:
            name = rng.randbytes(rng.choice([0, 1, 32, 33, PART, PART + 1]))
        elif kind == 4:
            name = name.ljust(33, b"\0")
        return line("frame", name.hex()) if name else "frame"

    def frame(self):
        """The number of a name, or the one after the last."""
        return self.rng.randrange(len(self.names) + 1)

    def when(self):
        return self.values.instant(self.clock)

    def added(self):
        pose = self.values.said(self.values.pose())
        return line("add", self.frame(), self.frame(), self.rng.randrange(2), self.when(), *pose)

    def call(self):
        kind = self.rng.random()
        if kind < 0.15:
            return self.added()
        if kind < 0.2:
            return line("wipe", self.frame(), self.when())
        if kind < 0.4:
            return line("common", self.frame(), self.frame())
        return line("lookup", self.frame(), self.frame(), self.when())

    def any(self):
        kind = self.rng.random()
        return "load" if kind < 0.1 else self.asked() if kind < 0.4 else self.call()


def lent(rng, file):
    """Lines that lend a file, in the longest parts or, a short one, in parts of any size."""
    whole = len(file) > 1000 or rng.random() < 0.7
    lines = ["map none"]
    while file:
        size = PART if whole else rng.randint(1, PART)
        lines.append(line("map", file[:size].hex()))
        file = file[size:]
    return lines


def taken(values):
    """A pose that every addition takes."""
    return words(values.translation() + values.rotation())


# The first mode


def opened(plan, lines):
    """The lines after an opening whose sizes leave room for the map and all of them."""
    e = len(plan.records) + len(plan.names) + 1 + plan.rng.randrange(3)
    s = 1 + sum(text.startswith("add ") for text in lines)
    assert e <= 256 and e * s <= 65_536
    age = plan.values.age(plan.clock)
    return [line("open", e, s, "none" if age is None else age)] + lines


def map_scene(values):
    """Maps lent one after the other, asked about and loaded, each into one store or two."""
    rng = values.rng
    lines = []
    for _ in range(rng.randint(1, 3)):
        plan = Map(values, rng.randint(2, 8))
        lines += plan.lent() + [plan.asked() for _ in range(rng.randrange(3))]
        for _ in range(rng.randint(1, 2)):
            before = [plan.added()] if rng.random() < 0.15 else []
            lines += opened(plan, before + ["load"] + [plan.any() for _ in range(rng.randrange(12))])
    return lines


def big_map_scene(values):
    plan = Map(values, values.rng.choice([30, 60, 120]))
    return plan.lent() + opened(plan, ["load"] + [plan.any() for _ in range(40)])


def odd_scene(values):
    """Each kind of odd record, behind records that are taken, and among them."""
    lines = []
    for kind in range(2 * ODD):
        plan = Map(values, values.rng.randint(3, 6))
        plan.records = plan.tree()
        place = len(plan.records) if kind < ODD else values.rng.randrange(len(plan.records))
        plan.records.insert(place, plan.one_odd(kind % ODD))
        lines += lent(plan.rng, file_bytes(plan.records)) + opened(plan, ["load", "common 0 1", plan.asked()])
    return lines


def byte_scene(values):
    """Every prefix of a good file, each byte of one changed, and lengths at their bounds."""
    rng = values.rng
    records = [(b"a", b"bc", taken(values)), (b"d", b"a", taken(values))]
    asked = ["frame 61", "frame 6263", "frame", "name 0", "name 2", "load"]
    lines = ["map none", "open 2 1 none", "load"]
    for byte in file_bytes(records):
        lines += [f"map {byte:02x}", rng.choice(asked)]
    lines += ["load", "frame 64", "map 00", "load", "frame 64"]
    file = file_bytes(records[:1])
    for place, byte in enumerate(file):
        lines += ["map none", line("map", changed(file, place, byte ^ 1 << rng.randrange(8)).hex())]
        lines += ["open 1 1 none", "load"] if rng.random() < 0.5 else [rng.choice(asked)]
    for place in lengths(records):
        for number in (0, 32, 33, 255):
            lines += lent(rng, changed(file_bytes(records), place, number)) + [rng.choice(asked)]
    for size in (0, 1, 31, 32, 33, 255):  # a length and as many bytes behind it
        for sizes in ((size, 2), (2, size)):
            both = b"".join(bytes([n]) + rng.randbytes(n) for n in sizes)
            lines += lent(rng, head(1) + both + file[-56:]) + ["open 1 1 none", "load", "name 0", "name 1"]
    return lines


# The second mode


def tight_map(script):
    """A map and a store that may be too small for it, in use, broken or wrongly lent."""
    rng = script.rng
    plan = Map(script.values, rng.randint(2, 7))
    script.say_all(plan.lent())
    e, s = rng.randint(1, 7), rng.randint(1, 2)
    for _ in range(rng.randint(1, 3)):
        age = script.values.age(plan.clock)
        script.say("open", e, s, "none" if age is None else age)
        if rng.random() < 0.3:
            broken(script)
        if rng.random() < 0.1:
            script.say(plan.added())
        script.say("load")
        if rng.random() < 0.4:
            script.say(rng.choice(["words", "words", "words", "tree", "dot"]))
        script.say_all([plan.any() for _ in range(rng.randrange(5))])
        if rng.random() < 0.3:
            broken(script)


def broken(script):
    """A load into a store with another word or another length, which is put back."""
    rng, right = script.rng, script.model.store.lent
    if rng.random() < 0.3:
        wrong = list(right)
        wrong[rng.randrange(3)] += rng.choice([-1, 1])
        script.say("lend", *wrong)
        script.say("load")
        script.say("lend", *right)
        return
    name, length = rng.choice(list(zip(("head", "instants", "poses"), right)))
    back = script.set([(name, rng.randrange(length), rng.choice([0, 1, 2, 1 << 63, LAST, rng.getrandbits(64)]))])
    script.say("load")
    script.set(back)


def pairs(rng, count):
    """Pairs of names of two bytes, all different."""
    drawn = [number.to_bytes(2, "big") for number in rng.sample(range(2**16), 2 * count)]
    return list(zip(drawn[::2], drawn[1::2]))


def most_names(script):
    """As many names as a tree can have, 512, and a record with two more."""
    rng = script.rng
    records = [(*pair, taken(script.values)) for pair in pairs(rng, 257)]
    script.say_all(lent(rng, file_bytes(records)) + ["open 256 1 none", "load", "common 0 1"])
    script.say_all(line("name", frame) for frame in (0, 511, 512, 513, 514))
    script.say_all(line("frame", name.hex()) for name in records[-1][:2])


def longest_file(script):
    """As many bytes as can be lent, of a map that fills all rows and replaces poses; one byte more before and after."""
    rng = script.rng
    poses = [taken(script.values) for _ in range(8)]
    held = pairs(rng, 255)
    records = [(rng.randbytes(32), rng.randbytes(29), poses[0])] + [(*pair, rng.choice(poses)) for pair in held]
    records += [(*rng.choice(held), rng.choice(poses)) for _ in range(800)]
    file = file_bytes(records)
    assert len(file) == MOST
    *lines, last = lent(rng, file)
    script.say_all(lines + [last + "00", last, "map 00", "open 256 1 none", "load", "lookup 1 0 0"])
    script.say_all(line("lookup", 2 * k + 1, 2 * k, 0) for k in rng.sample(range(256), 5))
    script.say_all(["frame", line("frame", records[0][1].hex()), "name 511", "name 512", "open 255 1 none", "load"])
    script.say("map none")
