"""Scenes of the second mode: sizes that bind, words written from outside, wrong lengths, wrong lines.

A model follows the script, so that a scene knows the words that it breaks and puts back.
"""
from functools import partial

import rules
from decimals import LIKE_DECIMALS, NOT_TAKEN, TAKEN, equal
from lines import wrong_lines
from map_scenes import longest_file, most_names, tight_map
from model import Model
from people_scenes import asked, deep, figures, long_row, told
from scenes import Tree, inv, leaf
from values import LAST, Values, line

LENGTHS = (1029, 65_536, 458_752)  # the program's memory


class Script:
    """The lines of a scene, each answered by the model as it is written."""

    def __init__(self, values):
        self.values, self.rng, self.model, self.lines = values, values.rng, Model(), []

    def say(self, *parts):
        text = line(*parts)
        self.lines.append(text)
        return self.model.answer(text.encode("latin-1"))

    def say_all(self, lines):
        for text in lines:
            self.say(text)

    def note(self, text):
        self.lines.append("# " + text)

    def set(self, changes):
        """Writes words; gives the changes that put them back."""
        self.model.store.write()
        back = []
        for name, place, number in changes:
            back.insert(0, (name, place, getattr(self.model.store, name)[place]))
            self.say("set", name, place, self.float(number) if name == "poses" else number)
        return back

    def float(self, bits):
        """A float's bits, or a decimal that is equal to it."""
        return equal(self.rng, f"{bits:016x}") if self.rng.random() < 0.3 else f"{bits:016x}"

    def ways(self, *kinds):
        """The changes of rules.py for the words as they are."""
        self.model.store.write()
        return [way for kind in kinds for way in kind(self.model.store)]

    def calls(self, tree, most):
        """Calls of each kind; the answers."""
        kinds = [lambda: tree.sample(self.rng.choice(list(tree.above))), tree.wipe, tree.question, tree.question]
        kinds += [lambda: line("lookup", 7, 7, 7), lambda: "load", lambda: asked(tree), lambda: asked(tree)]
        return [self.say(kind()) for kind in self.rng.sample(kinds, self.rng.randint(2, most))]


def refused(answer, number):
    """Whether a call is answered with this refusal, in its number or, for people, in words."""
    return answer == f"no {number}" or f"refused with {number}: " in answer


# Sizes that bind


def tight(script):
    """More children than E and more samples than S."""
    rng = script.rng
    most = 4 if rng.random() < 0.9 else 12
    e, s = rng.randint(1, most), rng.randint(1, most)
    tree = Tree(script.values, e + rng.randint(1, 3))
    if rng.random() < 0.7:
        tree.clock = sorted({x % 2**64 for x in range(tree.clock[-1] - 9, tree.clock[-1] + 1)})
    age = script.values.age(tree.clock)
    script.say("open", e, s, "none" if age is None else age)
    for _ in range(rng.randint(10, 60)):
        script.say(tree.sample(rng.choice(list(tree.above))) if rng.random() < 0.5 else tree.any())
        if rng.random() < 0.25 / most:
            script.say("words")
        if rng.random() < 0.05:
            script.say(asked(tree))


def openings(script):
    """Sizes at and past their bounds, before and after a store is lent."""
    rng = script.rng
    sizes = [(256, 1), (1, 1024), (256, 256), (64, 1024)]
    wrong = [(0, 1), (257, 1), (1, 0), (1, 1025), (0, 0), (257, 1025), (LAST, 1), (1, LAST), (2**32 + 1, 1)]
    beyond = [(256, 1024), (256, 257), (65, 1024), (128, 513)]
    for e, s in rng.sample(wrong, 4) + rng.sample(beyond, 2) + rng.sample(sizes, 1):
        script.say("open", e, s, rng.choice(["none", 0, 7, LAST]))
        script.say("lookup", 1, 1, 0)
        script.say(rng.choice(["show 1 1 0", "why 1 1 0", "why 1 2 0", "tree", "dot"]))
    script.say("add", 2, 1, 0, 0, *script.values.said(script.values.pose()))
    script.say("open", 2, 1, "none")


# Words from outside


def five_rows(script, age=None):
    """The store of rules.py, with an age of 20, "none", or one of them."""
    rng = script.rng
    low = rng.choice([1, 10, rng.getrandbits(31) + 1])
    a, b, c, d = (low + 4 * k + rng.randint(0, 2) for k in range(4))
    start = rng.choice([1, 1000, 2**63, LAST - 40]) + 10
    tree = Tree(script.values, 2)
    tree.frames = [low - 1, a, b, c, d]
    tree.above = {a: rng.choice([low - 1, d + 100]), b: a, c: b, d: a}
    tree.kind = {a: 0, b: 1, c: 1, d: 1}
    tree.clock = [start, start + 10, start + 20]
    script.say("open", rules.E, rules.S, age or rng.choice(["none", 20]))
    pose = script.values.pose()[:3] + ["3ff0000000000000"] + 3 * ["0000000000000000"]
    script.say("add", a, tree.above[a], 0, rng.choice([0, LAST]), *script.values.said(pose))
    for child, instants in ((d, [start]), (c, tree.clock), (b, tree.clock[1:])):
        for at in rng.sample(instants, len(instants)):
            while script.say(tree.sample(child, at)) != "done":
                pass
    script.say("wipe", d, LAST)
    return tree


def every_rule(script, age=None):
    """Each rule broken once, called upon and put back."""
    tree = five_rows(script, age)
    for number, ways in ((2, rules.broken), (1, rules.wrong_sizes)):
        for name, changes in script.ways(ways):
            script.note(name)
            back = script.set(changes)
            assert all(refused(answer, number) for answer in script.calls(tree, 3)), name
            if script.rng.random() < 0.5:
                script.say("words")
            script.set(back)
            assert script.say("common", *script.rng.sample(tree.frames, 2)) != f"no {number}", name
    script.say("words")


def some_rules(script):
    """Two rules broken, put back one after the other; or changes that leave a sound store."""
    rng = script.rng
    tree = five_rows(script)
    for _ in range(rng.randint(1, 4)):
        if rng.random() < 0.5:
            ways = script.ways(rules.broken, rules.wrong_sizes)
            backs = [script.set(changes) for _, changes in rng.sample(ways, rng.randint(1, 3))]
            script.calls(tree, 2)
            while backs:
                script.set(backs.pop())
                script.calls(tree, 2)
        else:
            name, changes = rng.choice(script.ways(rules.kept))
            script.note(name)
            script.set(changes)
            script.calls(tree, 5)
        if script.model.store.lent == (25, 15, 105) and rng.random() < 0.3:
            script.say("words")
        if script.say("lookup", 0, 0, 0) == "no 2":
            tree = five_rows(script)


def any_words(script):
    """Words written at any place."""
    rng = script.rng
    tree = five_rows(script)
    for _ in range(rng.randint(3, 12)):
        name, length = rng.choice(list(zip(("head", "instants", "poses"), script.model.store.lent)))
        number = rng.choice([0, 1, 2, 3, 5, rng.getrandbits(64), tree.when(), rng.choice(tree.frames)])
        back = script.set([(name, rng.randrange(length), number)])
        script.calls(tree, 2)
        if rng.random() < 0.8:
            script.set(back)


def decimals(script):
    """Every bound of a decimal's form as a word."""
    five_rows(script)
    for place, text in enumerate(script.rng.sample(TAKEN + LIKE_DECIMALS, len(TAKEN + LIKE_DECIMALS))):
        script.say("set", "poses", place, text)
    script.say("words")
    for text in NOT_TAKEN:
        script.say("set", "poses", script.rng.randrange(105), text)
    script.say("words")


# Lent lengths


def lengths(script):
    """Lengths a little off, none, or others; then the right ones again."""
    rng = script.rng
    tree = five_rows(script)
    right = script.model.store.lent
    for _ in range(rng.randint(2, 5)):
        wrong = list(right)
        k = rng.randrange(3)
        wrong[k] = rng.choice([0, 1, 4, 5, right[k] - 1, right[k] + 1, right[k] + 7, LENGTHS[k], LENGTHS[k] + 1, LAST])
        if rng.random() < 0.3:
            wrong = rng.choice([[0, 0, 0], [4, 15, 105], [5, 0, 0], [9, 3, 21], [29, 18, 126], [25, 105, 15]])
        script.say("lend", *wrong)
        script.calls(tree, 3)
        if sum(script.model.store.lent) < 400 and rng.random() < 0.5:
            script.say("words")
        script.say("lend", *right)
        script.calls(tree, 2)


def fitting(script):
    """Sizes of every kind with the lengths that fit them, over words that are 0."""
    tree = Tree(script.values, 3)
    script.say("open", 256, 256, "none")
    for e, s in ((1, 1025), (63, 1025), (1, 1024), (1, 0), (256, 0), (0, 3), (0, 0), (256, 1), (1, 1)):
        script.say("lend", 5 + 4 * e, e * s, 7 * e * s)
        script.set([("head", 0, e), ("head", 1, s)])
        script.calls(tree, 4)


def by_hand(script):
    """A smaller store written into the words of a larger one, and what is left behind it."""
    rng = script.rng
    tree = five_rows(script)
    e, s = rng.randint(1, 3), rng.randint(1, 3)
    if rng.random() < 0.5:
        script.say("open", e, s, rng.choice(["none", 3]))
        script.say(tree.any())
        script.say("lend", 25, 15, 105)
        script.say("words")
        return
    script.say("lend", 5 + 4 * e, e * s, 7 * e * s)
    zeros = [("head", k, 0) for k in range(2, 5 + 4 * e)] + [("instants", k, 0) for k in range(e * s)]
    script.set([("head", 0, e), ("head", 1, s)] + zeros)
    script.calls(tree, 2)
    script.set([("poses", k, 0) for k in range(7 * e * s)])
    for _ in range(rng.randint(2, 8)):
        script.say(tree.any())
    script.say("words")


# Lines of other forms


def malformed(script, most=30):
    rng = script.rng
    tree = five_rows(script)
    good = [tree.any() for _ in range(4)] + [leaf(script.values), inv(script.values), "words", "lend 25 15 105"]
    good += ["set head 4 0", "set poses 3 3ff0000000000000", "open 2 2 none", "open 2 2 5"]
    good += ["map none", "map 46524d", "load", "frame 61ff", "name 1", "tree", "dot", "show 1 2 3", "why 1 2 3"]
    for text in wrong_lines(rng, good)[:most]:
        script.say(text)
        if rng.random() < 0.2:
            script.say(tree.any())
        if script.model.store.lent != (25, 15, 105):  # some were an opening or another lending
            script.say("lend", 25, 15, 105)


def unlent(script):
    """Before the first opening nothing is lent, and an empty file."""
    tree = Tree(script.values, 3)
    script.say("words")
    script.say_all(["load", "frame", "frame 61", "name 0", "show 0 1 0", "show 1 1 0", "why 0 1 0", "tree", "dot"])
    script.calls(tree, 8)
    for text in ("set head 0 1", "set instants 0 0", "set poses 0 0000000000000000", "open 0 1 none", "words"):
        script.say(text)
    script.say("lend", 5, 0, 0)
    script.calls(tree, 5)
    script.say("words")
    script.say("lend", 13, 4, 28)
    script.calls(tree, 5)
    script.set([("head", 0, 2), ("head", 1, 2)])
    script.say_all(["load", "map 46524d01000000", "load", "frame", "frame 61", "name 0"])
    script.say_all(["show 0 1 0", "show 1 1 0", "why 0 1 0", "why 1 1 0", "tree", "dot"])
    script.calls(tree, 8)
    script.say("words")


def scenes(rng):
    """Scenes without end; the first ones have every rule and every wrong line."""
    script = Script(Values(rng))
    first = [
        unlent,
        partial(every_rule, age="none"),
        partial(every_rule, age=20),
        partial(malformed, most=1000),
        decimals,
        openings,
        fitting,
        most_names,
        longest_file,
        *10 * [tight_map],
        partial(deep, shape="chain"),
        *3 * [figures],
        *6 * [told],
    ]
    kinds = [tight, some_rules, any_words, lengths, by_hand, malformed, openings, fitting, every_rule, tight_map]
    weights = [30, 8, 4, 4, 3, 2, 0.4, 0.2, 0.3, 9]
    kinds += [told, figures, long_row, deep]
    weights += [12, 3, 0.3, 0.4]
    while True:
        kind = first.pop(0) if first else rng.choices(kinds, weights)[0]
        kind(script)
        yield script.lines
        script.lines = []
