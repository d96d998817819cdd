"""The answers for people: `show`, `why`, `tree` and `dot` in the words of docs/PROTOCOL.md, as lists of lines.

A figure is worked out by the float steps of its definition (crates/console/specs/Figures.antt), seconds exactly.
"""
from math import isinf, isnan

from poses import Refusal
from store import STATIC

WORDS = {
    1: "the sizes or the lengths of the slices are wrong",
    2: "the store is unsound: its words break a rule",
    3: "a component is not finite",
    9: "the frame is unknown",
    10: "no path connects the frames",
    11: "a frame on the way is not served at this instant",
    12: "the frames have no common time",
    13: "the norm of the rotation is not finite",
    14: "the rotation is zero",
}
PLACES = 6
LEAST, GREATEST = 1e-6, 1e15  # floats: from the first on, and below the second, no power of ten is needed
NO_PATH = (1, 2, 9)  # there is no path to speak of


# Figures and times


def rounded(size):
    """Not below zero, to six places: a half goes up, zeros at the end are dropped."""
    whole = int(size)
    behind = int((size - whole) * 1e6 + 0.5)
    if behind == 10**PLACES:
        whole, behind = whole + 1, 0
    return f"{whole}.{behind:0{PLACES}}".rstrip("0").rstrip(".")


def figure(x):
    if isnan(x):
        return "not a number"
    sign, size, power = "-" if x < 0 else "", abs(x), 0
    if isinf(x):
        return sign + "infinity"
    if x == 0 or LEAST <= size < GREATEST:
        return sign + rounded(size)
    while size < 0.99999995:  # six places round it to less than 1
        size, power = size * 10.0, power - 1
    while size >= 9.9999995:  # and this to 10
        size, power = size / 10.0, power + 1
    return f"{sign}{rounded(size)}e{power}"


def seconds(nanos):
    whole, behind = divmod(nanos, 10**9)
    return f"{whole}.{behind:09}".rstrip("0").rstrip(".") + " s"


def span(start, end):
    return f"{seconds(start)} to {seconds(end)}"


# Parts of answers


def refused(refusal):
    number, *carried = refusal.args
    text = f"refused with {number}: {WORDS[number]}"
    if carried:
        text += f"; frame {carried[0]}"
    if carried[1:] == ["none"]:
        text += " holds no sample"
    elif carried[1:]:
        text += f" is served from {span(*carried[1:])}"
    return text


def seen(target, source, instant):
    return f"frame {source} seen from frame {target} at {seconds(instant)}"


def held(row):
    """What a row holds, in one part or several."""
    if row.kind == STATIC:
        return ["static"]
    if not row.samples:
        return ["moving", "no sample"]
    count = len(row.samples)
    return ["moving", f"{count} sample" + "s" * (count > 1), span(*row.range())]


def top(rows, frame, hops):
    """Where a climb ends."""
    return rows[hops[-1]].parent if hops else frame


def climb(rows, end, frame, hops, instant):
    if not hops:
        return [f"from the {end}, frame {frame}: no hop"]
    lines = [f"from the {end}, frame {frame}, up to frame {top(rows, frame, hops)}:"]
    for child in hops:
        row = rows[child]
        served = "not served" if row.at(instant) is None else "served"
        lines.append(f"  frame {child} under frame {row.parent}, {', '.join(held(row))}: {served}")
    return lines


def common(store, target, source):
    try:
        at = store.common(target, source)
    except Refusal as refusal:
        return refused(refusal)
    return "any, no hop moves" if at is None else seconds(at)


# Answers


def show(store, target, source, instant):
    first = seen(target, source, instant)
    try:
        x, y, z, *turn = map(figure, store.lookup(target, source, instant))
    except Refusal as refusal:
        return [first, refused(refusal)]
    return [first, f"translation {x} {y} {z}", "rotation w {} x {} y {} z {}".format(*turn)]


def why(store, target, source, instant):
    first, last = seen(target, source, instant), "lookup: answered"
    try:
        store.lookup(target, source, instant)
    except Refusal as refusal:
        last = "lookup: " + refused(refusal)
        if refusal.args[0] in NO_PATH:
            return [first, last]
    rows = store.read()
    up, down, met = store.path(target, source)
    return [
        first,
        *climb(rows, "target", target, up, instant),
        *climb(rows, "source", source, down, instant),
        f"the climbs meet at frame {top(rows, target, up)}" if met else "the climbs do not meet",
        "latest common time: " + common(store, target, source),
        last,
    ]


def below(rows, parent, depth):
    """The children of a frame by their numbers, each with all below it."""
    for child, row in sorted(rows.items()):
        if row.parent == parent:
            yield f"{depth * '  '}{child} {', '.join(held(row))}"
            yield from below(rows, child, depth + 1)


def tree(store):
    try:
        rows = store.read()
    except Refusal as refusal:
        return [refused(refusal)]
    lines = [f"frames with a parent: {len(rows)}"]
    for root in sorted({row.parent for row in rows.values()} - set(rows)):
        lines += [str(root), *below(rows, root, 1)]
    return lines


def dot(store):
    try:
        rows = store.read()
    except Refusal as refusal:
        return [refused(refusal)]
    lines = ["digraph transforms {", '  node [shape=box, fontname="sans-serif"];']
    lines += ['  edge [fontname="sans-serif", fontsize=10];']
    for child, row in sorted(rows.items()):
        label = "".join(rf" {part}\l" for part in held(row))
        dashed = ", style=dashed" if row.kind == STATIC else ""
        lines.append(f'  {row.parent} -> {child} [label="{label}"{dashed}];')
    return [*lines, "}"]
