#!/usr/bin/env python3
"""Answers the text protocol on standard input as documents 01 and 02 say, without the Rust and the product.

What is answered to people (people.py) is in the words of docs/PROTOCOL.md.

`model.py --strict` writes the words and reads them again, with both tests, in every call.
"""
import re
import struct
import sys
from fractions import Fraction

import maps
import people
import poses
from poses import Refusal
from store import HEAD, INSTANTS, POSES, Store

LONGEST = 512
NUMBER = re.compile(r"[0-9]+")
BITS = re.compile(r"[0-9a-f]{16}")
DECIMAL = re.compile(r"(-?)([0-9]+)(?:\.([0-9]+))?(?:e(-?)([0-9]+))?")
BYTES = re.compile(r"([0-9a-f]{2}){1,240}")
MAP = 65_536
LENT = {"head": HEAD, "instants": INSTANTS, "poses": POSES}
# What each operation takes: f a frame, n a number, k a kind, d a float, a an age, s a slice's name, w a word
# of that slice, b bytes, m bytes of a map or none.
FORMS = {
    "open": "nna", "add": "ffkn" + 7 * "d", "wipe": "fn", "lookup": "ffn", "common": "ff",
    "mul": 14 * "d", "inv": 7 * "d", "interp": 14 * "d" + "nnn",
    "sqrt": "d", "acos": "d", "sin": "d", "words": "", "set": "snw", "lend": "nnn",
    "map": "m", "load": "", "frame": "b", "name": "f",
    "show": "ffn", "why": "ffn", "tree": "", "dot": "",
}  # fmt: skip
BELOW = {"f": 2**32, "n": 2**64, "k": 2, "a": 2**64}


class Malformed(Exception):
    pass


def number(word, below):
    if not NUMBER.fullmatch(word) or int(word) >= below:
        raise Malformed
    return int(word)


def decimal(word):
    """At most 15 digits times ten to a power from -22 to 22, rounded once from the exact number."""
    form = DECIMAL.fullmatch(word)
    if not form:
        raise Malformed
    below, before, behind, below_one, exponent = form.groups(default="")
    digits = (before + behind).lstrip("0")
    power = number(exponent or "0", 2**64) * (-1 if below_one else 1) - len(behind)
    if len(digits) > 15 or not -22 <= power <= 22:
        raise Malformed
    size = float(int(digits or "0") * Fraction(10) ** power)
    return -size if below else size  # minus zero, too


def float_bits(word):
    if BITS.fullmatch(word):
        return int(word, 16)
    return struct.unpack("<Q", struct.pack("<d", decimal(word)))[0]


def read_bytes(word):
    if not BYTES.fullmatch(word):
        raise Malformed
    return bytes.fromhex(word)


def read_word(form, word, before):
    if form == "d":
        return struct.unpack("<d", struct.pack("<Q", float_bits(word)))[0]
    if form == "s":
        if word not in LENT:
            raise Malformed
        return word
    if form == "w":
        return float_bits(word) if before[0] == "poses" else number(word, 2**64)
    if form in "am" and word == "none":
        return None
    if form in "bm":
        return read_bytes(word)
    return number(word, BELOW[form])


def write_bits(word):
    return "nan" if word & (2**63 - 1) > 0x7FF << 52 else f"{word:016x}"


def write(value):
    if isinstance(value, float):
        return write_bits(struct.unpack("<Q", struct.pack("<d", value))[0])
    return str(value)


def write_refusal(refusal):
    return "no " + " ".join(map(write, refusal.args))


def block(lines):
    """An answer for people: its lines and an empty one."""
    return "\n".join([*lines, ""])


class Model:
    def __init__(self, strict=False):
        self.store, self.file = Store(strict), b""

    def answer(self, line):
        """The answer to a line of bytes; None for an empty line or a comment."""
        if not line or line.startswith(b"#"):
            return None
        try:
            if len(line) > LONGEST:
                raise Malformed
            name, *words = line.decode("latin-1").split(" ")
            form = FORMS.get(name)
            if form is None or len(form) != len(words) and line != b"frame":  # which asks for the empty name
                raise Malformed
            taken = []
            for letter, word in zip(form, words):
                taken.append(read_word(letter, word, taken))
            return getattr(self, name)(*taken)
        except Malformed:
            return "malformed"
        except Refusal as refusal:
            return write_refusal(refusal)

    def open(self, e, s, age):
        if e in range(1, 257) and s in range(1, 1025) and e * s > INSTANTS:
            raise Malformed  # beyond the program's memory
        self.store.open(e, s, age)
        return "done"

    def add(self, child, parent, kind, instant, *pose):
        self.store.add(child, parent, kind, instant, pose)
        return "done"

    def wipe(self, child, instant):
        self.store.wipe(child, instant)
        return "done"

    def lookup(self, target, source, instant):
        return self.pose(self.store.lookup(target, source, instant))

    def common(self, target, source):
        at = self.store.common(target, source)
        return "static" if at is None else f"at {at}"

    def pose(self, pose):
        return "pose " + " ".join(map(write, pose))

    def mul(self, *floats):
        return self.pose(poses.finite(poses.product(floats[:7], floats[7:])))

    def inv(self, *floats):
        return self.pose(poses.inverse(floats))

    def interp(self, *taken):
        return self.pose(poses.finite(poses.interpolate(taken[:7], taken[7:14], *taken[14:])))

    def sqrt(self, value):
        return "float " + write(poses.root(value))

    def acos(self, value):
        return "float " + write(poses.acos(value))

    def sin(self, value):
        return "float " + write(poses.sin(value))

    def words(self):
        head, instants, floats = self.store.words()
        lines = ("head", *map(str, head)), ("instants", *map(str, instants)), ("poses", *map(write_bits, floats))
        return "\n".join(map(" ".join, lines))

    def set(self, name, place, word):
        if place >= self.store.lent[list(LENT).index(name)]:
            raise Malformed
        self.store.set(name, place, word)
        return "done"

    def lend(self, *lengths):
        if any(length > most for length, most in zip(lengths, LENT.values())):
            raise Malformed
        self.store.lend(*lengths)
        return "done"

    def map(self, part):
        if part is None:
            self.file = b""
        elif len(self.file) + len(part) > MAP:
            raise Malformed
        else:
            self.file += part
        return "done"

    def load(self):
        refused = maps.load(self.store, self.file)
        if refused is None:
            return "done"
        record, refusal = refused
        return f"record {record} {write_refusal(refusal)}"

    def frame(self, name=b""):
        frame = maps.frame_of(self.file, name)
        return "none" if frame is None else f"frame {frame}"

    def name(self, frame):
        name = maps.name_of(self.file, frame)
        return "none" if name is None else f"name {name.hex()}"

    def show(self, *lookup):
        return block(people.show(self.store, *lookup))

    def why(self, *lookup):
        return block(people.why(self.store, *lookup))

    def tree(self):
        return block(people.tree(self.store))

    def dot(self):
        return block(people.dot(self.store))


def main():
    model = Model(strict="--strict" in sys.argv[1:])
    for line in sys.stdin.buffer:
        answer = model.answer(line.removesuffix(b"\n"))
        if answer is not None:
            print(answer)


if __name__ == "__main__":
    main()
