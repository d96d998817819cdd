#!/usr/bin/env python3
"""Brings the wrong programs to today's spelling, and tells whether each fits the code.

usage: tools/respell_edits.py OLD       after port.py and respell.py, at the top of the repository
       tools/respell_edits.py --check

OLD is a folder with the repository as it was before port.py. Each text of an edit below crates/*/must-fail and
edits/ gets the renamings that respell.py gives its file in OLD, and what port.py makes of its words; TEXTS has
those that take more. Both forms end with a line for each edit whose old texts do not stand once in their file, in
their order, and with how many do; the status is 1 where one does not.
"""
import glob
import re
import sys

import respell

# Words of the library, as port.py turns them.
LIBRARY = {"getD": "get_or", "isNan": "is_nan", "orElse": "or_else", "toBits": "to_bits", "_then_": "◌then◌"}
# Texts whose place has another layout, other imports, or a clause: in OLD, and today.
TEXTS = {
    "            translation: self.rotation": "            translation: self",
    "            translation: rhs.rotation": "            translation: rhs",
    "    9025,": " 9025,",
    "    9026,": " 9026,",
    "    1e22,": " 1e22,",
    "    1e21,": " 1e21,",
    "    if result.is_finite() {": "    if res.is_finite() {",
    "    if result.translation.is_finite() {": "    if res.translation.is_finite() {",
    "use lib.ListN.{length, getD}": "length, get_or}",
    "use lib.ListN.{length, getD, drop}": "length, get_or, drop}",
    "use lib.Dec.{leb}": "leb, length}",
    "use lib.Dec.{leb, ltb}": "leb, ltb, length}",
    "fn clear(head: &mut [u64], instants: &mut [u64], poses: &mut [f64]) "
    "requires { ⌜ SoundStore (storeOf (now head) (now instants) (now poses)) ⌝ } "
    "ensures { λ _. ⌜ storeOf (now (head .exit)) (now (instants .exit)) (now (poses .exit)) "
    "≡ storeOf (now (head .entry)) (now (instants .entry)) (now (poses .entry)) ⌝ } {}":
    "fn clear(head: &mut [u64], instants: &mut [u64], poses: &mut [f64]) "
    "requires { SoundStore (store_of head.old instants.old poses.old) } "
    "ensures { store_of head.new instants.new poses.new ≡ store_of head.old instants.old poses.old } {}",
}


def edits(root):
    """(crate, path) of each edit."""
    for p in sorted(glob.glob(root + "/crates/*/must-fail/*.edit") + glob.glob(root + "/edits/*/*.edit")):
        yield p[len(root) + 1 :].split("/")[1], p


def lines(path):
    """(word, text, file) of each line of an edit."""
    file = None
    for line in open(path, encoding="utf-8").read().splitlines():
        word, _, text = line.partition(":")
        text = text.removeprefix(" ")
        file = text if word == "file" else file
        yield word, text, file


def plain(text):
    """Paths as they are today."""
    return re.sub(r"·(specs|proofs)\.(?:\1\.)?", r".\1.", text).replace("Rattle·", "Rattle.").replace("Option·", "Option.")


def projected(text):
    """(a .stamp) is a.stamp, and f x .0 is (f x).0."""
    text = re.sub(r"\(([\w'₀-₉]+(?: \.[\w?]+)+)\)", lambda m: m[1].replace(" ", ""), text)
    text = re.sub(r"\(((?:[\w'₀-₉]+ )+[\w'₀-₉]+) (\.[\w?]+)\)", r"(\1)\2", text)
    return re.sub(r"([\w'₀-₉)]) (?=\.[\w?])", r"\1", text)


class Names:
    """The renamings that each file of OLD sees."""

    def __init__(self, old):
        self.old = old
        self.crates = [p.split("/")[-1] for p in glob.glob(old + "/crates/*")]
        files = [p for kind in ("specs", "proofs") for p in glob.glob(f"{old}/crates/*/{kind}/**/*.antt", recursive=True)]
        files += glob.glob(old + "/crates/*/src/**/*.rt", recursive=True)
        self.texts = {p: plain(open(p, encoding="utf-8").read()) for p in sorted(files)}
        self.shared = respell.table(old, self.crates, self.texts)

    def turn(self, crate, file, text):
        if text in TEXTS or file.endswith(".rt"):
            return TEXTS.get(text, text)
        path = f"{self.old}/crates/{crate}/{file}"
        gone = respell.turned(path, self.texts[path], self.shared, self.crates) | LIBRARY
        return respell.respelled(projected(plain(text)), gone, False)


def write(root, old):
    names = Names(old)
    for crate, path in edits(root):
        text = open(path, encoding="utf-8").read()
        new = "".join(f"{word}: {it if word == 'file' else names.turn(crate, file, it)}\n" for word, it, file in lines(path))
        if new != text:
            open(path, "w", encoding="utf-8").write(new)


def misfit(root, crate, path):
    """The first old text of an edit that does not stand once in its file, None where each does."""
    texts, sought = {}, ""
    for word, text, file in lines(path):
        here = f"{root}/crates/{crate}/{file}"
        if word == "file":
            texts.setdefault(here, open(here, encoding="utf-8").read())
        elif word == "old":
            sought = text
            if texts[here].count(text) != 1:
                return f"{file} has {texts[here].count(text)} of: {text}"
        else:
            texts[here] = texts[here].replace(sought, text)
    return None


def main(word, root="."):
    if word != "--check":
        write(root, word)
    said = {path: misfit(root, crate, path) for crate, path in edits(root)}
    bad = [f"{path}: {text}" for path, text in said.items() if text]
    print("\n".join([*bad, f"{len(said) - len(bad)} edits fit, {len(bad)} do not"]))
    return 1 if bad else 0


if __name__ == "__main__":
    if len(sys.argv) != 2:
        sys.exit(__doc__)
    sys.exit(main(sys.argv[1]))
