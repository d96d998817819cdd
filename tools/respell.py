#!/usr/bin/env python3
"""Brings the names of definitions and lemmas to snake case.

usage: tools/respell.py [ROOT]      after port.py, at the top of the repository

A definition, lemma, field or constructor of crates/*/specs and crates/*/proofs whose name has capitals inside
or dashes gets them as underscores: poseOf is pose_of, held-lt is held_lt. A lemma whose name would be another's
gets _lem: the lemma on-tree about onTree is on_tree_lem. A name that a file takes from a library stays, and so do
the names of goals, functions of src/, strings, inputs and outputs. Two names that still fall together in one file
are printed. respell_edits.py brings the wrong programs after it.
"""
import glob
import re
import sys

WORD = r"[^\W\d][\w'₀-₉-]*"
TOKEN = re.compile(r"(?<![\w'₀-₉-])" + WORD)
HEAD = re.compile(r"^(\s*)(?:(?:pub|abbrev|unfoldable|ruleset)\s+)*((?:%s\s+)*%s)\s*:(?=\s|$)" % (WORD, WORD))
USE = re.compile(r"^(?:pub |ghost )?use ([\w.·'-]+?)(?:\.\{(.*)\}| as (\S+))?;?$")


def snake(name):
    name = re.sub(r"(?<=[a-z0-9'₀-₉])([A-Z])", lambda m: "_" + m.group(1).lower(), name)
    return name.replace("-", "_")


def is_old(name):
    return ("-" in name or re.search("[A-Z]", name)) and name[0].islower()


def heads(text):
    """(name, type) of what a file declares, fields and constructors included."""
    for line in text.splitlines():
        if m := HEAD.match(line):
            for name in m.group(2).split():
                yield name, line[m.end():].strip()


def imported(text, crates):
    """Names that a file takes from a library of the kit."""
    own = re.compile(r"Rattle\.(?:%s)\." % "|".join(crates))
    names = set()
    for line in text.splitlines():
        if m := USE.match(line):
            if m.group(2) is not None and not own.match(m.group(1) + "."):
                for it in m.group(2).split(","):
                    names.add(it.split(" as ")[-1].strip())
    return names


def own_imports(text, crates):
    """Names that a file takes from the repository's own proofs."""
    own = re.compile(r"Rattle\.(?:%s)\.proofs\." % "|".join(crates))
    names = set()
    for line in text.splitlines():
        if (m := USE.match(line)) and m.group(2) is not None and own.match(m.group(1) + "."):
            names |= {it.strip() for it in m.group(2).split(",")}
    return names


def is_walk(path):
    return path.endswith("/Proof.antt")


def free_words(text):
    """The words of a file that stand alone: no field, and no part of a path."""
    lines = [re.sub(r"^((?:pub |ghost )?use )[\w.'-]+", r"\1", l) for l in text.splitlines()]
    return set(re.findall(r"(?<![\w'₀-₉.-])" + WORD, "\n".join(lines)))


def table(root, crates, texts):
    """What each name of specs/ and proofs/ becomes."""
    shared = set()
    for p, text in texts.items():
        if p.endswith(".antt") and not is_walk(p):
            shared |= {n for n, _ in heads(text)}
    camel = {n: snake(n) for n in shared if is_old(n) and "-" not in n}
    taken = set(camel.values()) | {n for n in shared if not is_old(n)}
    dashed = {n: snake(n) for n in shared if is_old(n) and "-" in n}
    for p, text in texts.items():
        words = free_words(text)
        if p.endswith(".antt"):
            taken |= {dashed[n] for n in words & set(dashed) if dashed[n] in words}
    to = list(dashed.values())
    again = {n: n + "_lem" for n in shared if not is_old(n) and n in camel.values()}
    return camel | again | {n: t + "_lem" if t in taken or to.count(t) > 1 else t for n, t in dashed.items()}


def main(root):
    crates = [p.split("/")[-1] for p in glob.glob(root + "/crates/*")]
    files = sorted(glob.glob(root + "/crates/*/specs/**/*.antt", recursive=True) + glob.glob(root + "/crates/*/proofs/**/*.antt", recursive=True))
    texts = {p: open(p, encoding="utf-8").read() for p in files + sorted(glob.glob(root + "/crates/*/src/**/*.rt", recursive=True))}
    shared = table(root, crates, texts)
    for p, text in texts.items():
        gone = turned(p, text, shared, crates)
        words = free_words(text)
        for n, to in gone.items():
            if n in words and (to in words - set(gone) or [gone[w] for w in words if w in gone].count(to) > 1):
                print(f"falls together: {p[len(root) + 1:]}: {n} and {to}")
        new = respelled(text, gone, p.endswith(".rt"))
        if new != text:
            open(p, "w", encoding="utf-8").write(new)


def turned(p, text, shared, crates):
    """The renamings that one file sees."""
    gone = dict(shared)
    mine = {n for n, _ in heads(text)} | own_imports(text, crates)
    for n in shared:
        if not is_old(n) and (p.endswith(".rt") or n not in mine):
            gone.pop(n)
    if is_walk(p):
        for n, t in heads(text):
            if is_old(n):
                if re.match(r"tie\b|goal\b", t) is None and not n.endswith("-spec"):
                    gone[n] = snake(n)
                else:
                    gone.pop(n, None)
    for n in imported(text, crates):
        gone.pop(n, None)
    return gone


def respelled(text, gone, is_source):
    def word(m):
        n = m.group(0)
        if not is_old(n) and m.string[: m.start()].endswith("."):
            return n
        return gone.get(n, n)

    turn = lambda s: TOKEN.sub(word, s)
    if not is_source:
        return turn(text)
    # strings of a source keep their text
    return "".join(s if s.startswith('"') else turn(s) for s in re.split(r'("(?:[^"\\\n]|\\.)*")', text))


if __name__ == "__main__":
    main(sys.argv[1] if len(sys.argv) > 1 else ".")
