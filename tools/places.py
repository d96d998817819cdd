#!/usr/bin/env python3
"""Counts where the sources have a form that today's Rattle has a plainer one for.

usage: tools/places.py [-v] [COMMIT]

Reads crates/*/src/*.rt as they are, or as they were in COMMIT, and prints a line for each kind of place with how many
there are; with -v also the places themselves. docs/DESIGN-PASS.md says what each kind is for.
"""
import re
import subprocess
import sys
from collections import Counter

REFUSALS = {
    "Sizes", "UnsoundStore", "NonFiniteValues", "NonUnitRotation", "SelfReferentialFrame", "ReparentingNotSupported",
    "CycleDetected", "StaticDynamicConflict", "UnknownFrame", "Disconnected", "NotFoundAt", "NoCommonTime", "NonFinite",
    "ZeroLengthNormalization", "DurationUnderflow", "TreeFull", "RowFull", "MapForm", "StoreInUse", "OutOfRange",
    "NoTransformAvailable", "Malformed", "Record", "Refusal",
}


def sources(commit):
    """(path, text) of each source file."""
    pattern = ":(glob)crates/*/src/**"
    if commit:
        names = subprocess.run(["git", "ls-tree", "-r", "--name-only", commit], capture_output=True, text=True, check=True).stdout
        for p in sorted(names.splitlines()):
            if re.match(r"crates/\w+/src/.*\.rt$", p):
                yield p, subprocess.run(["git", "show", f"{commit}:{p}"], capture_output=True, text=True, check=True).stdout
        return
    names = subprocess.run(["git", "ls-files", "-co", "--exclude-standard", pattern], capture_output=True, text=True, check=True).stdout
    for p in sorted(names.splitlines()):
        if p.endswith(".rt"):
            yield p, open(p, encoding="utf-8").read()


def line_of(text, at):
    return text.count("\n", 0, at) + 1


def enums(text):
    """(line, name, variants) of each enum, a variant with whether it carries anything."""
    for m in re.finditer(r"^ *(?:pub(?:\(crate\))? )?enum (\w+)[^{]*\{(.*?)^\}", text, re.M | re.S):
        body = re.sub(r"//.*|#\[.*\]", "", m.group(2))
        found, depth, word = [], 0, ""
        for c in body + ",":
            depth += c in "({["
            depth -= c in ")}]"
            if c == "," and depth == 0:
                if word.strip():
                    found.append((re.match(r"\s*(\w+)", word).group(1), bool(re.search(r"[({]", word))))
                word = ""
            else:
                word += c
        yield line_of(text, m.start()), m.group(1), found


def functions(text):
    """(line, name, parameters, clauses) of each function."""
    for m in re.finditer(r"^ *(?:pub(?:\(crate\))? )?(?:extern \"C\" )?fn (\w+)(?:<[^>]*>)?\((.*?)\)(.*?)^( *)(?:\{|where)", text, re.M | re.S):
        yield line_of(text, m.start(1)), m.group(1), m.group(2), m.group(3)


def shapes(path, text):
    for line, name, variants in enums(text):
        plain = [v for v, carries in variants if not carries]
        refusals = [v for v, _ in variants if v in REFUSALS]
        if len(variants) == 2 and len(plain) == 1 and not refusals:
            yield "1 enum of the shape of Option", line, name
        elif len(variants) == 2 and not plain and not refusals:
            yield "1 enum of the shape of Result", line, name
        elif refusals and len(refusals) < len(variants):
            yield "1 enum of values and refusals", line, name
        elif refusals and len(variants) > 1 and "error" not in path:
            yield "1 enum of values and refusals", line, name


def sentinels(path, text):
    for m in re.finditer(r"^const (\w+): \w+ = u\w+::MAX;|^pub\(crate\) const (\w+): \w+ = u\w+::MAX;", text, re.M):
        yield "1 number that stands for none", line_of(text, m.start()), m.group(1) or m.group(2)
    for m in re.finditer(r"^ +return 0;|=> Reply::Refusal\(\d|== 9 \{|Refusal\(u32", text, re.M):
        yield "1 number that stands for none, a kind or a refusal", line_of(text, m.start()), m.group(0).strip()


def loops(path, text):
    for m in re.finditer(r"^( *)(while [^\n]*\{|loop \{)\n(?=(.*?)^\1\})", text, re.M | re.S):
        if re.search(r"\b\w+ [-+]= 1;|\b(\w+) = \1 [-+] 1;|\bk = i;|[-+]= CHUNK|[-+]= 2;|\*= 2;", m.group(3)) or m.group(2).startswith("loop"):
            yield "3 loop that counts by hand", line_of(text, m.start()), m.group(2)
        else:
            yield "3 other loop with a test of its own", line_of(text, m.start()), m.group(2)


def by_hand(path, text):
    names = r"same|same_kind|lower_of|earliest|least|kind_of|instant_of|kind_word|flag_word|nanos_word|is_finite|clamp|to_bits|from_bits|digit_character|digit|word|with_low_byte|zero|wide|max_age|stamp|answer|refused|of_tree|of_pose|room"
    for m in re.finditer(r"^ *(?:pub(?:\(crate\))? )?fn (" + names + r")\(", text, re.M):
        yield "4 equality, order, copy or conversion by hand", line_of(text, m.start(1)), m.group(1)
    for m in re.finditer(r"^ *(?:pub(?:\(crate\))? )?fn ((?:write|put|print)_\w+)\b", text, re.M):
        yield "4 printing by hand", line_of(text, m.start(1)), m.group(1)
    for m in re.finditer(r"^#\[derive\((?:Drop|Clone, Copy)\)\]\n(?:#\[.*\]\n)*(?:pub(?:\(crate\))? )?(?:struct|enum) (\w+)", text, re.M):
        yield "4 type with no derive but Drop or Copy", line_of(text, m.start(1)), m.group(1)


def travellers(path, text):
    for line, name, parameters, clauses in functions(text):
        p = " ".join(parameters.split())
        if re.search(r"(head|h): &(mut )?\[u64.*(instants|i): &(mut )?\[u64.*(poses|p): &(mut )?\[f64", p):
            yield "5 parameters head, instants, poses", line, name
        if re.search(r"out: &mut \[u8.*(at|to): usize", p) or re.search(r"(at|to): usize.*out: &mut \[u8", p):
            yield "6 buffer of text with its place beside it", line, name
        if re.search(r"instants: &(mut )?\[u64\].*count: u", p) and "head" not in p:
            yield "5 parameters of a row: slices, kind, count", line, name
        if re.search(r"places: &(mut )?\[usize\].*used: usize", p):
            yield "6 table of places with its count beside it", line, name
        if re.search(r"line: &\[u8\], at: usize", p):
            yield "5 parameters line, at", line, name


def facts(path, text):
    for line, name, _, clauses in functions(text):
        for m in re.finditer(r"requires(?: \w+)? \{ (.*?) \}\n", clauses + "\n", re.S):
            yield line, name, " ".join(m.group(1).split())


def switches(path, text):
    for m in re.finditer(r"operands::behind\(line, \w+, b\"(\w+)\"\)", text):
        yield "7 word of a line tested in a chain", line_of(text, m.start()), m.group(1)
    for m in re.finditer(r"^fn (sqrt|acos|sin)\(line", text, re.M):
        yield "7 function that differs in the step it runs", line_of(text, m.start()), m.group(1)


def twins(path, text):
    found = [(m.group(1), line_of(text, m.start(1))) for m in re.finditer(r"^ *(?:pub(?:\(crate\))? )?fn (\w+)\b", text, re.M)]
    names = {name for name, _ in found}
    for name, line in found:
        for a, b in (("words", "floats"), ("floats", "words")):
            if a in name.split("_") and name.replace(a, b) in names:
                yield "2 function for words and its twin for floats", line, name


def main():
    args = [a for a in sys.argv[1:] if a != "-v"]
    shown = "-v" in sys.argv[1:]
    commit = args[0] if args else ""
    places, needed = [], []
    for path, text in sources(commit):
        for find in (shapes, sentinels, loops, by_hand, travellers, switches, twins):
            places += [(kind, path, line, what) for kind, line, what in find(path, text)]
        needed += [(fact, path, line, name) for line, name, fact in facts(path, text)]
    often = Counter(fact for fact, _, _, _ in needed)
    places += [("5 fact that three or more functions require", p, line, f"{name}: {fact}") for fact, p, line, name in needed if often[fact] >= 3]
    kinds = Counter(kind for kind, _, _, _ in places)
    for kind in sorted(kinds):
        print(f"{kinds[kind]:4} {kind}")
        for k, path, line, what in places if shown else []:
            if k == kind:
                print(f"       {path}:{line}: {what}")


main()
