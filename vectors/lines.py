"""Lines of other forms than the protocol's, empty lines and comments, and the longest lines."""
from values import LAST, line


def wrong_lines(rng, good):
    """A list of lines, most of another form than the protocol's."""
    f = "3ff0000000000000"
    fixed = [
        " ", "x", "ADD", "add", "open", "lookup", "words 1", "words ", " words", "Words", "\tsqrt " + f, " # note",
        "open none", "open 5", "open 1 1", "open 1 1 None", "open 1 1 none 1", "open 1 1 -1", "open 1 1 +1",
        f"open 1 1 {2**64}", "open -1 1 none", "open a 1 none", "open 1 1 0x1", f"open {2**64} 1 none",
        "open  1 1 none", "open 1 1 none ", "open 1 1 1.0", "open 1 1 ", "OPEN 1 1 none",
        f"lookup {2**32} 1 0", f"lookup 1 {2**32} 0", f"lookup 1 2 {2**64}", "lookup 1 2", "lookup 1 2 3 4",
        "lookup 1 2 none", "lookup 1,2 3", f"common 1 {2**32}", "common 1", "common 1 2 3", "common a b",
        f"wipe {2**32} 0", "wipe 1", f"wipe 1 {10**30}", "wipe 1 -5", "sqrt", "sqrt nan", "sqrt 4", "sqrt " + f[:15],
        "sqrt " + f + "0", "sqrt 3FF0000000000000", "sqrt 0x3ff00000000000", "sqrt 3ff000000000000g",
        "sqrt +3ff000000000000", "acos -000000000000000", "sin inf", "cos " + f, "sqrt  " + f, "sqrt " + f + " ",
        line("inv", *6 * [f]), line("inv", *8 * [f]), line("mul", *13 * [f]), line("mul", *15 * [f]),
        line("interp", *14 * [f], 1, 2), line("interp", *14 * [f], 1, 2, 3, 4), line("interp", *14 * [f], 1, 2, f),
        line("interp", *13 * [f], 1, 1, 2, 3), line("interp", *14 * [f], 1, 2, 2**64),
        line("add", 1, 2, 2, 0, *7 * [f]), line("add", 1, 2, "s", 0, *7 * [f]), line("add", 2**32, 2, 0, 0, *7 * [f]),
        line("add", 1, 2**32, 0, 0, *7 * [f]), line("add", 1, 2, 1, 2**64, *7 * [f]), line("add", 1, 2, 0, *7 * [f]),
        line("add", 1, 2, 0, 0, *6 * [f]), line("add", 1, 2, 0, 0, *8 * [f]), line("add", 1, 2, 0, 0, *6 * [f], "nan"),
        line("add", 1, 2, -1, 0, *7 * [f]), line("add", 1, 2, 0, "none", *7 * [f]),
        "set", "set head", "set head 0", "set head 0 1 2", "set tail 0 1", "set heads 0 1", f"set head 0 {2**64}",
        f"set head {2**64} 0", f"set head {LAST} 0", "set head -1 0", "set head 0 " + f.replace("3", "a"),
        "set head 1029 0", "set instants 65536 0", "set poses 458752 " + f, "set poses 0 1", "set instants 0 -1",
        "set poses 0 nan", "lend", "lend 1 1", "lend 1 1 1 1", "lend 1030 0 0", "lend 0 65537 0", "lend 0 0 458753",
        f"lend {LAST} 0 0", f"lend 0 0 {2**64}", "lend a 0 0", "lend -1 0 0",
        "map", "map ", "map none ", "map none 00", "map 00 none", "map 0", "map 000", "map 0g", "map FF", "map fF",
        "map 0x00", "map  00", "map 00 00", "map None", "Map none", "map " + 241 * "00", "map " + 254 * "00", "map -1",
        "load ", "load 1", " load", "Load", "load none", "frame ", "frame 0", "frame 616", "frame 6G", "frame 6A",
        "frame 61 62", "frame none", "frame " + 241 * "61", "frame " + 240 * "61", "frame  61", "name", "name ",
        "name -1", "name +1", "name a", "name 0x1", "name 1 2", "name none", f"name {2**32}", f"name {2**64}",
        f"name {2**32 - 1}", "name 1.0", "name  1", "names 1",
        "show", "show ", "show 1", "show 1 2", "show 1 2 ", "show 1 2 3 4", "show  1 2 3", "show 1  2 3", " show 1 2 3",
        "show 1 2 none", "show 1 2 -3", "show 1 2 0.5", "show 1 2 +3", "show a 2 3", "show 1 b 3", "Show 1 2 3",
        f"show {2**32} 1 0", f"show 1 {2**32} 0", f"show 1 2 {2**64}", f"show {2**32 - 1} {2**32 - 1} {LAST}",
        "shows 1 2 3", "show\t1 2 3", "show 1,2,3", "show tree", "why", "why ", "why 1", "why 1 2", "why 1 2 none",
        "why 1 2 3 4", "why 1 2 3 ", "why  1 2 3", "why -1 2 3", "why 1 0x2 3", "WHY 1 2 3", "why? 1 2 3",
        f"why {2**32} 1 0", f"why 1 {2**32} 0", f"why 1 2 {2**64}", f"why {2**32 - 1} {2**32 - 1} {LAST}",
        "tree", "tree ", "tree 1", " tree", "tree none", "Tree", "trees", "tree\t", "tree dot",
        "dot", "dot ", "dot 1", " dot", "dot none", "Dot", "dots", "dot.",
        "#", "# " + "n" * 510, "# " + "n" * 511, "#" * 5000, "",
        "x" * 512, "x" * 513, "x" * 1024, "x" * 5000, "x" * 512 + "sqrt " + f,
    ]  # fmt: skip
    for size in (511, 512, 513, 514):  # leading zeros make a line of any length
        fixed += ["common " + "1 2".rjust(size - 7, "0"), "lookup " + "7 7 0".rjust(size - 7, "0")]
        fixed += ["show " + "7 7 0".rjust(size - 5, "0"), "why " + "1 2".rjust(size - 6, "0") + " 3"]
        fixed += ["dot ".ljust(size), "tree".ljust(size, "e")]
        fixed += ["name " + "1".rjust(size - 5, "0"), "sqrt " + "4".rjust(size - 5, "0"), "sqrt 4e".ljust(size, "0")]
    fixed += ["sqrt " + f + " " * (size - 21) for size in (512, 513)]
    for _ in range(40):
        text = rng.choice(good)
        place = rng.randrange(len(text))
        kind = rng.randrange(4)
        if kind == 0:
            text = text[:place] + text[place + 1 :]
        elif kind == 1:
            text = text[:place] + rng.choice(" \t-+.exG#,") + text[place:]
        elif kind == 2:
            text = text[:place] + rng.choice(" xFz!") + text[place + 1 :]
        else:
            text = text.replace(" ", rng.choice(["  ", "\t", ""]), 1)
        fixed.append(text)
    rng.shuffle(fixed)
    return fixed
