#!/usr/bin/env python3
"""generate.py SEED COUNT [bound]: a script of COUNT operations in the text protocol.

The first mode never meets the sizes E and S, so that the Rust can answer it. The second, `bound`,
meets them, writes words from outside, lends wrong lengths and has lines of wrong form. Both have maps, full rows,
every frame asked against itself, and poses that overflow.
"""
import random
import sys
from itertools import chain

import bounds
import full_rows
import overflows
import same_frames
import scenes
from values import Values


def script(seed, count, mode):
    """Lines; `count` of them get an answer. Behind the first scene are full rows, then same frames, then overflows."""
    others = {"free": scenes, "bound": bounds}[mode].scenes(random.Random(f"{mode} {seed}"))
    added = {"rows": full_rows, "same": same_frames, "overflows": overflows}
    named = (kind.scenes(Values(random.Random(f"{name} {mode} {seed}")), mode) for name, kind in added.items())
    parts = chain([next(others)], *named, others)
    while count > 0:
        for text in next(parts):
            if count > 0:
                yield text
                count -= bool(text) and not text.startswith("#")


def main():
    seed, count, *mode = sys.argv[1:]
    sys.stdout.writelines(text + "\n" for text in script(seed, int(count), *mode or ["free"]))


if __name__ == "__main__":
    main()
