"""What the checks in Python have in common: the program that they run, and the words that they are given.

A check runs the built program. With `--program PATH` before all other words it runs the one at that path.
"""

import os
import sys
from pathlib import Path

TOP = Path(__file__).resolve().parent.parent
BUILT = TOP / "crates" / "hsm" / "out" / "hsm"


def chosen(words):
    """The program, and the words that are left."""
    if words[:1] != ["--program"]:
        return BUILT, words
    if len(words) < 2:
        sys.exit("--program takes a path")
    return Path(words[1]).resolve(), words[2:]


PROGRAM, WORDS = chosen(sys.argv[1:])


def is_built():
    """Whether the program is there. Where it isn't, that is told."""
    there = os.access(PROGRAM, os.X_OK)
    if not there:
        print(f"there is no program {PROGRAM}: build it by ./build, or by rt ci")
    return there
