"""The crates and their groups, as crates.txt has them."""

import re
from pathlib import Path
from typing import NamedTuple

TOP = Path(__file__).resolve().parent.parent


class Group(NamedTuple):
    """Crates under one heading: its word, what the heading says of them, and each crate with those that it names."""

    name: str
    about: str
    crates: dict[str, list[str]]


def groups():
    """The groups in the order of crates.txt."""
    found = []
    for line in (TOP / "crates.txt").read_text().splitlines():
        if line.startswith("# "):
            name, _, about = line.removeprefix("# ").partition(": ")
            found.append(Group(name, about, {}))
        elif crate := re.match(r"(\w+):(.*)", line):
            found[-1].crates[crate.group(1)] = crate.group(2).split()
    return found
