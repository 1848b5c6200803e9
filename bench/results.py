"""The tables of results in README.md, and the picture of the cases that grow.

`bench/run --write` puts the rows that it has measured in the place of those of the same cases, and draws the picture. `checks/pictures` draws it of the page.
"""

import re
import sys
from pathlib import Path
from typing import NamedTuple

TOP = Path(__file__).resolve().parent.parent
sys.path.insert(0, str(TOP / "checks"))
from drawing import LINE, PALE, Picture  # noqa: E402

PAGE = TOP / "bench" / "README.md"
PICTURE = TOP / "docs" / "pictures" / "growth.svg"
HEADING = "## Results"


class Table(NamedTuple):
    """A table: the names of its columns, and the cells of each row."""

    columns: list[str]
    rows: list[list[str]]


def line_of(cells):
    return f"| {' | '.join(cells)} |"


def cells_of(line):
    return [cell.strip() for cell in line.strip("| ").split(" | ")]


def head_of(columns):
    return [line_of(columns), "|" + "---|" * len(columns)]


# What a run has measured.


class Measured:
    """The tables of a run, each printed as it comes."""

    def __init__(self):
        self.tables = []

    def begin(self, *columns):
        if self.tables:
            print()
        print("\n".join(head_of(columns)), flush=True)
        self.tables.append(Table(list(columns), []))

    def row(self, *cells):
        """One row of the table that was begun last."""
        self.say(*cells)
        self.tables[-1].rows.append(list(cells))

    def say(self, *cells):
        """The same of a case that can't be measured here: it takes the place of no row."""
        print(line_of(cells), flush=True)

    def write(self):
        """Puts the rows into the page, and draws the picture."""
        text = PAGE.read_text()
        for table in self.tables:
            text = with_rows(text, table)
        PAGE.write_text(text)
        PICTURE.write_text(growth())


def case_of(cells):
    """What a row is known by: its case, and its baseline where that stands before its time."""
    return cells[0], cells[2].rpartition(": ")[0] if len(cells) > 2 else ""


def with_rows(text, table):
    """The page with the rows of a table, each in the place of the row of the same case, and new ones at the end. A new table is put behind the others."""
    lines = text.splitlines()
    if not table.rows:
        return text
    head = head_of(table.columns)
    if head[0] not in lines:
        last = max(number for number, line in enumerate(lines) if line.startswith("|"))
        lines[last + 1 : last + 1] = ["", *head]
    first = lines.index(head[0]) + len(head)
    end = next((number for number in range(first, len(lines)) if not lines[number].startswith("|")), len(lines))
    rows = {case_of(cells_of(line)): line for line in lines[first:end]}
    rows |= {case_of(cells): line_of(cells) for cells in table.rows}
    return "\n".join([*lines[:first], *rows.values(), *lines[end:]]) + "\n"


# The cases that grow.


class Growth(NamedTuple):
    """A case that is compared with less or more of the same, how many times as much it takes, and how many at most it may."""

    case: str
    beside: str
    ratio: float
    most: float


def tables_of(text):
    """The tables of the results."""
    above = ""
    for line in [*text.partition(f"\n{HEADING}\n")[2].splitlines(), ""]:
        if line.startswith("|---"):
            table = Table(cells_of(above), [])
        elif line.startswith("|") and above.startswith("|"):
            table.rows.append(cells_of(line))
        elif above.startswith("|") and not line.startswith("|"):
            yield table
        above = line


def compared(columns, cells):
    """What each growth of a row is compared with, and the column in which its ratio stands: that with a goal to its right."""
    if beside := re.fullmatch(r"(half of it|with \d+ tokens): .*", cells[2]):
        yield beside.group(1), columns.index("ratio")
    for number, name in enumerate(columns[:-1]):
        if beside := re.fullmatch(r"(?:to )?(\d+ (?:files|segments))", name):
            yield f"beside {beside.group(1)}", number + (columns[number + 1] == "ratio")


def grown():
    """The cases of the page in which work or state grows."""
    for table in tables_of(PAGE.read_text()):
        for cells in table.rows:
            for beside, at in compared(table.columns, cells):
                if cells[at + 1].startswith("at most "):
                    ratio, most = (float(re.search(r"[\d.]+", cell).group()) for cell in cells[at : at + 2])
                    case = cells[0] if table.columns[0] == "case" else f"{table.columns[0]}: {cells[0]}"
                    yield Growth(case.replace("`", ""), beside, ratio, most)


def growth():
    """The picture of these cases."""
    picture, left, unit, y = Picture("Cases that grow"), 560, 140, 34
    picture.text(24, y - 12, "the case, and what it is compared with", 12, ink=LINE)
    picture.text(left, y - 12, "times as much; the line is the most that it may be", 12, ink=LINE)
    for case, beside, ratio, most in grown():
        picture.text(24, y + 13, case)
        picture.text(24, y + 29, beside, 12, ink=LINE)
        picture.box(left, y + 4, ratio * unit, 22, PALE)
        picture.text(left + 8, y + 20, f"{ratio:.2f}")
        picture.line(left + most * unit, y, left + most * unit, y + 30)
        picture.text(left + most * unit + 5, y + 20, f"{most:g}", 12, ink=LINE)
        y += 44
    return picture.svg(y + 4)
