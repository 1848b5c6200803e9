"""What tells two texts apart, in a form that can be read."""

import difflib

DIFF_LINES = 8
LINE_WIDTH = 100


def lines_of(text):
    """The lines of a text, each without its newline. The last newline may be missing."""
    pieces = text.split(b"\n")
    return pieces[:-1] if pieces[-1] == b"" else pieces


def shown(text):
    """The lines of a text in printable form, long ones cut. A missing last newline is told."""
    lines = [line.decode("ascii", "backslashreplace") for line in lines_of(text)]
    lines = [line if len(line) <= LINE_WIDTH else f"{line[:LINE_WIDTH]}.. ({len(line)} characters)" for line in lines]
    return lines if not text or text.endswith(b"\n") else [*lines, "(no newline at the end)"]


def difference(what, want, got):
    """What tells two texts apart, in a few lines; nothing where they are the same."""
    if want == got:
        return []
    diff = list(difflib.unified_diff(shown(want), shown(got), n=1, lineterm=""))[3:]
    if not diff:
        diff = ["they differ in a part of a line that isn't shown here"]
    if len(diff) > DIFF_LINES:
        diff = [*diff[:DIFF_LINES], f"({len(diff) - DIFF_LINES} lines more)"]
    return [f"{what}, - wanted, + got:", *(f"  {line}" for line in diff)]
