"""MANIFESTs: lists of files with their SHA-256, in the form of sha256sum; and names of files as paths."""

import hashlib
import re

from stores import Refused
from runs import new_file

LINE = re.compile(r"(\\?)([0-9a-f]{64}) [ *](.+)")
SLASH = ":"


def digest(data) -> str:
    return hashlib.sha256(data).hexdigest()


def line_of(sha: str, name: str) -> str:
    """A line. A name with a backslash is escaped, and the line begins with one, as sha256sum has it."""
    escaped = name.replace("\\", "\\\\")
    return f"{'' if escaped == name else chr(92)}{sha}  {escaped}\n"


def write(path: str, digests: dict[str, str]) -> None:
    """Writes a MANIFEST in a new file, in the byte order of the names."""
    with new_file(path) as out:
        out.write("".join(line_of(digests[name], name) for name in sorted(digests)).encode())


def unescaped(name: str) -> str:
    return re.sub(r"\\(.)", lambda match: "\n" if match[1] == "n" else match[1], name)


def read(path: str) -> dict[str, str]:
    """The digests of a MANIFEST by name. The names of one that was made in a folder may begin with ./, which is no part of them."""
    digests: dict[str, str] = {}
    with open(path, encoding="utf-8", errors="surrogateescape") as lines:
        for number, text in enumerate(lines, 1):
            line = LINE.fullmatch(text.rstrip("\n"))
            if line is None:
                raise Refused(f"{path}:{number}: no line of sha256sum")
            name = unescaped(line[3]) if line[1] else line[3]
            if digests.setdefault(name.removeprefix("./"), line[2]) != line[2]:
                raise Refused(f"{path}:{number}: {name} has another digest in a line above")
    return digests
