"""The lines of a script and of a transcript, as docs/FORMATS.md has them (The script, The transcript)."""

import re
from functools import lru_cache
from hashlib import sha256
from typing import NamedTuple

LINE_BYTES = 4096
LINES = 100_000
ACCESS = 65_536
ALL_ACCESS_BYTES = 536_870_912
PATTERN_BYTES = 131_072
LINE_REGIONS = 64
SHORT_BYTES = 32
CALLERS = 64
GREATEST = 2**64 - 1
GREATEST_OF_32 = 2**32 - 1
KINDS = ("read", "write", "truncate", "nospace")
DAEMONS = ("recall", "migrate")

# The verbs of lines by the parts that stand behind them.
VERBS = {
    "": "resume sync commit sessions destroy disp tokens space table",
    "name": "create remove stat handle",
    "name offset length": "read",
    "name offset data": "write",
    "name size": "truncate",
    "old info": "session",
    "sid": "query",
    "sid data": "send",
    "kinds": "setdisp",
    "most room": "getevents",
    "token room": "findmsg",
    "token response": "respond",
    "data": "userevent",
    "token handle": "release right upgrade downgrade fileattr getregion attrs alloc",
    "token handle right": "request",
    "token handle regions": "setregion",
    "token handle attribute": "getattr rmattr",
    "token handle attribute data": "setattr",
    "token handle offset length": "readinvis punch probe",
    "token handle offset data": "writeinvis",
    "token handle segment data": "restore",
    "token handle segment volume object count digest": "seal",
}
FORMS = {verb: tuple(parts.split()) for parts, verbs in VERBS.items() for verb in verbs.split()}
OF_CALLERS = ("create", "read", "write", "truncate", "remove", "stat", "resume", "sync")
OF_NO_SESSION = ("session", "sessions", "query")
OF_SESSIONS = tuple(verb for verb in FORMS if verb not in (*OF_CALLERS, *OF_NO_SESSION, "commit"))

WORDS = re.compile(rb"[!-~]+(?: [!-~]+)*")
NUMBER = re.compile("0|[1-9][0-9]{0,19}")
DIGITS = re.compile("(?:[0-9a-f]{2})*")


class Call:
    """A line that is an entry: who asks, the verb, and its parts under their names. `session` is the number behind an `s`."""

    def __init__(self, actor, verb, **parts):
        self.actor = actor
        self.verb = verb
        self.session = int(actor[1:]) if actor[0] == "s" and actor != "store" else None
        self.token = self.handle = None
        self.__dict__.update(parts)


class DaemonLine(NamedTuple):
    """A line that is none: `start`, `kill` and `step` have a daemon, and `settle` has none."""

    verb: str
    daemon: str | None = None


# Reading. What isn't of the grammar is a ValueError.


def demand(is_so):
    if not is_so:
        raise ValueError


def number(word, most=GREATEST):
    demand(NUMBER.fullmatch(word) and int(word) <= most)
    return int(word)


def numbers(word, mark, count):
    """So many numbers with a mark between each two."""
    found = tuple(map(number, word.split(mark)))
    demand(len(found) == count)
    return found


def hexadecimal(word, count=None):
    """The bytes of digits, of which there are `count` where that is told."""
    demand(DIGITS.fullmatch(word) and count in (None, len(word)))
    return bytes.fromhex(word)


# The pattern of the seed 0, from which each other one comes by adding the seed.
UNSEEDED = bytes((7 * place + place // 256) % 256 for place in range(PATTERN_BYTES))


@lru_cache(maxsize=256)
def pattern(length, seed):
    """The bytes that p:LENGTH:SEED stands for."""
    return UNSEEDED[:length].translate(bytes((byte + seed) % 256 for byte in range(256)))


def data_of(word):
    form, mark, rest = word.partition(":")
    if form + mark == "x:":
        return hexadecimal(rest)
    length, seed = numbers(rest, ":", 2)
    demand(form == "p" and length <= PATTERN_BYTES and seed <= 255)
    return pattern(length, seed)


def kinds_of(word):
    kinds = () if word == "-" else tuple(word.split(","))
    demand(kinds == tuple(kind for kind in KINDS if kind in kinds))
    return kinds


def regions_of(word):
    regions = () if word == "-" else tuple(numbers(region, ":", 3) for region in word.split(","))
    demand(len(regions) <= LINE_REGIONS and all(flags <= 255 for _, _, flags in regions))
    return regions


def right_of(word):
    demand(word in ("shared", "excl"))
    return word


def response_of(words):
    verb, _, error = words.partition(" ")
    demand(words == "continue" or verb == "abort" and number(error, GREATEST_OF_32) is not None)
    return words


READERS = {
    "name": str,
    "info": str,
    "data": data_of,
    "kinds": kinds_of,
    "regions": regions_of,
    "right": right_of,
    "response": response_of,
    "handle": lambda word: numbers(word, ".", 3),
    "attribute": lambda word: hexadecimal(word, 16),
    "digest": lambda word: hexadecimal(word, 64),
}
READERS |= dict.fromkeys(("most", "room", "segment", "volume", "object", "count"), lambda word: number(word, GREATEST_OF_32))


def line_of(piece):
    """The call or the line of a daemon that a piece of a script is, without its newline."""
    demand(len(piece) <= LINE_BYTES and WORDS.fullmatch(piece))
    first, *words = piece.decode("ascii").split(" ")
    if first in ("start", "kill", "step"):
        demand(len(words) == 1 and words[0] in DAEMONS)
        return DaemonLine(first, words[0])
    if [first, *words] == ["settle"]:
        return DaemonLine("settle")
    demand(words and words[0] in verbs_of(first))
    verb, *words = words
    if verb == "respond":
        words = [*words[:1], " ".join(words[1:])]
    demand(len(words) == len(FORMS[verb]))
    return Call(first, verb, **{part: READERS.get(part, number)(word) for part, word in zip(FORMS[verb], words)})


def verbs_of(actor):
    """The verbs of the lines of an actor."""
    if actor == "store":
        return ("commit",)
    demand(actor[0] in "cs")
    place = number(actor[1:])
    if actor[0] == "c":
        return OF_CALLERS if 1 <= place <= CALLERS else ()
    return OF_SESSIONS if place else OF_SESSIONS + OF_NO_SESSION


def accessed(line):
    """How many bytes of accesses a line counts."""
    return min(line.length, ACCESS) if line.verb in ("read", "readinvis") else len(getattr(line, "data", b""))


class BadLine(Exception):
    """The number of the first line that refuses a script."""


def parsed(text):
    """The lines of a script."""
    pieces = text.split(b"\n")
    if not pieces[-1]:
        pieces.pop()
    lines, total = [], 0
    for place, piece in enumerate(pieces, 1):
        try:
            lines.append(line_of(piece))
            total += accessed(lines[-1])
            demand(total <= ALL_ACCESS_BYTES and place <= LINES)
        except ValueError:
            raise BadLine(place) from None
    return lines


# Writing, as a transcript has it.


@lru_cache(maxsize=256)
def digest_of(data):
    """The SHA-256. Of the same segment it is asked again and again."""
    return sha256(data).digest()


def data_text(data):
    if not data:
        return "-"
    return data.hex() if len(data) <= SHORT_BYTES else f"n={len(data)} sha={digest_of(data).hex()}"


def regions_text(regions):
    return ",".join(":".join(map(str, region)) for region in regions) or "-"


def kinds_text(kinds):
    return ",".join(kind for kind in KINDS if kind in kinds) or "-"


def handle_text(handle):
    return ".".join(map(str, handle))


WRITERS = {"data": data_text, "regions": regions_text, "kinds": kinds_text, "handle": handle_text, "attribute": bytes.hex, "digest": bytes.hex}


def text_of(call):
    """The words of a call as its entry has them, before the answer."""
    words = (WRITERS.get(part, str)(getattr(call, part)) for part in FORMS[call.verb])
    return " ".join((call.actor, call.verb, *words))
