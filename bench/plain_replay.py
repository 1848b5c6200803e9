#!/usr/bin/env python3
"""The replay as a plain Python program: the baseline of bench/run, and what its transcripts and those of checks/plain are compared with.

plain_replay.py < SCRIPT             writes the transcript of a script of callers' lines
plain_replay.py SCRIPT TRANSCRIPT    tells the first line of a transcript that isn't as on files that were never moved

The first reads the whole script and checks it, then runs the lines over a dict of files, and then writes the transcript. The second
is for a run whose files were sealed, punched and restored while accesses waited. It does the accesses that the transcript says were
completed, over a dict of files that knows none of this, and compares their answers.
"""

import itertools
import math
import re
import sys
from collections import namedtuple
from hashlib import sha256

NUMBER = rb"(0|[1-9][0-9]{0,19})"
WORD = rb"([!-~]+)"
CALLER = rb"(c(?:[1-9]|[1-5][0-9]|6[0-4]))"
DATA = rb"(?:x:((?:[0-9a-f]{2})*)|p:%b:%b)" % (NUMBER, NUMBER)
LINE = re.compile(
    rb"%b (?:(create|remove|stat) %b|(truncate|read) %b %b(?: %b)?|(write) %b %b %b|(sync))"
    % (CALLER, WORD, WORD, NUMBER, NUMBER, WORD, NUMBER, DATA)
)
RESUME = re.compile(rb"%b resume" % CALLER)
# The call of sessions by which bytes of files change.
INVISIBLE = re.compile(rb"(s%b) writeinvis %b [0-9]+\.%b\.%b %b %b" % (NUMBER, NUMBER, NUMBER, NUMBER, NUMBER, DATA))
SESSION = re.compile(rb"(s%b) ([a-z]+)(?: [!-~]+)*" % NUMBER)
NAME = re.compile("[!-.0-~]{1,64}")
LINE_BYTES = 4096
LINES = 100_000
ACCESS_BYTES = 65_536
ALL_ACCESS_BYTES = 536_870_912
PATTERN_BYTES = 131_072
FILE_BYTES = 16_777_216
FILES = 64
BLOCK_BYTES = 4096
BLOCKS = 1024
GREATEST = 2**64 - 1


# The bytes of a pattern whose seed is 0: each 256 of them are 1 more than those before.
UNSEEDED = bytes((7 * place + place // 256) % 256 for place in range(PATTERN_BYTES))
patterns = {}


def pattern(length, seed):
    """The data that `p:LENGTH:SEED` stands for."""
    if seed not in patterns:
        patterns[seed] = UNSEEDED.translate(bytes((byte + seed) % 256 for byte in range(256)))
    return patterns[seed][:length]


def call_of(piece):
    """The words of the call and its number and data, or None where the line is refused."""
    if piece == b"store commit":
        return ("store", "commit")
    match = LINE.fullmatch(piece)
    if match is None or len(piece) > LINE_BYTES:
        return None
    caller, plain, plain_name, sized, sized_name, number, length, write, name, at, digits, count, seed, sync = match.groups()
    caller = caller.decode()
    if sync:
        return (caller, "sync")
    if plain:
        return (caller, plain.decode(), plain_name.decode())
    numbers = [int(word) for word in (number, length, at, count, seed) if word is not None]
    if any(word > GREATEST for word in numbers):
        return None
    if sized:
        if (sized == b"read") != (length is not None):
            return None
        return (caller, sized.decode(), sized_name.decode(), *numbers)
    data = data_of(digits, count, seed)
    return None if data is None else (caller, "write", name.decode(), int(at), data)


def data_of(digits, count, seed):
    """The bytes that are given in hex, or by a seed, or None where the line is refused."""
    if digits is not None:
        return bytes.fromhex(digits.decode())
    if int(count) > PATTERN_BYTES or int(seed) > 255:
        return None
    return pattern(int(count), int(seed))


def pieces_of(text):
    """The lines of a text without their newlines, the last of which may be missing."""
    pieces = text.split(b"\n")
    if not pieces[-1]:
        pieces.pop()
    return pieces


def parsed(text):
    """The calls of a script as tuples, or the number of the first line that is refused."""
    calls = []
    total = 0
    for number, piece in enumerate(pieces_of(text), 1):
        call = call_of(piece)
        if call is None or number > LINES:
            return number
        if call[1] == "read":
            total += min(call[4], ACCESS_BYTES)
        elif call[1] == "write":
            total += len(call[4])
        if total > ALL_ACCESS_BYTES:
            return number
        calls.append(call)
    return calls


def data_text(body):
    if not body:
        return "-"
    if len(body) <= 32:
        return body.hex()
    return f"n={len(body)} sha={sha256(body).hexdigest()}"


class File:
    """A name, a key, a body, and for each of its blocks 1 where it is mapped."""

    def __init__(self, name, inode, generation):
        self.name = name
        self.inode = inode
        self.generation = generation
        self.body = bytearray()
        self.mapped = bytearray()


class Store:
    """Files, and of so many blocks those that they use."""

    def __init__(self, blocks=BLOCKS):
        self.files = {}
        self.generation = 0
        self.blocks = blocks
        self.used = 0

    def refusal(self, verb, name, access):
        """What refuses a call by its words and the files' names."""
        if NAME.fullmatch(name) is None:
            return "BadName"
        if verb in ("read", "write"):
            length = access[1] if verb == "read" else len(access[1])
            if not 1 <= length <= ACCESS_BYTES:
                return f"BadLength {length}"
        if verb == "create":
            if name in self.files:
                return "Exists"
            return f"NoInodes {FILES}" if len(self.files) == FILES else None
        if name not in self.files:
            return "Missing"
        if verb in ("write", "truncate"):
            end = access[0] + (len(access[1]) if verb == "write" else 0)
            if end > FILE_BYTES:
                return f"TooBig {min(end, GREATEST)}"
        return None

    def answer(self, verb, name, access):
        refused = self.refusal(verb, name, access)
        if refused is not None:
            return f"refused {refused}"
        if verb == "create":
            return self.make(name)
        return self.act(self.files[name], verb, access)

    def make(self, name):
        inodes = {file.inode for file in self.files.values()}
        inode = next(number for number in range(1, FILES + 1) if number not in inodes)
        self.generation += 1
        self.files[name] = File(name, inode, self.generation)
        return f"made {inode}.{self.generation}"

    def act(self, file, verb, access):
        """A call on a file that is there."""
        if verb == "read":
            return data_text(file.body[access[0] : access[0] + access[1]])
        if verb == "stat":
            return f"size {len(file.body)}"
        if verb == "remove":
            self.used -= file.mapped.count(1)
            del self.files[file.name]
            return "done"
        return self.rewrite(file, verb, *access)

    def rewrite(self, file, verb, offset, data=b""):
        """A write or a truncate: which blocks it touches, and then the body and the blocks after it."""
        size, end = len(file.body), offset + len(data)
        first, last = (offset // BLOCK_BYTES, -(-end // BLOCK_BYTES)) if verb == "write" else (0, 0)
        old_end = size // BLOCK_BYTES
        touches_old_end = end > size and size % BLOCK_BYTES != 0 and not first <= old_end < last
        need, free = last - first + touches_old_end, self.blocks - self.used
        if need > free:
            return f"refused NoSpace {need} {free}"
        new_size = max(size, end) if verb == "write" else end
        self.used -= file.mapped[-(-new_size // BLOCK_BYTES) :].count(1)
        fit(file.body, new_size)
        fit(file.mapped, -(-new_size // BLOCK_BYTES))
        file.body[offset : offset + len(data)] = data
        if touches_old_end:
            self.used += not file.mapped[old_end]
            file.mapped[old_end] = 1
        self.used += file.mapped[first:last].count(0)
        file.mapped[first:last] = b"\1" * (last - first)
        return "done"


def fit(items, size):
    """Cuts to that size, or lengthens by zeros."""
    del items[size:]
    items.extend(bytes(size - len(items)))


def replayed(calls):
    """The transcript's lines."""
    store = Store()
    lines = []
    for caller, verb, *words in calls:
        if not words:
            lines.append(f"{caller} {verb} = done\n")
            continue
        name, *access = words
        answer = store.answer(verb, name, access)
        lines.append(f"{caller} {verb} {words_text(words)} = {answer}\n")
    return lines


def words_text(words):
    return " ".join(data_text(word) if isinstance(word, bytes) else str(word) for word in words)


# Migrated runs.


def migrated_call_of(piece):
    """What `call_of` gives, and that of a resume and of a session's line, which is no more than its verb and what it writes."""
    if resume := RESUME.fullmatch(piece):
        return (resume[1].decode(), "resume")
    if invisible := INVISIBLE.fullmatch(piece):
        session, _, _, inode, generation, offset, digits, count, seed = invisible.groups()
        data = data_of(digits, count, seed)
        return None if data is None else (session.decode(), "writeinvis", int(inode), int(generation), int(offset), data)
    if session := SESSION.fullmatch(piece):
        return (session[1].decode(), session[3].decode())
    return call_of(piece)


# An access that waits: what it asks of which file, and the number of its line.
Access = namedtuple("Access", "file verb words line")
# An access that waited and was completed: the handle of its file, its verb, the numbers of its line and of the resume, and the answer.
Resumed = namedtuple("Resumed", "handle verb begun ended answer")
# A line of a transcript that isn't as on files that were never moved.
Difference = namedtuple("Difference", "line wanted told")

# The answers by which an access isn't completed, and the calls that may have them.
DATA_VERBS = ("read", "write", "truncate")
UNDONE = {
    "parked": DATA_VERBS,
    "blocked": (*DATA_VERBS, "remove"),
    "refused NoSpace": ("write", "truncate"),
}
WAITS = ("parked", "blocked")
ENDED_BY_RESPONSE = ("refused Aborted", "refused Media")
# Answers that any call may have, and that say nothing of files.
FAULTS = ("refused Disk", "refused Memory")


def kind_of(answer):
    """An answer without what it tells, where it isn't data."""
    words = answer.split(" ")
    return " ".join(words[: 2 if words[0] == "refused" else 1])


class Fold:
    """The files of a migrated run as if they were never moved. There is always room: it is the run that knows which blocks are free."""

    def __init__(self):
        self.store = Store(blocks=math.inf)
        self.waiting = {}
        self.resumed = []
        self.completed = 0
        self.line = 0

    def wanted(self, call, told):
        """What a line has to be answered, by what the transcript tells of it: just this where the files don't say."""
        actor, verb, *words = call
        self.line += 1
        if kind_of(told) in FAULTS:
            return told
        if verb == "resume":
            return self.resume(actor, told)
        if verb == "writeinvis":
            return self.write_invisibly(*words) if told == "done" else told
        if actor == "store":
            return "done"
        return told if actor[0] == "s" else self.issue(actor, verb, words, told)

    def issue(self, caller, verb, words, told):
        if caller in self.waiting:
            return "refused Waiting"
        if not words:
            return "done"
        name, *access = words
        kind = kind_of(told)
        refused = self.store.refusal(verb, name, access)
        if refused is None and verb in UNDONE.get(kind, ()):
            if kind in WAITS:
                self.waiting[caller] = Access(self.store.files[name], verb, access, self.line)
            return told
        self.completed += 1
        return self.store.answer(verb, name, access)

    def resume(self, caller, told):
        """What waits has its file by its key: not another one that has the name by now."""
        access = self.waiting.get(caller)
        if access is None:
            return "refused Idle"
        kind = kind_of(told)
        is_there = self.store.files.get(access.file.name) is access.file
        is_undone = is_there and access.verb in UNDONE.get(kind, ())
        if kind == "still" or (is_undone and kind in WAITS):
            return told
        del self.waiting[caller]
        if is_undone or kind in ENDED_BY_RESPONSE:
            return told
        answer = self.store.act(access.file, access.verb, access.words) if is_there else "refused Missing"
        handle = f"1.{access.file.inode}.{access.file.generation}"
        self.resumed.append(Resumed(handle, access.verb, access.line, self.line, answer))
        self.completed += 1
        return answer

    def write_invisibly(self, inode, generation, offset, data):
        """Only where the file is there and doesn't grow may a session's write be done."""
        files = (file for file in self.store.files.values() if (file.inode, file.generation) == (inode, generation))
        file = next(files, None)
        if file is None:
            return "refused NoObject"
        if offset + len(data) > len(file.body):
            return "refused BadRange"
        return self.store.act(file, "write", (offset, data))


def wanted_line(fold, piece, told):
    """The line of a transcript for that line of a script. What a session's line asks isn't compared."""
    call = migrated_call_of(piece)
    if call is None:
        return "(the plain program doesn't know the line of the script)"
    action, _, answer = told.rpartition(" = ")
    actor, verb, *words = call
    wanted = fold.wanted(call, answer)
    if actor[0] == "s" and actor != "store":
        asked = action if action.split(" ")[:2] == [actor, verb] else f"{actor} {verb}"
    else:
        asked = f"{actor} {verb} {words_text(words)}" if words else f"{actor} {verb}"
    return f"{asked} = {wanted}"


def difference_of(script, transcript, fold):
    """The first line of a transcript that isn't as on files that were never moved, if there is one. The fold knows what was compared."""
    pairs = itertools.zip_longest(pieces_of(script), pieces_of(transcript), fillvalue=b"")
    for line, (piece, told) in enumerate(pairs, 1):
        told = told.decode("ascii", "backslashreplace")
        wanted = wanted_line(fold, piece, told) if piece else "(the script is at its end)"
        if told != wanted:
            return Difference(line, wanted, told or "(the transcript is at its end)")
    return None


def compare(script, transcript):
    """Compares the files of these paths, and says so."""
    fold = Fold()
    texts = []
    for path in (script, transcript):
        with open(path, "rb") as file:
            texts.append(file.read())
    difference = difference_of(*texts, fold)
    if difference is None:
        print(f"{fold.completed} accesses completed, {len(fold.resumed)} of which had waited: as on files that were never moved")
        return 0
    print(f"line {difference.line} differs\n  never moved: {difference.wanted}\n  transcript: {difference.told}")
    return 1


def main():
    if len(sys.argv) == 3:
        return compare(*sys.argv[1:])
    calls = parsed(sys.stdin.buffer.read())
    if isinstance(calls, int):
        print(f"hsm: script refused at line {calls}", file=sys.stderr)
        return 1
    sys.stdout.write("".join(replayed(calls)))
    return 0


if __name__ == "__main__":
    sys.exit(main())
