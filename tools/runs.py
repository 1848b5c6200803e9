"""What the tools have in common beside the reading of stores: their words, their progress, runs of the program, and what a transcript tells.
"""

import argparse
import os
import re
import signal
import subprocess
import sys
import tempfile
import time
from collections.abc import Callable, Iterable, Iterator
from dataclasses import dataclass, field
from pathlib import Path

from stores import BLOCK, SEGMENT, SERVED, Entry, File, Refused, Store, Volumes, open_store

MOST_LINES = 100_000
MOST_ACCESSED = 536_870_912
HIGH, LOW = 80, 60
# The most steps that a segment takes, and how many lines of a pass are steps at most.
MOST_STEPS = 6
MOST_PASS_LINES = 40_000
CAPACITY = 67_108_864

DONE, FOUND, REFUSED = 0, 1, 2
# The program's status where it refused the script, and ran nothing of it.
SCRIPT_REFUSED = 1


# ---- words, progress and ends


class Words(argparse.ArgumentParser):
    """A reader of words, in which options may stand between the others."""

    def parse_args(self, args=None, namespace=None):
        return self.parse_intermixed_args(args, namespace)


def words(about: str, statuses: str) -> Words:
    """A reader of words. The statuses stand behind the options in the help."""
    parser = Words(description=about, epilog=statuses, formatter_class=argparse.RawDescriptionHelpFormatter, allow_abbrev=False)
    parser.add_argument("--progress", action="store_true", help="tell of long work on standard error, also where that is no terminal")
    return parser


def with_store(parser: Words) -> None:
    parser.add_argument("store", metavar="STORE", help="the file of the store")
    parser.add_argument("volumes", metavar="VOLUMES", help="the folder of its volumes")


def with_program(parser: Words) -> None:
    parser.add_argument("--program", metavar="PATH", help="the program hsm, else the launcher beside the folder of the tools")
    parser.add_argument("--log", metavar="FILE", help="where the transcript goes; a file that is there is never written over")
    parser.add_argument("--new-volumes", action="store_true", help="make the folder of volumes where it isn't there: for a store that has no copy yet")
    parser.add_argument("--all-dead", action="store_true", help="take a folder of volumes that has objects, though the store names none of them")


class Progress:
    """Tells on standard error how far long work has come."""

    def __init__(self, what: str, total: int, unit: str, forced: bool) -> None:
        self.what, self.total, self.unit = what, total, unit
        self.done = 0
        self.terminal = sys.stderr.isatty()
        self.on = forced or self.terminal
        self.told = time.monotonic() if self.terminal else 0.0

    def __enter__(self) -> "Progress":
        return self

    def __exit__(self, *_: object) -> None:
        if self.on and self.terminal:
            sys.stderr.write("\r\x1b[K")

    def add(self, count: int) -> None:
        self.done += count
        now = time.monotonic()
        if self.on and now - self.told > 0.5:
            self.told = now
            text = f"{self.what}: {self.done:,} {f'of {self.total:,} ' if self.total else ''}{self.unit}"
            sys.stderr.write(f"\r{text}\x1b[K" if self.terminal else f"{text}\n")
            sys.stderr.flush()


def say(text: object) -> None:
    """Tells on standard error."""
    print(text, file=sys.stderr, flush=True)


def ended(tool: str, main: Callable[[], int]) -> None:
    """Ends a tool with its status. What is refused is told, each line with the tool's name in front."""
    try:
        status = main()
        sys.stdout.flush()
    except BrokenPipeError:
        os.dup2(os.open(os.devnull, os.O_WRONLY), sys.stdout.fileno())
        status = status_of(-signal.SIGPIPE)
    except KeyboardInterrupt:
        status = status_of(-signal.SIGINT)
    except (Refused, OSError) as refused:
        for line in str(refused).splitlines():
            say(f"{tool}: {line}")
        status = REFUSED
    sys.exit(status)


# ---- what is tested before a run


def count(number: int, what: str) -> str:
    """A number with its noun."""
    return f"{number:,} {what}{'' if number == 1 else 's'}"


def named(entries: Iterable[tuple[File, Entry]]) -> Iterator[tuple[str, Entry]]:
    """Entries, each with the segment that has it."""
    return ((f"{file.name}: segment {entry.segment}", entry) for file, entry in entries)


def told_bad(what: str, entries: Iterable[tuple[str, Entry]], volumes: Volumes, forced: bool) -> list[str]:
    """What is wrong with the objects of these entries, each behind the text that is given with it."""
    listed, told = list(entries), []
    with Progress(f"{what}: looking at objects", len(listed), "objects", forced) as progress:
        for text, entry in listed:
            why = volumes.state(entry)
            if why != "intact":
                told.append(f"{text}: object {entry.volume}.{entry.object} is {why}")
            progress.add(1)
    return told


def bad_after(what: str, path: str, volumes: Volumes, forced: bool) -> list[str]:
    """What is wrong with the objects of a store's entries after a run, or why nobody can tell."""
    try:
        with open_store(path) as store:
            return told_bad(what, named(store.entries()), volumes, forced)
    except (Refused, OSError) as refused:
        return [f"the entries weren't looked at again: {refused}"]


def check_words(store: str, volumes: str) -> None:
    """Refuses what the program would not take for a path."""
    for word in (store, volumes):
        if not word or word.startswith("-"):
            raise Refused(f"{word!r} can't name a store or a folder: write ./{word}" if word else "a path is empty")


def wrong_objects(words, volumes: Volumes, store: Store) -> list[str]:
    """What is wrong where a folder has objects and the store names none: it may be another store's folder."""
    objects = 0 if words.all_dead or any(store.entries()) else len(volumes.objects())
    text = f"{volumes.folder} has {count(objects, 'object')}, and {store.path} names none: is it the right store? --all-dead takes it"
    return [text] if objects else []


def wrong_folder(words, volumes: Volumes, store: Store) -> list[str]:
    """What is wrong with a folder of volumes. A new one may be missing, but not the folder that it is to be in, and no store has copies in one."""
    folder = volumes.folder
    if folder.is_dir():
        return wrong_objects(words, volumes, store) if os.access(folder, os.R_OK | os.W_OK | os.X_OK) else [f"{folder}: can't be read and written"]
    if os.path.lexists(folder):
        return [f"{folder}: not a folder"]
    if not words.new_volumes:
        return [f"{folder}: there is no such folder of volumes; --new-volumes makes one"]
    if any(store.entries()):
        return [f"{folder}: there is no such folder of volumes, and the store has copies in another one; --new-volumes is for a store without copies"]
    return [] if os.access(folder_of(folder), os.W_OK | os.X_OK) else [f"{folder}: can't be made in {folder_of(folder)}"]


def check_room(needs: list[tuple[Path, int]]) -> None:
    """Refuses where a file system has less room than what is to be written into these folders takes."""
    wanted: dict[int, int] = {}
    for folder, size in needs:
        device = os.stat(folder).st_dev
        wanted[device] = wanted.get(device, 0) + size
    for folder, _ in needs:
        found = os.statvfs(folder)
        free = found.f_bavail * found.f_frsize
        if wanted[os.stat(folder).st_dev] > free:
            raise Refused(f"{folder}: about {wanted[os.stat(folder).st_dev]:,} bytes of room are needed there, and {free:,} are free")


def unwritten(store: Store) -> int:
    """How many bytes a sparse store may still grow by in its file system."""
    return max(0, store.geometry.length - os.fstat(store.file).st_blocks * 512)


def folder_of(path: str | Path) -> Path:
    """The folder that a file is in, or is to be in."""
    return Path(os.path.abspath(path)).parent


# ---- the program


def program_of(chosen: str | None) -> str:
    """The program that was chosen, or the launcher beside the folder of the tools, as that folder was called or as it is."""
    called, own = Path(os.path.abspath(sys.argv[0])), Path(__file__).resolve()
    paths = [Path(chosen)] if chosen else [called.parent.parent / "hsm", own.parent.parent / "hsm"]
    for path in paths:
        if path.is_file() and os.access(path, os.X_OK):
            return os.path.abspath(path)
    raise Refused(f"{paths[-1]}: there is no such program")


def dated(store: str) -> str:
    """A name for a log beside the store that no file has."""
    stem = f"{store}.{time.strftime('%Y%m%d-%H%M%S')}"
    names = (f"{stem}{more}.log" for more in ("", *(f"-{number}" for number in range(2, 1000))))
    return next(name for name in names if not os.path.lexists(name))


def check_new(path: str | None) -> None:
    """Refuses a file to be written that is there, or that can't be made."""
    if path and os.path.lexists(path):
        raise Refused(f"{path}: is there already, and isn't written over")
    if path and not os.access(folder_of(path), os.W_OK | os.X_OK):
        raise Refused(f"{path}: can't be made in {folder_of(path)}")


def lies_in(path: str | Path, folder: str) -> bool:
    """Whether a file lies below a folder, or would, all links followed."""
    return Path(os.path.realpath(path)).is_relative_to(os.path.realpath(folder))


def check_outside(path: str | None, folder: str) -> None:
    """Refuses a file to be written that would lie among the objects."""
    if path and lies_in(path, folder):
        raise Refused(f"{path}: would lie in the folder of volumes")


def new_file(path: str | Path):
    """A file that wasn't there."""
    try:
        return open(path, "xb")
    except FileExistsError:
        raise Refused(f"{path}: is there already, and isn't written over") from None
    except OSError as error:
        raise Refused(f"{path}: {error.strerror}") from None


def spooled(pieces: Iterable[bytes], log: str):
    """A script as a file without a name, beside the log. So none is run in part where the tool is killed while it makes one."""
    script = tempfile.TemporaryFile(dir=folder_of(log))
    for piece in pieces:
        script.write(piece)
    script.flush()
    script.seek(0)
    return script


def status_of(code: int) -> int:
    """The status that a shell would tell: 128 and the signal for what was killed."""
    return code if code >= 0 else 128 - code


# ---- the transcript

WAITS = (b"parked ", b"blocked ", b"still ")
MEMBER = re.compile(rb"s0 session \d+ HSMMIGRATE = session (\d+)")
READ = re.compile(rb"s(\d+) readinvis 0 (\S+) (\d+) \d+ = (?!refused|-$)")
SEAL = re.compile(rb"s\d+ seal 0 (\S+) (\d+) .* = (.*)")
COMMITTED = b"store commit = done"
# Signals that end a tool.
ENDING = (signal.SIGINT, signal.SIGTERM, signal.SIGHUP)


@dataclass(frozen=True)
class Finding:
    line: int
    kind: str
    text: str

    def __str__(self) -> str:
        return f"{self.line}: {self.kind}: {self.text}"


def text_of(line: bytes) -> str:
    return line.decode("ascii", "backslashreplace")


@dataclass
class Judge:
    """What a transcript says went wrong, as its lines come."""

    lines: int = 0
    last: bytes = b""
    found: list[Finding] = field(default_factory=list)
    waiting: dict[bytes, tuple[int, bytes]] = field(default_factory=dict)
    copying: dict[tuple[bytes, int], tuple[int, bytes]] = field(default_factory=dict)
    members: set[bytes] = field(default_factory=set)

    def hear(self, line: bytes) -> None:
        self.lines += 1
        self.last = line
        if line.startswith(b"c"):
            self.hear_caller(line)
        elif line.startswith(b"s"):
            self.hear_session(line)

    def tell(self, kind: str, line: bytes) -> None:
        self.found.append(Finding(self.lines, kind, text_of(line)))

    def hear_caller(self, line: bytes) -> None:
        call, _, answer = line.partition(b" = ")
        caller = call.partition(b" ")[0]
        if answer.startswith(WAITS):
            self.waiting.setdefault(caller, (self.lines, line))
            return
        begun = self.waiting.get(caller)
        if answer.startswith(b"refused "):
            which = f", of line {begun[0]}, {text_of(begun[1].partition(b' = ')[0])}" if begun and call.endswith(b" resume") else ""
            self.found.append(Finding(self.lines, "refused", f"{text_of(line)}{which}"))
        if call.endswith(b" resume"):
            self.waiting.pop(caller, None)

    def hear_session(self, line: bytes) -> None:
        if b" readinvis " in line[:40]:
            read = READ.match(line)
            if read and read[1] in self.members:
                self.copying[read[2], int(read[3]) // SEGMENT] = (self.lines, line)
        elif b" seal " in line[:40]:
            seal = SEAL.match(line)
            if seal and seal[3] == b"done":
                self.copying.pop((seal[1], int(seal[2])), None)
            elif seal:
                self.tell("seal refused", line)
        elif b" writeinvis " in line[:40]:
            if line.partition(b" = ")[2].startswith(b"refused "):
                self.tell("refused", line)
        elif line.startswith(b"s0 session"):
            member = MEMBER.fullmatch(line)
            if member:
                self.members.add(member[1])

    def end(self) -> list[Finding]:
        """All that was found, by line."""
        self.found += [Finding(number, "waits at the end", text_of(line)) for number, line in self.waiting.values()]
        self.found += [Finding(number, "read, and not sealed", text_of(line)) for number, line in self.copying.values()]
        if self.last != COMMITTED:
            self.found.append(Finding(self.lines, "the last line isn't store commit = done", text_of(self.last)))
        return sorted(self.found, key=lambda finding: finding.line)


def judge(path: str) -> tuple[int, list[Finding]]:
    """The lines of a transcript, and what they say went wrong."""
    judge = Judge()
    with open(path, "rb") as transcript:
        for line in transcript:
            judge.hear(line.rstrip(b"\n"))
    return judge.lines, judge.end()


def run_to_end(command: list[str], script, out) -> int:
    """Runs the program to its end, and gives its code. A signal that would end the tool goes on to the run. Where that ends well all the same, the tool
    ends by the signal."""
    child, came = None, []

    def pass_on(number: int, _: object) -> None:
        came.append(number)
        if child:
            child.send_signal(number)

    kept = {number: signal.signal(number, pass_on) for number in ENDING if signal.getsignal(number) is not signal.SIG_IGN}
    try:
        child = subprocess.Popen(command, stdin=script, stdout=out)
        if came:
            child.send_signal(came[0])
        code = child.wait()
    finally:
        for number, handler in kept.items():
            signal.signal(number, handler)
    if came and not code:
        signal.raise_signal(came[0])
    return code


def logged_run(program: str, store: str, volumes: str, script, log: str) -> tuple[int, int, list[Finding]]:
    """Runs a script from a file, with its transcript in a new one. Gives the status, the transcript's lines, and what it tells. One without a line is no file."""
    status = REFUSED
    os.lseek(script.fileno(), 0, os.SEEK_SET)
    try:
        with new_file(log) as out:
            status = status_of(run_to_end([program, "replay", store, volumes], script, out))
    finally:
        if status and not os.path.getsize(log):
            os.unlink(log)
    return status, *(judge(log) if os.path.exists(log) else (0, []))


def tell(path: str, lines: int, found: list[Finding], more: int = 0) -> None:
    """Writes what was found in a transcript, and the sum, with so many findings more."""
    for finding in found:
        print(f"{path}:{finding}")
    print(f"{path}: {count(lines, 'line')}, {count(len(found) + more, 'finding')}")


# ---- migration


@dataclass
class Body:
    """What migration goes by of a file: its key, when it was last used, whether a region covers its segments, and of each segment how many blocks are
    mapped, and whether it is sealed, and what its last segment has in bytes."""

    inode: int
    generation: int
    covered: bool
    blocks: dict[int, int]
    entries: set[int]
    size: int
    stamp: int = 0

    def length(self, segment: int) -> int:
        return min(SEGMENT, self.size - segment * SEGMENT)


def body(file: File) -> Body:
    """A file of a store as it is at a run's beginning."""
    blocks: dict[int, int] = {}
    for block, _ in file.extents:
        segment = block * BLOCK // SEGMENT
        blocks[segment] = blocks.get(segment, 0) + 1
    covered = all(file.covers(segment) for segment in blocks)
    return Body(file.inode, file.generation, covered, blocks, {entry.segment for entry in file.entries}, file.size)


@dataclass
class Space:
    """The blocks, entries and volumes that migration finds in a run."""

    total: int
    used: int
    most_entries: int
    entries: int
    free: list[int]
    started: bool = False

    @property
    def above(self) -> bool:
        return self.used > self.total * HIGH // 100

    def __str__(self) -> str:
        used = f"{self.used:,} of {self.total:,} blocks and {self.entries:,} of {self.most_entries:,} stub entries are used"
        return f"{used}, and volumes have room for {sum(self.free):,} bytes"

    def copies(self, length: int) -> bool:
        """Whether a segment of so many bytes finds an entry and a volume, which it takes."""
        for volume, free in enumerate(self.free):
            if free >= length and self.entries < self.most_entries:
                self.free[volume] -= length
                self.entries += 1
                return True
        return False


def space(store: Store, volumes: Volumes) -> Space:
    free = [CAPACITY] * SERVED
    for volume, number in volumes.objects():
        if volume < SERVED:
            free[volume] -= volumes.size(volume, number)
    return Space(store.geometry.blocks, store.used, store.geometry.most_entries, sum(len(file.entries) for file in store.files.values()), free)


def candidates(bodies: Iterable[Body]) -> list[tuple[int, int, int, int, Body]]:
    """The segments that may go, in the order of a pass."""
    return sorted(((body.stamp, body.inode, body.generation, segment, body) for body in bodies for segment in body.blocks), key=lambda found: found[:4])


def steps_of(body: Body, segment: int) -> int:
    """How many steps it takes to make this segment offline: to ask for the regions, to set one, to read, copy and seal, and to punch."""
    return 1 + (0 if body.covered else 1) + (1 if segment in body.entries else 4)


def passed(space: Space, bodies: Iterable[Body]) -> Iterator[int]:
    """Does in the model what a pass does, and gives for each segment how many steps it takes."""
    low = space.total * LOW // 100
    for _, _, _, segment, body in candidates(bodies):
        if space.used <= low:
            return
        if segment not in body.entries and not space.copies(72 + body.length(segment)):
            return
        yield steps_of(body, segment)
        space.used -= body.blocks.pop(segment)
        body.covered = True
        body.entries.add(segment)


def pass_lines(space: Space, bodies: Iterable[Body], each: int) -> list[str]:
    """The lines of a pass in steps, with a commit after each so many segments, so that a kill leaves at most about as many copies to nobody. There are none
    where nothing can go."""
    segments = list(passed(space, bodies))
    if not segments:
        return []
    lines = [] if space.started else ["start migrate", *["step migrate"] * 3]
    space.started = True
    # It rests, asks for the space, for events and for the table.
    lines += ["step migrate"] * 4
    for number, steps in enumerate(segments, 1):
        if len(lines) > MOST_PASS_LINES:
            # What is left the settle does.
            break
        lines += ["step migrate"] * steps
        if number % each == 0:
            lines.append("store commit")
    return [*lines, "settle", "store commit"]
