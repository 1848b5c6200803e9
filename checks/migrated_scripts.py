"""Random scripts of migrated runs: segments of files are sealed, punched and restored while callers' accesses wait for them.

A script is made beside a forecast of its run. It knows the bytes of the files, what is offline, which rights are held and what
waits, so that a session can give the true bytes and fingerprints, and most accesses come to their ends. Nothing is compared with
the forecast: where it is wrong, a script only tries less.
"""

import random
from collections import namedtuple
from hashlib import sha256

import plain_replay

BLOCK = 4096
SEGMENT = 65_536
SEGMENT_BLOCKS = 16
FILE = 16_777_216
BLOCKS = 1024
# The most bytes that are given in hex. With the longest words before them a line has fewer than 4,096 bytes then.
HEX_BYTES = 1900
STEPS = 140
# The most steps to the ends of the accesses that still wait.
LAST_STEPS = 300
CALLERS = ("c1", "c2", "c3", "c7", "c64")
# The caller that reads all files at the end.
READER = "c9"
FLAGS = {"read": 1, "write": 2, "truncate": 4}
ALL = 7
# Regions of files, each with its offset, its size, 0 for no end, and its flags.
REGION_LISTS = (
    ((0, 0, ALL),),
    ((0, 0, ALL),),
    ((0, SEGMENT, ALL), (SEGMENT, 0, ALL)),
    ((0, SEGMENT, ALL),),
    ((0, SEGMENT, ALL), (2 * SEGMENT, SEGMENT, ALL)),
    ((SEGMENT, 0, ALL),),
    ((0, 2 * SEGMENT, ALL), (2 * SEGMENT, 0, 1)),
    ((0, SEGMENT, ALL), (SEGMENT, 0, 2)),
    ((0, 0, 4),),
    (),
)

# Names of files, how long they are, about which places they are accessed, how far beside them and with how many bytes, and how
# many blocks of the store other files leave.
Kind = namedtuple("Kind", "names sizes places beside lengths room")
SMALL = Kind(("a", "b"), (3, 40, 300, 1500), tuple(range(13)), 0, (1, 2, 5, 12, 40), BLOCKS)
EDGES = (0, SEGMENT - 2, SEGMENT, SEGMENT + 700, 2 * SEGMENT, 3 * SEGMENT)
LARGE = Kind(
    ("a", "b", "c"),
    (SEGMENT, SEGMENT + 700, 2 * SEGMENT, 2 * SEGMENT + 5000, 3 * SEGMENT + 1),
    EDGES,
    3,
    (1, 2, 4, 40, BLOCK, SEGMENT),
    BLOCKS,
)
KINDS = (SMALL, LARGE, LARGE, LARGE._replace(names=("a",)), LARGE._replace(names=("a", "b"), room=50))


def spelled(body):
    """The word of a line that stands for these bytes, if there is one."""
    if len(body) <= HEX_BYTES:
        return f"x:{body.hex()}"
    if plain_replay.pattern(len(body), body[0]) == body:
        return f"p:{len(body)}:{body[0]}"
    return None


def handle(file):
    return f"1.{file.inode}.{file.generation}"


def segments_of(file):
    return range(-(-len(file.body) // SEGMENT))


def segment_of(file, segment):
    return bytes(file.body[segment * SEGMENT : (segment + 1) * SEGMENT])


def meet(front, end, offset, size):
    """The range has a byte of that region or segment; size 0 is without end."""
    return front < end and offset < end and (size == 0 or front < offset + size)


def covers(regions, segment):
    return any(
        flags == ALL and offset <= segment * SEGMENT and (size == 0 or (segment + 1) * SEGMENT <= offset + size)
        for offset, size, flags in regions
    )


class Access:
    """An access of a caller. It is `issued`, and then it may be `blocked`, `posted`, `delivered`, `continued` or `aborted`."""

    def __init__(self, caller, verb, words, file):
        self.caller = caller
        self.verb = verb
        self.words = words
        self.file = file
        self.token = 0
        self.state = "issued"
        self.is_cleared = False
        self.is_spaced = False

    def reach(self):
        size = len(self.file.body)
        if self.verb == "remove":
            return 0, size
        if self.verb == "truncate":
            return min(self.words[0], size), max(self.words[0], size)
        if self.verb == "read":
            return self.words[0], min(sum(self.words), size)
        return min(self.words[0], size), self.words[0] + len(self.words[1])


class Forecast:
    """What a run has come to."""

    def __init__(self):
        self.store = plain_replay.Store()
        self.regions = {}
        self.sealed = {}
        self.offline = {}
        self.rights = {}
        self.waiting = {}
        self.tokens = 0
        self.hears_of_space = False

    def files(self):
        return list(self.store.files.values())

    def make(self, name):
        """A file of that name, where none has it."""
        if self.store.answer("create", name, ()).startswith("made"):
            file = self.store.files[name]
            self.regions[file], self.sealed[file], self.offline[file] = (), set(), set()

    def holders(self, file, token=0):
        """The other tokens that have a right on a file."""
        return sorted(holder for holder, held in self.rights if held is file and holder != token)

    def conflicts(self, access):
        holders = self.holders(access.file)
        return [token for token in holders if access.verb != "read" or self.rights[token, access.file] == "excl"]

    def needed(self, access):
        """The offline segments that an access needs, in order."""
        offline, size = sorted(self.offline[access.file]), len(access.file.body)
        if access.verb == "truncate":
            cut = min(access.words[0], size)
            return [segment for segment in offline if access.words[0] != size and cut % SEGMENT and segment == cut // SEGMENT]
        front, end = access.reach()
        return [segment for segment in offline if meet(front, end, segment * SEGMENT, SEGMENT)]

    def touches(self, access):
        front, end = access.reach()
        return any(
            flags & FLAGS[access.verb] and meet(front, end, offset, size) for offset, size, flags in self.regions[access.file]
        )

    def judge(self, access):
        """What an access comes to that is issued or goes on."""
        self.waiting[access.caller] = access
        if access.state == "aborted" or access.file not in self.files():
            del self.waiting[access.caller]
        elif self.conflicts(access):
            access.state, access.token = "blocked", 0
        elif access.verb != "remove" and (self.needed(access) if access.is_cleared else self.touches(access)):
            self.park(access)
        else:
            self.finish(access)

    def park(self, access):
        self.tokens += 1
        access.state, access.token, access.is_cleared = "posted", self.tokens, True

    def finish(self, access):
        front, end = access.reach()
        answer = self.store.act(access.file, access.verb, access.words)
        if answer.startswith("refused") and self.hears_of_space and not access.is_spaced:
            access.is_spaced = True
            self.park(access)
            return
        del self.waiting[access.caller]
        if access.verb in ("write", "truncate") and answer == "done":
            self.unseal(access.file, front, end)
        size = len(access.file.body)
        self.offline[access.file] = {segment for segment in self.offline[access.file] if segment * SEGMENT < size}

    def unseal(self, file, front, end):
        """The bytes of that range change."""
        self.sealed[file] = {segment for segment in self.sealed[file] if not meet(front, end, segment * SEGMENT, SEGMENT)}

    def seal(self, file, segment):
        if segment not in self.offline[file] and not self.holders(file):
            self.sealed[file].add(segment)

    def punch(self, file, segment):
        if segment not in self.sealed[file] or not covers(self.regions[file], segment) or self.holders(file):
            return
        blocks = slice(segment * SEGMENT_BLOCKS, (segment + 1) * SEGMENT_BLOCKS)
        self.store.used -= file.mapped[blocks].count(1)
        file.mapped[blocks] = bytes(len(file.mapped[blocks]))
        self.sealed[file].discard(segment)
        self.offline[file].add(segment)

    def restore(self, file, segment):
        blocks = slice(segment * SEGMENT_BLOCKS, (segment + 1) * SEGMENT_BLOCKS)
        count = len(file.mapped[blocks])
        if segment in self.offline[file] and self.store.used + count <= BLOCKS:
            self.store.used += count
            file.mapped[blocks] = b"\1" * count
            self.offline[file].discard(segment)
            self.sealed[file].add(segment)

    def respond(self, token):
        self.rights = {(holder, file): right for (holder, file), right in self.rights.items() if holder != token}


class Maker:
    """Draws the lines of a script. Of its two sessions the mover takes events and moves segments, and the other one holds rights."""

    def __init__(self, seed):
        self.draw = random.Random(f"migrated {seed}")
        self.kind = KINDS[seed % len(KINDS)]
        self.lines = []
        self.run = Forecast()
        self.sessions = 0
        self.mover = self.other = 0
        self.held = []
        self.copies = {}

    def say(self, line):
        self.lines.append(line)

    def move(self, call):
        self.say(f"s{self.mover} {call}")

    def chance(self, parts):
        """True once in so many times."""
        return self.draw.randrange(parts) == 0

    def file(self):
        files = [file for file in self.run.files() if file.name in self.kind.names]
        return self.draw.choice(files) if files else None

    # Sessions, tokens and rights.

    def session(self, old=0):
        """A new session, or the heir of one."""
        self.sessions += 1
        self.say(f"s0 session {old} word{self.sessions}")
        return self.sessions

    def take_kinds(self):
        """Without `nospace`, a write without room is refused and doesn't wait."""
        self.run.hears_of_space = self.chance(2)
        self.move(f"setdisp read,write,truncate{',nospace' if self.run.hears_of_space else ''}")

    def inherit(self):
        if self.chance(2):
            self.mover = self.session(self.mover)
        else:
            self.other = self.session(self.other)

    def hold(self):
        """A token of an event of its own takes a right, which may be in the way of accesses."""
        file = self.file()
        if file is None:
            return
        self.run.tokens += 1
        token, right = self.run.tokens, self.draw.choice(("shared", "excl"))
        self.held.append(token)
        self.say(f"s{self.other} userevent x:01")
        self.request(self.other, token, file, right)

    def request(self, session, token, file, right):
        self.say(f"s{session} request {token} {handle(file)} {right}")
        others = self.run.holders(file, token)
        if not any("excl" in (right, self.run.rights[other, file]) for other in others):
            self.run.rights[token, file] = right

    def let_go(self, tokens):
        """Tokens of events of sessions' own end, with their rights."""
        for token in tokens:
            if token in self.held:
                self.held.remove(token)
                self.say(f"s{self.other} respond {token} continue")
                self.run.respond(token)

    # Accesses.

    def place(self):
        return max(0, self.draw.choice(self.kind.places) + self.draw.randint(-self.kind.beside, self.kind.beside))

    def data(self, length):
        """So many bytes, which a line can give."""
        if length <= HEX_BYTES and not self.chance(4):
            return self.draw.randbytes(length)
        return plain_replay.pattern(length, self.draw.randrange(256))

    def words(self, verb, size):
        """An offset and a length, an offset and data, or a size, for a file that has such a size."""
        if verb == "remove":
            return []
        if verb == "truncate":
            return [FILE if self.chance(20) else self.place()]
        if verb == "read":
            return [self.place(), self.draw.choice(self.kind.lengths)]
        if size > HEX_BYTES and self.chance(2):
            return self.whole_segment(size)
        return [self.place(), self.data(self.draw.choice(self.kind.lengths))]

    def whole_segment(self, size):
        """A write of all bytes of a segment, after which a line can give them."""
        offset = self.draw.randrange(0, size, SEGMENT)
        return [offset, self.data(min(SEGMENT, size - offset))]

    def issue(self, caller, verb, name, words):
        texts = [spelled(word) if isinstance(word, bytes) else str(word) for word in words]
        self.say(" ".join((caller, verb, name, *texts)))
        if caller not in self.run.waiting and self.run.store.refusal(verb, name, words) is None:
            self.run.judge(Access(caller, verb, words, self.run.store.files[name]))

    def access(self):
        """An access of a caller of whom none waits, but for a few."""
        free = [caller for caller in CALLERS if caller not in self.run.waiting]
        file = self.file()
        if file is None or not free or self.chance(25):
            free = CALLERS
        name = self.draw.choice(self.kind.names) if file is None or self.chance(25) else file.name
        verb = self.draw.choice(("read",) * 11 + ("write",) * 15 + ("truncate",) * 8 + ("remove",) * 3)
        self.issue(self.draw.choice(free), verb, name, self.words(verb, len(file.body) if file else 0))

    def look(self):
        """What never waits."""
        caller, name = self.draw.choice(CALLERS), self.draw.choice(self.kind.names)
        self.say(self.draw.choice((f"{caller} stat {name}", f"{caller} stat {name}", f"{caller} sync", "store commit")))

    def make(self):
        """A name that no file has gets one, of segments that a line can give."""
        free = [caller for caller in CALLERS if caller not in self.run.waiting]
        names = [name for name in self.kind.names if name not in self.run.store.files]
        if not free or not names:
            return
        name, size = self.draw.choice(names), self.draw.choice(self.kind.sizes)
        self.say(f"{free[0]} create {name}")
        self.run.make(name)
        for offset in range(0, size, SEGMENT):
            self.issue(free[0], "write", name, [offset, self.data(min(SEGMENT, size - offset))])
        self.set_regions(self.run.store.files[name], self.draw.choice(REGION_LISTS))

    # Segments.

    def set_regions(self, file, regions):
        listed = ",".join(f"{offset}:{size}:{flags}" for offset, size, flags in regions) or "-"
        self.move(f"setregion 0 {handle(file)} {listed}")
        if not self.run.holders(file) and all(covers(regions, segment) for segment in self.run.offline[file]):
            self.run.regions[file] = regions

    def change_regions(self):
        file = self.file()
        if file is not None:
            self.set_regions(file, self.draw.choice(REGION_LISTS))

    def send_away(self):
        """A segment is sealed and punched."""
        file = self.file()
        segment = self.one_to_send(file) if file is not None else None
        if segment is None:
            return
        self.let_go(self.run.holders(file))
        if not covers(self.run.regions[file], segment):
            away = (*self.run.offline[file], segment)
            lists = [regions for regions in REGION_LISTS if all(covers(regions, one) for one in away)]
            self.set_regions(file, self.draw.choice(lists))
        self.seal(file, segment)
        if not self.chance(8):
            self.punch(file, segment)

    def punch(self, file, segment):
        self.move(f"punch 0 {handle(file)} {segment * SEGMENT} {len(segment_of(file, segment))}")
        self.run.punch(file, segment)

    def one_to_send(self, file):
        """A segment of a file, mostly one that isn't offline and that a line can give back."""
        offline = self.run.offline[file]
        segments = [segment for segment in segments_of(file) if segment not in offline or self.chance(15)]
        can_return = [segment for segment in segments if spelled(segment_of(file, segment)) is not None]
        choices = segments if self.chance(15) or not can_return else can_return
        return self.draw.choice(choices) if choices else None

    def seal(self, file, segment):
        """By the true bytes, at times after others, and at times by others alone."""
        body = segment_of(file, segment)
        seal = f"seal 0 {handle(file)} {segment} 0 {len(self.lines)}"
        if self.chance(6):
            copy = self.wrong(file, segment)
            self.copies[file, segment] = copy
            self.move(f"{seal} {len(copy)} {sha256(copy).hexdigest()}")
            if self.chance(2):
                return
        self.copies[file, segment] = body
        self.move(f"{seal} {len(body)} {sha256(body).hexdigest()}")
        self.run.seal(file, segment)

    def bring_back(self, file, segment, token=0):
        """A restore of the true bytes, where a line can give them, and before it at times one of others."""
        body = segment_of(file, segment)
        restore = f"restore {token} {handle(file)} {segment}"
        if self.chance(6):
            self.move(f"{restore} {spelled(self.wrong(file, segment))}")
        if spelled(body) is None:
            return
        self.move(f"{restore} {spelled(body)}")
        if self.run.rights.get((token, file)) == "excl" or (token == 0 and not self.run.holders(file)):
            self.run.restore(file, segment)

    def bring_old_back(self):
        """A segment whose bytes have changed since its seal, or were never those, mustn't go away, and the bytes of the seal mustn't come."""
        changed = [
            (file, segment, copy)
            for (file, segment), copy in self.copies.items()
            if file in self.run.files() and segment_of(file, segment) not in (b"", copy) and spelled(copy) is not None
        ]
        if changed:
            file, segment, copy = self.draw.choice(changed)
            self.punch(file, segment)
            self.move(f"restore 0 {handle(file)} {segment} {spelled(copy)}")

    def wrong(self, file, segment):
        """Other bytes than those of the segment: those of a seal before they changed, all but the last, a byte that is changed, a pattern."""
        body = segment_of(file, segment)
        copy = self.copies.get((file, segment), body)
        if copy != body and spelled(copy) is not None:
            return copy
        if len(body) > HEX_BYTES:
            return plain_replay.pattern(len(body) - self.draw.randrange(2), body[0] ^ 1)
        return self.draw.choice((body[:-1], bytes([body[0] ^ 1]) + body[1:]))

    def bring_any_back(self):
        """A restore that no access waits for. At times nothing is offline."""
        offline = [(file, segment) for file in self.run.files() for segment in sorted(self.run.offline[file])]
        file = self.file()
        if offline and not self.chance(3):
            self.bring_back(*self.draw.choice(offline))
        elif file is not None and file.body:
            self.bring_back(file, self.draw.choice(segments_of(file)))

    def write_invisibly(self):
        """At times into an offline segment, past the end, or beside a right: that is refused."""
        file = self.file()
        if file is None or not file.body:
            return
        offset = min(self.place(), len(file.body) - 1)
        length = min(self.draw.choice(self.kind.lengths), len(file.body) - offset + self.chance(6))
        data = self.data(length)
        self.move(f"writeinvis 0 {handle(file)} {offset} {spelled(data)}")
        segments = range(offset // SEGMENT, -(-(offset + length) // SEGMENT))
        is_here = not self.run.offline[file].intersection(segments)
        if is_here and offset + length <= len(file.body) and not self.run.holders(file):
            if self.run.store.act(file, "write", (offset, data)) == "done":
                self.run.unseal(file, offset, offset + length)
                self.read_back(file, offset)

    # Steps towards the ends of accesses.

    def deliver(self):
        self.move("getevents 0 65536")
        for access in self.run.waiting.values():
            if access.state == "posted":
                access.state = "delivered"

    def respond(self, access):
        """Mostly after its segments were brought back."""
        if self.chance(8):
            self.end(access, f"abort {self.draw.choice((1, 5, 13, 255))}")
            return
        is_there = access.file in self.run.files()
        needed = self.run.needed(access) if is_there and access.verb != "remove" else []
        if needed and any(spelled(segment_of(access.file, segment)) is None for segment in needed):
            self.end(access, "abort 13")
            return
        if needed and not self.chance(5):
            self.let_go(self.run.holders(access.file))
            token = 0 if self.chance(4) else access.token
            if token:
                self.request(self.mover, token, access.file, "excl")
            for segment in needed:
                self.bring_back(access.file, segment, token)
        self.end(access, "continue")

    def end(self, access, response):
        self.move(f"respond {access.token} {response}")
        self.run.respond(access.token)
        access.state = "continued" if response == "continue" else "aborted"

    def advance(self):
        """One step of an access that waits. At times a caller resumes too early."""
        if not self.run.waiting:
            return
        access = self.draw.choice(list(self.run.waiting.values()))
        if access.state == "posted" and not self.chance(8):
            self.deliver()
        elif access.state == "delivered" and not self.chance(8):
            self.respond(access)
        else:
            if access.state == "blocked" and not self.chance(3):
                self.let_go(self.run.conflicts(access) if access.file in self.run.files() else [])
            self.resume(access.caller)

    def resume(self, caller):
        self.say(f"{caller} resume")
        access = self.run.waiting.get(caller)
        if access is not None and access.state not in ("posted", "delivered"):
            self.run.judge(access)
            if caller not in self.run.waiting and access.verb in ("write", "truncate"):
                self.read_back(access.file, access.words[0])

    def read_back(self, file, offset):
        """Mostly, what has changed at an offset is read, before it changes again."""
        free = [caller for caller in CALLERS if caller not in self.run.waiting]
        if free and file in self.run.files() and not self.chance(3):
            self.issue(self.draw.choice(free), "read", file.name, [max(0, offset - 2), self.draw.choice((8, SEGMENT))])

    def resume_any(self):
        self.resume(self.draw.choice(CALLERS))

    # The script.

    def open(self):
        """Sessions, files, and few blocks where the kind says so."""
        for offset in range(0, (BLOCKS - self.kind.room) * BLOCK, SEGMENT):
            if offset == 0:
                self.say("c1 create rest")
                self.run.make("rest")
            self.issue("c1", "write", "rest", [offset, self.data(SEGMENT)])
        self.mover, self.other = self.session(), self.session()
        self.take_kinds()
        for _ in self.kind.names:
            self.make()
        self.send_away()

    def close(self):
        """What waits comes to its end, all segments are brought back, and all files are read."""
        self.let_go(list(self.held))
        for _ in range(LAST_STEPS):
            self.advance()
        for file in self.run.files():
            for segment in sorted(self.run.offline[file]):
                self.bring_back(file, segment)
            self.set_regions(file, ())
            self.read_all(file)

    def read_all(self, file):
        """A segment that no line can bring back isn't read."""
        self.say(f"{READER} stat {file.name}")
        for offset in range(0, min(len(file.body), 4 * SEGMENT), SEGMENT):
            self.issue(READER, "read", file.name, [offset, SEGMENT])
            if READER in self.run.waiting:
                self.deliver()
                self.end(self.run.waiting[READER], "abort 5")
                self.resume(READER)

    def script(self):
        self.open()
        turns = {
            self.access: 12,
            self.advance: 22,
            self.send_away: 7,
            self.make: 3,
            self.hold: 2,
            self.write_invisibly: 2,
            self.look: 1,
            self.bring_any_back: 2,
            self.bring_old_back: 4,
            self.change_regions: 1,
            self.resume_any: 1,
            self.inherit: 1,
            self.take_kinds: 1,
        }
        for turn in self.draw.choices(list(turns), list(turns.values()), k=self.draw.randint(STEPS // 2, STEPS)):
            turn()
        self.close()
        return self.lines


def migrated_script(seed):
    """The lines of that seed."""
    return Maker(seed).script()
