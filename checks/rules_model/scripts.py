"""Random scripts. A maker runs each line over the model, so that the later ones can meet what is there then. Nothing is judged by that
run: where a program goes on otherwise, the script only tries less."""

import random

from . import daemons
from .files import BLOCK, FILE, SEGMENT, needed, numbers_of, print_of, print_text
from .run import Run
from .script import ACCESS, DAEMONS, FORMS, GREATEST, KINDS, OF_CALLERS, OF_NO_SESSION, handle_text, line_of, pattern
from .store import BLOCKS, FSID, MESSAGE_BYTES, ON_TOKENS, SESSIONS

NAMES = ("a", "b", "c", "d", "n" * 64)
BAD_NAMES = ("none", "a/b", "n" * 65)
INFOS = ("own", "HSMRECALL", "HSMMIGRATE")
# What those parts of lines are drawn from that go by nothing else. What stands twice is taken twice as often.
CHOICES = {
    "info": (*INFOS, "own", "i" * 257),
    "kinds": ("-", "read", "write,truncate", "nospace", "read,write,truncate", "read,write,truncate,nospace"),
    "most": (0, 0, 1, 2),
    "room": (65_536, 65_536, 4096, 128, 64, 63, 0),
    "response": (*["continue"] * 6, "abort 13", "abort 255", "abort 0", "abort 256"),
    "right": ("shared", "excl"),
    "regions": (*["0:0:7"] * 5, *"- 0:0:3 0:65536:7 65536:0:7 0:131072:7 0:10:1,20:0:6 0:4096:3,8192:0:7 5:10:7,0:1:1 0:0:1,70000:9:1 0:0:8".split()),
    "attribute": ("6e6f746500000000", "0" * 16, "48534d0000000000", "f" * 16),
    "volume": (*[0] * 8, 1, 7, 8, 255, 256),
    "object": (0, 0, 1, 2, 3, 9, 60),
}
# The most bytes in hex, with which a line is short enough.
HEX_BYTES = 1900
CROWDED = 830
# The most steps after which a hostile script kills a daemon.
MOST_STEPS = 30


def spelled(data):
    """The word for these bytes, if one is short enough."""
    if len(data) <= HEX_BYTES:
        return f"x:{data.hex()}"
    return f"p:{len(data)}:{data[0]}" if pattern(len(data), data[0]) == data else None


class Maker:
    """`asker` and `file` are what the line is about that is drawn. After so many steps a daemon is killed."""

    def __init__(self, seed, steps):
        self.steps = steps
        self.random = random.Random(seed)
        self.run = Run()
        self.store = self.run.store
        self.lines = []
        self.callers = self.of((2, 5, 16, 64))
        self.asker = self.file = None

    def add(self, line):
        self.lines.append(line)
        return self.run.line(line_of(line.encode()))

    def of(self, choices):
        return self.random.choice(list(choices))

    def odds(self, chance):
        return self.random.random() < chance

    def pick_file(self):
        """One of the files, or None."""
        self.file = self.of(self.store.files.values()) if self.store.files else None
        return self.file

    def name(self):
        """The name of the file."""
        return next(name for name, file in self.store.files.items() if file is self.file)

    def a_session(self):
        return self.of(self.store.sessions) if self.store.sessions and self.odds(0.97) else self.random.randint(0, self.store.ids + 1)

    def caller(self, waits=False):
        """Mostly one of whom something waits, or nothing."""
        callers = [f"c{number}" for number in range(1, self.callers + 1)]
        fit = [caller for caller in callers if (caller in self.store.waiting) == waits]
        return self.of(fit if fit and self.odds(0.95) else callers)

    # A line of any verb, whose parts are drawn one after the other.

    def any_line(self, verb):
        self.pick_file()
        self.asker = 0 if verb in OF_NO_SESSION else self.a_session()
        words = ["store" if verb == "commit" else self.caller(verb == "resume") if verb in OF_CALLERS else f"s{self.asker}", verb]
        for part in FORMS[verb]:
            words.append(str(self.of(CHOICES[part]) if part in CHOICES else self.part(part, words)))
        return self.add(" ".join(words))

    def part(self, part, words):
        """A part of the line that goes by what is there. `words` are those before it."""
        size = self.file.size if self.file else 0
        match part:
            case "name":
                return self.name() if self.file and self.odds(0.9) else self.of(NAMES if self.odds(0.9) else BAD_NAMES)
            case "offset" | "size":
                return self.place(size)
            case "length":
                return self.of((1, 4, 100, BLOCK, ACCESS, ACCESS, ACCESS, 2 * ACCESS, 0, size))
            case "sid" | "old":
                return 0 if part == "old" and self.odds(0.6) else self.a_session()
            case "token":
                own = self.store.sessions[self.asker].outstanding if self.asker in self.store.sessions else ()
                is_own = own and self.odds(0.85 if words[1] in ON_TOKENS else 0.25)
                return self.of(own) if is_own else 0 if self.odds(0.9) else self.random.randint(0, self.store.tokens + 1)
            case "handle":
                other = (self.of((1, 1, 2)), self.random.randint(1, 4), self.random.randint(1, self.store.generations + 1))
                return handle_text((FSID, *self.file.key) if self.file and self.odds(0.97) else other)
            case "segment":
                return self.of(self.file.segments()) if size and self.odds(0.95) else self.random.randint(0, 300)
            case "count":
                return len(self.file.bytes_of(int(words[4]))) if size else 4
            case "digest":
                return print_of(self.file.bytes_of(int(words[4])) if size and self.odds(0.95) else b"other")[1].hex()
        return self.data(*words[1:])

    def place(self, size):
        """A place in a file of that size, or beside an edge of it."""
        if self.odds(0.04):
            return self.of((FILE - 1, FILE, FILE, FILE + 1, GREATEST))
        edges = (0, 0, size, size, self.random.randint(0, size), size // SEGMENT * SEGMENT, SEGMENT, size // BLOCK * BLOCK, size + 70_000)
        return max(0, self.of(edges) + self.of((0, 0, 0, -1, 1)))

    def data(self, verb, *words):
        if verb == "restore" and self.file and (away := self.file.away.get(int(words[2]))) and (word := spelled(away)):
            return word
        if verb in ("write", "writeinvis") and self.odds(0.3):
            return f"p:{self.of((BLOCK, SEGMENT, SEGMENT, 20_000))}:{self.random.randrange(256)}"
        length = self.of((4080, 4080, 33, 5) if verb == "setattr" else (0, 3, 33, 4097) if self.odds(0.1) else (1, 2, 3, 8))
        return f"x:{self.random.randbytes(length).hex()}" if length < HEX_BYTES else f"p:{length}:1"

    # Lines that lead somewhere.

    def piece(self):
        """A segment of one pattern, mostly a whole one, at the end of a file or in it."""
        if not self.pick_file():
            return self.any_line("create")
        last = self.file.size // SEGMENT
        segment = min(self.of((last, last, self.random.randint(0, last))), FILE // SEGMENT - 1)
        length = self.of((*[SEGMENT] * 8, 20_000))
        return self.add(f"{self.caller()} write {self.name()} {segment * SEGMENT} p:{length}:{self.random.randrange(256)}")

    def fill(self, blocks=None):
        """Writes whole segments until so many blocks are used."""
        blocks = blocks or self.of((600, CROWDED, 900, 1000, BLOCKS, BLOCKS))
        for _ in range(140):
            if self.store.used() + 16 <= blocks and len(self.store.waiting) < self.callers:
                self.piece()

    def fill_anew(self):
        """Fills a new file, where no write parks, until a pass is due."""
        caller, name = self.caller(), f"new{self.store.generations}"
        self.add(f"{caller} create {name}")
        for segment in range(-(-(CROWDED - self.store.used()) // 16)):
            self.add(f"{caller} write {name} {segment * SEGMENT} p:{SEGMENT}:{self.random.randrange(256)}")

    def cold(self):
        """An access that needs an offline segment, where there is one."""
        there = [(name, segment) for name, file in self.store.files.items() for segment in file.offline()]
        if not there:
            return self.any_line("read")
        name, segment = self.of(there)
        size = self.store.files[name].size
        place = min(segment * SEGMENT + self.of((0, 1, 5000, SEGMENT - 1)), size - 1)
        call = self.of(("read {} {} 4", f"read {{}} {{}} {ACCESS}", "write {} {} x:c0ff", "truncate {} {}")).format(name, place)
        return self.add(f"{self.caller()} {call if self.odds(0.95) else f'truncate {name} {size}'}")

    def no_room(self):
        """Recall in a full store, where migration doesn't run."""
        self.add("kill migrate")
        self.fill(BLOCKS)
        for line in (None, None, "start recall", "settle"):
            self.add(line) if line else self.cold()

    def own_session(self):
        """A session that is no daemon's."""
        own = self.sessions_of("own")
        if not own and len(self.store.sessions) < SESSIONS:
            self.add("s0 session 0 own")
            own = [self.store.ids]
        return self.of(own or self.store.sessions)

    def sessions_of(self, *infos):
        return [sid for sid, session in self.store.sessions.items() if session.info in infos]

    def give_up(self):
        """A session seals a segment and punches it. The object is there only by chance."""
        if not self.pick_file() or not self.file.size:
            return
        sid, segment, handle = self.own_session(), self.of(self.file.segments()), handle_text((FSID, *self.file.key))
        if self.odds(0.8):
            self.add(f"s{sid} setregion 0 {handle} 0:0:7")
        if segment not in self.file.stubs:
            there = [f"0 {number}" for number in range(len(self.run.volumes.objects[0]))]
            place = self.of(there) if there and self.odds(0.5) else f"{self.of(CHOICES['volume'])} {self.of(CHOICES['object'])}"
            self.add(f"s{sid} seal 0 {handle} {segment} {place} {print_text(print_of(self.file.bytes_of(segment)))}")
        if self.odds(0.8):
            self.add(f"s{sid} punch 0 {handle} {segment * SEGMENT} {SEGMENT}")
        if self.odds(0.5):
            self.add(f"{self.caller()} read {self.name()} {segment * SEGMENT} 4")

    def advance(self):
        """One thing that an access waits for."""
        if not self.store.waiting:
            return
        access = self.of(self.store.waiting.values())
        message, held = access.message, self.store.rights.get(access.key, {})
        if message is None and held and self.odds(0.8):
            verb = self.of(("release", "release", "downgrade"))
            self.add(f"s{self.store.owner(min(held))} {verb} {min(held)} {handle_text((FSID, *access.key))}")
        elif message is None or access.response:
            self.add(f"{access.call.actor} resume")
        elif message in self.store.unrouted:
            self.add(f"s{self.own_session()} setdisp {','.join(kind for kind in KINDS if kind == message.kind or self.odds(0.7))}")
        elif (sid := self.store.owner(message.token)) is None:
            sid = next(sid for sid, session in self.store.sessions.items() if message in session.queue)
            self.add(f"s{sid} getevents 0 65536")
        else:
            self.answer(sid, access)

    def answer(self, sid, access):
        """A response, mostly once the segments are back that are needed."""
        message, file = access.message, self.store.by_key(access.key)
        for segment in needed(access.call.verb, file.size, *numbers_of(access.call), file.offline()) if file else ():
            word = spelled(file.away[segment])
            if word and self.odds(0.8):
                self.add(f"s{sid} restore {self.of((0, 0, message.token))} {handle_text(message.handle)} {segment} {word}")
        self.add(f"s{sid} respond {message.token} {self.of(CHOICES['response'])}")

    def hold(self):
        """A token of a session's own that has a right on a file, mostly one of an access that waits."""
        keys = [access.key for access in self.store.waiting.values()] or [file.key for file in self.store.files.values()]
        sid = self.own_session()
        if keys and self.add(f"s{sid} userevent x:01").startswith("token "):
            on = f"{self.store.tokens} {handle_text((FSID, *self.of(keys)))}"
            for _ in range(self.of((1, 1, 2))):
                self.add(f"s{sid} request {on} {self.of(CHOICES['right'])}")

    def let_go(self):
        there = [(sid, message) for sid, session in self.store.sessions.items() for message in session.outstanding.values()]
        own = [f"s{sid} respond {message.token} continue" for sid, message in there if message.kind == "user"]
        if own:
            self.add(self.of(own))

    def attributes(self):
        for _ in range(12):
            self.any_line("setattr")

    def many_sessions(self):
        for _ in range(self.of((63, 64, 65)) - len(self.store.sessions)):
            self.add("s0 session 0 own")

    # Lines of daemons.

    def start(self):
        self.add(f"start {self.of(DAEMONS)}")

    def kill(self):
        daemon = self.of(DAEMONS)
        self.add(f"kill {daemon}")
        if self.odds(0.7):
            self.add(f"start {daemon}")

    def settle(self):
        self.add("settle")

    def step(self):
        daemon = self.of(DAEMONS)
        for _ in range(self.of((1, 1, 2, 3, 5, 9, 20))):
            self.add(f"step {daemon if self.odds(0.9) else self.of(DAEMONS)}")

    def halfway(self):
        """Recall stands between two acts of its work, and mostly something troubles it there."""
        for _ in range(self.of((1, 1, 2, 4))):
            self.cold()
        for line in ("start recall", *["step recall"] * self.random.randint(1, 12)):
            self.add(line)
        getattr(self, self.of(("meddle", "meddle", "kill", "hold", "piece", "settle", "let_go")))()

    def meddle(self):
        """A call with the session of a daemon, mostly on its tokens."""
        sids = self.sessions_of(*INFOS[1:])
        if not sids:
            return
        self.asker = sid = self.of(sids)
        calls = ["getevents 0 65536", f"setdisp {self.of(CHOICES['kinds'])}", "destroy", "tokens", "userevent x:02", f"send {sid} x:03", "space"]
        tokens = list(self.store.sessions[sid].outstanding.values())
        if tokens:
            message = self.of(tokens)
            on = f"{message.token} {handle_text(message.handle or (FSID, 1, 1))}"
            calls = [f"respond {message.token} {self.of(CHOICES['response'])}", f"findmsg {message.token} 64", *calls[:3]]
            calls += [f"{verb} {on}" for verb in ("release", "downgrade", "upgrade", "right")] + [f"request {on} {self.of(CHOICES['right'])}"] * 2
        self.add(f"s{sid} {self.of(calls)}" if self.odds(0.9) else f"s0 session {sid} {self.of(INFOS)}")

    # Trouble that applications make.

    def assume(self):
        """A session takes the place of a daemon's."""
        for sid in self.sessions_of(*INFOS[1:])[: self.of((1, 2))]:
            self.add(f"s0 session {sid} own")

    def end_session(self):
        """The session of a daemon is ended, in the midst of its work or not."""
        sids = self.sessions_of(*INFOS[1:])
        if sids:
            self.add(f"s{self.of(sids)} destroy")

    def exclude(self):
        """A token of a session's own has `excl` on a file of which something is away, between two accesses that need it."""
        self.cold()
        keys = [file.key for file in self.store.files.values() if file.offline()] or [file.key for file in self.store.files.values()]
        sid = self.own_session()
        if keys and self.add(f"s{sid} userevent x:").startswith("token "):
            self.add(f"s{sid} request {self.store.tokens} {handle_text((FSID, *self.of(keys)))} excl")
        self.cold()

    def take_kinds(self):
        """Two sessions share the kinds of both daemons, and something parks there."""
        for kinds in self.of((("read", "write,truncate,nospace"), ("read,nospace", "write,truncate"), ("read,write,truncate", "nospace"))):
            if self.add("s0 session 0 own").startswith("session "):
                self.add(f"s{self.store.ids} setdisp {kinds}")
        self.cold()

    def give_back(self):
        """All sessions give their kinds up, and those of daemons have them again."""
        for sid in self.sessions_of("own"):
            self.add(f"s{sid} setdisp -")
        for name in DAEMONS:
            for sid in self.sessions_of(daemons.INFOS[name])[:1]:
                self.add(f"s{sid} setdisp {','.join(daemons.KINDS[name])}")

    def flood(self):
        """Full messages wait for a daemon before what parks then."""
        sid, sids = self.own_session(), self.sessions_of(*INFOS[1:])
        for _ in range(self.of((1, 1, 2, 17)) if sids else 0):
            self.add(f"s{sid} send {self.of(sids)} p:{MESSAGE_BYTES}:{self.random.randrange(256)}")
        self.cold()

    def change_regions(self):
        """The regions of files change between the steps of a pass, mostly so that what is away is covered and no more."""
        self.add(self.of(("settle", "kill migrate")))
        self.fill_anew()
        self.add("start migrate")
        for _ in range(self.random.randint(4, 12)):
            for _ in range(self.random.randint(0, 5)):
                self.add("step migrate")
            if self.pick_file():
                end = max(self.file.offline(), default=-1) + 1
                regions = self.of(CHOICES["regions"]) if self.odds(0.4) else f"0:{end * SEGMENT}:7" if end else "-"
                self.add(f"s{self.own_session()} setregion 0 {handle_text((FSID, *self.file.key))} {regions}")

    def killed_after_steps(self):
        """A daemon with something to do is killed after the script's number of steps, and started again. Between two of them it may be troubled."""
        daemon = self.of(DAEMONS)
        self.cold() if daemon == "recall" else self.fill_anew()
        self.add(f"start {daemon}")
        troubled = self.random.randint(0, 2 * MOST_STEPS)
        for place in range(self.steps):
            if place == troubled:
                getattr(self, self.of(("meddle", "assume", "end_session", "exclude", "flood")))()
            self.add(f"step {daemon}")
        for line in (f"kill {daemon}", f"start {daemon}", "settle"):
            self.add(line)

    def continue_unrestored(self):
        """A session hears of a read of what is away, lets it go on some times, and restores nothing."""
        sid = self.own_session()
        self.add(f"s{sid} setdisp read")
        there = [(name, segment) for name, file in self.store.files.items() for segment in file.offline()]
        name, segment = self.of(there or [("none", 0)])
        caller = self.caller()
        answer = self.add(f"{caller} read {name} {segment * SEGMENT} 4")
        for _ in range(self.of((1, 2, 5))):
            if answer.startswith("parked "):
                self.add(f"s{sid} getevents 0 65536")
                self.add(f"s{sid} respond {answer.split(' ')[1]} continue")
                answer = self.add(f"{caller} resume")

    def truce(self):
        """Sessions let all go that they have, daemons begin anew, and the next accesses of what is away are served."""
        for sid in self.sessions_of("own"):
            session = self.store.sessions[sid]
            while session.queue:
                self.add(f"s{sid} getevents 0 65536")
            for token in list(session.outstanding):
                self.add(f"s{sid} respond {token} continue")
            self.add(f"s{sid} setdisp -")
        for line in (*(f"{verb} {daemon}" for daemon in DAEMONS for verb in ("kill", "start")), "settle"):
            self.add(line)
        for _ in range(3):
            self.cold()
        self.settle()


OF_FILES = {"create": 3, "read": 8, "write": 6, "truncate": 3, "remove": 1, "stat": 1, "sync": 1, "resume": 3, "commit": 1}
OF_MESSAGES = {"session": 2, "setdisp": 2, "getevents": 3, "findmsg": 2, "respond": 2, "userevent": 2, "send": 1, "destroy": 1}
OF_RIGHTS = {"request": 4, "release": 3, "right": 1, "upgrade": 2, "downgrade": 2}
OF_KEPT = {"setregion": 8, "getregion": 1, "setattr": 2, "getattr": 1, "rmattr": 1, "attrs": 1, "fileattr": 2}
OF_CROWDS = {"many_sessions": 0.5, "attributes": 0.5}
OF_SEGMENTS = {"setregion": 2, "readinvis": 3, "writeinvis": 2, "punch": 2, "probe": 2, "alloc": 2, "seal": 4, "restore": 3, "space": 1, "table": 1}
ASKED = dict.fromkeys(("sessions", "query", "disp", "tokens", "handle"), 1)
OF_DAEMONS = {"piece": 4, "cold": 10, "write": 2, "truncate": 1, "create": 1, "remove": 1, "resume": 1, "start": 2, "settle": 4, "step": 6, "kill": 2}
TROUBLE = {"hold": 2, "let_go": 3, "give_up": 2, "setregion": 1, "halfway": 4}
HOSTILE = {"assume": 4, "end_session": 4, "exclude": 4, "take_kinds": 4, "give_back": 4, "flood": 3, "change_regions": 3, "killed_after_steps": 5}
HOSTILE |= {"continue_unrestored": 3, "meddle": 6, "halfway": 4, "advance": 6, "let_go": 4, "settle": 6, "step": 4, "truce": 2, "cold": 4}
HOSTILE |= {"give_up": 2, "write": 2, "truncate": 1, "remove": 0.5}
# What the turns of a script of each kind are, each with its weight; how many there are at most; and whether daemons run from the first on.
SCRIPTS = {
    "callers": (OF_FILES | OF_MESSAGES | OF_RIGHTS | OF_KEPT | ASKED | OF_CROWDS | {"advance": 30, "hold": 3, "let_go": 4}, 150, False),
    "segments": (OF_FILES | OF_SEGMENTS | {"piece": 6, "give_up": 8, "cold": 8, "advance": 30, "hold": 1, "let_go": 3}, 130, False),
    "daemons": (OF_DAEMONS | TROUBLE | {"fill": 1, "many_sessions": 0.2}, 50, True),
    "crowded": (OF_DAEMONS | TROUBLE | {"fill": 6, "settle": 6, "write": 8, "no_room": 1}, 40, True),
    "meddling": (OF_DAEMONS | TROUBLE | {"meddle": 20, "advance": 5, "halfway": 12}, 60, True),
    "hostile": (HOSTILE, 24, True),
}


def kind_of(number):
    return list(SCRIPTS)[number % len(SCRIPTS)]


def script_of(seed, number):
    """The kind and the text of a script. They depend on nothing else."""
    kind = kind_of(number)
    weights, turns, has_daemons = SCRIPTS[kind]
    # Of the hostile scripts each one kills after one step more than that before it, and begins again after the most.
    maker = Maker(f"{seed}/{number}", number // len(SCRIPTS) % (MOST_STEPS + 1))
    for name in NAMES[: maker.random.randint(1, 3)]:
        maker.add(f"c1 create {name}")
    if has_daemons:
        if maker.odds(0.3):
            maker.start()
        maker.fill(maker.of((500, CROWDED, CROWDED, 900, BLOCKS)))
        maker.add("start migrate")
        maker.add(maker.of(("settle", "settle", "step migrate", "start recall")))
    else:
        maker.add("s0 session 0 own")
        if maker.odds(0.25):
            maker.add("s1 setdisp nospace")
            maker.fill(BLOCKS)
    for verb in maker.random.choices(list(weights), list(weights.values()), k=maker.random.randint(turns // 4, turns)):
        getattr(maker, verb, lambda: maker.any_line(verb))()
    if kind == "hostile":
        maker.truce()
    elif maker.odds(0.5):
        for line in ("start recall", "start migrate", "settle"):
            maker.add(line)
    sid = maker.own_session()
    for file in maker.store.files.values():
        for verb in ("alloc", "fileattr"):
            maker.add(f"s{sid} {verb} 0 {handle_text((FSID, *file.key))}")
    return kind, "".join(f"{line}\n" for line in maker.lines).encode()
