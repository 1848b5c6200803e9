"""What recall and migration may do next by what they were told, as docs/FORMATS.md has it (Daemons), and docs/ARCHITECTURE.md their order.

A daemon is a generator that gives one act after the other, and is sent what came of it. Where the documents leave the order of calls
open, it offers several; which is made is for the transcript to tell.
"""

from typing import NamedTuple

from .files import SEGMENT, covers, needed, print_of, print_text
from .script import Call
from .store import BLOCKS

ROOM = 65_536
FRAME = 72
VOLUMES = 8
CAPACITY = 67_108_864
HIGH = 80
LOW = 60
INFOS = {"recall": "HSMRECALL", "migrate": "HSMMIGRATE"}
KINDS = {"recall": ("read", "write", "truncate"), "migrate": ("nospace",)}
COVER = ((0, 0, 7),)
NO_OBJECT = "abort 2"
NO_SPACE = "abort 28"
REST = "rest"


class Offer(NamedTuple):
    """The calls of which a daemon makes one, and the rule that says so."""

    rule: str
    calls: tuple


class Copy(NamedTuple):
    volume: int
    data: bytes


class Fetch(NamedTuple):
    stub: tuple


class Reply(NamedTuple):
    """A call that was made, and what it was answered."""

    call: Call
    answer: str
    told: object

    @property
    def refusal(self):
        return self.answer.split(" ")[1] if self.answer.startswith("refused ") else None


class Volumes:
    """The volumes of a run in memory. What an object holds is its payload."""

    def __init__(self):
        self.objects = [[] for _ in range(VOLUMES)]

    def copy(self, act):
        """The number of the new object, or None where the volume has no room for it."""
        objects = self.objects[act.volume]
        if sum(FRAME + len(data) for data in objects) + FRAME + len(act.data) > CAPACITY:
            return None
        objects.append(act.data)
        return len(objects) - 1

    def fetch(self, act):
        """The payload, or the response to which its want leads."""
        stub = act.stub
        if stub.volume >= VOLUMES or stub.object >= len(self.objects[stub.volume]):
            return NO_OBJECT
        data = self.objects[stub.volume][stub.object]
        if print_of(data) == stub.print:
            return data
        return f"media damaged {stub.volume} {stub.object} {print_text(stub.print)} {print_text(print_of(data))}"


class SessionGone(Exception):
    pass


class Daemon:
    """What both daemons do. `kept` are the events that it has, by their tokens, and `heard` is what came of its last act."""

    def __init__(self, name):
        self.name = name
        self.acts = self.live()
        self.heard = self.sid = None
        self.is_resting = True

    def act(self):
        act = self.acts.send(self.heard)
        self.heard = None
        self.is_resting = act == REST
        return act

    def refresh(self):
        """A `settle` begins."""

    def live(self):
        while True:
            self.sid, self.kept = None, {}
            try:
                yield from self.come()
                while self.sid:
                    yield from self.turn()
                    yield REST
                yield REST
            except SessionGone:
                continue

    def ask(self, rule, *calls):
        reply = yield Offer(rule, calls)
        if reply.refusal == "NoSession":
            raise SessionGone
        return reply

    def call(self, verb, **parts):
        return Call(f"s{self.sid}", verb, **parts)

    def come(self):
        """Comes to a session, unless too many live, and finds the messages again that are outstanding there."""
        rule = "session: a daemon asks for all sessions and what they are, takes the first that is its own, or makes one, and sets its kinds"
        old = 0
        for sid in (yield from self.ask(rule, Call("s0", "sessions"))).told:
            told = (yield from self.ask(rule, Call("s0", "query", sid=sid))).told
            if told == INFOS[self.name]:
                old = sid
                break
        self.sid = (yield from self.ask(rule, Call("s0", "session", old=old, info=INFOS[self.name]))).told
        if self.sid:
            yield from self.ask(rule, self.call("setdisp", kinds=KINDS[self.name]))
        if self.sid and old:
            rule = "session: a daemon that took a session over finds the message of each token again"
            for token in (yield from self.ask(rule, self.call("tokens"))).told:
                self.keep((yield from self.ask(rule, self.call("findmsg", token=token, room=ROOM))))

    def getevents(self):
        return self.call("getevents", most=0, room=ROOM)

    def keep(self, reply):
        """Keeps the events of its kinds that it is told."""
        self.kept |= {message.token: message for message in reply.told or () if message.kind in KINDS[self.name]}

    def respond(self, rule, *pairs):
        """Answers one of the tokens by its response. Where that is refused, the token is another's by now, and the event is dropped."""
        reply = yield from self.ask(rule, *(self.call("respond", token=token, response=response) for token, response in pairs))
        del self.kept[reply.call.token]


class Recall(Daemon):
    def turn(self):
        put_off, is_told_all = set(), False
        while True:
            waiting = sorted(self.kept.keys() - put_off)
            if is_told_all and not waiting:
                return
            first = [self.of_event(self.kept[waiting[0]], "request", right="excl")] if waiting else []
            events = [] if is_told_all else [self.getevents()]
            rule = "recall: it serves its events, the lowest token first, and asks for more until there are none"
            reply = yield from self.ask(rule, *first, *events)
            if reply.call.verb == "request":
                put_off |= yield from self.serve(self.kept[waiting[0]], reply)
                is_told_all = False
            else:
                is_told_all = reply.refusal == "Again"
                self.keep(reply)

    def of_event(self, message, verb, **parts):
        return self.call(verb, token=message.token, handle=message.handle, **parts)

    def serve(self, message, reply):
        """Works on an event whose file was requested. Gives the token where the event is put off."""
        segments = size = None
        while not reply.refusal and None in (size, segments):
            rule = "recall: it asks for the size and for what is held of the segments"
            calls = [verb for verb, told in (("fileattr", size), ("alloc", segments)) if told is None]
            reply = yield from self.ask(rule, *(self.of_event(message, verb) for verb in calls))
            size, segments = (reply.told, segments) if reply.call.verb == "fileattr" else (size, reply.told)
        if reply.refusal:
            return (yield from self.refused(message, reply.refusal))
        offline = [place for place, (state, _) in enumerate(segments) if state == "o"]
        for segment in needed(message.kind, size, message.first, message.second, offline):
            found = yield Fetch(segments[segment][1])
            if isinstance(found, str):
                return (yield from self.end(message, found))
            rule = "recall: it restores each needed segment that is offline by the bytes of its object"
            reply = yield from self.ask(rule, self.of_event(message, "restore", segment=segment, data=found))
            if reply.refusal:
                return (yield from self.refused(message, reply.refusal))
        return (yield from self.end(message, "continue"))

    def refused(self, message, refusal):
        """What a refusal leads to."""
        if refusal in ("NoToken", "NotYours"):
            del self.kept[message.token]
            return set()
        if refusal in ("NoObject", "NoSpace"):
            return (yield from self.end(message, "continue" if refusal == "NoObject" else NO_SPACE))
        return {message.token}

    def end(self, message, response):
        rule = (
            "response: recall continues where no needed segment is offline or the file is gone, aborts with 2 for an object that isn't there"
            " and with 28 for want of room, and tells the fault of a medium"
        )
        yield from self.respond(rule, (message.token, response))
        return set()


class PassEnds(Exception):
    pass


class Skipped(Exception):
    pass


def picked(table):
    """The segments that a pass takes, as handle, segment and state: the coldest first, until few enough blocks would be used."""
    used, rows = table
    for _, handle, segment, state, blocks in sorted(rows):
        if used > BLOCKS * LOW // 100 and state != "o" and blocks:
            used -= blocks
            yield handle, segment, state


class Migrate(Daemon):
    """`may_begin`: whether a pass by `high` may begin. `space`: what was heard of it in this round."""

    def __init__(self, name):
        super().__init__(name)
        self.stale = None
        self.refresh()

    def refresh(self):
        """A `settle` begins: it allows one pass by `high`, and what was told of the space before counts no more."""
        self.may_begin = True
        self.space = None
        self.stale = self.heard

    def is_high(self):
        return self.may_begin and (self.space or 0) > BLOCKS * HIGH // 100

    def turn(self):
        is_told_all = was_asked = False
        self.space = None
        while True:
            wants_space = self.may_begin and self.space is None
            if is_told_all and not (self.kept or self.is_high() or wants_space):
                return
            calls = [self.call("space")] if wants_space else []
            # When it asks again what it was told before the settle began, the documents don't say.
            if was_asked or not wants_space:
                calls += [] if is_told_all else [self.getevents()]
                calls += [self.call("table")] if is_told_all and (self.kept or self.is_high()) else []
            rule = "pass: it begins where the blocks are told to be above 80 %, once in a settle, or an event waits, and all events were taken"
            reply = yield from self.ask(rule, *calls)
            is_told_all = reply.refusal == "Again"
            if reply.call.verb == "getevents":
                self.keep(reply)
            elif reply.call.verb == "space":
                self.space, was_asked = None if reply is self.stale else reply.told, True
            else:
                yield from self.make_pass(picked(reply.told))
                self.space, was_asked = None, False

    def make_pass(self, picks):
        if self.is_high():
            self.may_begin = False
        self.volume, punches = 0, 0
        try:
            for pick in picks:
                punches += yield from self.move(*pick)
        except PassEnds:
            pass
        rule = "response: after a pass migration continues each event from before it where the pass has punched a segment, and else aborts it with 28"
        while self.kept:
            yield from self.respond(rule, *((token, "continue" if punches else NO_SPACE) for token in sorted(self.kept)))

    def move(self, handle, segment, state):
        """Gives up a segment. Tells whether it was punched, and not skipped."""
        front = {"offset": segment * SEGMENT, "length": SEGMENT}
        try:
            if not covers((yield from self.on_file("getregion", handle)).told, segment):
                yield from self.on_file("setregion", handle, regions=COVER)
            while state == "r":
                data = (yield from self.on_file("readinvis", handle, **front)).told
                if not data:
                    return False
                number = yield Copy(self.volume, data)
                if number is None:
                    self.leave_volume()
                    continue
                count, digest = print_of(data)
                place = {"volume": self.volume, "object": number}
                yield from self.on_file("seal", handle, segment=segment, count=count, digest=digest, **place)
                state = "s"
            yield from self.on_file("punch", handle, **front)
        except Skipped:
            return False
        return True

    def leave_volume(self):
        self.volume += 1
        if self.volume == VOLUMES:
            raise PassEnds

    def on_file(self, verb, handle, **parts):
        rule = "pass: each pick in its order is covered, read, copied and sealed, or sealed already, and punched, or skipped for an answer"
        reply = yield from self.ask(rule, self.call(verb, token=0, handle=handle, **parts))
        if reply.refusal == "TooMany":
            raise PassEnds
        if reply.refusal:
            raise Skipped
        return reply


def is_quiet(reply):
    """Whether a session was refused, or only asked."""
    asks = ("sessions", "query", "tokens", "findmsg", "fileattr", "alloc", "getregion", "readinvis", "space", "table")
    return reply.refusal is not None or reply.call.verb in asks
