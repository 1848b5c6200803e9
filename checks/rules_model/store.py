"""The store: what each call is answered over the entries before it, as docs/FORMATS.md and docs/MODEL.md have it."""

from typing import NamedTuple

from .files import ATTRIBUTE_COST, FILE, SEGMENT, File, Stub
from .files import blocks_met, covers, meets, needed, numbers_of, print_of, print_text, probed, punched
from .files import regions_refusal, touched, touches_region
from .script import ACCESS, GREATEST, data_text, handle_text, kinds_text, regions_text

# A new small store, and the most that it may have.
FSID, BLOCKS, FILES, STUBS, VOLUMES, ATTRIBUTE_BYTES = 1, 1024, 64, 1024, 256, 32_768
SESSIONS, USER_TOKENS, WAITING_MESSAGES = 64, 960, 1024
NAME_BYTES, INFO_BYTES, MESSAGE_BYTES, VALUE_BYTES, MOST_ERROR = 64, 256, 4096, 4096, 255
RESERVED = b"HSM"

RIGHTS = ("null", "shared", "excl")
NO_SESSION = ("session", "sessions", "query")
# The calls that can't go without a token.
ON_TOKENS = ("findmsg", "respond", "request", "release", "right", "upgrade", "downgrade")
# The right on its file that each call needs.
NEEDS = dict.fromkeys("read fileattr getregion getattr attrs readinvis probe alloc upgrade".split(), "shared")
NEEDS |= dict.fromkeys("write truncate remove setregion setattr rmattr writeinvis punch seal restore downgrade".split(), "excl")


class Refused(Exception):
    pass


def refuse(is_so, name):
    """Refuses a call where that is so. The order of such lines is that in which refusals are judged."""
    if is_so:
        raise Refused(name)


class Message(NamedTuple):
    """An event of an access, with its file and two numbers, or what a session says, with token 0 where it wants no response."""

    token: int
    kind: str
    handle: tuple = ()
    first: int = 0
    second: int = 0
    data: bytes = b""

    @property
    def room(self):
        """The bytes that it takes in a buffer."""
        return 64 if self.kind != "user" else -(-(24 + len(self.data)) // 8) * 8


class Access(NamedTuple):
    """An access that waits: for a token and the response to it, or without a token. What is cleared parks no more for a region,
    and what is spaced no more for want of room."""

    call: object
    key: tuple
    is_cleared: bool = False
    is_spaced: bool = False
    message: Message | None = None
    response: str | None = None


class Session:
    def __init__(self):
        self.info = None
        self.kinds = set()
        self.queue = []
        self.outstanding = {}


def packed(messages):
    return f"packed {sum(message.room for message in messages)} {' '.join(str(message.token) for message in messages)}"


def listed(words):
    return " ".join(map(str, words)) or "-"


class Store:
    """A new small store, and what it knows in one run. `told` is what the last answer stands for, where its text is shorter than that."""

    def __init__(self):
        self.number = 0
        self.files = {}
        self.generations = 0
        self.sessions = {}
        self.ids = 0
        self.tokens = 0
        self.unrouted = []
        self.waiting = {}
        self.rights = {}
        self.told = None

    def used(self):
        return sum(len(file.mapped) for file in self.files.values())

    def stubs(self):
        return sum(len(file.stubs) for file in self.files.values())

    def by_key(self, key):
        return next((file for file in self.files.values() if file.key == key), None)

    def by_handle(self, handle):
        return self.by_key(handle[1:]) if handle and handle[0] == FSID else None

    def owner(self, token):
        """The session to which a token is outstanding, or None."""
        return next((sid for sid, session in self.sessions.items() if token in session.outstanding), None)

    def conflict(self, key, need, own=0):
        """The lowest token but its own whose right on the file excludes the one that is needed, or None."""
        held = self.rights.get(key, {})
        return min((token for token, right in held.items() if token != own and "excl" in (right, need)), default=None)

    def right_of(self, key, token):
        return self.rights.get(key, {}).get(token, "null")

    def has_room(self, blocks):
        return blocks <= BLOCKS - self.used()

    def refuse_room(self, blocks):
        """Refuses a call that touches so many blocks."""
        refuse(not self.has_room(blocks), f"NoSpace {blocks} {BLOCKS - self.used()}")

    def answer(self, call):
        """The text of the answer, and the change with it. Each answer is an entry, a refusal too."""
        self.number += 1
        self.told = None
        try:
            if call.verb == "commit":
                return "done"
            if call.session is None:
                return self.resume(call.actor) if call.verb == "resume" else self.issue(call)
            self.judge_scope(call)
            on = self.sessions.get(call.session) if call.handle is None else self.by_handle(call.handle)
            return getattr(self, f"do_{call.verb}")(call, on) or "done"
        except Refused as refused:
            return f"refused {refused}"

    # Callers.

    def issue(self, call):
        refuse(call.actor in self.waiting, "Waiting")
        if call.verb == "sync":
            return "done"
        self.judge_issue(call)
        if call.verb == "create":
            return self.create(call.name)
        file = self.files[call.name]
        return f"size {file.size}" if call.verb == "stat" else self.go_on(Access(call, file.key), file)

    def judge_issue(self, call):
        verb, name = call.verb, call.name
        refuse(len(name) > NAME_BYTES or "/" in name, "BadName")
        length = call.length if verb == "read" else len(call.data) if verb == "write" else 1
        refuse(not 1 <= length <= ACCESS, f"BadLength {length}")
        refuse(verb != "create" and name not in self.files, "Missing")
        refuse(verb == "create" and name in self.files, "Exists")
        end = call.size if verb == "truncate" else call.offset + length if verb == "write" else 0
        refuse(end > FILE, f"TooBig {min(end, GREATEST)}")
        refuse(verb == "create" and len(self.files) >= FILES, f"NoInodes {FILES}")

    def create(self, name):
        taken = {file.key[0] for file in self.files.values()}
        inode = next(inode for inode in range(1, FILES + 1) if inode not in taken)
        self.generations += 1
        self.files[name] = File(inode, self.generations)
        return f"made {inode}.{self.generations}"

    def is_ready(self, caller):
        """Whether the access of a caller may go on: a resume now would be told neither that it waits on nor that it is blocked."""
        access = self.waiting.get(caller)
        if access is None or access.message is not None and access.response is None:
            return False
        is_over = access.response not in (None, "continue") or self.by_key(access.key) is None
        return is_over or self.conflict(access.key, NEEDS[access.call.verb]) is None

    def resume(self, caller):
        access = self.waiting.get(caller)
        refuse(access is None, "Idle")
        if access.message is not None and access.response is None:
            return f"still {access.message.token}"
        del self.waiting[caller]
        verb, _, cause = (access.response or "continue").partition(" ")
        refuse(verb == "abort", f"Aborted {cause}")
        refuse(verb == "media", f"Media {cause}")
        file = self.by_key(access.key)
        refuse(file is None, "Missing")
        if access.message is not None:
            is_spaced = access.is_spaced or access.message.kind == "nospace"
            access = access._replace(is_cleared=True, is_spaced=is_spaced, message=None, response=None)
        return self.go_on(access, file)

    def go_on(self, access, file):
        """What becomes of an access whose file is there: a right, a region or a segment, and room may hold it up, in this order."""
        call = access.call
        other = self.conflict(file.key, NEEDS[call.verb])
        if other:
            self.waiting[call.actor] = access
            return f"blocked {other}"
        if call.verb == "remove":
            del self.files[call.name]
            return "done"
        numbers = numbers_of(call)
        if needed(call.verb, file.size, *numbers, file.offline()) if access.is_cleared else touches_region(call, file):
            return self.park(access, call.verb, *numbers)
        blocks = len(touched(call, file))
        is_asked_for = not access.is_spaced and any("nospace" in session.kinds for session in self.sessions.values())
        if is_asked_for and not self.has_room(blocks):
            return self.park(access, "nospace", blocks, BLOCKS - self.used())
        self.refuse_room(blocks)
        return self.complete(call, file)

    def park(self, access, kind, first, second):
        self.tokens += 1
        message = Message(self.tokens, kind, (FSID, *access.key), first, second)
        taker = next((session.queue for session in self.sessions.values() if kind in session.kinds), self.unrouted)
        taker.append(message)
        self.waiting[access.call.actor] = access._replace(message=message)
        return f"parked {message.token}"

    def complete(self, call, file):
        file.stamp = self.number
        if call.verb == "read":
            return data_text(bytes(file.body[call.offset : call.offset + call.length]))
        if call.verb == "write":
            file.put(call.offset, call.data)
        else:
            file.resize(call.size)
        return "done"

    # What refuses a session's call before what it asks itself.

    def judge_scope(self, call):
        if call.verb in NO_SESSION:
            return
        refuse(call.session not in self.sessions, "NoSession")
        if call.token or call.verb in ON_TOKENS:
            owner = self.owner(call.token)
            refuse(owner is None, "NoToken")
            refuse(owner != call.session, f"NotYours {owner}")
        if call.handle is not None:
            file = self.by_handle(call.handle)
            refuse(file is None, "NoObject")
            self.judge_right(call, file)

    def judge_right(self, call, file):
        need = NEEDS.get(call.verb, "null")
        have = self.right_of(file.key, call.token)
        if call.token:
            refuse(RIGHTS.index(have) < RIGHTS.index(need), f"NeedRight {have}")
        else:
            self.refuse_busy(file, need)

    def refuse_busy(self, file, need, own=0):
        other = self.conflict(file.key, need, own)
        refuse(other is not None, f"Busy {other}")

    # Sessions and messages. Where a call tells nothing, its answer is `done`.

    def do_session(self, call, _):
        refuse(call.old and call.old not in self.sessions, "NoSession")
        refuse(len(call.info) > INFO_BYTES, f"TooMany {len(call.info)}")
        refuse(not call.old and len(self.sessions) >= SESSIONS, f"TooMany {SESSIONS}")
        session = self.sessions.pop(call.old) if call.old else Session()
        session.info = call.info
        self.ids += 1
        self.sessions[self.ids] = session
        self.told = self.ids
        return f"session {self.ids}"

    def do_sessions(self, call, _):
        self.told = list(self.sessions)
        return f"sessions {listed(self.told)}"

    def do_query(self, call, _):
        refuse(call.sid not in self.sessions, "NoSession")
        self.told = self.sessions[call.sid].info
        return f"info {self.told}"

    def do_destroy(self, call, session):
        left = len(session.queue) + len(session.outstanding)
        refuse(left, f"EventsLeft {left}")
        del self.sessions[call.session]

    def do_setdisp(self, call, session):
        for other in self.sessions.values():
            other.kinds -= set(call.kinds)
        session.kinds = set(call.kinds)
        session.queue += [message for message in self.unrouted if message.kind in call.kinds]
        self.unrouted = [message for message in self.unrouted if message.kind not in call.kinds]

    def do_disp(self, call, session):
        return f"disp {kinds_text(session.kinds)}"

    def do_getevents(self, call, session):
        refuse(not session.queue, "Again")
        refuse(session.queue[0].room > call.room, f"TooSmall {session.queue[0].room}")
        taken, room = [], 0
        for message in session.queue[: call.most or None]:
            room += message.room
            if room > call.room:
                break
            taken.append(message)
        del session.queue[: len(taken)]
        session.outstanding |= {message.token: message for message in taken if message.token}
        self.told = taken
        return packed(taken)

    def do_tokens(self, call, session):
        self.told = sorted(session.outstanding)
        return f"tokens {listed(self.told)}"

    def do_findmsg(self, call, session):
        message = session.outstanding[call.token]
        refuse(message.room > call.room, f"TooSmall {message.room}")
        self.told = [message]
        return packed(self.told)

    def do_respond(self, call, session):
        verb, _, error = call.response.partition(" ")
        refuse(verb == "abort" and not 1 <= int(error) <= MOST_ERROR, "BadResponse")
        del session.outstanding[call.token]
        for held in self.rights.values():
            held.pop(call.token, None)
        for caller, access in self.waiting.items():
            if access.message is not None and access.message.token == call.token:
                self.waiting[caller] = access._replace(response=call.response)

    def do_userevent(self, call, session):
        refuse(len(call.data) > MESSAGE_BYTES, f"TooMany {len(call.data)}")
        given = sum(message.kind == "user" for other in self.sessions.values() for message in other.outstanding.values())
        refuse(given >= USER_TOKENS, f"TooMany {USER_TOKENS}")
        self.tokens += 1
        session.outstanding[self.tokens] = Message(self.tokens, "user", data=call.data)
        return f"token {self.tokens}"

    def do_send(self, call, _):
        refuse(call.sid not in self.sessions, "NoSession")
        refuse(len(call.data) > MESSAGE_BYTES, f"TooMany {len(call.data)}")
        queue = self.sessions[call.sid].queue
        refuse(sum(not message.token for message in queue) >= WAITING_MESSAGES, f"TooMany {WAITING_MESSAGES}")
        queue.append(Message(0, "user", data=call.data))

    # Rights.

    def hold(self, file, token, right):
        self.rights.setdefault(file.key, {})[token] = right

    def do_request(self, call, file):
        self.refuse_busy(file, call.right, call.token)
        self.hold(file, call.token, max(self.right_of(file.key, call.token), call.right, key=RIGHTS.index))

    def do_upgrade(self, call, file):
        self.refuse_busy(file, "excl", call.token)
        self.hold(file, call.token, "excl")

    def do_downgrade(self, call, file):
        self.hold(file, call.token, "shared")

    def do_release(self, call, file):
        self.rights.get(file.key, {}).pop(call.token, None)

    def do_right(self, call, file):
        return f"right {self.right_of(file.key, call.token)}"

    # Files, their regions and attributes.

    def do_handle(self, call, _):
        refuse(call.name not in self.files, "NoObject")
        return f"handle {handle_text((FSID, *self.files[call.name].key))}"

    def do_fileattr(self, call, file):
        self.told = file.size
        return f"attr {file.size} {file.stamp} {len(file.mapped)}"

    def do_setregion(self, call, file):
        refused = regions_refusal(call.regions)
        refuse(refused, refused)
        for segment in file.offline():
            refuse(not covers(call.regions, segment), f"Uncovered {segment}")
        file.regions = call.regions

    def do_getregion(self, call, file):
        self.told = file.regions
        return f"regions {regions_text(file.regions)}"

    def do_setattr(self, call, file):
        refuse(call.attribute.startswith(RESERVED), "Reserved")
        refuse(len(call.data) > VALUE_BYTES, f"AttrTooBig {len(call.data)}")
        others = sum(other.attribute_bytes() for other in self.files.values()) - file.attribute_bytes(call.attribute)
        total = others + ATTRIBUTE_COST + len(call.data)
        refuse(total > ATTRIBUTE_BYTES, f"TooMany {total}")
        file.attributes[call.attribute] = call.data

    def do_getattr(self, call, file):
        refuse(call.attribute not in file.attributes, "NoAttr")
        return data_text(file.attributes[call.attribute])

    def do_rmattr(self, call, file):
        refuse(call.attribute.startswith(RESERVED), "Reserved")
        refuse(call.attribute not in file.attributes, "NoAttr")
        del file.attributes[call.attribute]

    def do_attrs(self, call, file):
        return f"attrs {listed(name.hex() for name in sorted(file.attributes))}"

    # Bytes and segments.

    def refuse_offline(self, file, front, end):
        first = next((segment for segment in file.offline() if meets(segment, front, end)), None)
        refuse(first is not None, f"Offline {first}")

    def do_readinvis(self, call, file):
        refuse(not 1 <= call.length <= ACCESS, "BadRange")
        self.refuse_offline(file, call.offset, min(call.offset + call.length, file.size))
        self.told = bytes(file.body[call.offset : call.offset + call.length])
        return data_text(self.told)

    def do_writeinvis(self, call, file):
        end = call.offset + len(call.data)
        refuse(not 1 <= len(call.data) <= ACCESS or end > file.size, "BadRange")
        self.refuse_offline(file, call.offset, end)
        self.refuse_room(len(blocks_met(call.offset, end)))
        file.put(call.offset, call.data)

    def do_punch(self, call, file):
        end = call.offset + call.length
        refuse(call.offset % SEGMENT or call.offset >= file.size, "BadRange")
        refuse(call.length and (end % SEGMENT and end != file.size or end > FILE), "BadRange")
        for segment in punched(call, file):
            refuse(file.state(segment) == "o", f"Offline {segment}")
            refuse(file.state(segment) == "r", f"NotSealed {segment}")
            refuse(not covers(file.regions, segment), f"Uncovered {segment}")
        for segment in punched(call, file):
            file.punch(segment)

    def do_probe(self, call, file):
        front, end = probed(call, file)
        refuse(front >= end, "BadRange")
        return f"range {front} {end - front}"

    def do_alloc(self, call, file):
        self.told = [(file.state(segment), file.stubs.get(segment)) for segment in file.segments()]
        return f"alloc {''.join(state for state, _ in self.told) or '-'}"

    def do_seal(self, call, file):
        refuse(not file.has(call.segment) or call.volume >= VOLUMES, "BadRange")
        refuse(file.state(call.segment) == "o", f"Offline {call.segment}")
        told, there = (call.count, call.digest), print_of(file.bytes_of(call.segment))
        refuse(told != there, f"Changed {print_text(told)} {print_text(there)}")
        refuse(call.segment not in file.stubs and self.stubs() >= STUBS, f"TooMany {STUBS}")
        file.stubs[call.segment] = Stub(False, call.volume, call.object, *told)

    def do_restore(self, call, file):
        refuse(not file.has(call.segment), "BadRange")
        refuse(file.state(call.segment) != "o", f"NotOffline {call.segment}")
        wanted, got = file.stubs[call.segment].print, print_of(call.data)
        refuse(wanted != got, f"Changed {print_text(wanted)} {print_text(got)}")
        self.refuse_room(len(file.blocks_of(call.segment)))
        file.restore(call.segment, call.data)

    def do_space(self, call, _):
        self.told = self.used()
        return f"space {self.used()} {BLOCKS}"

    def do_table(self, call, _):
        """It stands for the stamp and handle of each file, and of each of its segments the state and how many blocks are mapped."""
        rows = [
            (file.stamp, (FSID, *file.key), segment, file.state(segment), len(file.blocks_of(segment) & file.mapped))
            for file in self.files.values()
            for segment in file.segments()
        ]
        self.told = self.used(), rows
        return f"table {self.used()} {BLOCKS} {len(self.files)}"
