"""Judges a transcript by the rules. It goes along the script as a run does, and takes from the transcript what the rules leave open."""

import sys
from pathlib import Path

from .daemons import HIGH, INFOS, KINDS
from .files import SEGMENT
from .run import Run
from .script import FORMS, BadLine, Call, data_text, parsed, text_of
from .store import BLOCKS, NEEDS

sys.path.insert(0, str(Path(__file__).resolve().parents[2] / "bench"))
import plain_replay  # noqa: E402

SHOWN = 160
ANSWER = "answer: each answer is the store's own over the entries before it (docs/FORMATS.md, docs/MODEL.md: Exact)"
LINE = "line: an event line has one entry, its own; start and kill have none, and no entry stands behind those of the last line"
STEP = "step: a daemon that runs does one act, which is an entry unless it copies, fetches or rests (docs/FORMATS.md: Daemons)"
SETTLE = "settle: it goes on until a round is quiet: recall, then each caller whose access may go on, in the order of numbers, then migration"
LEFT = "settle: what is left waiting may wait, and a pass began where more than 80 % are used (docs/PROMISES.md: Settling)"
LIFE = "life: only a daemon that runs makes calls; a kill ends it, and the next one comes to the session anew (docs/PROMISES.md: Settling)"
TOKENS = "tokens: tokens and sessions count from 1, each is given once, and a token is answered once (docs/MODEL.md: Legal and Once)"
ONCE = "resume: a parked access goes on once, by the response to its own token, and waits till then (docs/MODEL.md: Legal and Once)"
PLAIN = "plain: bytes, sizes and names are those of files that were never moved (docs/MODEL.md: As on files that were never moved)"


class Broken(Exception):
    """The rule that an entry breaks, and how."""

    def __init__(self, rule, how):
        super().__init__(f"{rule}; {how}")
        self.name = rule.split(":")[0]


def shown(text):
    return text if len(text) <= SHOWN else f"{text[:SHOWN]}.. ({len(text)} characters)"


class Tokens:
    """What entries promise of the later ones: it reads entries alone."""

    def __init__(self):
        self.given = {"token": 0, "session": 0}
        self.responses = {}
        self.parked = {}

    def watch(self, call, answer):
        first, *rest = answer.split(" ")
        kind = {"parked": "token", "token": "token", "session": "session"}.get(first)
        if kind:
            self.given[kind] += 1
            if rest != [str(self.given[kind])]:
                raise Broken(TOKENS, f"the next {kind} is {self.given[kind]}")
        if call.verb == "respond" and answer == "done":
            if call.token in self.responses:
                raise Broken(TOKENS, f"{call.token} was answered before, by {self.responses[call.token]}")
            self.responses[call.token] = call.response
        if call.actor[0] == "c":
            self.watch_caller(call, answer)
            if first == "parked":
                self.parked[call.actor] = int(rest[0])

    def watch_caller(self, call, answer):
        token = self.parked.get(call.actor)
        if token is None:
            return
        response = self.responses.get(token)
        verb, _, cause = (response or "").partition(" ")
        ended = {"abort": f"refused Aborted {cause}", "media": f"refused Media {cause}"}.get(verb)
        wanted = "refused Waiting" if call.verb != "resume" else ended if response else f"still {token}"
        if wanted not in (None, answer):
            raise Broken(ONCE, f"it waits for {token}, which has {shown(response) if response else 'no response'}: wanted {shown(wanted)}")
        if wanted is None and (answer == f"still {token}" or answer.startswith(("refused Aborted", "refused Media"))):
            raise Broken(ONCE, f"{token} was answered by continue")
        if call.verb == "resume" and response:
            del self.parked[call.actor]


class PlainFiles:
    """Files that were never moved. They are those of bench/plain_replay.py, which knows neither tokens nor segments."""

    def __init__(self):
        self.fold = plain_replay.Fold()

    def watch(self, call, answer):
        words = [getattr(call, part) for part in FORMS[call.verb]]
        if call.verb == "writeinvis":
            words = [*call.handle[1:], call.offset, call.data]
        wanted = self.fold.wanted((call.actor, call.verb, *words), answer)
        if call.handle is not None and not answer.startswith("refused "):
            wanted = self.of_session(call, answer)
        if wanted != answer:
            raise Broken(PLAIN, f"wanted {shown(wanted)}")

    def of_session(self, call, answer):
        """What a session is told of a file, where it is told of its bytes."""
        files = self.fold.store.files.values()
        body = next((file.body for file in files if (file.inode, file.generation) == call.handle[1:]), b"")
        if call.verb == "readinvis":
            return data_text(bytes(body[call.offset : call.offset + call.length]))
        if call.verb == "fileattr":
            return " ".join(("attr", str(len(body)), *answer.split(" ")[2:]))
        if call.verb == "restore" and body[call.segment * SEGMENT : (call.segment + 1) * SEGMENT] != call.data:
            return "to bring back the bytes that were given up"
        return answer


class Judge(Run):
    """A run whose choices are those of a transcript. Each entry that no rule allows ends it by Broken."""

    def __init__(self, transcript):
        super().__init__()
        self.told = transcript.split("\n")
        self.watchers = (Tokens(), PlainFiles())
        self.reason = LINE
        # The tokens that lines of the script took by asking for events, and those that they named in a request or a downgrade.
        self.taken = set()
        self.named = set()

    def next(self):
        """The next entry, which isn't taken yet. There is none where the transcript is at its end."""
        return self.told[len(self.entries)] if len(self.entries) < len(self.told) - 1 else None

    def event(self, call):
        action, _, answer = (self.next() or "").rpartition(" = ")
        if action != text_of(call):
            self.refuse(self.reason, [call])
        for watcher in self.watchers:
            watcher.watch(call, answer)
        wanted = self.store.answer(call)
        if answer != wanted:
            raise Broken(ANSWER, f"wanted {shown(wanted)}")
        self.entries.append(f"{action} = {answer}")
        return answer

    def choose(self, daemon, offer):
        action = (self.next() or "").rpartition(" = ")[0]
        call = next((call for call in offer.calls if text_of(call) == action), None)
        if call is None:
            own = action.split(" ")[0] in ("s0", f"s{daemon.sid}")
            self.refuse(offer.rule if own else self.reason, offer.calls)
        if call.verb == "findmsg":
            self.taken.discard(call.token)
        return call

    def refuse(self, rule, calls):
        """The next entry is none of these calls."""
        actor = (self.next() or "").split(" ")[0]
        sessions = self.store.sessions.items()
        daemon = next((name for sid, session in sessions for name in INFOS if (f"s{sid}", INFOS[name]) == (actor, session.info)), None)
        # A line of the script may use the session of a daemon, also of one that doesn't run.
        is_dead = daemon is not None and daemon not in self.daemons and calls[0].actor != actor
        wanted = " or ".join(shown(text_of(call)) for call in calls)
        raise Broken(LIFE if is_dead else rule, f"wanted {wanted}")

    def line(self, line):
        first, verb = len(self.entries), line.verb
        self.reason = LINE if isinstance(line, Call) else SETTLE if verb == "settle" else STEP
        answer = super().line(line)
        if verb == "getevents" and answer.startswith("packed "):
            self.taken |= {message.token for message in self.store.told}
        if verb in ("request", "downgrade"):
            self.named.add(line.token)
        if verb == "settle":
            self.look_at_settled(first)

    # What a settle may leave.

    def look_at_settled(self, first):
        for caller, access in self.store.waiting.items():
            if not self.may_wait(access):
                raise Broken(LEFT, f"the access of {caller} is left")
        crowded = self.store.used() > BLOCKS * HIGH // 100
        migrate = self.daemons.get("migrate")
        if crowded and migrate and migrate.sid and not any(" table = table " in entry for entry in self.entries[first:]):
            raise Broken(LEFT, "no pass began")

    def may_wait(self, access):
        held = self.store.rights.get(access.key, {})
        if access.message is None or access.response is not None:
            return any(self.is_foreign(token) for token, right in held.items() if "excl" in (right, NEEDS[access.call.verb]))
        token = access.message.token
        name = self.holder(token, access.message.kind)
        if name is None or token in self.taken:
            return True
        return name == "recall" and any(self.is_foreign(other) for other in held if other != token)

    def holder(self, token, kind, must_be_outstanding=False):
        """The running daemon in whose session the message of a token of its kinds is."""
        for name, daemon in self.daemons.items():
            session = self.store.sessions.get(daemon.sid)
            if session is not None and kind in KINDS[name]:
                queue = [] if must_be_outstanding else [message.token for message in session.queue]
                if token in session.outstanding or token in queue:
                    return name
        return None

    def is_foreign(self, token):
        owner = self.store.owner(token)
        kind = self.store.sessions[owner].outstanding[token].kind if owner else None
        return self.holder(token, kind, must_be_outstanding=True) is None or token in self.taken or token in self.named


def judged(script, transcript):
    """The name of the rule that is broken first and what is told of it, or two times None."""
    try:
        lines = parsed(script)
    except BadLine as bad:
        return "script", f"line {bad} isn't one of a script"
    judge = Judge(transcript)
    place = 0
    try:
        for place, line in enumerate(lines, 1):
            judge.line(line)
        if judge.told[len(judge.entries) :] != [""]:
            raise Broken(LINE, "the script is at its end")
    except Broken as broken:
        entry = shown(judge.next() or "the transcript is at its end")
        return broken.name, f"entry {len(judge.entries) + 1}, of line {place}: {entry}\n  breaks the rule {broken}"
    return None, None
