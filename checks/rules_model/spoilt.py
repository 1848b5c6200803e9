"""Whether the judge finds faults: the transcripts of examples/ must pass, and those changed here be refused by the rule that they break."""

from pathlib import Path
from typing import NamedTuple

from .judge import judged

CASES = Path(__file__).resolve().parents[2] / "examples" / "cases"


class Change(NamedTuple):
    """What is changed, of which example, the rule that this breaks, and how: by the beginning of a line, and what stands for it."""

    what: str
    example: str
    rule: str
    how: object
    start: str = ""
    old: str = ""
    new: str = ""

    def made(self, lines):
        if callable(self.how):
            return self.how(lines)
        place = found(lines, self.start, found(lines, self.old) if self.how == "drop" else 0)
        before, line, behind = lines[:place], lines[place], lines[place + 1 :]
        match self.how:
            case "drop":
                return before + behind
            case "double":
                return [*before, line, line, *behind]
            case "put":
                return [*before, line, self.new, *behind]
            case "exchange":
                other = found(lines, self.old)
                return [*before, lines[other], *lines[place + 1 : other], line, *lines[other + 1 :]]
        return [*before, line.replace(self.old, self.new), *behind]


def found(lines, start, after=0):
    """The place of the first line that begins so, from a place on."""
    return next(place for place in range(after, len(lines)) if lines[place].startswith(start))


def pick_left_out(lines):
    """The second segment of a pass isn't touched."""
    first = found(lines, "s1 getregion", found(lines, "s1 punch"))
    return lines[:first] + lines[found(lines, "s1 punch", first) + 1 :]


def events_exchanged(lines):
    """All that recall does for its first event comes behind its second."""
    one, two, end = (found(lines, f"s2 request {token}") for token in (1, 2, 3))
    return lines[:one] + lines[two:end] + lines[one:two] + lines[end:]


def settle_cut_short(lines):
    """A settle ends though the right is gone that was in recall's way, and nobody goes on."""
    place = found(lines, "s2 respond 1") + 1
    end = found(lines, "s2 alloc", place)
    return [*lines[:place], lines[end].replace("= alloc s", "= alloc o"), *lines[end + 1 :]]


MIGRATED, ORDER, KILLED = "daemons/migrate-and-recall", "daemons/settle-resumes-in-order", "daemons/killed-in-a-recall"
STILL, RECALL, TWICE = "parking/still-waiting", "segments/recall", "daemons/started-and-killed-twice"
EXCL, GONE = "hostile/excl-on-an-offline-file", "hostile/session-of-recall-destroyed"
CHANGES = (
    Change("one byte of a read", MIGRATED, "plain", "edit", "c1 resume", "00070e15", "00070e16"),
    Change("zeros for bytes that are away", RECALL, "plain", "edit", "c1 read a 0 3 = parked", "parked 1", "000000"),
    Change("one digit of a stamp", ORDER, "answer", "edit", "s2 fileattr 1", " 53 608", " 54 608"),
    Change("a refusal as done", "daemons/no-room-for-a-restore", "answer", "edit", "s2 restore", "refused NoSpace 16 0", "done"),
    Change("an entry left out", MIGRATED, "recall", "drop", "s3 restore"),
    Change("a quiet entry left out", MIGRATED, "pass", "drop", "s1 getevents"),
    Change("a line's entry left out", STILL, "line", "drop", "c1 read"),
    Change("two entries exchanged", MIGRATED, "pass", "exchange", "s1 seal", "s1 punch"),
    Change("callers in another order", ORDER, "settle", "exchange", "c1 resume", "c2 resume"),
    Change("events in another order", ORDER, "recall", events_exchanged),
    Change("a response twice", STILL, "line", "double", "s1 respond 1"),
    Change("a response of recall twice", MIGRATED, "recall", "double", "s3 respond 1"),
    Change("another response", MIGRATED, "response", "edit", "s3 respond 1", "continue", "abort 2"),
    Change("an event continued without a punch", "daemons/no-room-can-be-made", "response", "edit", "s2 respond 2", "abort 28", "continue"),
    Change("a resume of another token", STILL, "resume", "edit", "c1 resume = still", "still 1", "still 2"),
    Change("a resume before its response", STILL, "resume", "edit", "c1 resume = still", "still 1", "616263"),
    Change("an abort that goes on", "parking/abort-13", "resume", "edit", "c1 resume", "refused Aborted 13", "done"),
    Change("a token given twice", "parking/abort-13", "tokens", "edit", "c1 write a 0 ff = parked 2", "parked 2", "parked 1"),
    Change("a pass that begins twice", MIGRATED, "pass", "double", "s1 table"),
    Change("a pass that nothing asked for", "daemons/settle-with-nothing-to-do", "pass", "put", "s2 space", new="s2 table = table 1 1024 1"),
    Change("a segment of a pass left out", MIGRATED, "pass", pick_left_out),
    Change("a segment sealed and not punched", MIGRATED, "pass", "drop", "s1 punch"),
    Change("a settle cut short", MIGRATED, "settle", "drop", "s3 getevents", "c1 resume"),
    Change("a settle that resumes nobody", MIGRATED, "settle", "drop", "c1 resume"),
    Change("an entry of a killed daemon", KILLED, "life", "put", "s2 request 1", new="s2 fileattr 1 1.1.1 = attr 3407872 53 608"),
    Change("a daemon that makes a session beside its own", TWICE, "session", "edit", "s0 session 1", "session 1 HSM", "session 0 HSM"),
    Change("a step with two entries", TWICE, "step", "put", "s0 session 0", new="s1 setdisp read,write,truncate = done"),
    Change("kinds of another daemon", "daemons/settle-with-nothing-to-do", "session", "edit", "s1 setdisp", "read,write,truncate", "nospace"),
    Change("a settle that ends where recall's next act would free a read", EXCL, "settle", settle_cut_short),
    Change("a caller that goes on while a right is in the way", EXCL, "settle", "put", "s3 getevents 0 65536 = refused Again", new="c2 resume = blocked 1"),
    Change("a daemon that calls again in a session that is gone", GONE, "settle", "double", "s2 getevents 0 65536 = refused NoSession"),
    Change("damage that isn't there", "media/object-that-is-not-there", "response", "edit", "s2 respond 1", "abort 2", "media failed 7 0 0 1"),
)


def texts_of(example):
    script = CASES / f"{example}.script"
    return script.read_bytes(), script.with_suffix(".expected").read_text()


def overlooked():
    """What the judge doesn't find, or finds without reason."""
    for script in sorted(CASES.rglob("*.expected")):
        example = str(script.relative_to(CASES).with_suffix(""))
        rule, told = judged(*texts_of(example))
        if rule:
            yield f"the transcript of the example {example} is refused: {told}"
    for change in CHANGES:
        script, transcript = texts_of(change.example)
        lines = change.made(transcript.split("\n"))
        rule, told = judged(script, "\n".join(lines))
        if rule is None:
            yield f"this isn't refused: {change.what}"
        elif rule != change.rule:
            yield f"this is refused by the rule {rule}, and not by {change.rule}: {change.what}: {told}"
    yield from each_entry_changed()


def each_entry_changed():
    """Of a short transcript each entry is left out, doubled, and exchanged with the next one."""
    script, transcript = texts_of("daemons/settle-ends-a-round")
    lines = transcript.split("\n")[:-1]
    for place, line in enumerate(lines):
        before, behind = lines[:place], lines[place + 1 :]
        exchanged = [*before, *behind[:1], line, *behind[1:]]
        for what, spoilt in (("left out", before + behind), ("doubled", [*before, line, line, *behind]), ("exchanged", exchanged)):
            if spoilt != lines and judged(script, "".join(f"{line}\n" for line in spoilt))[0] is None:
                yield f"this isn't refused: entry {place + 1} of daemons/settle-ends-a-round is {what}"
