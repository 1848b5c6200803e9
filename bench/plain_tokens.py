#!/usr/bin/env python3
"""The events of sessions' own and their tokens as a plain Python program: a baseline of bench/run.

It reads the whole script and checks it, then runs the lines over a dict of tokens, and then writes the transcript. It knows new sessions,
`userevent`, `findmsg` and `respond`, and data in hex.
"""

import re
import sys
from hashlib import sha256

NUMBER = rb"(0|[1-9][0-9]{0,19})"
LINE = re.compile(
    rb"s0 session 0 ([!-~]+)|s%b (?:(userevent) x:((?:[0-9a-f]{2})*)|(findmsg) %b %b|(respond) %b (continue|abort %b))"
    % (NUMBER, NUMBER, NUMBER, NUMBER, NUMBER)
)
LINE_BYTES = 4096
LINES = 100_000
ALL_ACCESS_BYTES = 536_870_912
SESSIONS = 64
INFO_BYTES = 256
TOKENS = 960
DATA_BYTES = 4096
HEADER_BYTES = 24
GREATEST = 2**64 - 1


def call_of(piece):
    """A session with its verb, and what stands behind it, or None where the line is refused."""
    match = LINE.fullmatch(piece)
    if match is None or len(piece) > LINE_BYTES:
        return None
    info, sid, event, digits, find, found, room, respond, token, response, error = match.groups()
    if info is not None:
        return (0, "session", info.decode())
    numbers = [int(word) for word in (sid, found, room, token, error) if word is not None]
    if any(number > GREATEST for number in numbers) or max(int(room or 0), int(error or 0)) >= 2**32:
        return None
    sid = int(sid)
    if event:
        return (sid, "userevent", bytes.fromhex(digits.decode()))
    if find:
        return (sid, "findmsg", int(found), int(room))
    return (sid, "respond", int(token), response.decode(), None if error is None else int(error))


def parsed(text):
    """The calls of a script as tuples, or the number of the first line that is refused."""
    pieces = text.split(b"\n")
    if not pieces[-1]:
        pieces.pop()
    calls = []
    total = 0
    for number, piece in enumerate(pieces, 1):
        call = call_of(piece)
        if call is None or number > LINES:
            return number
        if call[1] == "userevent":
            total += len(call[2])
        if total > ALL_ACCESS_BYTES:
            return number
        calls.append(call)
    return calls


def data_text(body):
    if not body:
        return "-"
    if len(body) <= 32:
        return body.hex()
    return f"n={len(body)} sha={sha256(body).hexdigest()}"


def message_bytes(body):
    """What a message with these data takes: a header, and the data up to a multiple of 8."""
    return -(-(HEADER_BYTES + len(body)) // 8) * 8


class Sessions:
    def __init__(self):
        self.count = 0
        self.given = 0
        # Of each outstanding token its session and its data.
        self.tokens = {}

    def session(self, info):
        if len(info) > INFO_BYTES:
            return f"refused TooMany {len(info)}"
        if self.count == SESSIONS:
            return f"refused TooMany {SESSIONS}"
        self.count += 1
        return f"session {self.count}"

    def userevent(self, sid, body):
        if len(body) > DATA_BYTES:
            return f"refused TooMany {len(body)}"
        if len(self.tokens) == TOKENS:
            return f"refused TooMany {TOKENS}"
        self.given += 1
        self.tokens[self.given] = (sid, body)
        return f"token {self.given}"

    def not_owned(self, sid, token):
        """What refuses a token that isn't this session's."""
        if token not in self.tokens:
            return "refused NoToken"
        owner = self.tokens[token][0]
        return None if owner == sid else f"refused NotYours {owner}"

    def findmsg(self, sid, token, room):
        refused = self.not_owned(sid, token)
        if refused is not None:
            return refused
        need = message_bytes(self.tokens[token][1])
        return f"packed {need} {token}" if need <= room else f"refused TooSmall {need}"

    def respond(self, sid, token, error):
        refused = self.not_owned(sid, token)
        if refused is not None:
            return refused
        if error is not None and not 1 <= error <= 255:
            return "refused BadResponse"
        del self.tokens[token]
        return "done"


def replayed(calls):
    """The transcript's lines."""
    sessions = Sessions()
    lines = []
    for sid, verb, *words in calls:
        if verb == "session":
            lines.append(f"s0 session 0 {words[0]} = {sessions.session(words[0])}\n")
            continue
        lives = 1 <= sid <= sessions.count
        if verb == "userevent":
            told = sessions.userevent(sid, words[0]) if lives else "refused NoSession"
            lines.append(f"s{sid} userevent {data_text(words[0])} = {told}\n")
        elif verb == "findmsg":
            told = sessions.findmsg(sid, *words) if lives else "refused NoSession"
            lines.append(f"s{sid} findmsg {words[0]} {words[1]} = {told}\n")
        else:
            told = sessions.respond(sid, words[0], words[2]) if lives else "refused NoSession"
            lines.append(f"s{sid} respond {words[0]} {words[1]} = {told}\n")
    return lines


def main():
    calls = parsed(sys.stdin.buffer.read())
    if isinstance(calls, int):
        print(f"hsm: script refused at line {calls}", file=sys.stderr)
        return 1
    sys.stdout.write("".join(replayed(calls)))
    return 0


if __name__ == "__main__":
    sys.exit(main())
