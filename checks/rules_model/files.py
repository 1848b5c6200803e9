"""What is kept of a file: its bytes and blocks, regions, attributes and segments, as docs/FORMATS.md has them (Room to Segments)."""

from typing import NamedTuple

from .script import digest_of

BLOCK = 4096
SEGMENT = 65_536
FILE = 16_777_216
FLAGS = {"read": 1, "write": 2, "truncate": 4}
ALL_FLAGS = 7
MOST_REGIONS = 4
ATTRIBUTE_COST = 16


class Stub(NamedTuple):
    """The entry of a segment that is sealed, or offline where its bytes are away."""

    is_offline: bool
    volume: int
    object: int
    count: int
    digest: bytes

    @property
    def print(self):
        return self.count, self.digest


def print_of(data):
    """The fingerprint of bytes."""
    return len(data), digest_of(data)


def print_text(fingerprint):
    return f"{fingerprint[0]} {fingerprint[1].hex()}"


class File:
    """A file by its key, which is its inode and its generation."""

    def __init__(self, *key):
        self.key = key
        self.body = bytearray()
        self.mapped = set()
        self.stamp = 0
        self.regions = ()
        self.attributes = {}
        self.stubs = {}
        # What offline segments had, in whose place the body has zeros. No answer is made of it: scripts are, that bring it back.
        self.away = {}

    @property
    def size(self):
        return len(self.body)

    def has(self, segment):
        return segment * SEGMENT < self.size

    def segments(self):
        return range(-(-self.size // SEGMENT))

    def bytes_of(self, segment):
        return bytes(self.body[segment * SEGMENT : (segment + 1) * SEGMENT])

    def blocks_of(self, segment):
        """All blocks of a segment, mapped ones and holes."""
        return blocks_met(segment * SEGMENT, min((segment + 1) * SEGMENT, self.size))

    def state(self, segment):
        stub = self.stubs.get(segment)
        return "r" if stub is None else "o" if stub.is_offline else "s"

    def offline(self):
        return sorted(segment for segment, stub in self.stubs.items() if stub.is_offline)

    def attribute_bytes(self, only=None):
        """What its attributes count, or the one of that name."""
        return sum(ATTRIBUTE_COST + len(value) for name, value in self.attributes.items() if only in (None, name))

    # Changes

    def unseal(self, front, end):
        """The segments that the range meets have no entry any more."""
        for segment in [segment for segment in self.stubs if meets(segment, front, end)]:
            del self.stubs[segment]

    def put(self, offset, data):
        """The bytes of a write that may be done, with what it does to blocks and entries."""
        end = offset + len(data)
        self.unseal(min(offset, self.size), end)
        self.mapped |= touched_by_write(self, offset, end)
        self.body.extend(bytes(max(0, end - self.size)))
        self.body[offset:end] = data

    def resize(self, size):
        """A truncate that may be done. What is cut off wholly goes with its entry, offline or not."""
        for segment in [segment for segment in self.stubs if size <= segment * SEGMENT]:
            del self.stubs[segment]
            self.away.pop(segment, None)
        self.unseal(min(size, self.size), max(size, self.size))
        self.mapped |= old_end(self, size)
        self.body.extend(bytes(max(0, size - self.size)))
        del self.body[size:]
        self.mapped = {block for block in self.mapped if block * BLOCK < size}

    def punch(self, segment):
        there = self.bytes_of(segment)
        self.away[segment] = there
        self.stubs[segment] = self.stubs[segment]._replace(is_offline=True)
        self.mapped -= self.blocks_of(segment)
        self.body[segment * SEGMENT : segment * SEGMENT + len(there)] = bytes(len(there))

    def restore(self, segment, data):
        del self.away[segment]
        self.stubs[segment] = self.stubs[segment]._replace(is_offline=False)
        self.mapped |= self.blocks_of(segment)
        self.body[segment * SEGMENT : segment * SEGMENT + len(data)] = data


# Blocks.


def blocks_met(front, end):
    """The blocks of which a range has a byte."""
    return set(range(front // BLOCK, -(-end // BLOCK)))


def old_end(file, end):
    """The block of the old end, where a change that ends there touches it."""
    return {file.size // BLOCK} if end > file.size and file.size % BLOCK else set()


def touched_by_write(file, offset, end):
    return blocks_met(offset, end) | old_end(file, end)


def touched(call, file):
    """The blocks that a caller's access touches."""
    if call.verb == "write":
        return touched_by_write(file, call.offset, call.offset + len(call.data))
    return old_end(file, call.size) if call.verb == "truncate" else set()


# Regions and segments.


def meets(segment, front, end):
    """Whether a range has a byte of the segment, be it past the file's end."""
    return max(front, segment * SEGMENT) < min(end, (segment + 1) * SEGMENT)


def covers(regions, segment):
    """Whether one region with all flags has all bytes of the segment, also those past the file's end."""
    front, end = segment * SEGMENT, (segment + 1) * SEGMENT
    return any(flags == ALL_FLAGS and offset <= front and (not size or offset + size >= end) for offset, size, flags in regions)


def reach(verb, file_size, first, length):
    """The bytes that an access reaches: from the first number of its message on, with that length."""
    if verb == "read":
        return first, min(first + length, file_size)
    if verb == "write":
        return min(first, file_size), first + length
    return min(first, file_size), max(first, file_size)


def numbers_of(call):
    """The two numbers of the message of an access: where it begins and its length, of a truncate the new size and 0."""
    if call.verb == "truncate":
        return call.size, 0
    return call.offset, call.length if call.verb == "read" else len(call.data)


def touches_region(call, file):
    front, end = reach(call.verb, file.size, *numbers_of(call))
    return any(
        flags & FLAGS[call.verb] and max(front, offset) < (min(end, offset + size) if size else end)
        for offset, size, flags in file.regions
    )


def needed(verb, file_size, first, length, offline):
    """Those of the offline segments that an access needs."""
    if verb != "truncate":
        return [segment for segment in offline if meets(segment, *reach(verb, file_size, first, length))]
    inside = min(first, file_size)
    return [segment for segment in offline if first != file_size and segment * SEGMENT < inside < (segment + 1) * SEGMENT]


def regions_refusal(regions):
    if len(regions) > MOST_REGIONS:
        return f"TooMany {len(regions)}"
    front, is_endless = 0, False
    for index, (offset, size, flags) in enumerate(regions):
        if flags > ALL_FLAGS or offset + size > FILE or is_endless or offset < front:
            return f"BadRegion {index}"
        front, is_endless = offset + size, size == 0
    return None


def punched(call, file):
    """The segments of the range of a punch."""
    end = min(call.offset + call.length, file.size) if call.length else file.size
    return range(call.offset // SEGMENT, -(-end // SEGMENT))


def probed(call, file):
    """The range that could be punched of the range of a probe. It is empty where its end isn't behind its front."""
    front, end = -(-call.offset // SEGMENT) * SEGMENT, call.offset + call.length
    return front, file.size if not call.length or end >= file.size else end // SEGMENT * SEGMENT
