"""A store in a file and the folder of its volumes, read as docs/FORMATS.md says: the disk, its selected snapshot, the files with their blocks and stub
entries, and the objects that the entries name. It shares no code with the program, opens all for reading, and changes nothing.
"""

import errno
import fcntl
import hashlib
import os
import re
import stat
import struct
from collections.abc import Iterator
from dataclasses import dataclass, field
from pathlib import Path

BLOCK = 4096
SEGMENT = 65536
FRAME = 72
MOST_BYTES = 16_777_216
MOST_NUMBER = 2**62
MOST_VALUE = 4096
MOST_REGIONS = 4
MOST_VOLUME = 255
# Recall and migration have the volumes below this one.
SERVED = 8
SUPERBLOCK = struct.Struct(">8sIIQ")
SELECTING_BYTE = 4096
FIRST_SNAPSHOT = 8192
SEALED, OFFLINE = 1, 2
STATES = {SEALED: "sealed", OFFLINE: "offline"}
NAME = re.compile(rb"[!-.0-~]{1,64}")


class Refused(Exception):
    """A tool does nothing for this reason. Each of its lines is told."""


@dataclass(frozen=True)
class Geometry:
    """What the size of a store fixes."""

    most_files: int
    blocks: int
    most_entries: int
    most_attributes: int
    snapshot_bytes: int
    journal_bytes: int

    def snapshot(self, slot: int) -> int:
        return FIRST_SNAPSHOT + slot * self.snapshot_bytes

    def journal(self, slot: int) -> int:
        return self.snapshot(2) + slot * self.journal_bytes

    @property
    def data(self) -> int:
        return self.journal(2)

    @property
    def length(self) -> int:
        return self.data + self.blocks * BLOCK


GEOMETRIES = (
    Geometry(64, 1024, 1024, 32_768, 262_144, 65_536),
    Geometry(4096, 65_536, 65_536, 1_048_576, 8_388_608, 1_048_576),
)


@dataclass(frozen=True)
class Entry:
    """A stub entry: whether its segment is sealed or offline, and where its copy lies."""

    segment: int
    state: int
    volume: int
    object: int
    length: int
    sha: bytes


@dataclass
class File:
    inode: int
    generation: int
    size: int
    name: str
    regions: list[tuple[int, int, int]]
    extents: list[tuple[int, int]]
    entries: list[Entry]

    def covers(self, segment: int) -> bool:
        """Whether the segment lies whole in one region with all flags."""
        return any(flags == 7 and at <= segment * SEGMENT and (size == 0 or at + size >= (segment + 1) * SEGMENT) for at, size, flags in self.regions)


@dataclass(frozen=True)
class Bad:
    """A segment of which the bytes can't be had."""

    segment: int
    entry: Entry
    why: str

    def __str__(self) -> str:
        if self.why == "store":
            return f"segment {self.segment}: the store's own bytes are altered; its copy is object {self.entry.volume}.{self.entry.object}"
        return f"segment {self.segment}: object {self.entry.volume}.{self.entry.object} is {self.why}"


class Invalid(Exception):
    """A snapshot isn't valid."""


def wants(held: bool) -> None:
    if not held:
        raise Invalid


class Reader:
    """The fields of a snapshot, one after the other."""

    def __init__(self, data: memoryview) -> None:
        self.data = data
        self.at = 0

    def take(self, count: int) -> memoryview:
        wants(self.at + count <= len(self.data))
        self.at += count
        return self.data[self.at - count : self.at]

    def number(self, count: int) -> int:
        return int.from_bytes(self.take(count), "big")

    def rows(self, form: str, count: int) -> list[tuple]:
        return list(struct.iter_unpack(form, self.take(count * struct.calcsize(form))))


# ---- the snapshot


def read_regions(reader: Reader) -> list[tuple[int, int, int]]:
    count = reader.number(1)
    wants(count <= MOST_REGIONS)
    regions = reader.rows(">QQB", count)
    end: int | None = 0
    for at, size, flags in regions:
        wants(end is not None and at >= end and flags <= 7 and at + size <= MOST_BYTES)
        end = at + size if size else None
    return regions


def skip_attributes(reader: Reader) -> int:
    """Passes over the attributes of a file, and gives what they count."""
    before, counted = b"", 0
    for _ in range(reader.number(4)):
        name, size = bytes(reader.take(8)), reader.number(2)
        wants(name > before or not counted)
        wants(not name.startswith(b"HSM") and size <= MOST_VALUE)
        reader.take(size)
        before, counted = name, counted + 16 + size
    return counted


def ascend(numbers: list[int]) -> bool:
    return all(a < b for a, b in zip(numbers, numbers[1:]))


def read_extents(reader: Reader, size: int) -> list[tuple[int, int]]:
    extents = reader.rows(">II", reader.number(4))
    wants(ascend([block for block, _ in extents]))
    wants(not extents or extents[-1][0] * BLOCK < size)
    return extents


def read_entries(reader: Reader, size: int) -> list[Entry]:
    entries = [Entry(*row) for row in reader.rows(">IBIII32s", reader.number(4))]
    wants(ascend([entry.segment for entry in entries]))
    for entry in entries:
        wants(entry.state in STATES and entry.volume <= MOST_VOLUME)
        wants(0 < entry.length == min(SEGMENT, size - entry.segment * SEGMENT))
    return entries


def read_file(reader: Reader) -> tuple[File, int]:
    """A file, and what its attributes count."""
    inode, generation, size = (reader.number(8) for _ in range(3))
    name = bytes(reader.take(reader.number(1)))
    wants(NAME.fullmatch(name) is not None and size <= MOST_BYTES)
    regions = read_regions(reader)
    counted = skip_attributes(reader)
    file = File(inode, generation, size, name.decode("ascii"), regions, read_extents(reader, size), read_entries(reader, size))
    away = {entry.segment for entry in file.entries if entry.state == OFFLINE}
    wants(all(file.covers(segment) for segment in away))
    wants(not away or away.isdisjoint({block * BLOCK // SEGMENT for block, _ in file.extents}))
    return file, counted


@dataclass
class Snapshot:
    number: int
    next_generation: int
    files: list[File]


def read_files(reader: Reader, geometry: Geometry) -> list[File]:
    count = reader.number(4)
    wants(count <= geometry.most_files)
    files, counted = [], 0
    for _ in range(count):
        file, attributes = read_file(reader)
        files.append(file)
        counted += attributes
    wants(counted <= geometry.most_attributes)
    return files


def read_snapshot(data: bytes, geometry: Geometry) -> Snapshot:
    """The snapshot at the front of these bytes, if it is valid in a store of the geometry."""
    reader = Reader(memoryview(data))
    number, generation, form = reader.number(8), reader.number(8), reader.number(4)
    wants(number <= MOST_NUMBER and 1 <= generation <= MOST_NUMBER and form == 1)
    files = read_files(reader, geometry)
    inodes = [0, *(file.inode for file in files)]
    wants(ascend(inodes) and inodes[-1] <= geometry.most_files)
    wants(all(1 <= file.generation < generation for file in files))
    wants(len({file.name for file in files}) == len(files))
    wants(sum(len(file.entries) for file in files) <= geometry.most_entries)
    places = [place for file in files for _, place in file.extents]
    wants(len(set(places)) == len(places) and max(places, default=0) < geometry.blocks)
    return Snapshot(number, generation, files)


# ---- the store


def locked(path: str, exclusive: bool) -> int:
    """A descriptor of the store with its lock, for which nothing waits."""
    try:
        file = os.open(path, os.O_RDWR if exclusive else os.O_RDONLY | os.O_NONBLOCK)
    except OSError as error:
        raise Refused(f"{path}: {error.strerror}") from error
    try:
        fcntl.flock(file, (fcntl.LOCK_EX if exclusive else fcntl.LOCK_SH) | fcntl.LOCK_NB)
    except OSError as error:
        os.close(file)
        why = "a run has this store" if error.errno in (errno.EAGAIN, errno.EACCES) else error.strerror
        raise Refused(f"{path}: {why}") from error
    return file


@dataclass
class Store:
    """A store as its selected snapshot says it is. It has the lock until it is closed."""

    path: str
    file: int
    geometry: Geometry
    fsid: int
    snapshot: Snapshot
    files: dict[str, File] = field(default_factory=dict)

    def __enter__(self) -> "Store":
        return self

    def __exit__(self, *_: object) -> None:
        os.close(self.file)

    @property
    def used(self) -> int:
        return sum(len(file.extents) for file in self.files.values())

    def entries(self) -> Iterator[tuple[File, Entry]]:
        for file in self.files.values():
            for entry in file.entries:
                yield file, entry


def read_at(file: int, at: int, count: int) -> bytes:
    data = os.pread(file, count, at)
    while len(data) < count and (more := os.pread(file, count - len(data), at + len(data))):
        data += more
    return data


def superblock_of(path: str, file: int) -> tuple[Geometry, int]:
    """The geometry and the file system id that the superblock says."""
    head = read_at(file, 0, SUPERBLOCK.size)
    if len(head) == SUPERBLOCK.size:
        magic, form, geometry, fsid = SUPERBLOCK.unpack(head)
        if (magic, form) == (b"HSMSTOR1", 1) and geometry < len(GEOMETRIES) and os.fstat(file).st_size == GEOMETRIES[geometry].length:
            return GEOMETRIES[geometry], fsid
    raise Refused(f"{path}: not a store")


def read_store(path: str, file: int) -> Store:
    geometry, fsid = superblock_of(path, file)
    slot = 1 if read_at(file, SELECTING_BYTE, 1) == b"\1" else 0
    try:
        snapshot = read_snapshot(read_at(file, geometry.snapshot(slot), geometry.snapshot_bytes), geometry)
    except Invalid:
        raise Refused(f"{path}: corrupt at {geometry.snapshot(slot)}: the snapshot isn't valid") from None
    if read_at(file, geometry.journal(slot), 1) == b"\1":
        raise Refused(f"{path}: corrupt at {geometry.journal(slot)}: the journal's gate is open")
    files = {file.name: file for file in sorted(snapshot.files, key=lambda file: file.name)}
    return Store(path, file, geometry, fsid, snapshot, files)


def open_store(path: str, exclusive: bool = False) -> Store:
    """Opens a store, under a lock that other readers may share, or under the one that a run takes."""
    file = locked(path, exclusive)
    try:
        return read_store(path, file)
    except OSError as error:
        os.close(file)
        raise Refused(f"{path}: {error.strerror}") from error
    except Refused:
        os.close(file)
        raise


# ---- volumes


class Volumes:
    """The objects in a folder of volumes."""

    def __init__(self, folder: str) -> None:
        self.folder = Path(folder)

    def check(self, store: Store) -> None:
        """Refuses a folder that isn't there, but where the store has no stub entry, so that no object is needed."""
        if self.folder.is_dir():
            return
        if self.folder.exists():
            raise Refused(f"{self.folder}: not a folder")
        if any(store.entries()):
            raise Refused(f"{self.folder}: there is no such folder of volumes")

    def bytes_of(self, volume: int, number: int) -> bytes | None:
        """The bytes of an object, frame and all, or nothing where it isn't there."""
        try:
            file = os.open(self.folder / f"{volume}.{number}", os.O_RDONLY | os.O_NONBLOCK)
        except FileNotFoundError:
            return None
        try:
            found = os.fstat(file)
            if not stat.S_ISREG(found.st_mode):
                raise OSError(errno.EINVAL, "not a regular file")
            # One byte more than an object has tells that it is too long.
            return read_at(file, 0, min(found.st_size, FRAME + SEGMENT + 1))
        finally:
            os.close(file)

    def payload(self, entry: Entry) -> tuple[memoryview, str]:
        """The payload of the entry's object, or none, and what the object is: intact, missing, altered, or why it can't be read."""
        try:
            data = self.bytes_of(entry.volume, entry.object)
        except OSError as error:
            return memoryview(b""), f"unreadable ({error.strerror})"
        if data is None:
            return memoryview(b""), "missing"
        payload = memoryview(data)[FRAME:]
        if len(payload) != entry.length or hashlib.sha256(payload).digest() != entry.sha:
            return memoryview(b""), "altered"
        return payload, "intact"

    def state(self, entry: Entry) -> str:
        """What the entry's object is: as payload tells, or not served where it is intact in a volume that recall doesn't have."""
        _, why = self.payload(entry)
        return "not served" if why == "intact" and entry.volume >= SERVED else why

    def objects(self) -> list[tuple[int, int]]:
        """The volume and the number of each object that has a file, also behind a gap. A folder that isn't there has none."""
        form = re.compile(r"(0|[1-9][0-9]{0,2})\.(0|[1-9][0-9]{0,9})")
        names = os.listdir(self.folder) if self.folder.is_dir() else []
        found = [(int(match[1]), int(match[2])) for name in names if (match := form.fullmatch(name))]
        return sorted((volume, number) for volume, number in found if volume <= MOST_VOLUME and number < 2**32)

    def size(self, volume: int, number: int) -> int:
        return os.stat(self.folder / f"{volume}.{number}").st_size


# ---- bodies


def place_blocks(store: Store, file: File, body: memoryview) -> None:
    """Reads the file's blocks into their places; what isn't mapped stays zeros."""
    first = 0
    extents = file.extents
    for index, (block, place) in enumerate(extents):
        if index + 1 < len(extents) and extents[index + 1] == (block + 1, place + 1):
            continue
        begin = block - (index - first)
        view = body[begin * BLOCK : (block + 1) * BLOCK]
        if os.preadv(store.file, [view], store.geometry.data + (place - (index - first)) * BLOCK) != len(view):
            raise Refused(f"{store.path}: the store ends too soon")
        first = index + 1


def place_segment(volumes: Volumes, entry: Entry, part: memoryview) -> Bad | None:
    """Checks the bytes of a segment that has an entry, or brings them from its object. Those that are bad become zeros."""
    if entry.state == SEALED:
        why = "intact" if hashlib.sha256(part).digest() == entry.sha else "store"
    else:
        payload, why = volumes.payload(entry)
        if why == "intact":
            part[:] = payload
    if why == "intact":
        return None
    part[:] = bytes(len(part))
    return Bad(entry.segment, entry, why)


def body_of(store: Store, volumes: Volumes, file: File) -> tuple[bytearray, list[Bad]]:
    """The bytes of a file, and the segments of which they can't be had, which are zeros."""
    body = bytearray(file.size)
    bad = []
    with memoryview(body) as view:
        place_blocks(store, file, view)
        for entry in file.entries:
            at = entry.segment * SEGMENT
            found = place_segment(volumes, entry, view[at : at + entry.length])
            if found:
                bad.append(found)
    return body, bad
