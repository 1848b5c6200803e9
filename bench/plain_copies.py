#!/usr/bin/env python3
"""plain_copies.py DIR N: writes N files of an object's bytes into a new folder DIR, one after the other, each with the syncs of a copy, and reads and
compares each; then reads and compares each once more. It makes the disk calls of shelf_bench, and no hash."""

import os
import sys

SEGMENT_BYTES = 65_536
FRAME = bytes(72)


def object_bytes(number):
    """As many bytes as the object of a segment has, other ones for each number."""
    return FRAME + number.to_bytes(4, "big") + bytes([number % 251]) * (SEGMENT_BYTES - 4)


def sync(path):
    folder = os.open(path, os.O_RDONLY)
    os.fsync(folder)
    os.close(folder)


def write(path, data):
    file = os.open(path, os.O_WRONLY | os.O_CREAT | os.O_EXCL, 0o666)
    if os.write(file, data) != len(data):
        raise OSError(f"{path} took too few bytes")
    os.fsync(file)
    os.close(file)


def compare(path, data):
    """Reads what follows the frame, as much as the file has."""
    size = os.stat(path).st_size - len(FRAME)
    file = os.open(path, os.O_RDONLY)
    if os.pread(file, size, len(FRAME)) != data[len(FRAME) :]:
        raise OSError(f"{path} has other bytes")
    os.close(file)


def main():
    folder, count = sys.argv[1], int(sys.argv[2])
    os.mkdir(folder)
    sync(os.path.dirname(folder) or ".")
    for number in range(count):
        data, path = object_bytes(number), f"{folder}/{number}"
        write(path, data)
        compare(path, data)
        sync(folder)
    for number in range(count):
        compare(f"{folder}/{number}", object_bytes(number))


if __name__ == "__main__":
    main()
