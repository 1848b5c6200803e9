#!/usr/bin/env python3
"""The disk calls of commits as a plain Python loop: a baseline of bench/run.

The words are the path of a small store, how many commits there are, and the bytes of a snapshot.
"""

import os
import sys

SELECTING = 4096
SNAPSHOTS = (8192, 270_336)
JOURNALS = (532_480, 598_016)
DATA = 663_552
BLOCK_BYTES = 4096
BLOCKS = 1024


def write_at(store, at, data):
    os.lseek(store, at, os.SEEK_SET)
    if os.write(store, data) != len(data):
        raise OSError("a write was cut")


def main():
    path, rounds, snapshot_bytes = sys.argv[1], int(sys.argv[2]), int(sys.argv[3])
    store = os.open(path, os.O_RDWR)
    block, snapshot = bytes(range(256)) * (BLOCK_BYTES // 256), bytes(snapshot_bytes)
    for number in range(rounds):
        slot = 1 - number % 2
        write_at(store, DATA + number % BLOCKS * BLOCK_BYTES, block)
        write_at(store, SNAPSHOTS[slot], snapshot)
        write_at(store, JOURNALS[slot], b"\0")
        os.fsync(store)
        write_at(store, SELECTING, bytes([slot]))
        os.fsync(store)


if __name__ == "__main__":
    main()
