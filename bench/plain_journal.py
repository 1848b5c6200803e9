#!/usr/bin/env python3
"""plain_journal.py FILE N: commits N batches of one record to the journal that fills the file, which has none so far: for each the batch without its gate
and a closed gate behind it, a sync, the gate, and a sync. It makes the disk calls of journal_bench."""

import os
import sys

RECORD = bytes([7]) * 35


def write_at(journal, at, data):
    os.lseek(journal, at, os.SEEK_SET)
    if os.write(journal, data) != len(data):
        raise OSError("a write was cut")


def main():
    path, batches = sys.argv[1], int(sys.argv[2])
    journal = os.open(path, os.O_RDWR)
    gate = 0
    for number in range(batches):
        body = len(RECORD).to_bytes(4, "big") + number.to_bytes(8, "big") + (1).to_bytes(4, "big") + RECORD
        write_at(journal, gate + 1, body + b"\0")
        os.fsync(journal)
        write_at(journal, gate, b"\1")
        os.fsync(journal)
        gate += 1 + len(body)


if __name__ == "__main__":
    main()
