#!/usr/bin/env python3
"""Copies the new commands of a journal to a copy of it, while a program writes the journal.

    follow.py JOURNAL COPY [--every SECONDS]

Once, or again and again. COPY is begun where it is absent or empty. At every moment, and after a stop at any, COPY opens to a
front of JOURNAL's commands: the frames behind its last gate are written and synced first, and that gate is opened then
(docs/JOURNAL.md). COPY is locked meanwhile, as a registry locks its journal: to ask it, copy it again. Each round prints how
many commands were copied, and the place of COPY's last gate. It ends with status 1 where COPY is no front of JOURNAL, is no
journal, or is locked by another."""
import argparse
import fcntl
import os
import struct
import sys
import time

HEADER = b"GRPREG2\n"
OPEN = b"\1"
# how much of COPY's end is compared with JOURNAL's, each time
TAIL = 1 << 16
# how much is copied at a time, unless a command is longer
ROOM = 1 << 24


def whole_frames(data):
    """How many frames stand whole at the front of bytes that begin at a gate, up to the first closed one, and the place
    of the gate behind them."""
    count = at = 0
    while data[at:at + 1] == OPEN and at + 5 <= len(data):
        behind = at + 5 + struct.unpack_from("<I", data, at + 1)[0]
        if behind >= len(data):
            break
        count, at = count + 1, behind
    return count, at


def last_gate(file):
    """The place of the first closed gate of a journal, read from its front."""
    place, length = len(HEADER), os.fstat(file).st_size
    while True:
        data = os.pread(file, ROOM, place)
        count, at = whole_frames(data)
        if count == 0:
            if data[:1] == OPEN and len(data) == ROOM:
                # a long frame: only its length is read
                at = 5 + struct.unpack_from("<I", data, 1)[0]
                if place + at >= length:
                    return place
            else:
                return place
        place += at


def begin(copy):
    """Opens the copy and locks it, and begins it where it has nothing."""
    file = os.open(copy, os.O_RDWR | os.O_CREAT, 0o600)
    try:
        fcntl.flock(file, fcntl.LOCK_EX | fcntl.LOCK_NB)
    except OSError:
        sys.exit("another program has the copy locked")
    if os.fstat(file).st_size == 0:
        os.pwrite(file, HEADER + b"\0", 0)
        os.fsync(file)
    if os.pread(file, len(HEADER), 0) != HEADER:
        sys.exit("the copy is no journal")
    return file


def check_front(journal, copy, gate):
    """Ends the program where the copy's last bytes aren't the journal's."""
    start = max(0, gate - TAIL)
    if os.pread(copy, gate - start, start) != os.pread(journal, gate - start, start):
        sys.exit("the copy is no front of the journal")


def copy_new(journal, copy, gate):
    """Copies the whole frames behind the copy's last gate, one bite at a time: how many, and the copy's new last gate."""
    total = 0
    while True:
        room = ROOM
        # read from its front, so that what stands behind an open gate was written before
        data = os.pread(journal, room, gate)
        count, at = whole_frames(data)
        while count == 0 and data[:1] == OPEN and len(data) == room:
            room *= 4
            data = os.pread(journal, room, gate)
            count, at = whole_frames(data)
        if count == 0:
            return total, gate
        os.pwrite(copy, data[1:at] + b"\0", gate + 1)
        os.fsync(copy)
        os.pwrite(copy, OPEN, gate)
        os.fsync(copy)
        total, gate = total + count, gate + at


def main():
    words = argparse.ArgumentParser(description=__doc__.split("\n")[0])
    words.add_argument("journal")
    words.add_argument("copy")
    words.add_argument("--every", type=float, help="seconds between two rounds; left out, there is one round")
    asked = words.parse_args()
    journal = os.open(asked.journal, os.O_RDONLY)
    copy = begin(asked.copy)
    gate = last_gate(copy)
    while True:
        check_front(journal, copy, gate)
        count, gate = copy_new(journal, copy, gate)
        print("%d commands copied, the last gate at %d" % (count, gate), flush=True)
        if asked.every is None:
            return
        time.sleep(asked.every)


if __name__ == "__main__":
    main()
