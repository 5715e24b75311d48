#!/usr/bin/env python3
"""Reads a journal apart from the program, by the bytes of JOURNAL.md; the program may be writing it.

    read_journal.py JOURNAL              how many of each kind were ever made, and how many may be (REGISTRY.md, "Limits")
    read_journal.py JOURNAL MOMENT       the commands from that moment on: number, place of the gate, moment, op and caller

A moment is as in 2026-11-30T14:00:00Z. At most 20 commands are shown. It ends with status 1 where the journal is cut off
amid a command, and tells the place; whether each command can be carried out is for the program's `check` to say."""
from __future__ import annotations

import datetime
import struct
import sys
from typing import BinaryIO, Iterator

OPS = """folder.add folder.rename folder.move folder.delete subject.add group.add group.rename group.move group.delete
member.add member.remove member.window composite.set composite.clear grant.add grant.remove inherit.add inherit.remove
attrdef.add attrdef.delete attr.add attr.delete assign.add assign.remove value.add value.remove rule.remove_lost
rule.end_lost rule.veto rule.on_create rule.delete job.simple job.list job.delete load consumer.add consumer.ack""".split()
MAKES = {"folder.add": "folder", "group.add": "group", "subject.add": "subject", "attrdef.add": "definition",
         "attr.add": "attribute", "assign.add": "assignment", "rule.remove_lost": "rule", "rule.end_lost": "rule",
         "rule.veto": "rule", "rule.on_create": "rule", "job.simple": "job", "job.list": "job",
         "consumer.add": "consumer"}
LIMITS = {"folder": 10000, "group": 100000, "subject": 500000, "definition": 10000, "attribute": 10000,
          "assignment": 500000, "rule": 10000, "job": 1000, "consumer": 100, "history": 4000000}
EPOCH = datetime.datetime(1970, 1, 1)
SHOWN = 20


class Command:
    """A command: its place, its moment in microseconds, its caller, its op, and the bytes of its fields. Behind the caller
    stands a byte 0, or a byte 1 and a key."""

    def __init__(self, place: int, payload: bytes) -> None:
        self.place, (self.moment, length) = place, struct.unpack_from("<QH", payload)
        self.caller = payload[10:10 + length].decode()
        code = 11 + length
        if payload[10 + length]:
            code += 2 + int(struct.unpack_from("<H", payload, code)[0])
        self.op, self.fields = OPS[payload[code] - 1], payload[code + 1:]

    def created(self) -> int:
        """How many groups a load made."""
        job = struct.unpack_from("<H", self.fields)[0]
        return int(struct.unpack_from("<I", self.fields, 2 + job)[0])


def commands(file: BinaryIO, damages: list[int]) -> Iterator[Command]:
    """The commands of a journal up to its closed gate, or to the place where it is cut off, which is noted."""
    place = 8
    if file.read(8) != b"GRPREG2\n":
        damages.append(0)
        return
    gate = file.read(1)
    while gate == b"\1":
        head = file.read(4)
        payload = file.read(struct.unpack("<I", head)[0]) if len(head) == 4 else b""
        gate = file.read(1)
        if not gate:
            break
        yield Command(place, payload)
        place += 5 + len(payload)
    if not gate:
        damages.append(place)


def show_made(found: Iterator[Command]) -> None:
    counts = dict.fromkeys(LIMITS, 0)
    for command in found:
        counts["history"] += 1
        if command.op in MAKES:
            counts[MAKES[command.op]] += 1
        elif command.op == "load":
            counts["group"] += command.created()
    for kind, limit in LIMITS.items():
        print("%-10s %7d of %7d %5.1f %%" % (kind, counts[kind], limit, 100 * counts[kind] / limit))


def show_from(found: Iterator[Command], moment: int) -> None:
    behind = [(n, command) for n, command in enumerate(found, 1) if command.moment >= moment]
    for n, command in behind[:SHOWN]:
        at = (EPOCH + datetime.timedelta(microseconds=command.moment)).isoformat(timespec="microseconds")
        print("%7d at %10d  %sZ  %-16s %s" % (n, command.place, at, command.op, command.caller))
    print("%d commands from there on" % len(behind))


def main() -> None:
    if len(sys.argv) not in (2, 3):
        sys.exit(__doc__)
    damages: list[int] = []
    with open(sys.argv[1], "rb") as file:
        if len(sys.argv) == 2:
            show_made(commands(file, damages))
        else:
            asked = datetime.datetime.fromisoformat(sys.argv[2].rstrip("Z"))
            show_from(commands(file, damages), (asked - EPOCH) // datetime.timedelta(microseconds=1))
    for place in damages:
        sys.exit("damaged at %d" % place)


if __name__ == "__main__":
    main()
