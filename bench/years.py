#!/usr/bin/env python3
"""Opens the journal of a campus after years of nights. Each night a list job for each folder loads the groups in it, 8 a
person. A thousandth of the memberships is another group's each night; on the first of March and of October six of ten are;
on that of October a fifth of the persons goes too, and as many new ones come. The groups of a folder are members of one
group above, unless --flat. Prints, after some of the years, how many commands and changed memberships the journal has, its
bytes, and what `check` takes to open it: seconds of a processor and the most memory. Then the same by what changes: for a
person, for a load that changes nothing, for a membership that a load changes, and for one that a command of its own changes.

The journal is written here, in the program's format, with each night's own moment. The first nights, of which the fourth
begins a term, are also played by the program from tables: their frames have to be the same but for the moments. In the end a
server has to tell who is in some groups, and who was on a night in the middle. The journals lie in memory (/dev/shm).

    bench/years.py [--persons N] [--groups N] [--folders N] [--years N] [--times N] [--flat]

Left out: 3,000 persons, 437 groups, 8 folders, 10 years, and the best of 3 openings. Build the program first
(./quickstart.sh), or name another by PROGRAM."""
from __future__ import annotations

import argparse
import datetime
import itertools
import json
import os
import random
import struct
import subprocess
import sys
import tempfile
from dataclasses import dataclass, field
from typing import Any, Iterator

from applying import Measured, encoded, peak_of
from serving import NO_KEY, PROGRAM, SYSTEM, Server, ask, init, message, needs_program, payload, text

EACH, NIGHTLY, TERM, INTAKE = 8, 0.001, 0.6, 0.2
# the first night; with it the fourth is that of the first of March
BEGIN = datetime.datetime(2016, 2, 27, 2)
COMPARED = 4
TOLD = (1, 2, 5)
LOAD = 35
Row = tuple[int, int]


@dataclass
class Campus:
    """Who is in which group. Persons and groups are numbered in the order in which they are made."""
    count: int
    groups: int
    folders: int
    chance: random.Random = field(default_factory=lambda: random.Random(7))
    made: int = 0
    here: list[int] = field(default_factory=list)
    # the groups of each person
    held: dict[int, list[int]] = field(default_factory=dict)
    gone: set[Row] = field(default_factory=set)
    come: set[Row] = field(default_factory=set)

    def folder(self, group: int) -> int:
        return group * self.folders // self.groups

    def group_name(self, group: int) -> str:
        return "unit%02d:course-%04d" % (self.folder(group), group)

    def enter(self) -> int:
        """A new person, in no group yet."""
        person = self.made
        self.made += 1
        self.here.append(person)
        self.held[person] = []
        return person

    def lose(self, row: Row) -> None:
        if row in self.come:
            self.come.remove(row)
        else:
            self.gone.add(row)

    def gain(self, row: Row) -> None:
        if row in self.gone:
            self.gone.remove(row)
        else:
            self.come.add(row)

    def another(self, person: int) -> int:
        """A group that the person isn't in, who is then."""
        group = self.chance.randrange(self.groups)
        while group in self.held[person]:
            group = self.chance.randrange(self.groups)
        self.gain((group, person))
        return group

    def fill(self, persons: list[int]) -> None:
        for person in persons:
            for _ in range(EACH):
                self.held[person].append(self.another(person))

    def move(self, share: float) -> None:
        for _ in range(round(len(self.here) * EACH * share)):
            person, place = self.chance.choice(self.here), self.chance.randrange(EACH)
            left = self.held[person][place]
            self.held[person][place] = self.another(person)
            self.lose((left, person))

    def replace(self) -> list[int]:
        """A fifth of the persons goes, the longest there first, and as many come."""
        leaving = round(self.count * INTAKE)
        for person in self.here[:leaving]:
            for group in self.held.pop(person):
                self.lose((group, person))
        self.here = self.here[leaving:]
        new = [self.enter() for _ in range(leaving)]
        self.fill(new)
        return new

    def night(self, day: datetime.datetime) -> list[int]:
        """What a night changes; the persons who are new."""
        new: list[int] = []
        if (day.month, day.day) == (10, 1):
            new = self.replace()
        self.move(TERM if day.day == 1 and day.month in (3, 10) else NIGHTLY)
        return new

    def members(self, group: int) -> list[int]:
        return sorted(person for person in self.here if group in self.held[person])

    def take(self) -> tuple[list[Row], list[Row]]:
        """The rows that went and that came since, by group and person."""
        found = sorted(self.gone), sorted(self.come)
        self.gone, self.come = set(), set()
        return found


def person_name(person: int) -> str:
    return "uni/p%07d" % person


def moment(day: datetime.datetime) -> int:
    return (day - datetime.datetime(1970, 1, 1)) // datetime.timedelta(microseconds=1)


class Journal:
    """A journal that is written here. A front of it can be opened at any time."""

    def __init__(self, place: str) -> None:
        self.path, self.commands, self.changes, self.persons, self.loads = place, 0, 0, 0, 0
        self.file = open(place, "wb")
        self.file.write(b"GRPREG2\n")

    def add(self, at: int, rest: bytes) -> None:
        """A command by what is behind its moment."""
        self.file.write(b"\1" + struct.pack("<IQ", len(rest) + 8, at) + rest)
        self.commands += 1

    def command(self, at: int, command: dict[str, Any]) -> None:
        self.add(at, payload("2016-01-01T00:00:00Z", command)[8:])

    def new_persons(self, at: int, persons: list[int]) -> None:
        for person in persons:
            self.command(at, {"op": "subject.add", "subject": person_name(person), "display": "Person %d" % person})
            self.persons += 1

    def load(self, at: int, folder: int, gone: bytes, come: bytes, changes: int) -> None:
        self.add(at, text(SYSTEM) + NO_KEY + bytes([LOAD]) + text("unit%02d" % folder) + struct.pack("<I", 0) + gone + come)
        self.loads, self.changes = self.loads + 1, self.changes + changes

    def close_gate(self) -> int:
        """Makes a journal of what was added so far, and tells its length; what is added next is written behind it."""
        self.file.write(b"\0")
        self.file.flush()
        length = self.file.tell()
        self.file.seek(length - 1)
        return length


@dataclass
class Opened:
    """What opening a journal took."""
    journal: Journal
    times: int
    out: str

    def __post_init__(self) -> None:
        self.bytes = self.journal.close_gate()
        self.commands, self.changes = self.journal.commands, self.journal.changes
        self.persons, self.loads = self.journal.persons, self.journal.loads
        runs = [self.open() for _ in range(self.times)]
        self.processor, self.memory = min(run.processor for run in runs), max(run.peak for run in runs) * 1024

    def open(self) -> Measured:
        run = Measured([PROGRAM, self.journal.path, "check"], os.devnull, self.out)
        with open(self.out) as file:
            line = file.read()
        if run.status != 0 or not line.startswith("commands %d " % self.commands):
            sys.exit("years.py: check ended with status %d and %r" % (run.status, line))
        return run

    def costs(self) -> tuple[float, float, float]:
        return self.bytes, self.memory, self.processor * 1e6

    def tell(self, title: str) -> None:
        print("%-9s %9d %10d %9.1f %9.2f %9.1f" % (title, self.commands, self.changes, self.bytes / 1e6, self.processor,
                                                   self.memory / 1e6), flush=True)


class Nights:
    """The commands of a campus, night after night, into a journal; the first nights as requests too."""

    def __init__(self, campus: Campus, is_flat: bool) -> None:
        self.campus, self.is_flat, self.day = campus, is_flat, BEGIN
        self.requests: list[dict[str, Any]] = []
        self.group_bytes = [text(campus.group_name(group)) for group in range(campus.groups)]
        self.person_bytes: list[bytes] = []

    def setting(self) -> Iterator[dict[str, Any]]:
        for folder in range(self.campus.folders):
            yield {"op": "folder.add", "folder": "unit%02d" % folder}
        yield {"op": "folder.add", "folder": "all"}
        for folder in range(self.campus.folders):
            yield {"op": "group.add", "group": "all:unit%02d" % folder}
        for group in range(self.campus.groups):
            yield {"op": "group.add", "group": self.campus.group_name(group)}
        for group in range(0 if self.is_flat else self.campus.groups):
            above = "all:unit%02d" % self.campus.folder(group)
            yield {"op": "member.add", "group": above, "member": "g:gsa/" + self.campus.group_name(group)}
        for folder in range(self.campus.folders):
            name = "unit%02d" % folder
            yield {"op": "job.list", "job": name, "folder": name, "source": "uni", "min_size": 0, "max_percent": 100}

    def begin(self, journal: Journal) -> None:
        for command in self.setting():
            journal.command(moment(self.day), command)
            self.requests.append(command)

    def persons(self, journal: Journal, new: list[int], is_compared: bool) -> None:
        journal.new_persons(moment(self.day), new)
        self.person_bytes.extend(text(person_name(person)) for person in new)
        if is_compared:
            self.requests.extend({"op": "subject.add", "subject": person_name(person), "display": "Person %d" % person}
                                 for person in new)

    def rows(self, rows: list[Row]) -> dict[int, tuple[int, bytes]]:
        """The rows of each folder: how many, and as a payload has them."""
        found = {}
        for folder, group in itertools.groupby(rows, lambda row: self.campus.folder(row[0])):
            own = [self.group_bytes[g] + self.person_bytes[p] for g, p in group]
            found[folder] = len(own), struct.pack("<I", len(own)) + b"".join(own)
        return found

    def loads(self, journal: Journal, is_compared: bool) -> tuple[list[Row], list[Row]]:
        rows = self.campus.take()
        gone, come = (self.rows(part) for part in rows)
        nothing = 0, struct.pack("<I", 0)
        for folder in range(self.campus.folders):
            (some, removed), (more, added) = gone.get(folder, nothing), come.get(folder, nothing)
            journal.load(moment(self.day), folder, removed, added, some + more)
        if is_compared:
            self.requests.extend(self.tables())
        self.day += datetime.timedelta(days=1)
        return rows

    def tables(self) -> Iterator[dict[str, Any]]:
        lines = [["GROUP_NAME,SUBJECT_ID\n"] for _ in range(self.campus.folders)]
        held = sorted((group, person) for person in self.campus.here for group in self.campus.held[person])
        for group, person in held:
            lines[self.campus.folder(group)].append("%s,%s\n" % (self.campus.group_name(group), person_name(person)[4:]))
        for folder, own in enumerate(lines):
            yield {"op": "load", "job": "unit%02d" % folder, "table": "".join(own)}


def frames(place: str, count: int) -> Iterator[bytes]:
    """So many payloads of a journal, without their moments."""
    with open(place, "rb") as file:
        file.read(8)
        for _ in range(count):
            _, length = struct.unpack("<BI", file.read(5))
            yield file.read(length)[8:]


def compare(folder: str, requests: list[dict[str, Any]], journal: str) -> None:
    """Whether the program makes the same commands of the same tables."""
    own, lines = os.path.join(folder, "own"), os.path.join(folder, "lines")
    init(own)
    with open(lines, "wb") as file:
        file.writelines(encoded(request) for request in requests)
    with open(lines, "rb") as source:
        subprocess.run([PROGRAM, own, "apply"], stdin=source, stdout=subprocess.DEVNULL, check=True)
    if any(one != other for one, other in zip(frames(own, len(requests)), frames(journal, len(requests)), strict=True)):
        sys.exit("years.py: the program makes other commands of the first nights")
    os.remove(own)
    os.remove(lines)
    print("the program makes the same %d commands of the first %d nights" % (len(requests), COMPARED))


def look(journal: Journal, questions: list[tuple[str, list[int]]]) -> None:
    """Whether a server tells those members, and what memory it has meanwhile."""
    with Server(journal.path) as server:
        for target, members in questions:
            told = json.loads(ask(server.port, message("GET", target)).body)
            if told != {"members": [person_name(person) for person in members], "ok": True}:
                sys.exit("years.py: the server is wrong on %s" % target)
        print("a server tells the same members, of %d questions; %.1f MB" % (len(questions), peak_of(server.process) / 1e3))


def per(title: str, more: Opened, less: Opened, count: int, known: tuple[float, ...] = (0, 0, 0)) -> tuple[float, ...]:
    """What one of these costs, by two journals that differ in so many and in what is known."""
    found = tuple((a - b - c) / count for a, b, c in zip(more.costs(), less.costs(), known))
    print("%-46s %9.1f %9.1f %9.2f" % (title, *found))
    return found


class Years:
    """The journals of a campus: all its nights, nights that change nothing, and changes by commands of their own."""

    def __init__(self, asked: argparse.Namespace, folder: str) -> None:
        self.asked, self.folder = asked, folder
        self.campus = Campus(asked.persons, asked.groups, asked.folders)
        self.nights = Nights(self.campus, asked.flat)
        self.journal = Journal(os.path.join(folder, "journal"))
        self.questions: list[tuple[str, list[int]]] = []

    def opened(self, journal: Journal) -> Opened:
        return Opened(journal, self.asked.times, os.path.join(self.folder, "out"))

    def begin(self) -> None:
        """The campus and its first night; what there was before the persons, and before that night's loads."""
        self.nights.begin(self.journal)
        self.empty = self.opened(self.journal)
        new = [self.campus.enter() for _ in range(self.asked.persons)]
        self.nights.persons(self.journal, new, True)
        self.people = self.opened(self.journal)
        self.campus.fill(new)
        self.nights.loads(self.journal, True)
        self.base = self.opened(self.journal)
        self.base.tell("none")
        self.still, self.single = self.copy("still"), self.copy("single")

    def copy(self, name: str) -> Journal:
        copy = Journal(os.path.join(self.folder, name))
        with open(self.journal.path, "rb") as file:
            copy.file.write(file.read(self.base.bytes)[8:-1])
        copy.commands = self.journal.commands
        return copy

    def alone(self, at: int, op: str, rows: list[Row]) -> None:
        for group, person in rows:
            fields = {"op": op, "group": self.campus.group_name(group), "member": person_name(person)}
            self.single.command(at, fields)

    def night(self, is_compared: bool) -> None:
        day = self.nights.day
        self.nights.persons(self.journal, self.campus.night(day), is_compared)
        gone, come = self.nights.loads(self.journal, is_compared)
        # before the first that brings new persons
        if day < BEGIN + datetime.timedelta(days=200):
            self.alone(moment(day), "member.remove", gone)
            self.alone(moment(day), "member.add", come)
        nothing = struct.pack("<I", 0)
        for part in range(self.asked.folders):
            self.still.load(moment(day), part, nothing, nothing, 0)

    def question(self, at: str) -> None:
        for group in range(0, self.asked.groups, self.asked.groups // 5 + 1):
            target = "/groups/%s/members%s" % (self.campus.group_name(group), at)
            self.questions.append((target, self.campus.members(group)))

    def play(self) -> None:
        nights = self.nights
        for _ in range(COMPARED - 1):
            self.night(True)
        self.journal.close_gate()
        compare(self.folder, nights.requests, self.journal.path)
        end = BEGIN.replace(year=BEGIN.year + self.asked.years)
        middle = nights.day + (end - nights.day) // datetime.timedelta(days=2) * datetime.timedelta(days=1)
        while nights.day < end:
            self.night(False)
            if nights.day == middle:
                self.question("?at=" + (middle - datetime.timedelta(hours=1)).strftime("%Y-%m-%dT%H:%M:%SZ"))
            years = nights.day.year - BEGIN.year
            if years in TOLD and nights.day == BEGIN.replace(year=nights.day.year) and nights.day < end:
                self.opened(self.journal).tell(str(years))
        self.question("")

    def tell(self) -> None:
        last = self.opened(self.journal)
        last.tell(str(self.asked.years))
        look(self.journal, self.questions)
        print("%-46s %9s %9s %9s" % ("by what changes", "bytes", "memory", "microseconds"))
        person = per("a person", self.people, self.empty, self.asked.persons)
        load = per("a load that changes nothing", self.opened(self.still), self.base, self.still.loads)
        persons, loads = last.persons - self.base.persons, last.loads - self.base.loads
        known = tuple(a * persons + b * loads for a, b in zip(person, load))
        per("a membership that a load changes", last, self.base, last.changes - self.base.changes, known)
        single = self.opened(self.single)
        per("a membership that its own command changes", single, self.base, single.commands - self.base.commands)


def main() -> None:
    words = argparse.ArgumentParser(description="Opens the journal of a campus after years of nights.")
    for name, number in (("persons", 3000), ("groups", 437), ("folders", 8), ("years", 10), ("times", 3)):
        words.add_argument("--" + name, type=int, default=number)
    words.add_argument("--flat", action="store_true", help="no group above those of a folder")
    asked = words.parse_args()
    needs_program()
    print("%d persons, %d groups in %d folders%s; %d processors, a load of %.1f at the start" % (
        asked.persons, asked.groups, asked.folders, " and none above" if asked.flat else "", os.cpu_count() or 0,
        os.getloadavg()[0]))
    print("%-9s %9s %10s %9s %9s %9s" % ("years", "commands", "changes", "MB", "seconds", "memory MB"))
    with tempfile.TemporaryDirectory(dir="/dev/shm") as folder:
        years = Years(asked, folder)
        years.begin()
        years.play()
        years.tell()


if __name__ == "__main__":
    main()
