#!/usr/bin/env python3
"""Times the built program's `commands` over a journal against `check` of the same one, the least of three runs each, and
compares each line of the list with the request that asked for it. The journal has 20,000 groups, 20,000 persons, and
memberships up to so many commands; it lies in memory (/dev/shm).

    bench/commands.py [COMMANDS]

Build the program first (./quickstart.sh).
"""
import json
import os
import sys
import tempfile

from applying import SYSTEM, Measured, encoded

PROGRAM = os.path.join(os.path.dirname(os.path.abspath(__file__)), "..", "crates", "registry", "out", "registry")
GROUPS = PERSONS = 20_000
RUNS = 3


def requests(count):
    """So many requests, all of which are accepted."""
    for number in range(GROUPS):
        yield {"op": "group.add", "group": "g%05d" % number, "display": ""}
    for number in range(PERSONS):
        yield {"op": "subject.add", "subject": "uni/p%05d" % number, "display": ""}
    for number in range(count - GROUPS - PERSONS):
        # Each round puts every group's person one further, so no membership comes twice.
        person = (number % GROUPS + number // GROUPS * 7) % PERSONS
        yield {"op": "member.add", "group": "g%05d" % (number % GROUPS), "member": "uni/p%05d" % person}


def least(words, folder):
    """The run of these words that took the fewest seconds, whose output lies in `out`."""
    runs = []
    for _ in range(RUNS):
        run = Measured([PROGRAM, os.path.join(folder, "journal"), *words], os.devnull, os.path.join(folder, "out"))
        if run.status != 0:
            sys.exit("commands.py: %s ended with %d" % (words, run.status))
        runs.append(run)
    return min(runs, key=lambda run: run.seconds)


def compare(folder, count):
    """Ends the program where a line isn't the request's with its number, moment, caller and a later place."""
    place = 0
    with open(os.path.join(folder, "out"), "rb") as lines:
        for number, request in enumerate(requests(count), 1):
            line = json.loads(lines.readline())
            line.pop("at")
            before, place = place, line.pop("place")
            if place <= before or line != {**request, "by": SYSTEM, "number": number}:
                sys.exit("commands.py: wanted %s, found %s" % (request, line))
        if lines.readline():
            sys.exit("commands.py: there are more lines than commands")


def main():
    count = int(sys.argv[1]) if len(sys.argv) > 1 else 1_000_000
    with tempfile.TemporaryDirectory(dir="/dev/shm") as folder:
        journal, into, out = (os.path.join(folder, name) for name in ("journal", "in", "out"))
        with open(into, "wb") as lines:
            lines.writelines(map(encoded, requests(count)))
        for words, source in ((["init"], os.devnull), (["apply"], into)):
            if Measured([PROGRAM, journal, *words], source, out).status != 0:
                sys.exit("commands.py: %s failed" % words)
        check = least(["check"], folder)
        listed = least(["commands"], folder)
        compare(folder, count)
        print("%d commands, a list of %d bytes" % (count, os.path.getsize(out)))
        print("check     %7.2f s, %9d kB at the most" % (check.seconds, check.peak))
        print("commands  %7.2f s, %9d kB at the most" % (listed.seconds, listed.peak))
        print("commands over check: %.2f (wanted: at most 1.3)" % (listed.seconds / check.seconds))


main()
