#!/usr/bin/env python3
"""What `provision` costs beyond opening: a batch of OPERATIONS operations, and one of ten in a registry of GROUPS groups,
a hundred of them eligible, with MEMBERS memberships, whose target is in step but for these ten.

Each is measured by difference with `check` of the same journal, the least of three runs by the processor's seconds, with
the least memory of each, over a copy of the journal. Status 1 where a batch has another number of operations. The journals lie in memory (/dev/shm), of which the second wants
200 MB. PROGRAM names another program than the built one.

    bench/batches.py [OPERATIONS [GROUPS [MEMBERS]]]"""
import os
import shutil
import sys
import tempfile
import time

from applying import Measured, encoded
from serving import PROGRAM, needs_program

OPERATIONS, GROUPS, MEMBERS = (int(word) for word in (sys.argv[1:] + ["100000", "100000", "1000000"][len(sys.argv) - 1:]))
ELIGIBLE = 100


def persons(count):
    yield {"op": "subject.add", "subject": "uni/prov"}
    yield {"op": "consumer.add", "consumer": "door"}
    for number in range(count):
        yield {"op": "subject.add", "subject": "uni/p%d" % number}


def readable(group):
    return {"op": "grant.add", "object": group, "privilege": "READ", "holder": "uni/prov"}


def one_group():
    yield from persons(OPERATIONS)
    yield {"op": "group.add", "group": "g"}
    yield readable("g")
    for number in range(OPERATIONS):
        yield {"op": "member.add", "group": "g", "member": "uni/p%d" % number}


def many_groups():
    count = max(MEMBERS // GROUPS, 1)
    yield from persons(count)
    for group in range(GROUPS):
        yield {"op": "group.add", "group": "g%d" % group}
        for number in range(count):
            yield {"op": "member.add", "group": "g%d" % group, "member": "uni/p%d" % number}
    for number in range(ELIGIBLE):
        yield readable("g%d" % (number * (GROUPS // ELIGIBLE)))


def run(journal, into, *words):
    if Measured([PROGRAM, journal, *words], into, os.devnull).status != 0:
        sys.exit("batches.py: %s failed" % words[0])


def grown(folder, journal, requests):
    """Adds what these requests make to a journal, a moment ago."""
    lines = os.path.join(folder, "lines")
    with open(lines, "wb") as file:
        file.writelines(encoded(request) for request in requests)
    run(journal, lines, "apply")
    os.remove(lines)
    time.sleep(0.01)
    return journal


def made(folder, name, requests):
    journal = os.path.join(folder, name)
    run(journal, os.devnull, "init")
    return grown(folder, journal, requests)


def in_step(folder, journal):
    """The same once the target is in step, but for ten persons who come."""
    for _ in range(5):
        run(journal, os.devnull, "provision", "door", "uni/prov", "1000000")
    more = ["uni/new%d" % number for number in range(10)]
    grown(folder, journal, ({"op": "subject.add", "subject": person} for person in more))
    return grown(folder, journal, ({"op": "member.add", "group": "g0", "member": person} for person in more))


def measured(folder, journal, *words):
    """The least processor seconds, the least memory, and the lines that were printed."""
    runs, out, copy = [], os.path.join(folder, "out"), os.path.join(folder, "copy")
    for _ in range(3):
        shutil.copyfile(journal, copy)
        run = Measured([PROGRAM, copy, *words], os.devnull, out)
        if run.status != 0:
            sys.exit("batches.py: %s ended with %d" % (words[0], run.status))
        runs.append(run)
    with open(out, "rb") as file:
        return min(run.processor for run in runs), min(run.peak for run in runs), file.read().count(b"\n")


def told(folder, journal, operations, title):
    seconds, peak, _ = measured(folder, journal, "check")
    more, most, lines = measured(folder, journal, "provision", "door", "uni/prov", "1000000")
    print("%s: %d operations; check %.2f s, %.0f MB; provision %.2f s more, %.0f MB more"
          % (title, lines - 1, seconds, peak / 1024, more - seconds, (most - peak) / 1024), flush=True)
    return lines - 1 == operations


def main():
    needs_program()
    with tempfile.TemporaryDirectory(dir="/dev/shm") as folder:
        one = told(folder, made(folder, "one", one_group()), OPERATIONS, "all members of a group")
        many = in_step(folder, made(folder, "many", many_groups()))
        return 0 if told(folder, many, 10, "%d groups, %d memberships" % (GROUPS, MEMBERS)) and one else 1


if __name__ == "__main__":
    sys.exit(main())
