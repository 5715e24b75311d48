#!/bin/sh
# Acknowledged commands a second through `apply` and through `apply --together N`, on a disk, with the ratio; beside them
# the disk's own rate of N commands at a time: two writes, each synced, to a file that grows as a journal does. Then an
# import of LINES lines, persons, groups, memberships and a question behind each hundredth, in both ways. The lines come
# from a file in memory and the replies go to one. Prints the medians of TURNS turns. The replies of both ways must be the
# same to the byte, and so must the counts of `check`; and a line over a pipe must be answered before the next one comes.
# The first word names the folder for the journals, else /tmp. Build the program first (./quickstart.sh). COUNT, LINES,
# TOGETHER and TURNS set other sizes; PROGRAM names another program.
set -u
cd "$(dirname "$0")/.." || exit 1
program=${PROGRAM:-$(pwd)/crates/registry/out/registry}
[ -x "$program" ] || { echo "together_apply: no $program: run ./quickstart.sh first" >&2; exit 1; }
folder=$(mktemp -d "${1:-/tmp}/together_apply.XXXXXX")
trap 'rm -rf "$folder"' EXIT
PYTHONDONTWRITEBYTECODE=1 PYTHONPATH=bench python3 - "$program" "$folder" "${COUNT:-10000}" "${LINES:-35000}" "${TOGETHER:-1000}" "${TURNS:-5}" <<'PYTHON'
import os
import statistics
import subprocess
import sys
import time

from applying import encoded

program, folder = sys.argv[1:3]
COUNT, LINES, TOGETHER, TURNS = map(int, sys.argv[3:])
ONE, MANY = ["apply"], ["apply", "--together", str(TOGETHER)]


def persons(count):
    for n in range(count):
        yield {"op": "subject.add", "subject": "uni/p%d" % n}


def imported(count):
    """So many lines of an import: a seventh are persons, one in seventy is a group, one in a hundred a question."""
    people, groups = count // 7, count // 70
    yield from persons(people)
    for n in range(groups):
        yield {"op": "group.add", "group": "g%d" % n, "display": "Group %d" % n}
    for n in range(count - people - groups):
        # the groups take turns, and each further round moves the persons on by one group
        group = "g%d" % ((n + n // people) % groups)
        if n % 100 == 99:
            yield {"op": "members", "group": group}
        else:
            yield {"op": "member.add", "group": group, "member": "uni/p%d" % (n % people)}


def new_journal():
    journal = os.path.join(folder, "journal")
    if os.path.exists(journal):
        os.remove(journal)
    subprocess.run([program, journal, "init"], check=True)
    return journal


def in_memory(name, content):
    file = os.fdopen(os.memfd_create(name), "w+b")
    file.write(content)
    file.seek(0)
    return file


def answered(lines, words):
    """The seconds that a run over these lines takes, its replies, and how many commands the journal has then."""
    journal = new_journal()
    with in_memory("lines", lines) as source, in_memory("replies", b"") as sink:
        before = time.time()
        subprocess.run([program, journal, *words], stdin=source, stdout=sink, check=True)
        seconds = time.time() - before
        sink.seek(0)
        replies = sink.read()
    checked = subprocess.run([program, journal, "check"], stdout=subprocess.PIPE, check=True)
    return seconds, replies, int(checked.stdout.split()[1])


def both_ways(lines):
    """The medians of the seconds of both ways."""
    found = {"one": [], "many": []}
    first = None
    for _ in range(TURNS):
        for name, words in (("one", ONE), ("many", MANY)):
            seconds, *outcome = answered(lines, words)
            found[name].append(seconds)
            first = first or outcome
            if outcome != first:
                sys.exit("together_apply: %s answers otherwise" % " ".join(words))
    acknowledged, kept = first[0].count(b'"number":'), first[1]
    if acknowledged != kept:
        sys.exit("together_apply: %d commands acknowledged, %d kept" % (acknowledged, kept))
    return statistics.median(found["one"]), statistics.median(found["many"]), kept


def own_rate():
    """Commands of 46 bytes a second that the disk takes, so many at a time."""
    file = os.open(os.path.join(folder, "own"), os.O_RDWR | os.O_CREAT | os.O_TRUNC)
    os.pwrite(file, b"GRPREG2\n\0", 0)
    os.fdatasync(file)
    at, left, before = 9, COUNT, time.time()
    while left > 0:
        size = 46 * min(TOGETHER, left)
        os.pwrite(file, b"x" * size, at)
        os.fdatasync(file)
        os.pwrite(file, b"\1", at - 1)
        os.fdatasync(file)
        at, left = at + size, left - TOGETHER
    seconds = time.time() - before
    os.close(file)
    return COUNT / seconds


def waits_for_none(count):
    """The median seconds in which a line over a pipe is answered, with no line behind it."""
    process = subprocess.Popen([program, new_journal(), *MANY], stdin=subprocess.PIPE, stdout=subprocess.PIPE)
    waits = []
    for request in persons(count):
        before = time.time()
        process.stdin.write(encoded(request))
        process.stdin.flush()
        if b'"ok":true' not in process.stdout.readline():
            sys.exit("together_apply: a line over a pipe isn't answered")
        waits.append(time.time() - before)
    process.stdin.close()
    process.wait()
    return statistics.median(waits)


one, many, kept = both_ways(b"".join(map(encoded, persons(COUNT))))
own = statistics.median(own_rate() for _ in range(TURNS))
print("%d commands: by apply %.0f a second, %d together %.0f a second, %.1f times as many"
      % (kept, COUNT / one, TOGETHER, COUNT / many, one / many))
print("the disk's own rate of %d at a time: %.0f a second" % (TOGETHER, own))
one, many, kept = both_ways(b"".join(map(encoded, imported(LINES))))
print("%d lines with %d commands: by apply %.2f s, %d together %.2f s" % (LINES, kept, one, TOGETHER, many))
print("one line over a pipe: %.2f ms" % (1000 * waits_for_none(100)))
PYTHON
