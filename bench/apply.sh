#!/bin/sh
# Times the built program on 1,000 folder.add, 2,000 group.add (two in each folder), 20,000 subject.add
# and 40,000 member.add lines, with a members line after every hundredth once the groups stand; then, over the same
# journal, on 50,000 renames and moves of groups and folders. Then it adds the same rows to another journal, each with
# an end of its own, so that the first of them end while the last are added, and the rest before a last members line.
# Prints lines a second and the peak memory.
# The journal lies in memory (/dev/shm), so that the disk's syncs aren't measured: bench/durable.sh does.
# Build the program first (./quickstart.sh). FOLDERS, SUBJECTS, GROUPS_MADE, ROWS and MOVES set other sizes.
set -u
cd "$(dirname "$0")/.." || exit 1
program=$(pwd)/crates/registry/out/registry
[ -x "$program" ] || {
    echo "apply.sh: no $program: run ./quickstart.sh first" >&2
    exit 1
}
PYTHONDONTWRITEBYTECODE=1 PYTHONPATH=bench exec python3 - "$program" "${FOLDERS:-1000}" "${SUBJECTS:-20000}" "${GROUPS_MADE:-2000}" "${ROWS:-40000}" "${MOVES:-50000}" <<'PYTHON'
import os
import subprocess
import sys
import tempfile
import time

from applying import Applied

program, folders, subjects, groups, rows, moves = sys.argv[1], *map(int, sys.argv[2:])


def subject(n):
    return "uni/p%05d" % (n % subjects)


def folder(n):
    return "f%04d" % (n % folders)


def group(n):
    return "%s:g%04d" % (folder(n), n % groups)


def moment(seconds):
    """A moment as the program reads it, of seconds since 1970."""
    whole = int(seconds)
    return time.strftime("%Y-%m-%dT%H:%M:%S", time.gmtime(whole)) + ".%06dZ" % int((seconds - whole) * 1e6)


def commands(ends=None):
    """The end of row n is at the moment `ends(n)`."""
    for n in range(folders):
        yield {"op": "folder.add", "folder": folder(n)}
    for n in range(groups):
        yield {"op": "group.add", "group": group(n), "display": "Group %d" % n}
    for n in range(subjects):
        yield {"op": "subject.add", "subject": subject(n), "display": "Person %d" % n}
    # The groups take turns. Each further round moves the persons on by one group, so that no row comes twice.
    for n in range(rows):
        until = {} if ends is None else {"until": moment(ends(n))}
        yield {"op": "member.add", "group": group(n + n // subjects), "member": subject(n), **until}


def lines(ends=None):
    for n, command in enumerate(commands(ends), 1):
        yield command
        if n % 100 == 0 and n > folders + groups:
            yield {"op": "members", "group": group(n // 100 - 1)}


def edits():
    """Renames and moves in turn: a folder renamed and named back, a folder moved below the next and back, and the
    same of a group."""
    for n in range(moves // 8):
        first, last = folder(2 * n), folder(2 * n + 1)
        if first == last:
            last = folder(2 * n + 2)
        own = group(2 * n)
        extension = own.split(":")[1]
        yield {"op": "folder.rename", "folder": first, "extension": first + "-renamed"}
        yield {"op": "folder.rename", "folder": first + "-renamed", "extension": first}
        yield {"op": "folder.move", "folder": first, "to": last}
        yield {"op": "folder.move", "folder": last + ":" + first, "to": ":"}
        yield {"op": "group.rename", "group": own, "extension": extension + "-renamed"}
        yield {"op": "group.rename", "group": own + "-renamed", "extension": extension}
        yield {"op": "group.move", "group": own, "to": ":"}
        yield {"op": "group.move", "group": extension, "to": own.split(":")[0]}


def measured(title, requests, journal, place, **when):
    run = Applied(program, journal, requests, place, **when)
    answered = sum("members" in r for r in run.replies)
    members = sum(len(r.get("members", [])) for r in run.replies)
    print(title)
    print("  lines in           %d" % run.count)
    print("  exit status        %d" % run.status)
    print("  replies            %d: %d commands accepted, %d lists of members with %d names, %d other"
          % (len(run.replies), run.accepted, answered, members, len(run.replies) - run.accepted - answered))
    print("  seconds            %.1f (%.1f of a processor)"
          % (run.seconds, run.processor))
    print("  lines a second     %d" % (run.count / run.seconds))
    print("  peak memory        %.1f MB" % (run.peak * 1024 / 1e6))
    return run, run.status == 0 and run.accepted + answered == run.count


with tempfile.TemporaryDirectory(dir="/dev/shm") as place:
    journal, dated = os.path.join(place, "journal"), os.path.join(place, "dated")
    subprocess.run([program, journal, "init"], check=True)
    plain, added = measured("adding", lines(), journal, place)
    _, edited = measured("renaming and moving", edits(), journal, place)
    subprocess.run([program, dated, "init"], check=True)
    # The lines are written before the program runs. Row n ends a bit after the time at which it is added, also where
    # this run is twice as slow as the first.
    spread = max(plain.seconds, 0.2)
    begin = time.time() + 3 * plain.writing + 0.5
    first = begin + spread + 0.2
    last = {"op": "members", "group": group(rows - 1)}
    run, ended = measured("adding with ends", lines(lambda n: first + n * spread / rows), dated, place,
                          begin=begin, until=first + spread + 0.1, last=last)
    left = run.replies[-1].get("members")
    print("  members at the end %s" % left)
    print("  of a processor's time without ends  %.1f" % (run.processor / plain.processor))
print("processors         %d" % os.cpu_count())
sys.exit(0 if added and edited and ended and left == [] else 1)
PYTHON
