#!/bin/sh
# Times the built program on questions about the past. CHANGES memberships come and go, in turn, over GROUPS_MADE groups
# and PERSONS persons; one more group has WIDE persons, who all leave before them. Then the journal is opened by `check`,
# and ASKED questions are asked: who was in that group while all were, and LOGS questions for 1,000 entries of the log.
# What starting the program and opening its journal takes is measured first and taken off. Prints seconds and requests a
# second, of which 6,000 and 1,500 are wanted (and an opening under 5 seconds of a processor), and checks every reply.
# The journal lies in memory (/dev/shm). Build the program first (./quickstart.sh).
set -u
cd "$(dirname "$0")/.." || exit 1
program=$(pwd)/crates/registry/out/registry
[ -x "$program" ] || {
    echo "past.sh: no $program: run ./quickstart.sh first" >&2
    exit 1
}
PYTHONDONTWRITEBYTECODE=1 PYTHONPATH=bench exec python3 - "$program" "${CHANGES:-1000000}" "${GROUPS_MADE:-2000}" "${PERSONS:-20000}" "${WIDE:-2000}" "${ASKED:-12000}" "${LOGS:-3000}" <<'PYTHON'
import os
import subprocess
import sys
import tempfile

from applying import Applied, Measured

program, changes, groups, persons, wide, asked, logs = sys.argv[1], *map(int, sys.argv[2:])


def person(n):
    return "uni/p%05d" % n


def group(n):
    return "g%04d" % n


def made():
    for n in range(persons):
        yield {"op": "subject.add", "subject": person(n)}
    for n in range(groups):
        yield {"op": "group.add", "group": group(n)}
    yield {"op": "group.add", "group": "wide"}
    yield {"op": "consumer.add", "consumer": "reader"}
    for n in range(wide):
        yield {"op": "member.add", "group": "wide", "member": person(n)}


def left():
    for n in range(wide):
        yield {"op": "member.remove", "group": "wide", "member": person(n)}


def changed():
    """Each pair of a group and a person comes and goes; the pairs come again once all had their turn."""
    for n in range(changes // 2):
        row = {"group": group(n % groups), "member": person((n * 7 + n // groups) % persons)}
        yield {"op": "member.add", **row}
        yield {"op": "member.remove", **row}


def told(title, run, base, count, right):
    seconds = max(run.seconds - base.seconds, 1e-6)
    print("%-8s %d requests, %.2f seconds, %d requests a second%s"
          % (title, count, seconds, count / seconds, "" if right else ", WRONG replies"))
    return right and run.status == 0


with tempfile.TemporaryDirectory(dir="/dev/shm") as place:
    journal, out = os.path.join(place, "journal"), os.path.join(place, "out")
    subprocess.run([program, journal, "init"], check=True)
    built = Applied(program, journal, made(), place)
    right = built.status == 0 and built.accepted == built.count
    moment = subprocess.run([program, journal, "check"], check=True, capture_output=True, text=True).stdout.split()[3]
    for some in left(), changed():
        run = Applied(program, journal, some, place)
        right = right and run.status == 0 and run.accepted == run.count
    print("changes  %d commands, %.2f seconds, %d commands a second, %d MB"
          % (run.count, run.seconds, run.count / run.seconds, run.peak // 1000))
    opening = Measured([program, journal, "check"], os.devnull, out)
    print("opening  %.1f seconds (%.1f of a processor), %d MB" % (opening.seconds, opening.processor, opening.peak // 1000))
    base = Applied(program, journal, iter([{"op": "members", "group": "wide"}]), place)
    one = {"op": "members", "group": "wide", "at": moment}
    run = Applied(program, journal, (one for _ in range(asked)), place)
    every = {"members": [person(n) for n in range(wide)], "ok": True}
    right = told("members", run, base, asked, all(reply == every for reply in run.replies)) and right
    one = {"op": "log", "consumer": "reader", "max": 1000}
    run = Applied(program, journal, (one for _ in range(logs)), place)
    good = all([entry["seq"] for entry in reply["entries"]] == list(range(1, 1001)) for reply in run.replies)
    right = told("log", run, base, logs, good) and right
sys.exit(0 if right else 1)
PYTHON
