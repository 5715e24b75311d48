#!/bin/sh
# Times the built program on a chain of nested groups: GROUPS_MADE groups, each the member of the next, PERSONS persons
# in the first, and then one person more put into the last group and taken out again ROUNDS times. Each change at the
# end of the chain touches that group alone. Prints lines a second, and checks the replies and who is in the last group.
# The journal lies in memory (/dev/shm), so that the disk's syncs aren't measured: bench/durable.sh does.
# Build the program first (./quickstart.sh).
set -u
cd "$(dirname "$0")/.." || exit 1
program=$(pwd)/crates/registry/out/registry
[ -x "$program" ] || {
    echo "nesting.sh: no $program: run ./quickstart.sh first" >&2
    exit 1
}
PYTHONDONTWRITEBYTECODE=1 PYTHONPATH=bench exec python3 - "$program" "${GROUPS_MADE:-200}" "${PERSONS:-2000}" "${ROUNDS:-25000}" <<'PYTHON'
import json
import os
import subprocess
import sys
import tempfile
import time

from applying import Applied

program, groups, persons, rounds = sys.argv[1], *map(int, sys.argv[2:])
last = "c%d" % (groups - 1)


def chain():
    for n in range(persons):
        yield {"op": "subject.add", "subject": "uni/p%d" % n}
    yield {"op": "subject.add", "subject": "uni/q"}
    for n in range(groups):
        yield {"op": "group.add", "group": "c%d" % n}
    for n in range(1, groups):
        yield {"op": "member.add", "group": "c%d" % n, "member": "g:gsa/c%d" % (n - 1)}
    for n in range(persons):
        yield {"op": "member.add", "group": "c0", "member": "uni/p%d" % n}


def turns():
    for _ in range(rounds):
        yield {"op": "member.add", "group": last, "member": "uni/q"}
        yield {"op": "member.remove", "group": last, "member": "uni/q"}


def measured(title, requests, journal, place):
    run = Applied(program, journal, requests, place)
    print("%-24s %d lines, status %d, %d accepted, %.1f seconds, %d lines a second"
          % (title, run.count, run.status, run.accepted, run.seconds, run.count / run.seconds))
    return run.status == 0 and run.accepted == run.count


with tempfile.TemporaryDirectory(dir="/dev/shm") as place:
    journal = os.path.join(place, "journal")
    subprocess.run([program, journal, "init"], check=True)
    made = measured("making the chain", chain(), journal, place)
    turned = measured("in and out at its end", turns(), journal, place)
    before = time.time()
    asked = subprocess.run([program, journal, "members", last], capture_output=True)
    members = json.loads(asked.stdout)["members"]
    print("%-24s %d, asked of the journal in %.1f seconds" % ("members of the last", len(members), time.time() - before))
print("processors               %d" % os.cpu_count())
sys.exit(0 if made and turned and len(members) == persons else 1)
PYTHON
