#!/bin/sh
# Times the built program on attributes. ATTRIBUTES attributes of four definitions are assigned ASSIGNED times over
# GROUPS_MADE groups, twenty times to the first of them, and each assignment gets three values: 60,000 commands a second
# are wanted. Then ASKED questions are asked for what is assigned to the first group, now, and, once its values are gone,
# at the moment before: 20,000 requests a second are wanted. What starting the program and opening its journal takes is
# measured first and taken off. Checks every reply. The journal lies in memory (/dev/shm). Build the program first
# (./quickstart.sh).
set -u
cd "$(dirname "$0")/.." || exit 1
program=$(pwd)/crates/registry/out/registry
[ -x "$program" ] || {
    echo "attributes.sh: no $program: run ./quickstart.sh first" >&2
    exit 1
}
PYTHONDONTWRITEBYTECODE=1 PYTHONPATH=bench exec python3 - "$program" "${ATTRIBUTES:-1000}" "${ASSIGNED:-100000}" "${GROUPS_MADE:-20000}" "${ASKED:-60000}" <<'PYTHON'
import os
import subprocess
import sys
import tempfile

from applying import Applied

program, attributes, assigned, groups, asked = sys.argv[1], *map(int, sys.argv[2:])
WIDE, EACH = 20, 3
KINDS = ["marker", "integer", "text", "timestamp"]


def group(n):
    return "g%05d" % n


def attribute(n):
    return "a%04d" % (n % attributes)


def owner(n):
    """Of the nth assignment: the first twenty are the first group's."""
    return group(0 if n < WIDE else 1 + n % (groups - 1))


def value(n, which):
    """A value of the nth assignment, whose attribute takes integers, texts or timestamps by turns."""
    kind = KINDS[1 + n % attributes % 3]
    number = n * EACH + which
    if kind == "integer":
        return number
    if kind == "text":
        return "value %d" % number
    return "2025-%02d-%02dT%02d:%02d:00.000000Z" % (1 + number % 12, 1 + number % 28, number % 24, number % 60)


def made():
    for n in range(groups):
        yield {"op": "group.add", "group": group(n)}
    for kind in KINDS:
        yield {"op": "attrdef.add", "definition": kind, "owners": ["group"], "several": True, "kind": kind, "many": True}
    for n in range(attributes):
        yield {"op": "attr.add", "attribute": attribute(n), "definition": KINDS[1 + n % 3]}


def given():
    for n in range(assigned):
        yield {"op": "assign.add", "attribute": attribute(n), "object": owner(n)}
        for which in range(EACH):
            yield {"op": "value.add", "attribute": attribute(n), "object": owner(n), "id": n + 1, "value": value(n, which)}


def taken():
    """The values of the first group's assignments."""
    for n in range(WIDE):
        for which in range(EACH):
            yield {"op": "value.remove", "attribute": attribute(n), "object": owner(n), "id": n + 1, "value": value(n, which)}


def shown():
    rows = [n for n in range(assigned) if owner(n) == group(0)]
    return {"assignments": [{"attribute": attribute(n), "id": n + 1, "values": [value(n, which) for which in range(EACH)]}
                            for n in rows], "ok": True}


def told(title, run, base, right):
    seconds = max(run.seconds - base.seconds, 1e-6)
    print("%-8s %d requests, %.2f seconds, %d a second, %d MB%s"
          % (title, run.count, seconds, run.count / seconds, run.peak // 1000, "" if right else ", WRONG replies"))
    return right and run.status == 0


with tempfile.TemporaryDirectory(dir="/dev/shm") as place:
    journal = os.path.join(place, "journal")
    subprocess.run([program, journal, "init"], check=True)
    run = Applied(program, journal, made(), place)
    right = run.status == 0 and run.accepted == run.count
    nothing = {"op": "rows", "group": group(1)}
    base = Applied(program, journal, iter([nothing]), place)
    run = Applied(program, journal, given(), place)
    ids = [reply["id"] for reply in run.replies if "id" in reply]
    right = told("building", run, base, run.accepted == run.count and ids == list(range(1, assigned + 1))) and right
    moment = subprocess.run([program, journal, "check"], check=True, capture_output=True, text=True).stdout.split()[3]
    base = Applied(program, journal, iter([nothing]), place)
    now = {"op": "attributes", "object": group(0)}
    run = Applied(program, journal, (now for _ in range(asked)), place)
    every = shown()
    right = told("now", run, base, all(reply == every for reply in run.replies)) and right
    gone = Applied(program, journal, taken(), place)
    right = right and gone.status == 0 and gone.accepted == gone.count
    run = Applied(program, journal, ({**now, "at": moment} for _ in range(asked)), place)
    right = told("then", run, base, all(reply == every for reply in run.replies)) and right
    left = Applied(program, journal, iter([now]), place).replies[0]["assignments"]
    right = right and all(row["values"] == [] for row in left)
sys.exit(0 if right else 1)
PYTHON
