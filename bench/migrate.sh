#!/bin/sh
# Times `migrate` beside an opening, in turn. A journal of format 1 is written here, of COMMANDS commands: about a fifth
# makes persons, a twenty-sixth makes groups, every fiftieth group has a grant, and all else are memberships, so that
# 2,601,000 commands are at the registry's limits. Each time `migrate` writes the second file, `check` opens it, and it
# has to be, to the byte, the journal of format 2 that is written here. The old journal has to stay as it was, and
# `check` of it has to end with status 12. Prints the medians of TURNS turns: seconds, memory, and the ratio of
# migrating to opening, of which 1.2 is wanted, with 1,500 MB for 2,601,000 commands.
#
#     COMMANDS=2601000 TURNS=3 bench/migrate.sh
#
# PROGRAM names another program. The journals lie in memory (/dev/shm). Ends with status 1 where something isn't so.
set -u
cd "$(dirname "$0")/.." || exit 1
program=${PROGRAM:-$(pwd)/crates/registry/out/registry}
[ -x "$program" ] || {
    echo "migrate.sh: no $program: run ./quickstart.sh first" >&2
    exit 1
}
PYTHONDONTWRITEBYTECODE=1 PYTHONPATH=bench exec python3 - "$program" "${COMMANDS:-2601000}" "${TURNS:-3}" <<'PYTHON'
import filecmp
import os
import statistics
import subprocess
import sys
import tempfile

from applying import Measured
from serving import HEADER, OLD_HEADER, framed, old_payload, payload

program, count, turns = sys.argv[1], int(sys.argv[2]), int(sys.argv[3])
if not 1000 <= count <= 2602000:
    sys.exit("COMMANDS is from 1,000 to 2,602,000")
AT = "2025-09-01T00:00:00Z"
OTHER_FORMAT = 12


def person(n):
    return "uni/p%07d" % n


def group(n):
    return "g%05d" % n


def made():
    """The commands. No membership comes twice."""
    persons, groups = min(500000, count * 5 // 26), min(100000, count // 26)
    granted = range(0, groups, 50)
    for n in range(persons):
        yield {"op": "subject.add", "subject": person(n), "display": "Person %d" % n}
    for n in range(groups):
        yield {"op": "group.add", "group": group(n)}
    for n in granted:
        yield {"op": "grant.add", "object": group(n), "privilege": "READ", "holder": "g:isa/GrouperAll"}
    for n in range(count - persons - groups - len(granted)):
        turn, who = divmod(n, persons)
        yield {"op": "member.add", "group": group((who * 7 + turn) % groups), "member": person(who)}


def write(old, new):
    """Writes one journal in both formats."""
    with open(old, "wb") as first, open(new, "wb") as second:
        first.write(OLD_HEADER)
        second.write(HEADER)
        for command in made():
            first.write(framed(old_payload(AT, command)))
            second.write(framed(payload(AT, command)))
        first.write(b"\0")
        second.write(b"\0")


def median(runs, what):
    return statistics.median(getattr(run, what) for run in runs)


def told(title, runs):
    print("%-9s %.2f seconds, %.2f of a processor, %d MB"
          % (title, median(runs, "seconds"), median(runs, "processor"), median(runs, "peak") // 1000))


with tempfile.TemporaryDirectory(dir="/dev/shm") as place:
    old, new, out = (os.path.join(place, name) for name in ("journal", "new", "out"))
    write(old, new)
    size = os.stat(old)
    refused = subprocess.run([program, old, "check"], stdout=subprocess.DEVNULL, stderr=subprocess.DEVNULL)
    right = refused.returncode == OTHER_FORMAT
    migrating, opening = [], []
    for _ in range(turns):
        if os.path.exists(old + ".v2"):
            os.remove(old + ".v2")
        migrating.append(Measured([program, old, "migrate"], os.devnull, out))
        right = right and os.path.getsize(out) == 0 and filecmp.cmp(old + ".v2", new, shallow=False)
        opening.append(Measured([program, old + ".v2", "check"], os.devnull, out))
        with open(out) as file:
            right = right and file.read().startswith("commands %d moment " % count)
    after = os.stat(old)
    right = right and (after.st_size, after.st_mtime_ns) == (size.st_size, size.st_mtime_ns)
    right = right and all(run.status == 0 for run in migrating + opening)
    print("%d commands, %.1f MB in format 1 and %.1f MB in format 2"
          % (count, os.path.getsize(old) / 1e6, os.path.getsize(new) / 1e6))
    told("opening", opening)
    told("migrating", migrating)
    ratio = median(migrating, "processor") / median(opening, "processor")
    print("migrating takes %.2f times what opening takes (1.2 is wanted)%s" % (ratio, "" if right else ", WRONG files"))
sys.exit(0 if right else 1)
PYTHON
