#!/bin/sh
# Times the built program at the registry's limits: 1,000 folders, 100,000 groups, 500,000 subjects and 2,000,000
# memberships, 20 in each group, streamed through `apply`; then `check`, which opens the journal of these 2,601,000
# commands. Prints seconds of a processor and the peak memory of both.
# The journal lies in memory (/dev/shm), so that the disk's syncs aren't measured: bench/durable.sh does.
# Build the program first (./quickstart.sh). FOLDERS, GROUPS_MADE, SUBJECTS and ROWS set other sizes.
set -u
cd "$(dirname "$0")/.." || exit 1
program=$(pwd)/crates/registry/out/registry
[ -x "$program" ] || {
    echo "limits.sh: no $program: run ./quickstart.sh first" >&2
    exit 1
}
PYTHONDONTWRITEBYTECODE=1 PYTHONPATH=bench exec python3 - "$program" "${FOLDERS:-1000}" "${GROUPS_MADE:-100000}" "${SUBJECTS:-500000}" "${ROWS:-2000000}" <<'PYTHON'
import os
import subprocess
import sys
import tempfile

from applying import Measured, encoded

program, folders, groups, subjects, rows = sys.argv[1], *map(int, sys.argv[2:])


def group(n):
    return "f%04d:g%06d" % (n % folders, n)


def commands():
    for n in range(folders):
        yield {"op": "folder.add", "folder": "f%04d" % n}
    for n in range(groups):
        yield {"op": "group.add", "group": group(n), "display": "Group %d" % n}
    for n in range(subjects):
        yield {"op": "subject.add", "subject": "uni/p%06d" % n, "display": "Person %d" % n}
    # Group by group in turn; each further round moves the persons on, so that no row comes twice.
    for n in range(rows):
        yield {"op": "member.add", "group": group(n % groups), "member": "uni/p%06d" % ((n * 7 + n // groups) % subjects)}


def told(title, run, count):
    print(title)
    print("  commands           %d" % count)
    print("  exit status        %d" % run.status)
    print("  seconds            %.1f (%.1f of a processor)" % (run.seconds, run.processor))
    print("  peak memory        %.1f MB" % (run.peak * 1024 / 1e6))


with tempfile.TemporaryDirectory(dir="/dev/shm") as place:
    journal, lines, out = (os.path.join(place, name) for name in ("journal", "lines", "out"))
    subprocess.run([program, journal, "init"], check=True)
    with open(lines, "wb") as file:
        file.writelines(encoded(command) for command in commands())
    wanted = folders + groups + subjects + rows
    adding = Measured([program, journal, "apply"], lines, out)
    with open(out, "rb") as file:
        accepted = sum(line.startswith(b'{"number":') for line in file)
    told("adding", adding, accepted)
    os.remove(lines)
    opening = Measured([program, journal, "check"], os.devnull, out)
    with open(out) as file:
        line = file.read()
    told("opening", opening, int(line.split()[1]) if line else 0)
    size = os.path.getsize(journal)
    print("  journal            %.1f MB" % (size / 1e6))
    done = adding.status == 0 and accepted == wanted and opening.status == 0 and line.startswith("commands %d " % wanted)
print("processors         %d" % os.cpu_count())
sys.exit(0 if done else 1)
PYTHON
