#!/bin/sh
# Times the built program on questions by persons who may ask by an inherit. FOLDERS folders stand ten deep, twenty groups
# in each, with three persons a group and two grants each. Each folder at the top has an inherit of READ at any depth,
# held by a group of 200 persons that is nested twice. REQUESTS questions for members are asked by such persons, and
# WIDE questions for the groups of a person who is in 200 groups. What starting the program and opening its journal takes
# is measured first and taken off. Prints requests a second, of which 60,000 and 3,000 are wanted, and checks every reply.
# The journal lies in memory (/dev/shm). Build the program first (./quickstart.sh).
set -u
cd "$(dirname "$0")/.." || exit 1
program=$(pwd)/crates/registry/out/registry
[ -x "$program" ] || {
    echo "privileges.sh: no $program: run ./quickstart.sh first" >&2
    exit 1
}
PYTHONDONTWRITEBYTECODE=1 PYTHONPATH=bench exec python3 - "$program" "${FOLDERS:-1000}" "${REQUESTS:-100000}" "${WIDE:-20000}" <<'PYTHON'
import os
import subprocess
import sys
import tempfile

from applying import Applied

program, folders, requests, wide = sys.argv[1], *map(int, sys.argv[2:])
DEPTH, EACH, READERS, MEMBERS = 10, 20, 200, 3
tops = folders // DEPTH
persons = tops * READERS


def folder(top, depth):
    return ":".join(["f%02d" % top] + ["d%d" % level for level in range(1, depth + 1)])


def group(top, n):
    """The nth group below a top folder."""
    return "%s:g%02d" % (folder(top, n // EACH), n % EACH)


def person(n):
    return "uni/p%05d" % (n % persons)


def members(top, n):
    first = (top * DEPTH * EACH + n) * MEMBERS
    return [person(first + k) for k in range(MEMBERS)]


def made():
    for n in range(persons):
        yield {"op": "subject.add", "subject": person(n)}
    yield {"op": "subject.add", "subject": "uni/wide"}
    yield {"op": "folder.add", "folder": "readers"}
    for top in range(tops):
        for depth in range(DEPTH):
            yield {"op": "folder.add", "folder": folder(top, depth)}
        for n in range(DEPTH * EACH):
            yield {"op": "group.add", "group": group(top, n)}
            for member in members(top, n):
                yield {"op": "member.add", "group": group(top, n), "member": member}
            yield {"op": "grant.add", "object": group(top, n), "privilege": "ADMIN", "holder": person(n)}
            yield {"op": "grant.add", "object": group(top, n), "privilege": "OPTIN", "holder": person(n + 1)}
        inner, middle, outer = ("readers:%s%02d" % (kind, top) for kind in ("inner", "middle", "outer"))
        for name in (inner, middle, outer):
            yield {"op": "group.add", "group": name}
        yield {"op": "member.add", "group": middle, "member": "g:gsa/" + inner}
        yield {"op": "member.add", "group": outer, "member": "g:gsa/" + middle}
        for n in range(READERS):
            yield {"op": "member.add", "group": inner, "member": person(top * READERS + n)}
        yield {"op": "inherit.add", "folder": folder(top, 0), "kind": "group", "scope": "SUB", "privilege": "READ",
               "holder": "g:gsa/" + outer}
    for n in range(DEPTH * EACH):
        yield {"op": "member.add", "group": group(0, n), "member": "uni/wide"}


def asked(count):
    for n in range(count):
        top = n % tops
        yield {"by": person(top * READERS + n % READERS), "op": "members", "group": group(top, n // tops % (DEPTH * EACH))}


def wanted(n):
    top, at = n % tops, n // tops % (DEPTH * EACH)
    told = sorted(members(top, at))
    return {"members": told + ["uni/wide"] if top == 0 else told, "ok": True}


def groups_asked(count):
    for n in range(count):
        yield {"by": person(n % READERS), "op": "groups", "subject": "uni/wide"}


def told(title, run, base, count, right):
    seconds = max(run.seconds - base.seconds, 1e-6)
    print("%-8s %d requests, %.2f seconds, %d requests a second%s"
          % (title, count, seconds, count / seconds, "" if right else ", WRONG replies"))
    return right and run.status == 0


with tempfile.TemporaryDirectory(dir="/dev/shm") as place:
    journal = os.path.join(place, "journal")
    subprocess.run([program, journal, "init"], check=True)
    built = Applied(program, journal, made(), place)
    right = built.status == 0 and built.accepted == built.count
    print("made     %d commands, %.2f seconds, %d commands a second, %d MB"
          % (built.count, built.seconds, built.count / built.seconds, built.peak // 1000))
    base = Applied(program, journal, asked(1), place)
    run = Applied(program, journal, asked(requests), place)
    good = all(reply == wanted(n) for n, reply in enumerate(run.replies))
    right = told("members", run, base, requests, good) and right
    run = Applied(program, journal, groups_asked(wide), place)
    every = [group(0, n) for n in range(DEPTH * EACH)]
    good = all(reply == {"groups": every, "ok": True} for reply in run.replies)
    right = told("groups", run, base, wide, good) and right
sys.exit(0 if right else 1)
PYTHON
