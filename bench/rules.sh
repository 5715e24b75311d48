#!/bin/sh
# Times the built program on rules. Of GROUPS_MADE groups the first half stands in chains of four, in which who loses one
# group loses the next by a rule; among the other half stand rules more, RULES in all. REMOVED persons, each in the four
# groups of a chain, are removed from its first, and each removal sets off the chain's three rules: 25,000 removals a
# second are wanted. Then as many memberships come and go in groups that no rule watches, with the rules and in a registry
# without any: at most 1.1 times the processor's time is wanted. What starting the program and opening its journal takes
# is measured first and taken off. Checks that all was accepted and that nobody is left in the chains. The journal lies
# in memory (/dev/shm). Build the program first (./quickstart.sh).
set -u
cd "$(dirname "$0")/.." || exit 1
program=$(pwd)/crates/registry/out/registry
[ -x "$program" ] || {
    echo "rules.sh: no $program: run ./quickstart.sh first" >&2
    exit 1
}
PYTHONDONTWRITEBYTECODE=1 PYTHONPATH=bench exec python3 - "$program" "${GROUPS_MADE:-2000}" "${RULES:-5000}" "${REMOVED:-100000}" <<'PYTHON'
import os
import shutil
import subprocess
import sys
import tempfile

from applying import Applied

program, groups, rules, removed = sys.argv[1], *map(int, sys.argv[2:])
LONG = 4
chains = groups // 2 // LONG
persons = -(-removed // chains)


def person(n):
    return "uni/p%05d" % n


def group(n):
    return "g%05d" % n


def made():
    for n in range(persons):
        yield {"op": "subject.add", "subject": person(n)}
    for n in range(groups):
        yield {"op": "group.add", "group": group(n)}


def ruled():
    """The chains' rules, and between the other groups as many more."""
    count = 0
    for chain in range(chains):
        for n in range(LONG - 1):
            first = chain * LONG + n
            yield {"op": "rule.remove_lost", "check": group(first), "owner": group(first + 1)}
            count += 1
    others = range(groups // 2, groups)
    for apart in range(1, len(others)):
        for n in range(len(others)):
            if count == rules:
                return
            yield {"op": "rule.remove_lost", "check": group(others[n]), "owner": group(others[(n + apart) % len(others)])}
            count += 1


def pairs():
    return ((n % chains, n // chains) for n in range(removed))


def joined():
    for chain, one in pairs():
        for n in range(LONG):
            yield {"op": "member.add", "group": group(chain * LONG + n), "member": person(one)}


def lost():
    for chain, one in pairs():
        yield {"op": "member.remove", "group": group(chain * LONG), "member": person(one)}


def unwatched():
    """Memberships that come and go in the last groups of the chains, which no rule watches."""
    for chain, one in pairs():
        row = {"group": group(chain * LONG + LONG - 1), "member": person(one)}
        yield {"op": "member.add", **row}
        yield {"op": "member.remove", **row}


def accepted(run):
    return run.status == 0 and run.accepted == run.count


def nothing():
    return iter([{"op": "rows", "group": group(0)}])


with tempfile.TemporaryDirectory(dir="/dev/shm") as place:
    plain, journal = os.path.join(place, "plain"), os.path.join(place, "journal")
    subprocess.run([program, plain, "init"], check=True)
    right = accepted(Applied(program, plain, made(), place))
    shutil.copy(plain, journal)
    right = accepted(Applied(program, journal, ruled(), place)) and right
    times = {}
    for title, file in ("without", plain), ("with", journal):
        base = Applied(program, file, nothing(), place)
        run = Applied(program, file, unwatched(), place)
        times[title] = run.processor - base.processor
        right = accepted(run) and right
    print("unwatched %d changes: %.2f seconds of a processor without rules, %.2f with %d: %.2f times"
          % (2 * removed, times["without"], times["with"], rules, times["with"] / times["without"]))
    right = accepted(Applied(program, journal, joined(), place)) and right
    base = Applied(program, journal, nothing(), place)
    run = Applied(program, journal, lost(), place)
    seconds = max(run.seconds - base.seconds, 1e-6)
    right = accepted(run) and right
    print("removals  %d, each with %d by rules: %.2f seconds, %d a second, %d MB"
          % (run.count, LONG - 1, seconds, run.count / seconds, run.peak // 1000))
    left = Applied(program, journal, ({"op": "rows", "group": group(n)} for n in range(chains * LONG)), place)
    empty = all(reply == {"composite": None, "ok": True, "rows": []} for reply in left.replies)
    right = right and left.status == 0 and empty
    if not right:
        print("NOT all was accepted, or somebody is left")
sys.exit(0 if right else 1)
PYTHON
