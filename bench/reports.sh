#!/bin/sh
# Times the built program on reports: roles and permissions, and attestation. Each is measured by difference with `check`
# of the same journal, the least of RUNS runs: `permit` and `permitted` over ASSIGNS assignments, of which 100 are of
# covering resources, and with all of them on the resource; `attestation` of a group with ENTRIES changes on its
# assignments; `reminders` of GROUPS_MADE groups, of which 1,000 are attested. Each reply is compared with what a few
# lines of Python find. The journals lie in memory (/dev/shm). Build the program first (./quickstart.sh).
set -u
cd "$(dirname "$0")/.." || exit 1
program=${PROGRAM:-$(pwd)/crates/registry/out/registry}
[ -x "$program" ] || {
    echo "reports.sh: no $program: run ./quickstart.sh first" >&2
    exit 1
}
PYTHONDONTWRITEBYTECODE=1 PYTHONPATH=bench exec python3 - "$program" "${RUNS:-5}" "${ASSIGNS:-100000}" "${ENTRIES:-10000}" "${GROUPS_MADE:-100000}" <<'PYTHON'
import json
import os
import subprocess
import sys
import tempfile
import time

program, runs, assigns, entries, groups_made = sys.argv[1], *map(int, sys.argv[2:])


def registry(journal, *words, lines=None):
    """The bytes that the program writes."""
    ran = subprocess.run([program, journal, *words], input=lines, stdout=subprocess.PIPE)
    if ran.returncode != 0:
        sys.exit("reports.sh: %s ended with %d" % (" ".join(words), ran.returncode))
    return ran.stdout


def made(folder, name, requests):
    """A journal of these requests, all of which are accepted."""
    journal = os.path.join(folder, name)
    registry(journal, "init")
    text = "".join(json.dumps({"by": "g:isa/GrouperSystem", **request}) + "\n" for request in requests)
    for reply in registry(journal, "apply", lines=text.encode()).splitlines():
        if b'"ok":true' not in reply:
            sys.exit("reports.sh: refused: %s" % reply.decode())
    return journal


def seconds(journal, *words):
    best = None
    for _ in range(runs):
        start = time.monotonic()
        registry(journal, *words)
        took = time.monotonic() - start
        best = took if best is None else min(best, took)
    return best


def told(journal, what, wanted, words, expected):
    reply = registry(journal, *words)
    if reply != expected:
        sys.exit("reports.sh: %s: wanted %s, found %s" % (what, expected[:200], reply[:200]))
    more = seconds(journal, *words) - seconds(journal, "check")
    print("%-60s %7.1f ms beyond opening (wanted: %s)" % (what, more * 1000, wanted))


def line(**reply):
    return (json.dumps(reply, sort_keys=True, separators=(",", ":")) + "\n").encode()


def roles(wide):
    """Persons in groups, and assignments of resources to these groups: one resource for most, or all on one."""
    count = 10 if wide else max(assigns // 100, 100)
    members = 2000 if wide else 20
    persons = 20000
    for n in range(persons):
        yield {"op": "subject.add", "subject": "uni/p%05d" % n}
    for g in range(count):
        yield {"op": "group.add", "group": "r%05d" % g}
        for m in range(members):
            yield {"op": "member.add", "group": "r%05d" % g, "member": "uni/p%05d" % ((g * members + m) % persons)}
    yield {"op": "attrdef.add", "definition": "perm", "owners": ["group"], "several": True, "kind": "text", "many": True}
    names = ["hr.pay"] if wide else ["hr.pay"] + ["x%03d" % n for n in range(99)]
    for name in names:
        yield {"op": "attr.add", "attribute": name, "definition": "perm"}
    made_so_far = 0
    for n in range(assigns):
        group = "r%05d" % (n % count)
        name = names[0] if wide or n < 100 else names[1 + n % (len(names) - 1)]
        made_so_far += 1
        yield {"op": "assign.add", "attribute": name, "object": group}
        said = "deny read" if n % 3 == 0 else "allow read"
        yield {"op": "value.add", "attribute": name, "object": group, "id": made_so_far, "value": said}


def attested(count):
    """A group whose confirmations come and go."""
    yield {"op": "folder.add", "folder": "etc"}
    yield {"op": "folder.add", "folder": "etc:attest"}
    yield {"op": "group.add", "group": "g"}
    for name, kind, many in ("number", "integer", False), ("moment", "timestamp", True):
        yield {"op": "attrdef.add", "definition": name, "owners": ["group"], "several": False, "kind": kind, "many": many}
    yield {"op": "attr.add", "attribute": "etc:attest:days", "definition": "number"}
    yield {"op": "attr.add", "attribute": "etc:attest:certified", "definition": "moment"}
    yield {"op": "assign.add", "attribute": "etc:attest:days", "object": "g"}
    yield {"op": "value.add", "attribute": "etc:attest:days", "object": "g", "id": 1, "value": 30}
    yield {"op": "assign.add", "attribute": "etc:attest:certified", "object": "g"}
    for n in range(count // 2):
        value = "20%02d-%02d-%02dT00:00:00Z" % (n % 25, 1 + n // 25 % 12, 1 + n // 300 % 28)
        for op in "value.add", "value.remove":
            yield {"op": op, "attribute": "etc:attest:certified", "object": "g", "id": 2, "value": value}


def reminded():
    for request in attested(0):
        yield request
    # with the one that stands already
    for n in range(groups_made - 1):
        yield {"op": "group.add", "group": "g%06d" % n}
    for n in range(1000):
        yield {"op": "assign.add", "attribute": "etc:attest:days", "object": "g%06d" % (n * (groups_made // 1000))}
        yield {
            "op": "value.add",
            "attribute": "etc:attest:days",
            "object": "g%06d" % (n * (groups_made // 1000)),
            "id": n + 3,
            "value": 30,
        }


with tempfile.TemporaryDirectory(dir="/dev/shm") as folder:
    journal = made(folder, "roles", roles(False))
    # p00000 is in r00000 alone, to which hr.pay was assigned by the first assignment: it denies
    told(journal, "permit, 100 of %d assignments on the resource" % assigns, "20 ms",
         ["permit", "uni/p00000", "hr.pay", "read"], line(allowed=False, ground=1, ok=True))
    allowed = ["uni/p%05d" % p for g in range(100) if g % 3 for p in range(g * 20, g * 20 + 20)]
    told(journal, "permitted, groups of 2,000 members in all", "50 ms",
         ["permitted", "hr.pay", "read"], line(ok=True, subjects=allowed))
    journal = made(folder, "wide", roles(True))
    # each of the ten groups is denied by some assignment, and a denial goes first
    first = min(n + 1 for n in range(assigns) if n % 10 == 1 and n % 3 == 0)
    told(journal, "permit, all %d assignments on the resource" % assigns, "200 ms",
         ["permit", "uni/p02000", "hr.pay", "read"], line(allowed=False, ground=first, ok=True))
    told(journal, "permitted, all of them on the resource", "1,000 ms",
         ["permitted", "hr.pay", "read"], line(ok=True, subjects=[]))
    journal = made(folder, "attested", attested(entries))
    told(journal, "attestation of a group with %d changes" % entries, "2,000 ms",
         ["attestation", "g"], registry(journal, "attestation", "g"))
    journal = made(folder, "reminded", reminded())
    names = ["g"] + ["g%06d" % (n * (groups_made // 1000)) for n in range(1000)]
    told(journal, "reminders of %d groups, 1,001 of them attested" % groups_made, "500 ms",
         ["reminders"], "".join("%s never\n" % name for name in names).encode())
PYTHON
