#!/bin/sh
# What keys cost. The built program is given COMMANDS commands, each under a key of 36 bytes, and the same without keys,
# in turn, TURNS times; then `check` opens both journals. The persons take turns as callers where CALLERS is past 1; else
# GrouperSystem gives all commands. Prints the medians, by the processor's time: commands a second, how much longer
# they take with keys, the memory of a key, and how much longer the opening takes.
# Then the same lines are sent again in one stream, over the journal that has them: each reply has to be the first one,
# and the journal has to stay as it was. Prints how many are answered a second, beyond opening the journal.
# Wanted: keys slow commands by 1.15 at most and opening by 1.25, take 250 bytes, and 100,000 are answered again.
#
#     COMMANDS=1000000 CALLERS=1 TURNS=3 bench/keys.sh
#
# The journals lie in memory (/dev/shm), so that the disk's syncs aren't measured. Build the program first
# (./quickstart.sh), or name another one by PROGRAM. Ends with status 1 where a reply or a journal isn't as it has to be.
set -u
cd "$(dirname "$0")/.." || exit 1
program=${PROGRAM:-$(pwd)/crates/registry/out/registry}
[ -x "$program" ] || {
    echo "keys.sh: no $program: run ./quickstart.sh first" >&2
    exit 1
}
PYTHONDONTWRITEBYTECODE=1 PYTHONPATH=bench exec python3 - "$program" "${COMMANDS:-1000000}" "${CALLERS:-1}" "${TURNS:-3}" <<'PYTHON'
import filecmp
import os
import statistics
import sys
import tempfile

from applying import Measured, encoded

program, count, callers, turns = sys.argv[1], *map(int, sys.argv[2:])
if not 1000 <= count <= 2000000:
    sys.exit("keys.sh: COMMANDS is from 1,000 to 2,000,000")
GROUPS = PERSONS = min(20000, count // 10)
if not 1 <= callers <= PERSONS:
    sys.exit("keys.sh: CALLERS is from 1 to 20,000, and at most a tenth of COMMANDS")


def key(n):
    return "%08x-0000-4000-8000-%012x" % (n, n * 2654435761 % 2**48)


def person(n):
    return "uni/p%05d" % n


def group(n):
    return "g%05d" % n


def ready():
    """What stands before the commands that are timed."""
    for n in range(GROUPS):
        yield {"op": "group.add", "group": group(n)}
    for n in range(PERSONS):
        yield {"op": "subject.add", "subject": person(n)}
    if callers > 1:
        yield {"op": "inherit.add", "folder": ":", "kind": "group", "scope": "ONE", "privilege": "UPDATE",
               "holder": "g:isa/GrouperAll"}


def commands(with_keys):
    """Memberships: each round puts every group's person one further, so none comes twice."""
    for n in range(count):
        request = {"op": "member.add", "group": group(n % GROUPS),
                   "member": person((n % GROUPS + n // GROUPS) % PERSONS)}
        if callers > 1:
            request["by"] = person(n % callers)
        yield {**request, "key": key(n)} if with_keys else request


def written(path, requests):
    with open(path, "wb") as lines:
        lines.writelines(map(encoded, requests))
    return path


def run(words, source, out):
    found = Measured([program, *words], source, out)
    if found.status != 0:
        sys.exit("keys.sh: %s ended with %d" % (words[1:], found.status))
    return found


def fresh(folder, name, first):
    """A journal in which the first commands stand."""
    journal = os.path.join(folder, name)
    if os.path.exists(journal):
        os.remove(journal)
    run([journal, "init"], os.devnull, os.devnull)
    run([journal, "apply"], first, os.devnull)
    return journal


def median(runs, what):
    return statistics.median(getattr(each, what) for each in runs)


def accepted(replies):
    """Whether the replies are those of so many new commands, one after another."""
    with open(replies, "rb") as lines:
        first = sum(1 for _ in ready())
        return all(line == b'{"number":%d,"ok":true}\n' % (first + n) for n, line in enumerate(lines, 1))


with tempfile.TemporaryDirectory(dir="/dev/shm") as folder:
    first = written(os.path.join(folder, "ready"), ready())
    lines = {name: written(os.path.join(folder, "lines-" + name), commands(name == "keyed"))
             for name in ("keyed", "plain")}
    nothing = written(os.path.join(folder, "nothing"), [])
    replies, again = os.path.join(folder, "replies"), os.path.join(folder, "again")
    right, adding, opening, empty = True, {"keyed": [], "plain": []}, {"keyed": [], "plain": []}, []
    for _ in range(turns):
        for name in ("plain", "keyed"):
            journal = fresh(folder, name, first)
            empty.append(run([journal, "apply"], nothing, os.devnull))
            adding[name].append(run([journal, "apply"], lines[name], replies))
            right = right and accepted(replies)
            opening[name].append(run([journal, "check"], os.devnull, os.devnull))
    journal = os.path.join(folder, "keyed")
    size = os.stat(journal)
    repeating = [run([journal, "apply"], lines["keyed"], again) for _ in range(turns)]
    same = filecmp.cmp(replies, again, shallow=False)
    after = os.stat(journal)
    same = same and (after.st_size, after.st_mtime_ns) == (size.st_size, size.st_mtime_ns)
    start = median(empty, "processor")
    plain, keyed = (median(adding[name], "processor") - start for name in ("plain", "keyed"))
    print("%d commands with keys of %d bytes, %d callers" % (count, len(key(0)), callers))
    print("adding     %.2f s of a processor without keys, %.2f with: %.2f times (1.15 is wanted)"
          % (plain, keyed, keyed / plain))
    print("a second   %d without keys, %d with" % (count / plain, count / keyed))
    for title, runs in ("adding", adding), ("opening", opening):
        more = (median(runs["keyed"], "peak") - median(runs["plain"], "peak")) * 1024
        print("memory     %d bytes a key in %s (250 is wanted), of %d MB in all"
              % (more / count, title, median(runs["keyed"], "peak") * 1024 / 1e6))
    print("opening    %.2f s without keys, %.2f with: %.2f times (1.25 is wanted)"
          % (median(opening["plain"], "processor"), median(opening["keyed"], "processor"),
             median(opening["keyed"], "processor") / median(opening["plain"], "processor")))
    beyond = median(repeating, "processor") - median(opening["keyed"], "processor")
    print("again      %d a second, %.1f microseconds each (10 is wanted)"
          % (count / max(beyond, 1e-6), beyond / count * 1e6))
    if not right:
        print("WRONG: a command wasn't accepted")
    if not same:
        print("WRONG: a reply isn't the first one, or the journal has changed")
sys.exit(0 if right and same else 1)
PYTHON
