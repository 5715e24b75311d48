#!/bin/sh
# Times the built program on grants with dates. GRANTS grants are added over GROUPS_MADE groups, a microsecond apart. Each
# has a begin and an end of its own, and half of them end while requests come: the first ones while the last are added,
# the others while ASKED `may` questions are asked in one stream. The clock is handed to the program by a small library,
# so each answer is known: who holds a grant at that microsecond. What starting the program and opening its journal takes
# is measured apart and taken off. Prints commands and questions a second, of which 60,000 and 100,000 are wanted.
# Then two journals are opened in turn: GRANTS grants that begin and end at dates of their own, all of which have passed,
# and as many without dates, each removed by a command. Opening the first is to take at most twice the time of the second.
# Last, grants are added on one object, one for each person, who joins a group beside it. Each grant ends while those
# behind it are added: together with its person's membership, or, to compare, a microsecond behind it.
# Figures are medians of TURNS turns, of a processor's time; every reply is checked.
#
#     GRANTS=100000 GROUPS_MADE=20000 ASKED=200000 TURNS=3 bench/dated_grants.sh
#
# The journals lie in memory (/dev/shm), so that the disk's syncs aren't measured. It needs `cc`, for the clock. Build the
# program first (./quickstart.sh), or name another one by PROGRAM. Ends with status 1 where a reply is wrong.
set -u
cd "$(dirname "$0")/.." || exit 1
program=${PROGRAM:-$(pwd)/crates/registry/out/registry}
[ -x "$program" ] || {
    echo "dated_grants.sh: no $program: run ./quickstart.sh first" >&2
    exit 1
}
PYTHONDONTWRITEBYTECODE=1 PYTHONPATH=bench exec python3 - "$program" "${GRANTS:-100000}" "${GROUPS_MADE:-20000}" "${ASKED:-200000}" "${TURNS:-3}" <<'PYTHON'
import json
import os
import statistics
import subprocess
import sys
import tempfile
import time

from applying import Measured, encoded

program, grants, groups, asked, turns = sys.argv[1], *map(int, sys.argv[2:])
if not 1000 <= grants <= 500000 or not 100 <= groups <= min(grants, 100000):
    sys.exit("dated_grants.sh: GRANTS is from 1,000 to 500,000, GROUPS_MADE from 100 to 100,000 and to GRANTS")
PERSONS, SECOND = 20000, 1_000_000
beside_count = min(grants, PERSONS)
START = 1_756_684_800 * SECOND  # 2025-09-01T00:00:00Z
ADDING = START + SECOND  # the moment of the first grant; the one behind it comes a microsecond later
ASKING = ADDING + grants
DAY = 86_400 * SECOND


def person(n):
    return "uni/p%05d" % n


def group(n):
    return "g%05d" % n


def text(moment):
    seconds, micros = divmod(moment, SECOND)
    return time.strftime("%Y-%m-%dT%H:%M:%S", time.gmtime(seconds)) + ".%06dZ" % micros


def begin(n):
    """Every fourth grant begins a while after its command, the others at once."""
    return ADDING + n + (grants // 10 if n % 4 == 0 else 0)


def end(n):
    """Each second grant ends while requests come, half as many requests behind it as there are grants."""
    return ADDING + n + grants // 2 if n % 2 == 0 else ADDING + DAY + n


def grant(n):
    """Groups take turns. Each round moves the persons on by one, so no grant comes twice."""
    return {"object": group(n % groups), "privilege": "READ", "holder": person((n % groups + n // groups) % PERSONS)}


def ready():
    for n in range(groups):
        yield {"op": "group.add", "group": group(n)}
    for n in range(PERSONS):
        yield {"op": "subject.add", "subject": person(n)}


def dated():
    for n in range(grants):
        yield {"op": "grant.add", **grant(n), "from": text(begin(n)), "until": text(end(n))}


def questions():
    """Whether somebody holds a grant, all grants in turn, in an order of their own."""
    for k in range(asked):
        one = grant(k * 7919 % grants)
        yield {"op": "may", "object": one["object"], "entity": one["holder"]}


def told(k):
    """The answer to question k, at its microsecond."""
    n = k * 7919 % grants
    is_on = begin(n) <= ASKING + k < end(n)
    return {"ok": True, "privileges": ["READ", "VIEW"] if is_on else []}


def passed():
    """Grants of which each begins and ends while those behind it are added, and a command behind all dates."""
    for n in range(grants):
        at = ADDING + n
        yield {"op": "grant.add", **grant(n), "from": text(at + grants // 20), "until": text(at + grants // 10)}
    yield {"op": "group.add", "group": "last"}


def removed():
    """The same grants without dates, each removed by a command as many commands later as it would have stood."""
    for n in range(grants + grants // 10):
        if n < grants:
            yield {"op": "grant.add", **grant(n)}
        if n >= grants // 10:
            yield {"op": "grant.remove", **grant(n - grants // 10)}
    yield {"op": "group.add", "group": "last"}


def beside(apart):
    """Memberships and grants in turn. Each two end at one date, or the grant so much later."""
    for n in range(beside_count):
        end = ADDING + 2 * n + beside_count // 5
        yield {"op": "member.add", "group": group(0), "member": person(n), "until": text(end)}
        yield {"op": "grant.add", "object": group(1), "privilege": "READ", "holder": person(n), "until": text(end + apart)}


class Bench:
    """The program in a folder, with the clock that it is handed."""

    def __init__(self, folder):
        self.folder = folder
        shim = self.path("clock.so")
        subprocess.run(["cc", "-O1", "-shared", "-fPIC", "-o", shim, "model/trial/clock.c", "-ldl"], check=True)
        os.environ.update(CLOCK_LIST=self.path("clock"), LD_PRELOAD=shim)

    def path(self, name):
        return os.path.join(self.folder, name)

    def run(self, words, source=os.devnull, out=os.devnull):
        found = Measured([program, *words], source, out)
        if found.status != 0:
            sys.exit("dated_grants.sh: %s ended with %d" % (words[1:], found.status))
        return found

    def lines(self, name, requests):
        """A file of requests, and how many there are."""
        count = 0
        with open(self.path(name), "wb") as file:
            for count, request in enumerate(requests, 1):
                file.write(encoded(request))
        return self.path(name), count

    def clock(self, first, count):
        """So many moments, a microsecond apart."""
        with open(self.path("clock"), "w") as file:
            file.writelines("%d\n" % moment for moment in range(first, first + max(count, 1)))

    def fresh(self, name, first):
        """A journal in which groups and persons stand."""
        journal = self.path(name)
        if os.path.exists(journal):
            os.remove(journal)
        self.clock(START, 1)
        self.run([journal, "init"])
        self.run([journal, "apply"], first)
        return journal

    def apply(self, journal, moment, requests):
        """The run over some requests, a microsecond apart, and its seconds of a processor beyond opening."""
        source, count = requests
        self.clock(moment, 1)
        base = self.run([journal, "apply"]).processor
        self.clock(moment, count)
        found = self.run([journal, "apply"], source, self.path("replies"))
        return found, max(found.processor - base, 1e-6)

    def are_numbers(self, first):
        """Whether the replies are those of new commands, one after another."""
        with open(self.path("replies"), "rb") as lines:
            return all(line == b'{"number":%d,"ok":true}\n' % (first + n) for n, line in enumerate(lines, 1))

    def are_told(self):
        """Whether each question got the answer of its microsecond, and how many held the grant."""
        with open(self.path("replies")) as lines:
            found = [json.loads(line) for line in lines]
        return found == [told(k) for k in range(asked)], sum(bool(reply["privileges"]) for reply in found)


with tempfile.TemporaryDirectory(dir="/dev/shm") as folder:
    bench = Bench(folder)
    first, standing = bench.lines("ready", ready())
    adding, asking = bench.lines("dated", dated()), bench.lines("questions", questions())
    histories = {"dates": bench.lines("passed", passed()), "commands": bench.lines("removed", removed())}
    ends = {apart: bench.lines("beside%d" % apart, beside(apart)) for apart in (0, 1)}
    ending = {apart: [] for apart in ends}
    commands, mays, opening, peak, right, held = [], [], {"dates": [], "commands": []}, 0, True, 0
    journals = {}
    for name, (source, count) in histories.items():
        journals[name] = bench.fresh(name, first)
        bench.apply(journals[name], ADDING, (source, count))
        right = right and bench.are_numbers(standing)
    for _ in range(turns):
        journal = bench.fresh("journal", first)
        run, seconds = bench.apply(journal, ADDING, adding)
        commands.append(seconds)
        peak = max(peak, run.peak)
        right = right and bench.are_numbers(standing)
        run, seconds = bench.apply(journal, ASKING, asking)
        mays.append(seconds)
        same, held = bench.are_told()
        right = right and same
        for apart, requests in ends.items():
            ending[apart].append(bench.apply(bench.fresh("journal", first), ADDING, requests)[1])
            right = right and bench.are_numbers(standing)
        for name, journal in journals.items():
            opening[name].append(bench.run([journal, "check"]).processor)
    during = sum(ADDING < end(n) < ASKING for n in range(grants))
    print("adding   %d grants with dates over %d groups, %d of which end meanwhile: %d commands a second, %d MB"
          % (grants, groups, during, grants / statistics.median(commands), peak * 1024 // 1000000))
    during = sum(ASKING <= end(n) < ASKING + asked for n in range(grants))
    print("asking   %d `may`, %d of which hold the grant, while %d end: %d questions a second"
          % (asked, held, during, asked / statistics.median(mays)))
    dates, plain = (statistics.median(opening[name]) for name in ("dates", "commands"))
    print("opening  %.2f s of a processor with %d dates that have passed, %.2f with as many commands: %.2f times"
          % (dates, 2 * grants, plain, dates / plain))
    together, apart = (statistics.median(ending[apart]) for apart in (0, 1))
    print("ending   %.2f s of a processor for %d grants of one object that end with a membership, %.2f apart from it"
          % (together, beside_count, apart))
    if not right:
        print("WRONG: a reply isn't the one that it has to be")
sys.exit(0 if right else 1)
PYTHON
