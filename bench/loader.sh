#!/bin/sh
# Times the built program on loads. A list job brings tables of persons into the groups of its folder, 40 in each group:
# RECORDS records where nobody is in a group yet (wanted: 0.25 s), as many where all but the last one's person are
# (0.15 s), and MOST, the most that a table may have, where nobody is (1.2 s). Each is posted to a server, and timed from
# the first byte that is sent to the last byte of the reply; and given to the words `load JOB`, with what starting the
# program and opening the journal takes, measured by `check`, taken off. Then `sample 7 100` (0.35 s) and `sample 7 500`
# (2.5 s and 400 MB), which make their requests themselves and touch no journal. Prints the median of TIMES runs of each,
# the slowest, and the most memory, beside what is wanted; compares every reply, who is in a group behind it, and each
# line of `sample`. The journals lie in memory (/dev/shm). Build the program first (./quickstart.sh). PERSONS, RECORDS,
# MOST and TIMES set other sizes.
set -u
cd "$(dirname "$0")/.." || exit 1
program=$(pwd)/crates/registry/out/registry
[ -x "$program" ] || {
    echo "loader.sh: no $program: run ./quickstart.sh first" >&2
    exit 1
}
PYTHONDONTWRITEBYTECODE=1 PYTHONPATH=bench exec python3 - "$program" "${PERSONS:-20000}" "${RECORDS:-40000}" "${MOST:-200000}" "${TIMES:-5}" <<'PYTHON'
import json
import os
import shutil
import statistics
import subprocess
import sys
import tempfile
import time

from applying import Applied, Measured, peak_of
from serving import Answers, Server, connect, message

program, persons, records, most, times = sys.argv[1], *map(int, sys.argv[2:])
EACH, LIMIT = 40, 8388608
SAMPLES = [("7", "100", "0.35 s"), ("7", "500", "2.5 s, 400 MB")]


def person(n):
    return "p%05d" % (n % persons)


def group(n):
    return "load:l%04d" % (n // EACH)


def made():
    for n in range(persons):
        yield {"op": "subject.add", "subject": "uni/" + person(n)}
    yield {"op": "folder.add", "folder": "load"}
    yield {"op": "job.list", "job": "nightly", "folder": "load", "source": "uni", "min_size": 10, "max_percent": 50}


def table(count):
    """A header and so many records: one for each person of one group after another."""
    lines = ["GROUP_NAME,SUBJECT_ID"] + ["%s,%s" % (group(n), person(n)) for n in range(count)]
    return "".join(line + "\n" for line in lines).encode()


def counts(number, created, added, unchanged):
    """The reply to a load that removes nobody and whose records are all of persons that stand, each once."""
    return {"added": added, "bad_group": 0, "created": created, "number": number, "ok": True, "removed": 0,
            "repeated": 0, "unchanged": unchanged, "unknown": 0, "vetoed": 0}


def told(title, found, peak, wanted):
    print("  %-22s %.3f s, at most %.3f; %d MB (wanted: %s)"
          % (title, statistics.median(found), max(found), peak // 1000, wanted))


class Load:
    """A load of so many records over a copy of a journal, again and again, in two ways."""

    def __init__(self, place, journal, count, reply):
        self.place, self.journal, self.reply, self.count = place, journal, reply, count
        self.into, self.out = os.path.join(place, "table"), os.path.join(place, "reply")
        self.bytes = table(count)
        with open(self.into, "wb") as file:
            file.write(self.bytes)
        self.right = len(self.bytes) <= LIMIT

    def copy(self):
        return shutil.copy(self.journal, os.path.join(self.place, "copy"))

    def look(self, status, text, journal):
        """Whether the reply is as wanted, the journal has the command, and the last group has its persons."""
        first = (self.count - 1) // EACH * EACH
        last = subprocess.run([program, journal, "members", group(first)], stdout=subprocess.PIPE, check=True).stdout
        wanted = sorted({"uni/" + person(n) for n in range(first, self.count)})
        good = status in (0, 200) and text.endswith(b"\n") and json.loads(text) == self.reply
        if not good or json.loads(last)["members"] != wanted:
            print("  WRONG: status %d, %r, and %r" % (status, text[:300], last[:300]))
            self.right = False

    def over_http(self):
        journal = self.copy()
        sent = message("POST", "/jobs/nightly/load", body=self.bytes)
        with Server(journal) as server, connect(server.port, 60.0) as conn:
            before = time.time()
            conn.sendall(sent)
            response = Answers(conn).next()
            seconds = time.time() - before
            peak = peak_of(server.process)
        self.look(response.status, response.body, journal)
        return seconds, peak

    def by_words(self):
        journal = self.copy()
        opening = Measured([program, journal, "check"], os.devnull, self.out)
        run = Measured([program, journal, "load", "nightly"], self.into, self.out)
        with open(self.out, "rb") as file:
            self.look(run.status, file.read(), journal)
        return run.seconds - opening.seconds, run.peak

    def tell(self, title, wanted):
        print("%s, %.1f MB" % (title, len(self.bytes) / 1e6))
        for way, one in ("over HTTP", self.over_http), ("by the words load JOB", self.by_words):
            found = [one() for _ in range(times)]
            told(way, [seconds for seconds, _ in found], max(peak for _, peak in found), wanted)
        return self.right


def summary(size):
    return ["requests %d" % (246 * size + 33), "refused 0", "commands %d" % (241 * size + 31),
            "entries %d" % (1051 * size + 533), "before 1", "now 0"]


def sampled(place, seed, size, wanted):
    """The words `sample`, which make no file."""
    out, absent = os.path.join(place, "summary"), os.path.join(place, "absent")
    runs, right = [], True
    for _ in range(times):
        runs.append(Measured([program, absent, "sample", seed, size], os.devnull, out))
        with open(out) as file:
            lines = file.read()
        if runs[-1].status or lines != "".join(line + "\n" for line in summary(int(size))) or os.path.exists(absent):
            print("  WRONG: status %d, %r" % (runs[-1].status, lines[:300]))
            right = False
    told("sample %s %s" % (seed, size), [run.seconds for run in runs], max(run.peak for run in runs), wanted)
    return right


with tempfile.TemporaryDirectory(dir="/dev/shm") as place:
    empty, standing = os.path.join(place, "empty"), os.path.join(place, "standing")
    subprocess.run([program, empty, "init"], check=True)
    begun = Applied(program, empty, made(), place)
    right = begun.status == 0 and begun.accepted == begun.count
    shutil.copy(empty, standing)
    subprocess.run([program, standing, "load", "nightly"], input=table(records - 1), stdout=subprocess.DEVNULL, check=True)
    number, groups = begun.count + 1, -(-records // EACH)
    load = Load(place, empty, records, counts(number, groups, records, 0))
    right = load.tell("%d records, nobody in a group" % records, "0.25 s") and right
    last = groups - -(-(records - 1) // EACH)
    load = Load(place, standing, records, counts(number + 1, last, 1, records - 1))
    right = load.tell("%d records, all but one in their groups" % records, "0.15 s") and right
    load = Load(place, empty, most, counts(number, -(-most // EACH), most, 0))
    right = load.tell("%d records, nobody in a group" % most, "1.2 s") and right
    print("a registry from a number")
    for seed, size, wanted in SAMPLES:
        right = sampled(place, seed, size, wanted) and right
print("processors %d, runs of each %d" % (os.cpu_count(), times))
sys.exit(0 if right else 1)
PYTHON
