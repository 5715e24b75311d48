#!/usr/bin/env python3
"""Times the built program over registries of several sizes, and prints a line of figures for each, which bench/plots.py
draws. Of each number of memberships: adding them (20 in a group, four for a person), opening their journal, 20,000
questions for the members of a group, and 20,000 times one membership in and out. Of each depth of a chain of groups: a
person in and out at its bottom, which changes every group of it, and at its top. Questions and changes come over a pipe
once a first question is answered, so opening the journal isn't in their time. Checks that all was answered as it has to
be. The journals lie in memory (/dev/shm).

    bench/sizes.py [MEMBERSHIPS ..] > bench/sizes.txt

Build the program first (./quickstart.sh). A line: what was done, the size, how many requests, seconds, those of a
processor, and the most memory in kB.
"""
import os
import subprocess
import sys
import tempfile
import threading
import time

from applying import encoded

PROGRAM = os.path.join(os.path.dirname(os.path.abspath(__file__)), "..", "crates", "registry", "out", "registry")
SIZES = [10000, 30000, 100000, 300000, 1000000, 2000000]
DEPTHS = [1, 3, 10, 30, 100, 300]
ASKED = 20000
TICK = os.sysconf("SC_CLK_TCK")
TURNS = {1: 20000, 3: 20000, 10: 10000, 30: 5000, 100: 2000, 300: 1000}


class Run:
    """One run of the program over a file of input: seconds, those of a processor, the most memory in kB, and its
    output."""

    def __init__(self, words, into, out):
        before = time.time()
        with open(into, "rb") as source, open(out, "wb") as sink:
            process = subprocess.Popen([PROGRAM, *words], stdin=source, stdout=sink)
            _, status, used = os.wait4(process.pid, 0)
        self.seconds = time.time() - before
        self.status = process.returncode = os.waitstatus_to_exitcode(status)
        self.processor = used.ru_utime + used.ru_stime
        self.peak = used.ru_maxrss
        with open(out, "rb") as file:
            self.replies = file.read()


class Asked:
    """A run of `apply` over two pipes: the same once a first question is answered, and so the journal open."""

    def __init__(self, journal, first, lines):
        process = subprocess.Popen([PROGRAM, journal, "apply"], stdin=subprocess.PIPE, stdout=subprocess.PIPE)
        process.stdin.write(first)
        process.stdin.flush()
        process.stdout.readline()
        before, used_before = time.time(), self.used(process.pid)
        threading.Thread(target=self.feed, args=(process.stdin, lines)).start()
        self.replies = process.stdout.read()
        self.seconds = time.time() - before
        _, status, used = os.wait4(process.pid, 0)
        self.status = process.returncode = os.waitstatus_to_exitcode(status)
        self.processor = used.ru_utime + used.ru_stime - used_before
        self.peak = used.ru_maxrss

    @staticmethod
    def used(pid):
        with open("/proc/%d/stat" % pid) as file:
            fields = file.read().rsplit(")", 1)[1].split()
        return (int(fields[11]) + int(fields[12])) / TICK

    @staticmethod
    def feed(pipe, lines):
        with pipe:
            pipe.write(lines)


def folder(n, folders):
    return "f%04d" % (n % folders)


def group(n, folders):
    return "%s:g%06d" % (folder(n, folders), n)


def person(n):
    return "uni/p%06d" % n


def commands(rows):
    folders, groups, persons = max(1, rows // 2000), max(1, rows // 20), max(21, rows // 4)
    for n in range(folders):
        yield {"op": "folder.add", "folder": folder(n, folders)}
    for n in range(groups):
        yield {"op": "group.add", "group": group(n, folders), "display": "Group %d" % n}
    for n in range(persons):
        yield {"op": "subject.add", "subject": person(n), "display": "Person %d" % n}
    for n in range(rows):
        member = person((n * 7 + n // groups) % persons)
        yield {"op": "member.add", "group": group(n % groups, folders), "member": member}


def questions(rows):
    folders, groups = max(1, rows // 2000), max(1, rows // 20)
    for n in range(ASKED):
        yield {"op": "members", "group": group(n * 37 % groups, folders)}


def in_and_out(name, who, turns):
    for _ in range(turns):
        yield {"op": "member.add", "group": name, "member": who}
        yield {"op": "member.remove", "group": name, "member": who}


def chain(depth):
    yield {"op": "subject.add", "subject": "uni/q"}
    for n in range(depth):
        yield {"op": "group.add", "group": "c%d" % n}
    for n in range(1, depth):
        yield {"op": "member.add", "group": "c%d" % n, "member": "g:gsa/c%d" % (n - 1)}


class Place:
    """A folder with a journal."""

    def __init__(self, at):
        self.journal, self.lines, self.out = (os.path.join(at, name) for name in ("journal", "lines", "out"))
        subprocess.run([PROGRAM, self.journal, "init"], check=True)

    def applied(self, requests):
        """A run of `apply` over commands, and how many there were."""
        with open(self.lines, "wb") as file:
            file.writelines(encoded(request) for request in requests)
        run = Run([self.journal, "apply"], self.lines, self.out)
        return run, self.checked(run, b'{"number":')

    def asked(self, requests, mark):
        """The requests once the journal is open, and how many there were. Each reply has this mark."""
        first = encoded({"op": "group.get", "group": "nobody"})
        run = Asked(self.journal, first, b"".join(encoded(request) for request in requests))
        return run, self.checked(run, mark)

    @staticmethod
    def checked(run, mark):
        count = run.replies.count(b"\n")
        if run.status != 0 or run.replies.count(mark) != count:
            sys.exit("sizes.py: a request was not answered as it has to be")
        return count

    def opened(self):
        run = Run([self.journal, "check"], os.devnull, self.out)
        if run.status != 0:
            sys.exit("sizes.py: a journal doesn't open")
        return run


def told(what, size, run, count):
    print("%-9s %8d %8d %9.3f %9.3f %9d" % (what, size, count, run.seconds, run.processor, run.peak), flush=True)


def of_size(rows):
    with tempfile.TemporaryDirectory(dir="/dev/shm") as at:
        place = Place(at)
        run, count = place.applied(commands(rows))
        told("adding", rows, run, count)
        told("opening", rows, place.opened(), count)
        told("members", rows, *place.asked(questions(rows), b'{"members":'))
        if rows == SIZES[-1]:
            return  # the registry is full: one membership more is refused
        changes = in_and_out(group(0, max(1, rows // 2000)), person(1), ASKED)
        told("changing", rows, *place.asked(changes, b'{"number":'))


def of_depth(depth):
    for what, name in (("bottom", "c0"), ("top", "c%d" % (depth - 1))):
        with tempfile.TemporaryDirectory(dir="/dev/shm") as at:
            place = Place(at)
            place.applied(chain(depth))
            told(what, depth, *place.asked(in_and_out(name, "uni/q", TURNS[depth]), b'{"number":'))


if not os.access(PROGRAM, os.X_OK):
    sys.exit("sizes.py: no %s: run ./quickstart.sh first" % PROGRAM)
print("# %d processors, a load of %.1f at the start" % (os.cpu_count(), os.getloadavg()[0]))
for size in map(int, sys.argv[1:] or SIZES):
    of_size(size)
for steps in DEPTHS:
    of_depth(steps)
