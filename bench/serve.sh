#!/bin/sh
# Times the built program's `serve` over loopback: requests a second, and how long one takes at the 50th and the 99th of a
# hundred, for a small question (`group.get`) and a large one (`members` of a group of 2,000): over one connection that
# stays open, one by one and 16 at a time; over a connection for each; and the same questions through `apply`, over pipes,
# one by one and streamed. Then through nginx as docs/serving/nginx.conf has it, over TLS with a client's certificate, by
# one client and by four at once; that needs nginx and openssl. Prints what is wanted beside each figure, and compares
# every response.
# The journal lies in memory (/dev/shm). Build the program first (./quickstart.sh). PERSONS and REQUESTS set other sizes.
set -u
cd "$(dirname "$0")/.." || exit 1
PYTHONDONTWRITEBYTECODE=1 PYTHONPATH=bench exec python3 - "${PERSONS:-2000}" "${REQUESTS:-40000}" <<'PYTHON'
import fcntl
import os
import shutil
import subprocess
import sys
import tempfile
import threading
import time
from contextlib import nullcontext

from applying import Applied, encoded
from fronting import FrontEnd
from serving import PROGRAM, Server, ask, connect, init, message, needs_program

persons, requests = map(int, sys.argv[1:])
ROOM = 1 << 20
AT_ONCE = 16
different = 0


def commands():
    yield {"op": "group.add", "group": "small", "display": "Small"}
    yield {"op": "group.add", "group": "large"}
    for n in range(persons):
        yield {"op": "subject.add", "subject": "uni/p%d" % n}
    for n in range(persons):
        yield {"op": "member.add", "group": "large", "member": "uni/p%d" % n}
    yield {"op": "subject.add", "subject": "uni/ann"}
    for group in ("small", "large"):
        yield {"op": "grant.add", "object": group, "privilege": "READ", "holder": "uni/ann"}


class Question:
    """A question over HTTP and as a line, and how often each measure asks it."""

    def __init__(self, name, target, line, count):
        self.name, self.target, self.line, self.count = name, target, encoded(line), count

    def sent(self, close=False):
        return message("GET", self.target, close=close)


def read_exactly(conn, count):
    parts, left = [], count
    while left:
        piece = conn.recv(min(left, ROOM))
        if not piece:
            break
        parts.append(piece)
        left -= len(piece)
    return parts[0] if len(parts) == 1 else b"".join(parts)


def compare(found, wanted):
    global different
    different += found != wanted


def kept_alive(port, question, wanted, at_once=1):
    """The times of the rounds over one connection, in each of which so many messages are sent at once."""
    sent, back, times = question.sent() * at_once, wanted * at_once, []
    with connect(port) as conn:
        for _ in range(question.count // at_once):
            before = time.perf_counter()
            conn.sendall(sent)
            compare(read_exactly(conn, len(back)), back)
            times.append(time.perf_counter() - before)
    return times


def one_each(port, question, wanted):
    """The times of messages, each over a connection of its own."""
    sent, times = question.sent(close=True), []
    for _ in range(question.count // 2):
        before = time.perf_counter()
        with connect(port) as conn:
            conn.sendall(sent)
            found = read_exactly(conn, len(wanted))
            # the connection's end comes with the response
            compare(found + conn.recv(1), wanted)
        times.append(time.perf_counter() - before)
    return times


def told(title, question, times, at_once=1, wanted=None, seconds=None):
    rate = len(times) * at_once / (seconds or sum(times))
    times = sorted(times)
    says = "" if wanted is None else ", %d wanted%s" % (wanted, "" if rate >= wanted else " and missed")
    print("%-44s %7.0f a second; %6.0f and %6.0f microseconds%s" % (
        question.name + ", " + title, rate, times[len(times) // 2] * 1e6, times[len(times) * 99 // 100] * 1e6, says))


def lines_one_by_one(journal, question):
    process = subprocess.Popen([PROGRAM, journal, "apply"], stdin=subprocess.PIPE, stdout=subprocess.PIPE)
    into, out = process.stdin.fileno(), process.stdout.fileno()
    fcntl.fcntl(out, fcntl.F_SETPIPE_SZ, ROOM)
    times = []
    for n in range(question.count):
        before = time.perf_counter()
        os.write(into, question.line)
        found = os.read(out, ROOM)
        while not found.endswith(b"\n"):
            found += os.read(out, ROOM)
        if n:
            times.append(time.perf_counter() - before)
    process.stdin.close()
    process.wait()
    return times


def lines_streamed(journal, question, size):
    """How many a second, with all lines written at once and the replies thrown away as they come."""
    process = subprocess.Popen([PROGRAM, journal, "apply"], stdin=subprocess.PIPE, stdout=subprocess.PIPE)
    fcntl.fcntl(process.stdout.fileno(), fcntl.F_SETPIPE_SZ, ROOM)

    def feed():
        process.stdin.write(question.line * question.count)
        process.stdin.close()

    process.stdin.write(question.line)
    process.stdin.flush()
    left = size - len(os.read(process.stdout.fileno(), size))
    before = time.perf_counter()
    threading.Thread(target=feed).start()
    left += size * question.count
    while left > 0:
        left -= len(os.read(process.stdout.fileno(), ROOM))
    seconds = time.perf_counter() - before
    process.wait()
    return question.count / seconds


def through_front_end(front, question):
    """One client, and then four at once, each over a connection that stays open."""
    sent = front.message("GET", question.target)
    first = front.ask(sent)
    for clients in (1, 4):
        seconds, times, same = front.load(clients, sent, first, question.count // 16)
        compare(same, True)
        told("front end, %d client%s" % (clients, "s"[clients == 1:]), question, times, seconds=seconds,
             wanted=4000 if clients == 4 and question is small else None)


needs_program()
small = Question("small", "/groups/small", {"op": "group.get", "group": "small"}, requests)
large = Question("large", "/groups/large/members", {"op": "members", "group": "large"}, requests // 4)
print("load before: %.1f, on %d processors" % (os.getloadavg()[0], os.cpu_count()))
print("what was asked, and how                    how many a second; how long at the 50th and the 99th of a hundred")
with tempfile.TemporaryDirectory(dir="/dev/shm") as folder:
    journal = os.path.join(folder, "journal")
    init(journal)
    made = Applied(PROGRAM, journal, commands(), folder)
    if made.accepted != made.count:
        sys.exit("serve.sh: %d of %d commands were accepted" % (made.accepted, made.count))
    with Server(journal) as server, (FrontEnd(folder, server.port) if shutil.which("nginx") else nullcontext()) as front:
        for question in (small, large):
            open_, closed = (ask(server.port, question.sent(close)).bytes for close in (False, True))
            known = question is small
            told("one connection, one by one", question, kept_alive(server.port, question, open_), wanted=25000 if known else None)
            told("one connection, %d at a time" % AT_ONCE, question, kept_alive(server.port, question, open_, AT_ONCE), AT_ONCE,
                 wanted=25000 if known else None)
            told("a connection each", question, one_each(server.port, question, closed), wanted=8000 if known else None)
            if front:
                through_front_end(front, question)
        replies = [ask(server.port, question.sent()).body for question in (small, large)]
    for question, reply in zip((small, large), replies):
        told("a line each, one by one", question, lines_one_by_one(journal, question))
        print("%-44s %7.0f a second" % (question.name + ", lines streamed", lines_streamed(journal, question, len(reply))))
if not shutil.which("nginx"):
    print("nginx isn't installed: not measured")
print("load after: %.1f; %d responses differed" % (os.getloadavg()[0], different))
sys.exit(1 if different else 0)
PYTHON
