#!/usr/bin/env python3
"""Times the built program's `serve` with connections that stay open: four busy ones alone, and beside others that are
silent, hold half a message, or don't read their response. Each connection asks for a group of its own, so that a
response to another's question is seen. Then each of the silent ones asks again.

    bench/open.py --silent 500 --questions 5000 --turns 3

Prints the medians of the questions that are answered in a second, and their ratio (wanted: 0.8). The journal lies in
memory (/dev/shm). Build the program first (./quickstart.sh), or name another one by PROGRAM. Ends with status 1 where
a response isn't the one to its question, or a connection that should stay open is closed.
"""
import argparse
import multiprocessing
import os
import resource
import statistics
import sys
import tempfile
import time

from applying import Applied
from serving import PROGRAM, Answers, Server, connect, init, message, needs_program

BUSY = 4
UNREAD = 8
HALF = 8


def name(n):
    return "g%04d" % n


def question(n):
    return message("GET", "/groups/" + name(n))


class Client:
    """A connection that stays open, and asks for one group."""

    def __init__(self, port, number):
        self.conn, self.number = connect(port, 60.0), number
        self.answers = Answers(self.conn)

    def ask(self):
        self.conn.sendall(question(self.number))
        response = self.answers.next()
        if response is None:
            sys.exit("open.py: the connection of group %d was closed" % self.number)
        if response.status != 200 or b'"%s"' % name(self.number).encode() not in response.body:
            sys.exit("open.py: not the response to group %d: %r" % (self.number, response.bytes))


def keep_asking(port, number, questions, ready, go, took):
    client = Client(port, number)
    client.ask()
    ready.release()
    go.wait()
    began = time.perf_counter()
    for _ in range(questions):
        client.ask()
    took.put(time.perf_counter() - began)


def rate(port, questions):
    """How many questions are answered in a second over the busy connections."""
    ready, go, took = multiprocessing.Semaphore(0), multiprocessing.Event(), multiprocessing.Queue()
    busy = [multiprocessing.Process(target=keep_asking, args=(port, n, questions, ready, go, took))
            for n in range(BUSY)]
    for it in busy:
        it.start()
    for _ in busy:
        ready.acquire()
    go.set()
    seconds = [took.get(timeout=600) for _ in busy]
    for it in busy:
        it.join()
        if it.exitcode:
            sys.exit(1)
    return BUSY * questions / max(seconds)


def others(port, silent):
    """Connections that were answered once and are silent, that hold half a message, or that don't read."""
    kept = [Client(port, BUSY + n) for n in range(silent)]
    for client in kept:
        client.ask()
    halves = [connect(port, 60.0) for _ in range(HALF)]
    for n, conn in enumerate(halves):
        conn.sendall(question(n)[: 10 + n])
    unread = [connect(port, 60.0) for _ in range(UNREAD)]
    for conn in unread:
        conn.sendall(message("GET", "/groups/large/members") * 20)
    # what these were asked is answered once each of the others was
    for client in kept:
        client.ask()
    return kept, halves, unread


def main():
    words = argparse.ArgumentParser()
    words.add_argument("--silent", type=int, default=500)
    words.add_argument("--questions", type=int, default=5000)
    words.add_argument("--turns", type=int, default=3)
    given = words.parse_args()
    needs_program()
    files = resource.getrlimit(resource.RLIMIT_NOFILE)[1]
    resource.setrlimit(resource.RLIMIT_NOFILE, (min(files, 4096), files))
    with tempfile.TemporaryDirectory(dir="/dev/shm") as folder:
        journal = os.path.join(folder, "journal")
        init(journal)
        requests = [{"op": "group.add", "group": name(n)} for n in range(BUSY + given.silent)]
        requests.append({"op": "group.add", "group": "large"})
        requests += [{"op": "subject.add", "subject": "uni/p%05d" % n} for n in range(5000)]
        requests += [{"op": "member.add", "group": "large", "member": "uni/p%05d" % n} for n in range(5000)]
        if Applied(PROGRAM, journal, requests, folder).status != 0:
            sys.exit("open.py: the registry can't be made")
        alone, beside = [], []
        with Server(journal) as server:
            for _ in range(given.turns):
                alone.append(rate(server.port, given.questions))
                kept, halves, unread = others(server.port, given.silent)
                beside.append(rate(server.port, given.questions))
                for client in kept:
                    client.ask()
                for n, conn in enumerate(halves):
                    conn.sendall(question(n)[10 + n:])
                    response = Answers(conn).next()
                    if response is None or b'"%s"' % name(n).encode() not in response.body:
                        sys.exit("open.py: half a message isn't answered once it is whole")
                for conn in [*(client.conn for client in kept), *halves, *unread]:
                    conn.close()
    one, two = statistics.median(alone), statistics.median(beside)
    print("%d busy connections alone: %.0f questions a second (%.0f to %.0f)" % (BUSY, one, min(alone), max(alone)))
    print("beside %d silent ones, %d of half a message and %d that don't read: %.0f (%.0f to %.0f), %.2f times; wanted 0.8"
          % (given.silent, HALF, UNREAD, two, min(beside), max(beside), two / one))


if __name__ == "__main__":
    main()
