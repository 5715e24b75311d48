#!/usr/bin/env python3
"""Restarts a registry again and again while clients ask questions through docs/serving/nginx.conf, whose lines for a standby
are no comments here: docs/serving/follow.py copies the journal, and docs/serving/standby.sh serves snapshots of the copy.
Each server ends after 1,000 connections, and every third is killed before; the next begins a tenth of a second later, as the
unit does. No question may fail: each has to be answered 200, with the members that the group has from the first to the last.
Beside that someone makes groups, and sends a command that isn't answered again: as many as were acknowledged have to be in
the journal in the end, or one more. Build the program first (./quickstart.sh). It needs nginx, openssl and curl. Words: how
many restarts. PERSONS sets how many the journal begins with."""
import json
import multiprocessing
import os
import random
import signal
import statistics
import subprocess
import sys
import tempfile
import threading
import time

from fronting import MESSAGES, SERVING, FrontEnd
from serving import PROGRAM, Answers, commands_in, connect, free_port, needs_program, write_journal

RESTARTS = int(sys.argv[1]) if len(sys.argv) > 1 else 10
PERSONS, CLIENTS, CONNECTIONS = int(os.environ.get("PERSONS", 20000)), 4, 1000
AT = "2025-09-01T08:00:00Z"


def commands():
    yield {"at": AT, "op": "group.add", "group": "staff"}
    for n in range(PERSONS):
        yield {"at": AT, "op": "subject.add", "subject": "uni/p%d" % n}
    for n in range(100):
        yield {"at": AT, "op": "member.add", "group": "staff", "member": "uni/p%d" % n}
    yield {"at": AT, "op": "subject.add", "subject": "uni/ann"}
    for object, privilege in (("staff", "READ"), (":", "create")):
        yield {"at": AT, "op": "grant.add", "object": object, "privilege": privilege, "holder": "uni/ann"}


class Restarted(threading.Thread):
    """The registry, which ends and is started again: how long each start took until it answered."""

    def __init__(self, journal):
        super().__init__(daemon=True)
        self.port, self.going, self.times, self.kills = free_port(), True, [], 0
        self.words = [PROGRAM, journal, "serve", str(self.port), "--connections", str(CONNECTIONS)]
        self.begin()

    def begin(self):
        before = time.perf_counter()
        self.process = subprocess.Popen(self.words, stderr=subprocess.PIPE)
        while True:
            try:
                connect(self.port).close()
                self.times.append(time.perf_counter() - before)
                return
            except OSError:
                if self.process.poll() is not None:
                    raise SystemExit("serve ended with status %d" % self.process.returncode)
                time.sleep(0.005)

    def run(self):
        chance = random.Random(7)
        while self.going:
            if len(self.times) % 3 == 0:
                time.sleep(chance.random() * 0.1)
                self.process.send_signal(chance.choice([signal.SIGTERM, signal.SIGKILL]))
                self.kills += 1
            self.process.wait()
            if self.going:
                time.sleep(0.1)
                self.begin()

    def __enter__(self):
        return self

    def __exit__(self, *_):
        self.going = False
        self.process.kill()
        self.join()


def client(front, going, found):
    """Asks on and on: how many questions, and those that failed."""
    sent, count, failed = front.message("GET", "/groups/staff/members"), 0, []
    wanted = json.dumps({"members": ["uni/p%d" % n for n in range(100)], "ok": True}, separators=(",", ":")).encode() + b"\n"
    while going.value:
        try:
            with front.connect() as conn:
                answers = Answers(conn)
                for _ in range(MESSAGES):
                    count += 1
                    conn.sendall(sent)
                    response = answers.next()
                    if response is None or (response.status, response.body) != (200, wanted):
                        failed.append(response and response.bytes[:200])
                        break
                    if not going.value:
                        break
        except (OSError, ValueError) as fault:
            failed.append(repr(fault))
    found.put((count, failed))


class Writer(threading.Thread):
    """Adds groups one after another. One that was answered 502 is sent again, and may be there already."""

    def __init__(self, front):
        super().__init__(daemon=True)
        self.front, self.going, self.acknowledged, self.unanswered, self.taken = front, True, 0, 0, 0

    def run(self):
        while self.going:
            body = json.dumps({"op": "group.add", "group": "g%d" % self.acknowledged}).encode()
            sent = self.front.message("POST", "/requests", ["Content-Type: application/json"], body)
            try:
                response = self.front.ask(sent)
            except OSError:
                response = None
            if response is None or response.status == 502:
                self.unanswered += 1
                time.sleep(0.05)
            elif response.status in (200, 409):
                self.taken += response.status == 409
                self.acknowledged += 1
            else:
                raise SystemExit("a command is answered %r" % response.bytes)


def passed_on(front):
    """How many questions a standby answered, by the log of the front end."""
    with open(front.folder + "/registry.log") as file:
        lines = [line for line in file if '"GET ' in line]
    return sum(", " in line.partition(" by=")[2] for line in lines)


class Standby:
    """A copy of a journal that is followed, and its snapshots, served in turn on two ports, each for some seconds."""

    def __init__(self, journal, copy):
        self.ports = free_port(), free_port()
        follow = [sys.executable, os.path.join(SERVING, "follow.py"), journal, copy]
        subprocess.run(follow, stdout=subprocess.DEVNULL, check=True)
        serve = [os.path.join(SERVING, "standby.sh"), copy, *map(str, self.ports), "5"]
        # a group of their own each, to which the snapshots' servers belong too
        self.processes = [subprocess.Popen([*follow, "--every", "1"], stdout=subprocess.DEVNULL, start_new_session=True),
                          subprocess.Popen(serve, env={**os.environ, "PROGRAM": PROGRAM}, start_new_session=True)]
        while True:
            try:
                connect(self.ports[0]).close()
                return
            except OSError:
                time.sleep(0.05)

    def __enter__(self):
        return self

    def __exit__(self, *_):
        for process in self.processes:
            os.killpg(process.pid, signal.SIGKILL)
            process.wait()


def main():
    needs_program()
    with tempfile.TemporaryDirectory() as folder:
        journal = os.path.join(folder, "journal")
        write_journal(journal, commands())
        with Standby(journal, os.path.join(folder, "copy")) as standby, Restarted(journal) as registry, \
                FrontEnd(folder, registry.port, standby.ports) as front:
            going, found = multiprocessing.Value("b", True), multiprocessing.SimpleQueue()
            clients = [multiprocessing.Process(target=client, args=(front, going, found), daemon=True) for _ in range(CLIENTS)]
            writer = Writer(front)
            for each in (*clients, registry, writer):
                each.start()
            while len(registry.times) <= RESTARTS and registry.is_alive() and writer.is_alive():
                time.sleep(0.1)
            going.value = writer.going = registry.going = False
            told = [found.get() for _ in clients]
            for each in (*clients, writer):
                each.join()
            standbys = passed_on(front)
        kept = commands_in(journal) - len(list(commands()))
    failed = [failure for _, failures in told for failure in failures]
    print("%d restarts, %d of them after a kill; each until it answers %.2f s, at most %.2f" % (
        len(registry.times) - 1, registry.kills, statistics.median(registry.times), max(registry.times)))
    print("%d questions, %d failed; a standby answered %d" % (sum(count for count, _ in told), len(failed), standbys))
    print("%d commands acknowledged, which weren't answered %d times before, %d of them though they were kept; the journal has %d" % (
        writer.acknowledged, writer.unanswered, writer.taken, kept))
    for failure in failed[:10]:
        print("failed: %r" % failure)
    right = not failed and standbys and kept in (writer.acknowledged, writer.acknowledged + 1)
    sys.exit(0 if right and len(registry.times) > RESTARTS else 1)


if __name__ == "__main__":
    main()
