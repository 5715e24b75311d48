#!/usr/bin/env python3
"""A registry and its standby, in two folders with a server on each. A client writes to the first without a pause.
docs/serving/follow.py copies what is new to the second folder, and is killed and started again meanwhile. Again and
again a snapshot of the copy is taken and served, in turn on two ports, in place of the one before. Each has to open, to
a front of the first one's history: its bytes are the first one's, its commands are as many as `check` says, the last
person of the front is answered and the next one isn't. Prints how far each is behind, and how long it takes until it
answers. Beside each a backup is taken by `cp` of the journal that is written, and has to open to a front too. At last
the first server is killed while it writes, and another opens its journal, as a second machine would that has the same
disk: every acknowledged command has to be there. Build the program first (./quickstart.sh). Words: how many snapshots."""
import json
import os
import random
import shutil
import signal
import subprocess
import sys
import tempfile
import threading
import time

from serving import Answers, Server, ask, commands_in, connect, free_port, init, message, needs_program

SNAPSHOTS = int(sys.argv[1]) if len(sys.argv) > 1 else 20
EVERY = 0.2
FOLLOW = os.path.join(os.path.dirname(os.path.dirname(os.path.abspath(__file__))), "docs/serving/follow.py")


class Writer(threading.Thread):
    """Adds persons, one after another: how many were acknowledged, and when."""

    def __init__(self, port):
        super().__init__(daemon=True)
        self.port, self.acknowledged, self.times, self.going = port, 0, [], True

    def run(self):
        try:
            with connect(self.port) as conn:
                answers = Answers(conn)
                while self.going:
                    body = json.dumps({"op": "subject.add", "subject": "uni/p%d" % (self.acknowledged + 1)}).encode()
                    conn.sendall(message("POST", "/requests", body=body))
                    response = answers.next()
                    if response is None or response.status != 200:
                        return
                    self.acknowledged += 1
                    self.times.append(time.time())
                    time.sleep(random.random() / 500)
        except (OSError, ValueError):
            pass


class Follower:
    """docs/serving/follow.py, which copies again and again."""

    def __init__(self, journal, copy):
        self.words = [sys.executable, FOLLOW, journal, copy, "--every", str(EVERY)]
        self.kills = 0
        self.start()

    def start(self):
        self.process = subprocess.Popen(self.words, stdout=subprocess.DEVNULL)

    def kill(self):
        if self.process.poll() is not None:
            sys.exit("follow.py ended with status %d" % self.process.returncode)
        self.process.kill()
        self.process.wait()
        self.kills += 1


def front_of(snapshot, journal):
    """The bytes of a journal, up to its last gate, which have to be those of another."""
    with open(snapshot, "rb") as file:
        found = file.read()
    with open(journal, "rb") as file:
        whole = file.read()
    at = 8
    while found[at] == 1:
        at += 5 + int.from_bytes(found[at + 1:at + 5], "little")
    return found[:at] == whole[:at]


def answers_front(port, persons):
    """Whether the last of so many persons is known, and the next one isn't."""
    statuses = [ask(port, message("GET", "/subjects/uni%%2Fp%d/groups" % n)).status for n in (persons, persons + 1)]
    return statuses == ([200, 404] if persons else [404, 404])


def snapshot_of(journal, copy, place, writer, ports, n):
    """Takes the n-th snapshot, serves it, and tells how far it is behind."""
    snapshot = os.path.join(place, "snapshot-%d" % n)
    shutil.copyfile(copy, snapshot)
    begun = time.time()
    commands = commands_in(snapshot)
    server = Server(snapshot, ports[n % 2])
    if not front_of(snapshot, journal) or not answers_front(server.port, commands):
        sys.exit("snapshot %d is no front of the history" % n)
    answering = time.time()
    written = writer.acknowledged
    oldest = writer.times[commands] if commands < written else answering
    print("snapshot %2d: %6d commands, %4d behind the first server's, the oldest of them %4.0f ms old; answered %3.0f ms after the copy" % (
        n, commands, written - commands, (answering - oldest) * 1000, (answering - begun) * 1000))
    return server, commands


def back_up(journal, place, writer):
    """Copies the journal while it is written. The copy has what was acknowledged before."""
    backup, acknowledged = os.path.join(place, "backup"), writer.acknowledged
    subprocess.run(["cp", journal, backup], check=True)
    if commands_in(backup) < acknowledged or not front_of(backup, journal):
        sys.exit("a backup is no front of the history, or lacks what was acknowledged")


def main():
    needs_program()
    random.seed(7)
    with tempfile.TemporaryDirectory() as first, tempfile.TemporaryDirectory() as second:
        journal, copy = os.path.join(first, "journal"), os.path.join(second, "copy")
        init(journal)
        ports, standby, last = (free_port(), free_port()), None, 0
        primary = Server(journal)
        writer = Writer(primary.port)
        writer.start()
        subprocess.run([sys.executable, FOLLOW, journal, copy], stdout=subprocess.DEVNULL, check=True)
        follower = Follower(journal, copy)
        for n in range(1, SNAPSHOTS + 1):
            time.sleep(EVERY + random.random() * EVERY)
            if n % 2:
                follower.kill()
            server, commands = snapshot_of(journal, copy, second, writer, ports, n)
            back_up(journal, second, writer)
            if n % 2:
                follower.start()
            if standby:
                standby.stop()
            if commands < last:
                sys.exit("snapshot %d has fewer commands than the one before" % n)
            standby, last = server, commands
        follower.kill()
        time.sleep(random.random() * EVERY)
        os.kill(primary.process.pid, signal.SIGKILL)
        primary.ended()
        writer.join()
        with Server(journal) as other:
            kept = commands_in(shutil.copyfile(journal, os.path.join(first, "look")))
            right = kept in (writer.acknowledged, writer.acknowledged + 1) and answers_front(other.port, kept)
        standby.stop()
    print("%d snapshots served and %d backups, each a front; follow.py killed %d times" % (SNAPSHOTS, SNAPSHOTS, follower.kills))
    print("the first server killed after %d acknowledged commands: the next one has %d, %s" % (
        writer.acknowledged, kept, "none lost" if right else "WRONG"))
    sys.exit(0 if right else 1)


if __name__ == "__main__":
    main()
