#!/bin/sh
# Times the built program on questions: the members of the last of a chain of GROUPS_MADE groups, each the member of the
# next, of PERSONS persons in the first. REQUESTS of them are asked by one client over two pipes, each once the reply
# before has come, and then all at once, with the replies read as they come. Prints requests a second, of which 12,000
# and 20,000 are wanted, and compares every reply with the first, whose names are checked.
# The journal lies in memory (/dev/shm). Build the program first (./quickstart.sh).
set -u
cd "$(dirname "$0")/.." || exit 1
program=$(pwd)/crates/registry/out/registry
[ -x "$program" ] || {
    echo "reads.sh: no $program: run ./quickstart.sh first" >&2
    exit 1
}
PYTHONDONTWRITEBYTECODE=1 PYTHONPATH=bench exec python3 - "$program" "${GROUPS_MADE:-200}" "${PERSONS:-2000}" "${REQUESTS:-20000}" <<'PYTHON'
import fcntl
import json
import os
import resource
import subprocess
import sys
import tempfile
import threading
import time

from applying import Applied, encoded

program, groups, persons, requests = sys.argv[1], *map(int, sys.argv[2:])
ROOM = 1 << 20
question = encoded({"op": "members", "group": "c%d" % (groups - 1)})


def chain():
    for n in range(persons):
        yield {"op": "subject.add", "subject": "uni/p%d" % n}
    for n in range(groups):
        yield {"op": "group.add", "group": "c%d" % n}
    for n in range(1, groups):
        yield {"op": "member.add", "group": "c%d" % n, "member": "g:gsa/c%d" % (n - 1)}
    for n in range(persons):
        yield {"op": "member.add", "group": "c0", "member": "uni/p%d" % n}


class Asked:
    """A run of `apply` with a pipe at each end. A pipe has room for some replies, so that a reply isn't written in
    parts that each wake the other side."""

    def __init__(self, journal):
        start = resource.getrusage(resource.RUSAGE_CHILDREN)
        self.process = subprocess.Popen([program, journal, "apply"], stdin=subprocess.PIPE, stdout=subprocess.PIPE)
        self.into, self.out = self.process.stdin.fileno(), self.process.stdout.fileno()
        fcntl.fcntl(self.out, fcntl.F_SETPIPE_SZ, ROOM)
        # the journal is open once this is answered
        os.write(self.into, question)
        self.reply = self.line()
        before = time.time()
        self.same = self.ask()
        self.seconds = time.time() - before
        self.process.stdin.close()
        self.same = self.same and self.process.wait() == 0
        used = resource.getrusage(resource.RUSAGE_CHILDREN)
        self.processor = used.ru_utime + used.ru_stime - start.ru_utime - start.ru_stime

    def line(self):
        """The next reply, where only one is under way."""
        parts = [os.read(self.out, ROOM)]
        while not parts[-1].endswith(b"\n"):
            parts.append(os.read(self.out, ROOM))
        return b"".join(parts)


class OneByOne(Asked):
    title = "one by one"

    def ask(self):
        same = True
        for _ in range(requests):
            os.write(self.into, question)
            same = self.line() == self.reply and same
        return same


class Streamed(Asked):
    title = "streamed"

    def feed(self):
        with os.fdopen(os.dup(self.into), "wb") as pipe:
            pipe.write(question * requests)

    def ask(self):
        threading.Thread(target=self.feed).start()
        size, same, at = len(self.reply), True, 0
        wanted = self.reply * (ROOM // size + 2)
        while at < size * requests:
            piece = os.read(self.out, ROOM)
            same = piece != b"" and piece == wanted[at % size:at % size + len(piece)] and same
            if not piece:
                break
            at += len(piece)
        return same


with tempfile.TemporaryDirectory(dir="/dev/shm") as place:
    journal = os.path.join(place, "journal")
    subprocess.run([program, journal, "init"], check=True)
    made = Applied(program, journal, chain(), place)
    right = made.status == 0 and made.accepted == made.count
    for run in (OneByOne(journal), Streamed(journal)):
        members = json.loads(run.reply)["members"]
        right = right and run.same and members == ["uni/p%d" % n for n in range(persons)]
        print("%-12s %d requests of %d members, %d bytes each, %.2f seconds (%.2f of a processor), %d requests a second"
              % (run.title, requests, len(members), len(run.reply), run.seconds, run.processor, requests / run.seconds))
print("processors   %d" % os.cpu_count())
sys.exit(0 if right else 1)
PYTHON
