#!/usr/bin/env python3
"""What the dearest commands cost at the registry's limits: 100,000 groups, all but five below one folder, 500,000 persons,
and one group with all of them. Prints the seconds from each command to its reply, over a journal in memory (/dev/shm).

    bench/dearest.py [--groups N] [--persons N]

Build the program first (./quickstart.sh).
"""
import argparse
import os
import subprocess
import tempfile
import time

from applying import encoded

PROGRAM = os.path.join(os.path.dirname(os.path.abspath(__file__)), "..", "crates", "registry", "out", "registry")
FOLDERS = 998
OTHERS = ("all", "above", "top", "without", "holders")


def ready(groups, persons):
    yield from ({"op": "folder.add", "folder": name} for name in ("f", "to", *("f:%d" % n for n in range(FOLDERS))))
    yield from ({"op": "group.add", "group": "f:%d:g%d" % (n % FOLDERS, n)} for n in range(groups - len(OTHERS)))
    yield from ({"op": "group.add", "group": "to:" + name} for name in OTHERS)
    yield {"op": "member.add", "group": "to:top", "member": "g:gsa/to:above"}
    for n in range(persons):
        yield {"op": "subject.add", "subject": "uni/p%d" % n}
        yield {"op": "member.add", "group": "to:all", "member": "uni/p%d" % n}


INHERIT = {"folder": "f", "kind": "group", "scope": "SUB", "privilege": "READ", "holder": "g:gsa/to:holders"}
COMMANDS = [
    ("a group of all persons into one that is in another",
     {"op": "member.add", "group": "to:above", "member": "g:gsa/to:all"}),
    ("out of it again", {"op": "member.remove", "group": "to:above", "member": "g:gsa/to:all"}),
    ("a composite of all persons", {"op": "composite.set", "group": "to:without", "kind": "complement",
                                    "left": "to:all", "right": "to:above"}),
    ("an inherit over all groups", {"op": "inherit.add", **INHERIT}),
    ("the inherit removed", {"op": "inherit.remove", **INHERIT}),
    ("the folder of all groups moved", {"op": "folder.move", "folder": "f", "to": "to"}),
]


def main():
    options = argparse.ArgumentParser()
    options.add_argument("--groups", type=int, default=100_000)
    options.add_argument("--persons", type=int, default=500_000)
    chosen = options.parse_args()
    with tempfile.TemporaryDirectory(dir="/dev/shm") as place:
        journal = os.path.join(place, "journal")
        subprocess.run([PROGRAM, journal, "init"], check=True)
        with open(os.path.join(place, "in"), "wb") as lines:
            lines.writelines(map(encoded, ready(chosen.groups, chosen.persons)))
        with open(lines.name, "rb") as source:
            subprocess.run([PROGRAM, journal, "apply"], stdin=source, stdout=subprocess.DEVNULL, check=True)
        with subprocess.Popen([PROGRAM, journal, "apply"], stdin=subprocess.PIPE, stdout=subprocess.PIPE) as running:
            asked = [("opening, and a question", {"op": "group.get", "group": "to:all"}), *COMMANDS]
            for title, command in asked:
                began = time.monotonic()
                running.stdin.write(encoded(command))
                running.stdin.flush()
                reply = running.stdout.readline()
                print("%-52s %8.3f s  %s" % (title, time.monotonic() - began, reply.decode()[:60].rstrip()), flush=True)
            running.stdin.close()


main()
