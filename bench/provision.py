#!/usr/bin/env python3
"""Keeps an LDAP server by docs/serving/provision.py over 20 nights of a small campus, and kills whatever takes part.

By day come persons, groups within groups, compositions, memberships with dates, renames, moves, deletions, names that two
groups swap or that a new group has from a deleted one, and grants and inherits of READ to the provisioner that come and
go, beside those that make nothing eligible. Meanwhile the script runs and is killed: at a random moment, once it has
lines, or as it carries them out; or the program inside its run; or `ldapmodify`; or the LDAP server, which is started
anew. Batches are of 3, 30 or 100,000 entries. In the evening the script runs to its end. Then the server has to have
exactly the members that the registry tells for the moment of the last entry (`members` with `at`), of each group on which
`grants` shows READ for the provisioner, and nobody in any other group: so no removal waits for a later night, whatever the
group is called by then. After the last night, with all dates past, the same by `members` of now.

Prints what was killed and what was compared; ends with status 1 where anything differs. Needs `slapd` and `ldap-utils`
(Debian), which run in a folder of their own, on a port of 127.0.0.1. PROGRAM names another program than the built one.

    bench/provision.py [NIGHTS [SEED]]"""
from __future__ import annotations

import collections
import datetime
import json
import os
import random
import signal
import subprocess
import sys
import tempfile
import time
from typing import Any, Callable, Iterator, Optional

from serving import PROGRAM, SYSTEM, connect, free_port, init, needs_program

NIGHTS = int(sys.argv[1]) if len(sys.argv) > 1 else 20
SEED = int(sys.argv[2]) if len(sys.argv) > 2 else 1
SCRIPT = os.path.join(os.path.dirname(os.path.dirname(os.path.abspath(__file__))), "docs/serving/provision.py")
BASE = "dc=campus,dc=example"
CONSUMER, PROVISIONER = "door", "uni/prov"
EXTENSIONS = ["a", "b", "c", "d", "e", "f"]
# seconds that anything may take on a machine that is busy with other work
PATIENCE = 300.0
HARMS = ["script", "script with lines", "script at the server", "word", "word with lines", "ldapmodify", "slapd"]
Request = dict[str, Any]
Pairs = set[tuple[int, str]]

SLAPD = """include /etc/ldap/schema/core.schema
modulepath /usr/lib/ldap
moduleload back_mdb
database mdb
suffix "{base}"
rootdn "cn=admin,{base}"
rootpw secret
directory {folder}
maxsize 268435456
"""
TOP = """dn: {base}
objectClass: dcObject
objectClass: organization
o: Campus

dn: ou=groups,{base}
objectClass: organizationalUnit
"""


class Directory:
    """An LDAP server in a folder of its own."""

    def __init__(self, place: str) -> None:
        self.port, self.config = free_port(), os.path.join(place, "slapd.conf")
        secret = os.path.join(place, "secret")
        self.words = ["-x", "-H", "ldap://127.0.0.1:%d" % self.port, "-D", "cn=admin," + BASE, "-y", secret]
        os.mkdir(os.path.join(place, "ldap"))
        for path, text in ((self.config, SLAPD.format(base=BASE, folder=os.path.join(place, "ldap"))), (secret, "secret")):
            with open(path, "w", encoding="ascii") as file:
                file.write(text)
            os.chmod(path, 0o600)
        self.start()
        subprocess.run(["ldapadd", *self.words], input=TOP.format(base=BASE).encode(), stdout=subprocess.DEVNULL, check=True)

    def start(self) -> None:
        self.process = subprocess.Popen(["slapd", "-f", self.config, "-h", self.words[2], "-d", "0"],
                                        stderr=subprocess.DEVNULL)
        end = time.time() + PATIENCE
        while True:
            try:
                return connect(self.port).close()
            except OSError:
                if self.process.poll() is not None or time.time() > end:
                    sys.exit("slapd doesn't start")
                time.sleep(0.02)

    def stop(self) -> None:
        self.process.kill()
        self.process.wait()

    def pairs(self) -> Pairs:
        """Who is in which group, by the groups' numbers."""
        asked = ["ldapsearch", "-LLL", "-o", "ldif-wrap=no", *self.words, "-b", "ou=groups," + BASE, "-s", "one", "cn",
                 "member"]
        told = subprocess.run(asked, stdout=subprocess.PIPE, check=True).stdout.decode()
        found: Pairs = set()
        for entry in told.split("\n\n"):
            fields = [line.split(": ", 1) for line in entry.splitlines()]
            numbers = [int(value[1:]) for name, value in fields if name == "cn"]
            members = [value for name, value in fields if name == "member" and value != "cn=nobody," + BASE]
            for member in members:
                if not (member.startswith("uid=") and member.endswith(",ou=people," + BASE)):
                    sys.exit("a member is called %r" % member)
                found.add((numbers[0], member[4:-len(",ou=people," + BASE)]))
        return found


class Thing:
    """A folder or a group, which keeps its number under each name."""

    def __init__(self, number: int, extension: str, folder: Optional[Thing]) -> None:
        self.number, self.extension, self.folder = number, extension, folder

    def name(self) -> str:
        if self.folder is None:
            return ":"
        return self.extension if self.folder.folder is None else self.folder.name() + ":" + self.extension


class Campus:
    """The registry, and what stands in it as far as the next command needs it."""

    def __init__(self, place: str) -> None:
        self.journal, self.chance = os.path.join(place, "journal"), random.Random(SEED)
        self.persons: list[str] = []
        self.folders: list[Thing] = [Thing(0, "", None)]
        self.groups: list[Thing] = []
        self.gone: list[Thing] = []
        self.moments: list[str] = []
        self.session: Optional[subprocess.Popen[bytes]] = None
        self.last_date = 0.0
        self.counts: collections.Counter[str] = collections.Counter()
        init(self.journal)

    def ask_all(self, requests: list[Request]) -> list[dict[str, Any]]:
        """The replies to requests, of a program that has the journal until `rest`."""
        lines = b"".join(json.dumps({"by": SYSTEM, **request}).encode() + b"\n" for request in requests)
        end = time.time() + PATIENCE
        while True:
            if self.session is None:
                self.session = subprocess.Popen([PROGRAM, self.journal, "apply"], stdin=subprocess.PIPE,
                                                stdout=subprocess.PIPE, stderr=subprocess.PIPE)
            replies = self.replies(lines, len(requests))
            if len(replies) == len(requests):
                return replies
            notes = self.session.stderr.read()
            # a word whose script was killed may have the journal for a moment
            if self.session.wait() != 4 or b"locked" not in notes or time.time() > end:
                sys.exit("apply ended with status %d: %r" % (self.session.returncode, notes))
            self.session = None
            time.sleep(0.01)

    def replies(self, lines: bytes, count: int) -> list[dict[str, Any]]:
        try:
            self.session.stdin.write(lines)
            self.session.stdin.flush()
        except BrokenPipeError:
            return []
        told = (self.session.stdout.readline() for _ in range(count))
        return [json.loads(line) for line in told if line]

    def rest(self) -> None:
        """Gives the journal free."""
        if self.session is not None:
            self.session.communicate()
            if self.session.returncode != 0:
                sys.exit("apply ended with status %d" % self.session.returncode)
            self.session = None

    def send(self, request: Request) -> bool:
        """Whether a command was accepted."""
        reply = self.ask_all([request])[0]
        if "number" not in reply and "refused" not in reply:
            sys.exit("%r was answered %r" % (request, reply))
        self.counts[request["op"]] += "number" in reply
        return "number" in reply

    def one(self, things: list[Any]) -> Any:
        return self.chance.choice(things)

    def group(self) -> Thing:
        return self.one(self.groups)

    def date(self) -> str:
        seconds = time.time() + self.chance.uniform(0.1, 4)
        self.last_date = max(self.last_date, seconds)
        return datetime.datetime.fromtimestamp(seconds, datetime.timezone.utc).strftime("%Y-%m-%dT%H:%M:%S.%fZ")

    def dates(self) -> Request:
        """No dates, an end, a begin, or both."""
        if self.chance.random() < 0.6:
            return {}
        first, second = sorted([self.date(), self.date()])
        return self.one([{"until": second}, {"from": first}, {"from": first, "until": second}])

    def look(self) -> None:
        """Reads the moments of the log's entries that came since."""
        while True:
            shown = self.ask_all([{"op": "log", "consumer": "look", "max": 1000}])[0]
            if not shown["entries"]:
                return
            self.moments += [entry["at"] for entry in shown["entries"]]
            self.ask_all([{"op": "consumer.ack", "consumer": "look", "seq": len(self.moments)}])

    def pairs(self, at: Optional[str]) -> tuple[Pairs, int]:
        """Who is in which eligible group, now or at a moment, and how many of these groups there are."""
        when = {} if at is None else {"at": at}
        wanted: list[Thing] = []
        grants = self.ask_all([{"op": "grants", "object": "g:gsa/" + group.name(), **when} for group in self.groups])
        for group, reply in zip(self.groups, grants):
            if {"holder": PROVISIONER, "privilege": "READ"} in reply.get("grants", []):
                wanted.append(group)
        members = self.ask_all([{"op": "members", "group": group.name(), **when} for group in wanted])
        return {(group.number, person) for group, reply in zip(wanted, members) for person in reply["members"]}, len(wanted)


def new_folder(campus: Campus) -> None:
    above = campus.one(campus.folders)
    made = Thing(0, campus.one(EXTENSIONS), above)
    if len(campus.folders) < 8 and campus.send({"op": "folder.add", "folder": made.name()}):
        campus.folders.append(made)


def add_group(campus: Campus, extension: str, folder: Thing) -> None:
    made = Thing(len(campus.groups) + len(campus.gone) + 1, extension, folder)
    if campus.send({"op": "group.add", "group": made.name()}):
        campus.groups.append(made)


def new_group(campus: Campus) -> None:
    add_group(campus, campus.one(EXTENSIONS), campus.one(campus.folders))


def delete(campus: Campus, group: Thing) -> None:
    if campus.send({"op": "group.delete", "group": group.name()}):
        campus.groups.remove(group)
        campus.gone.append(group)


def anew(campus: Campus) -> None:
    """A group goes, and another comes under its name, with a member of its own."""
    group = campus.group()
    delete(campus, group)
    if group in campus.gone:
        add_group(campus, group.extension, group.folder or campus.folders[0])
        campus.send({"op": "member.add", "group": group.name(), "member": campus.one(campus.persons)})


def rename(campus: Campus, thing: Thing, extension: str) -> None:
    kind = "group" if thing in campus.groups else "folder"
    if campus.send({"op": kind + ".rename", kind: thing.name(), "extension": extension}):
        thing.extension = extension


def move(campus: Campus, things: list[Thing]) -> None:
    thing, to = campus.one(things), campus.one(campus.folders)
    kind = "group" if thing in campus.groups else "folder"
    if campus.send({"op": kind + ".move", kind: thing.name(), "to": to.name()}):
        thing.folder = to


def remove_one(campus: Campus, group: Thing) -> None:
    """Takes a person out who has a membership of the group itself."""
    rows = campus.ask_all([{"op": "rows", "group": group.name()}])[0].get("rows", [])
    if rows:
        campus.send({"op": "member.remove", "group": group.name(), "member": campus.one(rows)["member"]})


def rename_and_remove(campus: Campus) -> None:
    """What is removed under one name was added under another."""
    group = campus.group()
    rename(campus, group, campus.one(EXTENSIONS))
    remove_one(campus, group)
    move(campus, [group])


def swap(campus: Campus) -> None:
    """Two groups get each other's name, and one loses a member under it."""
    group = campus.group()
    others = [other for other in campus.groups if other.folder is group.folder and other is not group]
    if others:
        other = campus.one(others)
        first, second = group.extension, other.extension
        for thing, extension in ((group, "between"), (other, first), (group, second)):
            rename(campus, thing, extension)
        remove_one(campus, other)


def redate(campus: Campus) -> None:
    group = campus.group()
    rows = campus.ask_all([{"op": "rows", "group": group.name()}])[0].get("rows", [])
    if rows:
        campus.send({"op": "member.window", "group": group.name(), "member": campus.one(rows)["member"], **campus.dates()})


def composite(campus: Campus) -> None:
    kind = campus.one(["intersection", "complement"])
    names = [campus.group().name() for _ in range(3)]
    campus.send({"op": "composite.set", "group": names[0], "kind": kind, "left": names[1], "right": names[2]})


def grant(campus: Campus) -> None:
    """READ to the provisioner itself, or what makes no group eligible."""
    privilege, holder = campus.one([("READ", PROVISIONER)] * 4 + [
        ("ADMIN", PROVISIONER), ("READ", "g:isa/GrouperAll"), ("READ", "g:gsa/" + campus.group().name())])
    op = campus.one(["grant.add", "grant.add", "grant.remove"])
    campus.send({"op": op, "object": campus.group().name(), "privilege": privilege, "holder": holder})


def inherit(campus: Campus) -> None:
    op, scope = campus.one(["inherit.add", "inherit.remove"]), campus.one(["ONE", "SUB"])
    campus.send({"op": op, "folder": campus.one(campus.folders).name(), "kind": "group", "scope": scope,
                 "privilege": "READ", "holder": PROVISIONER})


def new_person(campus: Campus) -> None:
    person = "uni/p%d" % len(campus.persons)
    if campus.send({"op": "subject.add", "subject": person}):
        campus.persons.append(person)


def add_person(campus: Campus) -> None:
    campus.send({"op": "member.add", "group": campus.group().name(), "member": campus.one(campus.persons), **campus.dates()})


def nest(campus: Campus) -> None:
    member = "g:gsa/" + campus.group().name()
    campus.send({"op": "member.add", "group": campus.group().name(), "member": member, **campus.dates()})


# what comes how often
CHOICES: list[tuple[int, Callable[[Campus], None]]] = [
    (3, new_person), (2, new_folder), (3, new_group), (14, add_person), (4, nest), (3, redate), (2, composite),
    (1, lambda c: c.send({"op": "composite.clear", "group": c.group().name()}) and None),
    (5, lambda c: remove_one(c, c.group())), (3, rename_and_remove), (2, swap), (2, anew), (1, lambda c: delete(c, c.group())),
    (2, lambda c: move(c, c.groups)), (1, lambda c: move(c, c.folders[1:] or c.folders)),
    (1, lambda c: rename(c, c.one(c.folders[1:] or c.folders), c.one(EXTENSIONS))), (6, grant), (3, inherit),
]


def set_up(campus: Campus) -> None:
    for consumer in (CONSUMER, "look"):
        campus.send({"op": "consumer.add", "consumer": consumer})
    campus.send({"op": "subject.add", "subject": PROVISIONER})
    for _ in range(12):
        new_person(campus)
    for _ in range(4):
        new_folder(campus)
    while len(campus.groups) < 10:
        new_group(campus)
    for group in campus.groups[::2]:
        campus.send({"op": "grant.add", "object": group.name(), "privilege": "READ", "holder": PROVISIONER})


class Script:
    """docs/serving/provision.py, which is started, and killed, or what it runs is."""

    def __init__(self, place: str, campus: Campus, directory: Directory) -> None:
        self.campus, self.directory, self.chance = campus, directory, campus.chance
        self.spool, self.pid = os.path.join(place, "spool"), os.path.join(place, "pid")
        self.program, self.notes = os.path.join(place, "program"), os.path.join(place, "notes")
        self.process: Optional[subprocess.Popen[bytes]] = None
        self.usual = 1.0
        with open(self.program, "w", encoding="ascii") as file:
            file.write('#!/bin/sh\necho $$ > %s\nexec %s "$@"\n' % (self.pid, PROGRAM))
        os.chmod(self.program, 0o700)

    def start(self) -> None:
        self.campus.rest()
        if os.path.exists(self.pid):
            os.remove(self.pid)
        most = self.chance.choice(["3", "30", "100000"])
        words = [SCRIPT, self.campus.journal, CONSUMER, PROVISIONER, BASE, self.spool, "--max", most, "--",
                 *self.directory.words]
        with open(self.notes, "wb") as notes:
            self.process = subprocess.Popen(words, stderr=notes, env={**os.environ, "PROGRAM": self.program})

    def ended(self) -> bool:
        return self.process is None or self.process.poll() is not None

    def wait_for(self, has_come: Callable[[], bool]) -> None:
        """Until this is so, or the script ended."""
        end = time.time() + PATIENCE
        while not self.ended() and not has_come():
            if time.time() > end:
                sys.exit("the script stands still")
            time.sleep(0.002)

    def word(self) -> Optional[int]:
        """The process of the word that runs now."""
        try:
            with open(self.pid, encoding="ascii") as file:
                pid = int(file.read())
            with open("/proc/%d/cmdline" % pid, "rb") as file:
                return pid if self.campus.journal.encode() in file.read() else None
        except (OSError, ValueError):
            return None

    def children(self) -> Iterator[int]:
        try:
            assert self.process is not None
            with open("/proc/%d/task/%d/children" % (self.process.pid, self.process.pid), encoding="ascii") as file:
                yield from map(int, file.read().split())
        except OSError:
            pass

    def client(self) -> Optional[int]:
        """The process of `ldapmodify` that runs now."""
        for pid in self.children():
            try:
                with open("/proc/%d/comm" % pid, encoding="ascii") as file:
                    if file.read() == "ldapmodify\n":
                        return pid
            except OSError:
                pass
        return None

    def has_lines(self) -> bool:
        return os.path.exists(self.spool) and b'"do"' in open(self.spool, "rb").read(4096)

    def pause(self, most: float) -> None:
        time.sleep(self.chance.uniform(0, most))

    def kill_other(self, find: Callable[[], Optional[int]]) -> bool:
        """Kills a process that the script runs, if it is there still."""
        pid = find()
        if pid is None:
            return False
        try:
            os.kill(pid, signal.SIGKILL)
        except ProcessLookupError:
            return False
        return True

    def kill(self) -> bool:
        """Kills the script, if it runs still; what it runs goes on."""
        if self.ended():
            return False
        assert self.process is not None
        self.process.kill()
        self.process.wait()
        return True

    def wait_in(self, which: str) -> None:
        """Waits for a moment at which this is to be killed."""
        if which == "script":
            self.pause(self.usual)
        elif which == "word":
            self.wait_for(lambda: self.word() is not None)
            self.pause(0.03)
        elif which.endswith("with lines"):
            self.wait_for(self.has_lines)
            self.pause(0.004)
        else:
            self.wait_for(lambda: self.client() is not None)
            self.pause(0.03)

    def harm(self, which: str) -> bool:
        """Kills it, and tells whether it was there."""
        self.wait_in(which)
        if which == "slapd":
            self.directory.stop()
            self.pause(0.3)
            self.directory.start()
            return True
        if which.startswith("script"):
            return self.kill()
        return self.kill_other(self.word if which.startswith("word") else self.client)

    def attempt(self) -> None:
        """A run in which something is killed. The next one may begin while what it left behind goes on."""
        which, size = self.chance.choice(HARMS), os.path.getsize(self.campus.journal)
        self.start()
        killed = self.harm(which)
        self.campus.counts["killed: " + which] += killed
        assert self.process is not None
        if killed and which.startswith("script"):
            return
        status = self.process.wait(PATIENCE)
        if status not in (0, 1) or (status == 1 and not killed):
            sys.exit("the script ended with status %d: %s" % (status, self.told()))
        if killed and which.startswith("word"):
            self.campus.counts["killed words that had moved the place"] += os.path.getsize(self.campus.journal) > size

    def finish(self) -> int:
        """Runs it to its end, and tells the consumer's place."""
        self.campus.rest()
        began = time.time()
        self.start()
        assert self.process is not None
        if self.process.wait(PATIENCE) != 0:
            sys.exit("the script ended with status %d: %s" % (self.process.returncode, self.told()))
        self.usual = time.time() - began
        with open(self.spool, encoding="ascii") as file:
            return int(json.loads(file.read())["place"])

    def told(self) -> str:
        with open(self.notes, encoding="utf-8") as file:
            return file.read()


def compare(title: str, campus: Campus, directory: Directory, at: Optional[str]) -> int:
    """How many memberships differ; each is told."""
    held, (wanted, eligible) = directory.pairs(), campus.pairs(at)
    campus.counts["memberships compared"] += len(wanted | held)
    campus.counts["eligible groups compared"] += eligible
    for number, person in sorted(held ^ wanted):
        print("%s: %s in group %d by the %s alone" % (
            title, person, number, "LDAP server" if (number, person) in held else "registry"))
    return len(held ^ wanted)


def day(campus: Campus, script: Script) -> None:
    """Commands, and runs of the script among them in which something is killed."""
    weights, makers = zip(*CHOICES)
    for _ in range(campus.chance.randrange(2, 5)):
        for _ in range(campus.chance.randrange(4, 12)):
            campus.chance.choices(makers, weights)[0](campus)
        for _ in range(campus.chance.randrange(0, 3)):
            script.attempt()


def play(place: str) -> int:
    directory, campus, different = Directory(place), Campus(place), 0
    script = Script(place, campus, directory)
    try:
        set_up(campus)
        for night in range(1, NIGHTS + 1):
            day(campus, script)
            seq = script.finish()
            campus.look()
            different += compare("night %d" % night, campus, directory, campus.moments[seq - 1])
        time.sleep(max(0.0, campus.last_date - time.time()) + 0.01)
        # what comes by a date alone has its entry then
        new_person(campus)
        script.finish()
        different += compare("at last", campus, directory, None)
    finally:
        script.kill()
        campus.rest()
        directory.stop()
    tell(campus.counts)
    return different


def tell(counts: collections.Counter[str]) -> None:
    ops = {name: count for name, count in counts.items() if "." in name}
    moved = sum(count for op, count in ops.items() if op.endswith((".rename", ".move", ".delete")))
    print("%d nights: %d commands, %d of them renames, moves and deletions, %d of grants and inherits" % (
        NIGHTS, sum(ops.values()), moved, sum(count for op, count in ops.items() if op.startswith(("grant", "inherit")))))
    for name, count in sorted(counts.items()):
        if "." not in name:
            print("%s: %d" % (name, count))


def main() -> None:
    needs_program()
    with tempfile.TemporaryDirectory() as place:
        different = play(place)
    print("%d memberships differ" % different)
    sys.exit(1 if different else 0)


if __name__ == "__main__":
    main()
