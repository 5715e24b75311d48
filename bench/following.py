#!/usr/bin/env python3
"""Plays random histories to a served registry while docs/serving/follow_log.py keeps a mirror of it, and compares the two.
The histories have groups and folders that are made, renamed, moved, swapped, deleted and made again under a name that was
another's, memberships of persons and of groups with dates that come by themselves, composites, and rules. The follower is
killed from outside at random moments and by itself after a random number of its own lines, and started again after a
while, at times without its mirror or with an older one. It takes 1, 3, 20 or 1,000 entries at once, and in some histories
the server is stopped and started too. After each history the last date comes, the follower is run until it has caught up,
and the mirror has to be the registry's groups and members, which are asked for here. Beside it stand two followers that
have to be found wrong in at least one history: one adds and removes by the entries alone; the other also compares the
names, drops the lists of those that are gone and reads those that are new. Ends with status 1 where a mirror differs, or
one of these two never does. The journals lie in memory (/dev/shm). Build the program first (./quickstart.sh). Words: how
many histories, and the first one's number."""
from __future__ import annotations

import collections
import concurrent.futures
import datetime
import json
import multiprocessing
import os
import random
import runpy
import shutil
import signal
import subprocess
import sys
import tempfile
import time
from types import FrameType
from typing import Any, Callable, Optional

from serving import Answers, Server, connect, init, message, needs_program

HISTORIES = int(sys.argv[1]) if len(sys.argv) > 1 else 200
FIRST = int(sys.argv[2]) if len(sys.argv) > 2 else 1
FOLLOW = os.path.join(os.path.dirname(os.path.dirname(os.path.abspath(__file__))), "docs/serving/follow_log.py")
EXTENSIONS = "abcde"
PERSONS = ["uni/p%d" % n for n in range(6)]
# histories at a time: most of a history is pauses
AT_ONCE = 4
# where ports for the servers begin, below those that the system gives to clients: a stopped server's stays free
PORTS = 20000 + os.getpid() % 100 * 100
# seconds for an answer, on a machine that is busy with other work
PATIENCE = 60.0
Request = dict[str, Any]
Lists = dict[str, list[str]]

class World:
    """The registry under trial: its server, and what stands in it as far as the next command needs it."""

    def __init__(self, place: str, number: int) -> None:
        self.journal, self.chance = os.path.join(place, "journal"), random.Random(number)
        init(self.journal)
        self.server = Server(self.journal, PORTS + number % 1000)
        self.counts: collections.Counter[str] = collections.Counter()
        self.folders, self.groups, self.last_date = [":"], [], 0.0

    def ask_all(self, requests: list[Request]) -> list[dict[str, Any]]:
        """The replies to requests that are sent at once, on one connection."""
        with connect(self.server.port, PATIENCE) as conn:
            answers = Answers(conn)
            conn.sendall(b"".join(message("POST", "/requests", body=json.dumps(r).encode()) for r in requests))
            return [json.loads(answers.next().body) for _ in requests]

    def ask(self, request: Request) -> dict[str, Any]:
        return self.ask_all([request])[0]

    def command(self, request: Request) -> None:
        reply = self.ask(request)
        if "number" in reply:
            self.counts[request["op"]] += 1
            if request["op"].split(".")[0] in ("folder", "group"):
                self.look()
        elif "refused" not in reply:
            sys.exit("%r was answered %r" % (request, reply))

    def look(self) -> None:
        """Looks what stands, one depth of folders after another."""
        self.folders, self.groups = [":"], []
        below = self.folders
        while below:
            shown = self.ask_all([{"op": "folder.list", "folder": folder} for folder in below])
            self.groups += [group for one in shown for group in one["groups"]]
            below = [folder for one in shown for folder in one["folders"]]
            self.folders += below

    def lists(self) -> Lists:
        """The members of each group."""
        self.look()
        return self.members(self.groups)

    def members(self, names: list[str]) -> Lists:
        replies = self.ask_all([{"op": "members", "group": name} for name in names])
        return {name: reply["members"] for name, reply in zip(names, replies)}

    def restart(self) -> None:
        self.server.stop()
        self.server = Server(self.journal, self.server.port)

    def date(self, least: float, most: float) -> str:
        """A moment so many seconds from now."""
        seconds = time.time() + self.chance.uniform(least, most)
        self.last_date = max(self.last_date, seconds)
        return datetime.datetime.fromtimestamp(seconds, datetime.timezone.utc).strftime("%Y-%m-%dT%H:%M:%S.%fZ")

    def dates(self) -> Request:
        """No dates, an end, or a begin and an end."""
        which = self.chance.random()
        if which < 0.5:
            return {}
        if which < 0.8:
            return {"until": self.date(0.005, 0.3)}
        return {"from": self.date(-0.1, 0.1), "until": self.date(0.12, 0.3)}

    def row(self) -> Request:
        """The group and the member of a membership that stands, where one is found soon."""
        names = self.chance.sample(self.groups, min(4, len(self.groups)))
        replies = self.ask_all([{"op": "rows", "group": name} for name in names])
        found = [{"group": name, "member": row["member"]} for name, reply in zip(names, replies) for row in reply["rows"]]
        return self.chance.choice(found or [{"group": self.group(), "member": self.person()}])

    def folder(self) -> str:
        return self.chance.choice(self.folders)

    def group(self) -> str:
        return self.chance.choice(self.groups or ["none"])

    def person(self) -> str:
        return self.chance.choice(PERSONS)

    def extension(self) -> str:
        return self.chance.choice(EXTENSIONS)

    def new_name(self) -> str:
        return under(self.folder(), self.extension())


def under(folder: str, extension: str) -> str:
    return extension if folder == ":" else folder + ":" + extension


def folder_of(name: str) -> str:
    return name.rpartition(":")[0] or ":"


def swap(world: World) -> list[Request]:
    """Two groups, or two folders, of one folder get each other's name."""
    kind, names = world.chance.choice([("group", world.groups), ("folder", world.folders[1:])])
    pairs = [(one, other) for one in names for other in names if one != other and folder_of(one) == folder_of(other)]
    if not pairs:
        return []
    one, other = world.chance.choice(pairs)
    last, its = one.rpartition(":")[2], other.rpartition(":")[2]
    between = under(folder_of(one), "between")
    steps = [(one, "between"), (other, last), (between, its)]
    return [{"op": kind + ".rename", kind: name, "extension": extension} for name, extension in steps]


def anew(world: World) -> list[Request]:
    """A group goes, and another comes under its name."""
    name = world.group()
    return [{"op": "group.delete", "group": name}, {"op": "group.add", "group": name},
            {"op": "member.add", "group": name, "member": world.person(), **world.dates()}]


def delete(world: World) -> list[Request]:
    return [{"op": "group.delete", "group": world.row()["group"]}]


def composite(world: World) -> list[Request]:
    kind = world.chance.choice(["intersection", "complement"])
    name = under(world.folder(), world.extension())
    return [{"op": "group.add", "group": name},
            {"op": "composite.set", "group": name, "kind": kind, "left": world.group(), "right": world.group()}]


# what comes how often
CHOICES: list[tuple[int, Callable[[World], list[Request]]]] = [
    (2, lambda w: [{"op": "folder.add", "folder": w.new_name()}]),
    (4, lambda w: [{"op": "group.add", "group": w.new_name()}]),
    (16, lambda w: [{"op": "member.add", "group": w.group(), "member": w.person(), **w.dates()}]),
    (5, lambda w: [{"op": "member.add", "group": w.group(), "member": "g:gsa/" + w.group(), **w.dates()}]),
    (6, lambda w: [{"op": "member.remove", **w.row()}]),
    (4, lambda w: [{"op": "member.window", **w.row(), **w.dates()}]),
    (4, composite),
    (4, lambda w: [{"op": "composite.clear", "group": w.group()}]),
    (4, lambda w: [{"op": "group.rename", "group": w.group(), "extension": w.extension()}]),
    (3, lambda w: [{"op": "group.move", "group": w.group(), "to": w.folder()}]),
    (2, lambda w: [{"op": "folder.rename", "folder": w.folder(), "extension": w.extension()}]),
    (2, lambda w: [{"op": "folder.move", "folder": w.folder(), "to": w.folder()}]),
    (3, lambda w: [{"op": "folder.delete", "folder": w.folder()}]),
    (2, delete),
    (3, anew),
    (2, swap),
    (1, lambda w: [{"op": "rule.remove_lost", "check": w.group(), "owner": w.group()}]),
]
# one of these comes last, so that nothing behind it mends a list
LAST = [anew, composite, delete, swap]


class Death:
    """Kills this program before its so manieth line of the follower, or of these functions of it."""

    def __init__(self, lines: int, functions: list[str]) -> None:
        self.left, self.functions = lines, functions

    def __call__(self, frame: FrameType, event: str, _: Any) -> Optional[Death]:
        code = frame.f_code
        if code.co_filename != FOLLOW or (self.functions and code.co_name not in self.functions):
            return None
        self.left -= event == "line"
        if self.left < 0:
            os.kill(os.getpid(), signal.SIGKILL)
        return self


def be_follower(words: list[str], place: str, death: Optional[Death]) -> None:
    """Runs the follower in place of this program, which is a fork of the bench: so it is there at once."""
    for name, number in (("told", 1), ("notes", 2)):
        os.dup2(os.open(os.path.join(place, name), os.O_WRONLY | os.O_CREAT | os.O_APPEND), number)
    sys.argv = words
    sys.settrace(death)
    runpy.run_path(FOLLOW, run_name="__main__")


class Program:
    """docs/serving/follow_log.py, which is started, killed and started again."""

    def __init__(self, place: str, world: World) -> None:
        self.place, self.world, self.mirror = place, world, os.path.join(place, "mirror")
        self.most = world.chance.choice([1, 3, 20, 1000])
        self.process: Optional[multiprocessing.context.ForkProcess] = None

    def words(self) -> list[str]:
        return [FOLLOW, "http://127.0.0.1:%d" % self.world.server.port, "mirror", self.mirror, "--max", str(self.most)]

    def death(self) -> Optional[Death]:
        """None, or a death in all that it does, or where it writes and acknowledges."""
        chance = self.world.chance
        if chance.random() < 0.3:
            return None
        lines, functions = chance.choice([(chance.uniform(1.5, 4), []), (chance.uniform(0, 2.5), ["keep", "replace"])])
        return Death(int(10 ** lines), functions)

    def turn(self) -> None:
        """Starts it where it doesn't run, and sometimes kills it where it does."""
        if self.process is not None:
            if not self.process.is_alive() or self.world.chance.random() < 0.2:
                self.kill()
            return
        self.lose()
        words = self.words() + ["--every", "%.3f" % self.world.chance.choice([0.005, 0.03])]
        given = (words, self.place, self.death())
        self.process = multiprocessing.get_context("fork").Process(target=be_follower, args=given)
        self.process.start()

    def kill(self) -> None:
        """Kills it, if it hasn't done so itself."""
        if self.process is None:
            return
        self.process.kill()
        self.process.join()
        if self.process.exitcode != -signal.SIGKILL:
            sys.exit("follow_log.py ended with status %d: %s" % (self.process.exitcode, self.told("notes")))
        self.process = None
        self.world.counts["kills"] += 1

    def lose(self) -> None:
        """Sometimes the mirror is lost, or an older one is put back, or it is kept to be put back later."""
        which = self.world.chance.random()
        old = self.mirror + ".old"
        if which < 0.3 and os.path.exists(self.mirror):
            shutil.copy(self.mirror, old)
        elif which < 0.45 and os.path.exists(old):
            self.world.counts["lost"] += 1
            os.replace(old, self.mirror)
        elif which < 0.5 and os.path.exists(self.mirror):
            self.world.counts["lost"] += 1
            os.remove(self.mirror)

    def told(self, name: str) -> str:
        with open(os.path.join(self.place, name), encoding="ascii") as file:
            return file.read()

    def finish(self) -> Lists:
        """What it holds once it has caught up."""
        self.kill()
        self.lose()
        with open(os.path.join(self.place, "told"), "ab") as told:
            ended = subprocess.run([sys.executable, *self.words()], stdout=told)
        if ended.returncode != 0:
            sys.exit("follow_log.py ended with status %d" % ended.returncode)
        lines = self.told("told").splitlines()
        self.world.counts["rounds"] += len(lines)
        self.world.counts["anew"] += sum("all read anew" in line for line in lines)
        with open(self.mirror, encoding="ascii") as file:
            return json.load(file)["groups"]


class ByEntries:
    """Adds and removes by the entries alone. It knows nothing of a group without members."""

    def __init__(self, world: World) -> None:
        self.world, self.consumer = world, type(self).__name__
        self.groups: dict[str, set[str]] = {}
        world.command({"op": "consumer.add", "consumer": self.consumer})

    def take(self, entries: list[dict[str, Any]]) -> None:
        for entry in entries:
            if entry["kind"] == "member.begin":
                self.groups.setdefault(entry["object"], set()).add(entry["entity"])
            if entry["kind"] == "member.end":
                self.groups.setdefault(entry["object"], set()).discard(entry["entity"])

    def round(self) -> None:
        entries = self.world.ask({"op": "log", "consumer": self.consumer, "max": 1000})["entries"]
        if entries:
            self.take(entries)
            self.world.command({"op": "consumer.ack", "consumer": self.consumer, "seq": entries[-1]["seq"]})

    def differs(self, lists: Lists) -> bool:
        self.round()
        held = {name: members for name, members in self.groups.items() if members}
        return held != {name: set(members) for name, members in lists.items() if members}


class ByNames(ByEntries):
    """Compares the names too, where one may have changed: drops the lists of those that are gone, and reads those that are
    new."""

    def take(self, entries: list[dict[str, Any]]) -> None:
        known = set(self.groups)
        super().take(entries)
        if any(entry["kind"].split(".")[0] in ("folder", "group") for entry in entries):
            self.world.look()
            new = self.world.members([name for name in self.world.groups if name not in known])
            self.groups = {name: set(new[name]) if name in new else self.groups[name] for name in self.world.groups}


def begin(world: World) -> None:
    for person in PERSONS:
        world.command({"op": "subject.add", "subject": person})
    for folder in ("a", "b", "a:a"):
        world.command({"op": "folder.add", "folder": folder})
    for group in ("c", "d", "a:c", "a:d", "a:a:c", "b:c"):
        world.command({"op": "group.add", "group": group})


def play(world: World, program: Program, wrong: list[ByEntries]) -> None:
    """One history: commands, pauses, and turns of the followers."""
    chance = world.chance
    weights, makers = zip(*CHOICES)
    restarted = chance.randrange(300)
    for step in range(chance.randrange(40, 90)):
        for request in chance.choices(makers, weights)[0](world):
            world.command(request)
        if chance.random() < 0.25:
            program.turn()
        if chance.random() < 0.15:
            chance.choice(wrong).round()
        if chance.random() < 0.3:
            time.sleep(chance.random() / 10)
        if step == restarted:
            world.counts["restarts"] += 1
            world.restart()
    for request in chance.choice(LAST)(world):
        world.command(request)


def told_difference(number: int, held: Lists, lists: Lists) -> None:
    print("history %d: the mirror differs" % number)
    for name in sorted(held.keys() | lists.keys()):
        if held.get(name) != lists.get(name):
            print("  %s: mirror %s, registry %s" % (name, held.get(name), lists.get(name)))


def history(number: int) -> collections.Counter[str]:
    """Plays a history, compares, and counts."""
    with tempfile.TemporaryDirectory(dir="/dev/shm") as place:
        world = World(place, number)
        program = Program(place, world)
        try:
            wrong = [ByEntries(world), ByNames(world)]
            begin(world)
            play(world, program, wrong)
            time.sleep(max(0.0, world.last_date - time.time()) + 0.002)
            held, lists = program.finish(), world.lists()
            if held != lists:
                told_difference(number, held, lists)
                world.counts["different"] += 1
            for follower in wrong:
                world.counts[follower.consumer] += follower.differs(lists)
            return world.counts
        finally:
            if program.process is not None:
                program.process.kill()
                program.process.join()
            world.server.stop()


def main() -> None:
    needs_program()
    counts: collections.Counter[str] = collections.Counter()
    # so that a fork of this program has the follower's modules at once
    runpy.run_path(FOLLOW)
    began = time.time()
    with concurrent.futures.ProcessPoolExecutor(AT_ONCE) as workers:
        for found in workers.map(history, range(FIRST, FIRST + HISTORIES)):
            counts.update(found)
    ops = {op: count for op, count in counts.items() if "." in op}
    moved = sum(count for op, count in ops.items() if op.endswith((".rename", ".move", ".delete")))
    print("%d histories in %d s: %d commands, %d of them renames, moves and deletions; the server started anew %d times" % (
        HISTORIES, time.time() - began, sum(ops.values()), moved, counts["restarts"]))
    print("the follower killed %d times, its mirror lost or set back %d times; of %d rounds %d read all anew" % (
        counts["kills"], counts["lost"], counts["rounds"], counts["anew"]))
    print("the mirror differs in %d histories; that of entries alone in %d; that of entries and names in %d" % (
        counts["different"], counts["ByEntries"], counts["ByNames"]))
    sys.exit(1 if counts["different"] or not counts["ByEntries"] or not counts["ByNames"] else 0)


if __name__ == "__main__":
    main()
