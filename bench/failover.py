#!/usr/bin/env python3
"""A registry that fails over between two machines, its journal on GlusterFS with a brick on each of three, as
docs/SCALING.md sets them up. Each machine is a set of namespaces of this one (machines.py). On two of them a registry
is started again and again: one has the journal locked, the other ends with status 4 until the lock is free. A client
outside adds persons without a pause, each over a connection of its own, by turns to both machines; one that refuses is
left out for ten seconds, and where both are, both are tried anew. Where a command wasn't answered the client asks
whether it was kept, before it sends it again. Meanwhile machines are harmed at random: the power; the network, cut and
joined again, at any moment, in a quiet one, or as an append is to be written; a registry, a mount or a brick killed; a
registry ended so that the other one takes over at once; the third machine's power. After each harm, and at last, every
acknowledged command has to be in the journal, once, at the number that it was acknowledged with.

A run that loses nothing shows little where nothing could have been lost. So a control comes first, without
`client.strict-locks`, and where it loses no acknowledged command the status is 1. There a machine has looked at the
journal's end, as the registry does before each append, and sleeps before it writes: it is cut off, another takes over,
it comes back, and writes. strace holds the write back; the program is the same as in the harms. `--control NAME` tries
one control alone, up to `--harms` times, with status 1 where nothing was lost:

    asleep   without strict locks, a machine sleeps between its look and its write
    quiet    without strict locks, a machine is cut off in a quiet moment, and has a command to append as it comes back.
             A program from before the look loses commands; today's refuses that append, which is counted
    caches   with what GlusterFS remembers by default, a machine that takes over at once may open a journal that is too
             short. That loses commands in some runs only

    bench/failover.py [--harms N] [--minutes N] [--arbiter] [--seed N] [--kinds KIND,..] [--program FILE]
    bench/failover.py --control NAME [--harms N] [--minutes N] [--arbiter] [--program FILE]

It needs root, /dev/fuse, and what it names where it lacks (Debian's packages); it installs nothing. What it began and
made is gone at its end, however it ends. Build the program first (./quickstart.sh), or name one by `--program`. A harm
takes 10 to 20 seconds.

The program from before the look, built unproved in some six minutes:

    git worktree add /tmp/before-look eb7fa29~1
    /tmp/before-look/bench/unproved.sh /tmp/registry-before-look
    bench/failover.py --control quiet --program /tmp/registry-before-look"""
import argparse
import http.client
import json
import os
import random
import shutil
import signal
import socket
import statistics
import struct
import subprocess
import sys
import tempfile
import threading
import time
from dataclasses import dataclass
from typing import Callable, Iterator, Optional

from machines import JOURNAL, MOUNT, PORT, Cluster, Machine, lacking
from serving import CODES, PROGRAM, SYSTEM

# what a front end does with a machine that refuses, and how long it waits
LEFT_OUT = 10.0
CONNECTING, ANSWERING = 1.0, 60.0
# a machine that is silent for five seconds as it should answer is gone
ALIVE = ((socket.TCP_KEEPIDLE, 2), (socket.TCP_KEEPINTVL, 1), (socket.TCP_KEEPCNT, 3), (socket.TCP_USER_TIMEOUT, 5000))
# a harm after which nothing is acknowledged for so long is a standstill
STANDSTILL = 600.0
SIGNALS = (signal.SIGINT, signal.SIGTERM, signal.SIGHUP)
MENDING = 300.0
# harms of the control that comes before the harms
TRIES = 10
# what a registry says as it ends since another wrote where it was to append
REFUSED = "file too large"


class Client(threading.Thread):
    """Adds persons, one after another, by turns to both machines."""

    def __init__(self, cluster: Cluster):
        super().__init__(daemon=True)
        self.cluster, self.hosts = cluster, cluster.hosts
        self.left_out = [0.0, 0.0]
        self.turn, self.serving = 0, 0
        self.going, self.free = True, threading.Event()
        self.free.set()
        self.is_resting = False
        # the number that each person was acknowledged with; None where only a question told that it was kept
        self.kept: dict[int, Optional[int]] = {}
        self.asked_for, self.tried = 0, [0, 0]
        self.gaps: list[float] = []
        self.last = time.time()

    def choose(self) -> int:
        """The next machine of those that aren't left out; where both are, they are tried anew."""
        now = time.time()
        if all(until > now for until in self.left_out):
            self.left_out = [0.0, 0.0]
        self.turn = 1 - self.turn
        return self.turn if self.left_out[self.turn] <= now else 1 - self.turn

    def exchange(self, method: str, path: str, body: Optional[str] = None) -> tuple[int, bytes]:
        """A message and its response. Raises ConnectionRefusedError only where nothing was sent."""
        at = self.choose()
        self.tried[at] += 1
        connection = http.client.HTTPConnection(self.hosts[at].ip, PORT, timeout=CONNECTING)
        try:
            try:
                connection.connect()
            except OSError:
                self.left_out[at] = time.time() + LEFT_OUT
                raise ConnectionRefusedError
            connection.sock.settimeout(ANSWERING)
            connection.sock.setsockopt(socket.SOL_SOCKET, socket.SO_KEEPALIVE, 1)
            for option, value in ALIVE:
                connection.sock.setsockopt(socket.IPPROTO_TCP, option, value)
            connection.request(method, path, body, {"X-Registry-Caller": SYSTEM, "Connection": "close"})
            response = connection.getresponse()
            told = response.status, response.read()
            self.serving = at
            return told
        except (OSError, http.client.HTTPException) as fault:
            if not isinstance(fault, ConnectionRefusedError):
                self.left_out[at] = time.time() + LEFT_OUT
            raise
        finally:
            connection.close()

    def note(self, n: int, number: Optional[int]) -> None:
        now = time.time()
        self.gaps.append(now - self.last)
        self.last, self.kept[n] = now, number

    def is_kept(self, n: int) -> Optional[bool]:
        """Whether a person is there; None where that wasn't answered."""
        try:
            status, _ = self.exchange("GET", "/subjects/uni%%2Fp%d/groups" % n)
        except (OSError, http.client.HTTPException):
            return None
        return {200: True, 404: False}.get(status)

    def add(self, n: int) -> None:
        """Adds a person, until that is acknowledged or known."""
        is_doubtful = False
        while self.going:
            if is_doubtful:
                kept = self.is_kept(n)
                if kept:
                    self.asked_for += 1
                    return self.note(n, None)
                is_doubtful = kept is None
            else:
                try:
                    body = json.dumps({"op": "subject.add", "subject": "uni/p%d" % n})
                    status, told = self.exchange("POST", "/requests", body)
                    if status == 200:
                        return self.note(n, json.loads(told)["number"])
                    is_doubtful = True
                except ConnectionRefusedError:
                    pass
                except (OSError, ValueError, http.client.HTTPException):
                    is_doubtful = True
            if is_doubtful:
                time.sleep(0.02)

    def run(self) -> None:
        self.cluster.switch.enter()
        n = 0
        while self.going:
            self.is_resting = True
            self.free.wait()
            self.is_resting = False
            n += 1
            self.add(n)


def persons_in(journal: str) -> list[str]:
    """The persons that a journal's commands add, in order, as far as its frames go."""
    with open(journal, "rb") as file:
        whole = file.read()
    at, found = 8, []
    while whole[at:at + 1] == b"\1" and at + 5 <= len(whole):
        behind = at + 5 + struct.unpack_from("<I", whole, at + 1)[0]
        if behind > len(whole):
            break
        found.append(person_of(whole[at + 5:behind]))
        at = behind
    return found


def person_of(payload: bytes) -> str:
    """The person of a payload that adds one; else nobody."""
    try:
        # behind the caller stands a byte 0
        code = 11 + struct.unpack_from("<H", payload, 8)[0]
        text = code + 3
        if payload[code] != CODES["subject.add"]:
            return ""
        return payload[text:text + struct.unpack_from("<H", payload, code + 1)[0]].decode()
    except (struct.error, IndexError, ValueError):
        return ""


class Count:
    """What a journal has of the acknowledged commands."""

    def __init__(self, kept: dict[int, Optional[int]], journal: str):
        places: dict[str, list[int]] = {}
        for number, person in enumerate(persons_in(journal), 1):
            places.setdefault(person, []).append(number)
        there = {n: places.get("uni/p%d" % n, []) for n in kept}
        self.acknowledged = len(kept)
        self.lost = sorted(n for n in kept if not there[n])
        self.doubled = sorted(person for person, numbers in places.items() if len(numbers) > 1)
        self.moved = sorted(n for n, number in kept.items() if there[n] and number not in (None, *there[n]))

    def is_right(self) -> bool:
        return not (self.lost or self.doubled or self.moved)

    def told(self) -> str:
        return "%d acknowledged, %d kept, %d lost, %d doubled, %d moved" % (
            self.acknowledged, self.acknowledged - len(self.lost), len(self.lost), len(self.doubled), len(self.moved))


@dataclass
class Setting:
    """What is set up: strict locks or not, free of caches or not, an arbiter or a third brick; and the program."""
    is_strict: bool
    is_fresh: bool
    has_arbiter: bool
    program: str

    @property
    def name(self) -> str:
        """What the system calls the program."""
        return os.path.basename(self.program)[:15]


class Field:
    """The cluster with its registries and its client."""

    def __init__(self, place: str, setting: Setting):
        self.place, self.setting = place, setting
        self.cluster = Cluster(place, setting.is_strict, setting.is_fresh, setting.has_arbiter)
        self.client = Client(self.cluster)

    def begin(self) -> None:
        self.cluster.begin()
        first = self.cluster.hosts[0]
        told = first.run("%s %s init && echo begun" % (self.setting.program, JOURNAL))
        if "begun" not in told:
            raise OSError("the journal wasn't begun: " + told)
        for host in self.cluster.hosts:
            self.serve(host)
        self.client.start()
        self.goes_on()

    def serve(self, host: Machine) -> None:
        """Serves again and again, and mounts where the mount was shut out; not while there is a file `hold`."""
        host.start("""while :; do
            timeout 20 stat {journal} > /dev/null 2>&1 || {{ umount -l {mount}; {mounting}; }}
            [ -e {place}/hold ] || {{ mountpoint -q {mount} && {program} {journal} serve {port} 2>> {place}/notes; }}
            sleep 0.5
        done""".format(journal=JOURNAL, mount=MOUNT, mounting=self.cluster.mount(host), place=host.place,
                       program=self.setting.program, port=PORT))

    def host(self) -> Machine:
        """The machine that answered last."""
        return self.cluster.hosts[self.client.serving]

    def other(self, host: Machine) -> Machine:
        return self.cluster.hosts[1 - self.cluster.hosts.index(host)]

    def goes_on(self) -> None:
        """Waits until commands are acknowledged again."""
        self.awaits(lambda before=len(self.client.kept): len(self.client.kept) >= before + 10, STANDSTILL)

    @staticmethod
    def awaits(is_so: Callable[[], bool], seconds: float) -> None:
        until = time.time() + seconds
        while not is_so():
            if time.time() > until:
                raise Standstill
            time.sleep(0.1)

    def rest(self) -> None:
        """Waits until no command is under way; none begins until the client is freed."""
        self.client.free.clear()
        time.sleep(0.1)
        self.awaits(lambda: self.client.is_resting, STANDSTILL)

    def mend(self, was_away: bool) -> bool:
        """Waits until each brick has all. An open file brings nothing to a brick that was away, so the registries are
        started again meanwhile."""
        until = time.time() + MENDING
        while time.time() < until:
            if was_away:
                time.sleep(2)
                for host in self.cluster.hosts:
                    self.end_registry(host)
            for _ in range(3):
                time.sleep(1)
                if self.cluster.is_whole():
                    return True
            was_away = True
        return False

    def end_registry(self, host: Machine) -> None:
        host.run("pkill -9 -x " + self.setting.name)

    def refused(self) -> int:
        """How many registries ended since another wrote where they were to append."""
        return sum(times_in(os.path.join(host.place, "notes"), REFUSED) for host in self.cluster.hosts)

    def count(self) -> Count:
        """Compares what was acknowledged until now with a copy of the journal."""
        kept, look = dict(self.client.kept), os.path.join(self.place, "look")
        for host in (self.host(), *self.cluster.hosts):
            host.run("rm -f {0}; cp {1} {0}".format(look, JOURNAL))
            if os.path.exists(look) and os.path.getsize(look):
                return Count(kept, look)
        raise Standstill

    def end(self) -> None:
        self.client.going = False
        self.client.free.set()
        self.cluster.end()


class Standstill(Exception):
    """Nothing was acknowledged for ten minutes."""


def power(field: Field, host: Machine) -> None:
    host.power_off()
    field.goes_on()
    host.boot()
    field.serve(host)


def cut(field: Field, host: Machine) -> None:
    host.network(False)
    field.goes_on()
    time.sleep(random.random() * 3)
    host.network(True)


def moment(field: Field, host: Machine) -> None:
    """So short that the lock goes with it or doesn't."""
    host.network(False)
    time.sleep(random.random() * 8)
    host.network(True)
    field.goes_on()


def quiet(field: Field, host: Machine) -> None:
    """Nothing is under way as the network is cut, so nothing tells the registry that it lost its lock but the first
    command after it came back."""
    field.rest()
    host.network(False)
    field.client.free.set()
    field.goes_on()
    host.network(True)
    at = field.cluster.hosts.index(host)
    field.awaits(lambda before=field.client.tried[at]: field.client.tried[at] > before, STANDSTILL)
    field.goes_on()


def asleep(field: Field, host: Machine) -> None:
    """The machine sleeps as it has looked at the journal's end and not yet written. It is cut off, another takes over,
    it comes back, and then it writes. strace holds the first write of the next append back until it is killed."""
    trace = os.path.join(host.place, "trace")
    field.rest()
    host.start("rm -f {0}; exec strace -qq -o {0} -e trace=pwrite64 -e inject=pwrite64:delay_enter=3600s:when=1 "
               "-p $(pgrep -x {1})".format(trace, field.setting.name))
    is_held = "grep -q 'TracerPid:.*[1-9]' /proc/$(pgrep -x %s)/status && echo yes" % field.setting.name
    field.awaits(lambda: "yes" in host.run(is_held), STANDSTILL)
    field.client.free.set()
    field.awaits(lambda: times_in(trace, "pwrite64(") > 0, STANDSTILL)
    host.network(False)
    field.goes_on()
    host.network(True)
    field.awaits(lambda: "yes" in host.run("timeout 20 stat %s > /dev/null && echo yes" % JOURNAL), STANDSTILL)
    time.sleep(random.random() * 3)
    host.run("pkill -9 -x strace")
    time.sleep(2)
    field.goes_on()


def times_in(path: str, text: str) -> int:
    """How often a file has a text; not at all where there is none."""
    if not os.path.exists(path):
        return 0
    with open(path, encoding="utf-8", errors="replace") as file:
        return file.read().count(text)


def program(field: Field, host: Machine) -> None:
    field.end_registry(host)
    field.goes_on()


def handover(field: Field, host: Machine) -> None:
    """The registry ends and isn't begun there until the other one serves, as in an upgrade."""
    hold = os.path.join(host.place, "hold")
    open(hold, "w").close()
    field.end_registry(host)
    field.goes_on()
    os.remove(hold)


def mount(field: Field, host: Machine) -> None:
    host.run("pkill -9 -f process-name.fuse")
    field.goes_on()


def brick(field: Field, _host: Machine) -> None:
    machine = random.choice(field.cluster.machines)
    machine.run("pkill -9 -x glusterfsd")
    field.goes_on()
    time.sleep(random.random() * 5)
    machine.run("gluster volume start registry force")


def third(field: Field, _host: Machine) -> None:
    """The power of the machine that doesn't serve."""
    field.cluster.third.power_off()
    field.goes_on()
    time.sleep(random.random() * 8)
    field.cluster.third.boot()


KINDS: dict[str, Callable[[Field, Machine], None]] = {
    "power": power, "cut": cut, "moment": moment, "quiet": quiet, "asleep": asleep, "program": program,
    "handover": handover, "mount": mount, "brick": brick, "third": third}
# after these another machine has to take over
TAKEOVERS = ("power", "cut", "quiet", "asleep", "handover")
# in these no brick is away
NEAR = ("program", "handover", "mount")
# of each control: what differs from the recipe, and its harm
CONTROLS = {"asleep": ("no strict locks", "asleep"), "quiet": ("no strict locks", "quiet"),
            "caches": ("with caches", "handover")}


def harms(field: Field, kinds: list[str], count: int, seconds: float) -> Iterator[tuple[str, float, bool, Count]]:
    """The harms, one after another, none of which begins after so many seconds: the kind, the longest pause until it
    was undone, whether the bricks are whole again, and what the journal has."""
    until = time.time() + seconds
    for n in range(1, count + 1):
        if time.time() > until:
            return
        kind, host = random.choice(kinds), field.host()
        time.sleep(random.random())
        print("%3d %-8s on %s: " % (n, kind, host.ip), end="", flush=True)
        before = len(field.client.gaps)
        KINDS[kind](field, host)
        pause = max(field.client.gaps[before:], default=0.0)
        is_whole = field.mend(kind not in NEAR)
        field.goes_on()
        counted = field.count()
        print("longest pause %4.1f s; %s%s" % (pause, counted.told(), "" if is_whole else "; NOT HEALED"), flush=True)
        yield kind, pause, is_whole, counted


def with_field(setting: Setting, work: Callable[[Field], bool]) -> bool:
    """Sets all up, works with it, and takes all away again."""
    place = tempfile.mkdtemp(prefix="failover-")
    field: Optional[Field] = None
    try:
        field = Field(place, setting)
        field.begin()
        return work(field)
    except Standstill:
        print("STANDSTILL: nothing was acknowledged for %d seconds" % STANDSTILL)
        return False
    finally:
        for number in SIGNALS:
            signal.signal(number, signal.SIG_IGN)
        if field:
            field.end()
        shutil.rmtree(place, ignore_errors=True)
        hear_signals()


def hear_signals() -> None:
    for number in SIGNALS:
        signal.signal(number, lambda *_: sys.exit(1))


def loses(field: Field, name: str, tries: int, seconds: float) -> bool:
    """A control: whether acknowledged commands are lost, in one of its harms."""
    title, kind = CONTROLS[name]
    try:
        for *_, counted in harms(field, [kind], tries, seconds):
            if counted.lost:
                break
    except Standstill:
        pass
    counted = field.count()
    print("control, %s, %s: %s, %d appends refused by the look: %s" % (
        title, kind, counted.told(), field.refused(), "it loses" if counted.lost else "NOTHING LOST"), flush=True)
    return bool(counted.lost)


def told_pauses(pauses: dict[str, list[float]]) -> Iterator[str]:
    takeovers = [pause for kind in TAKEOVERS for pause in pauses.get(kind, [])]
    for name, found in [("takeovers", takeovers), *sorted(pauses.items())]:
        if found:
            yield "%-9s %3d, pauses: longest %4.1f s, median %4.1f s" % (
                name, len(found), max(found), statistics.median(found))


def keeps(field: Field, asked: argparse.Namespace) -> bool:
    """The harms, and whether each acknowledged command is where it has to be."""
    began, pauses, is_whole = time.time(), {}, True
    for kind, pause, is_healed, _ in harms(field, asked.kinds.split(","), asked.harms, asked.minutes * 60):
        pauses.setdefault(kind, []).append(pause)
        is_whole = is_whole and is_healed
    field.client.going = False
    field.client.join()
    counted = field.count()
    look = os.path.join(field.place, "look")
    checked = subprocess.run([field.setting.program, look, "check"], stdout=subprocess.PIPE, text=True)
    numbers = [number for number in field.client.kept.values() if number is not None]
    print("\n".join(told_pauses(pauses)))
    print("%d harms in %d minutes: %s; %d of them known by asking; %d appends refused by the look; `check`: %s" % (
        sum(map(len, pauses.values())), (time.time() - began) / 60, counted.told(), field.client.asked_for,
        field.refused(), checked.stdout.strip()))
    return counted.is_right() and is_whole and checked.returncode == 0 and len(numbers) == len(set(numbers))


def lacks(asked: argparse.Namespace) -> list[str]:
    kinds = [CONTROLS[asked.control or "asleep"][1], *([] if asked.control else asked.kinds.split(","))]
    return lacking() + (["strace"] if "asleep" in kinds and not shutil.which("strace") else [])


def hear() -> argparse.Namespace:
    words = argparse.ArgumentParser(description=__doc__.split("\n\n", maxsplit=1)[0])
    words.add_argument("--harms", type=int, default=20)
    words.add_argument("--control", choices=CONTROLS, help="this control alone")
    words.add_argument("--program", default=PROGRAM, help="in place of PROGRAM")
    words.add_argument("--minutes", type=float, default=600, help="no harm begins after so many")
    words.add_argument("--arbiter", action="store_true", help="an arbiter in place of the third brick")
    words.add_argument("--seed", type=int, default=1)
    words.add_argument("--kinds", default=",".join(KINDS), help="of the harms, one of which is drawn each time")
    return words.parse_args()


def main() -> int:
    asked = hear()
    asked.program = os.path.abspath(asked.program)
    if not os.access(asked.program, os.X_OK):
        sys.exit("no %s: run ./quickstart.sh first" % asked.program)
    if set(asked.kinds.split(",")) - set(KINDS):
        sys.exit("the kinds are " + ",".join(KINDS))
    if lacks(asked):
        sys.exit("failover.py needs " + ", ".join(lacks(asked)))
    hear_signals()
    random.seed(asked.seed)
    name, seconds = asked.control or "asleep", asked.minutes * 60
    tries = asked.harms if asked.control else TRIES
    lossy = Setting(name == "caches", name != "caches", asked.arbiter, asked.program)
    is_lossy = with_field(lossy, lambda field: loses(field, name, tries, seconds))
    if asked.control:
        return 0 if is_lossy else 1
    recipe = Setting(True, True, asked.arbiter, asked.program)
    return 0 if with_field(recipe, lambda field: keeps(field, asked)) and is_lossy else 1


if __name__ == "__main__":
    sys.exit(main())
