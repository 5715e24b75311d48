#!/usr/bin/env python3
"""How the cost of each shape of use grows. A shape is so many commands, or so many questions, over a registry made ready
for them. It is doubled four times, and for each size the processor's seconds of `apply` are taken, without those of
opening what was ready. The exponent is that of the last two doublings: 1 is in proportion, 2 is quadratic. Ends with
status 1 where one is past 1.3.

    bench/growth.py [--size N] [--seconds S] [--instructions] [SHAPE ..]

N (4,000) is the size of the first run of most shapes, some have a part of it. A shape whose run takes more than S (15)
seconds isn't doubled again. With --instructions valgrind counts those in place of seconds, in thousands of millions: whatever else
the machine does, the exponents are the same; take a size of some hundreds. The registry lies in memory (/dev/shm). Build the program first (./quickstart.sh).

Shapes: changes
    groups-in-a-folder folders-in-a-folder persons groups-come-and-go groups-deleted-oldest-first
    folder-renamed group-renamed group-moved definitions attribute-names
memberships
    members-of-one-group groups-of-one-person in-and-out removed-last-first removed-first-first windows ends
    below-a-chain groups-in-one persons-through-groups-in-one out-of-groups-in-one composites-over-one factor-in-and-out
privileges
    grants-on-one-object grant-on-and-off grants-removed-first-first grants-on-many inherits-on-a-folder inherits-on-folders
    caller-with-many-grants
attributes and rules
    assignments-of-one-attribute assignments-on-one-group values-added values-removed-last-first
    values-removed-first-first vetoes-on-one-group rules-on-many-groups groups-with-on-create
loads, the log and questions
    load-of-rows load-again acknowledged keys-of-one-caller keys-of-many-callers keys-again may-of-a-member members-of-a-few folder-listed may grants-asked-then
"""
import argparse
import math
import os
import re
import subprocess
import sys
import tempfile

from applying import Measured, encoded

PROGRAM = os.path.join(os.path.dirname(os.path.abspath(__file__)), "..", "crates", "registry", "out", "registry")
WORST = 1.3


def person(number):
    return "uni/p%06d" % number


def group(number):
    return "g%06d" % number


def persons(count):
    return [{"op": "subject.add", "subject": person(n)} for n in range(count)]


def groups(count, folder=""):
    return [{"op": "group.add", "group": folder + group(n)} for n in range(count)]


def folder(name):
    return {"op": "folder.add", "folder": name}


def joins(of, who):
    return {"op": "member.add", "group": of, "member": who}


def leaves(of, who):
    return {"op": "member.remove", "group": of, "member": who}


def grants(on, holder, privilege="READ", op="grant.add"):
    return {"op": op, "object": on, "privilege": privilege, "holder": holder}


def inherits(on, holder):
    return {"op": "inherit.add", "folder": on, "kind": "group", "scope": "ONE", "privilege": "READ", "holder": holder}


def nested(name):
    return "g:gsa/" + name


def definition(name, kind="integer"):
    return {"op": "attrdef.add", "definition": name, "owners": ["group"], "several": True, "kind": kind, "many": True}


def assignment(number=0):
    return {"op": "assign.add", "attribute": "a", "object": group(number)}


def value(number, op="value.add"):
    return {"op": op, "attribute": "a", "object": group(0), "id": 1, "value": number}


ATTRIBUTE = [definition("d"), {"op": "attr.add", "attribute": "a", "definition": "d"}]


def load(count):
    table = "GROUP_NAME,SUBJECT_ID\n" + "".join("load:l%d,p%06d\n" % (n // 40, n) for n in range(count))
    return {"op": "load", "job": "nightly", "table": table}


def keyed(requests):
    """The requests, each under a key of its own."""
    return [{**request, "key": "%08x-0000-4000-8000-%012x" % (k, k)} for k, request in enumerate(requests)]


JOB = [folder("load"), {"op": "job.list", "job": "nightly", "folder": "load", "source": "uni", "min_size": 0,
                        "max_percent": 100}]


def to_and_fro(count, one, other):
    return [one if n % 2 == 0 else other for n in range(count)]


# Each shape: which part of the size it takes, what is made ready, and what is measured.
SHAPES = {
    "groups-in-a-folder": (1, lambda n: [], groups),
    "folders-in-a-folder": (1 / 8, lambda n: [], lambda n: [folder("f%06d" % k) for k in range(n)]),
    "persons": (1, lambda n: [], persons),
    "groups-come-and-go": (1, lambda n: [], lambda n: to_and_fro(
        n, {"op": "group.add", "group": "g"}, {"op": "group.delete", "group": "g"})),
    "groups-deleted-oldest-first": (1, groups, lambda n: [
        {"op": "group.delete", "group": group(k)} for k in range(n)]),
    "folder-renamed": (1, lambda n: [folder("a"), *groups(100, "a:")], lambda n: to_and_fro(
        n, {"op": "folder.rename", "folder": "a", "extension": "b"},
        {"op": "folder.rename", "folder": "b", "extension": "a"})),
    "group-renamed": (1, lambda n: [*groups(n), {"op": "group.add", "group": "a"}], lambda n: to_and_fro(
        n, {"op": "group.rename", "group": "a", "extension": "b"},
        {"op": "group.rename", "group": "b", "extension": "a"})),
    "group-moved": (1, lambda n: [folder("x"), folder("y"), *groups(n, "x:"), {"op": "group.add", "group": "x:a"}],
                    lambda n: to_and_fro(n, {"op": "group.move", "group": "x:a", "to": "y"},
                                         {"op": "group.move", "group": "y:a", "to": "x"})),
    "definitions": (1 / 8, lambda n: [], lambda n: [definition("d%06d" % k) for k in range(n)]),
    "attribute-names": (1 / 8, lambda n: ATTRIBUTE, lambda n: [
        {"op": "attr.add", "attribute": "a%06d" % k, "definition": "d"} for k in range(n)]),
    "members-of-one-group": (1, lambda n: [*groups(1), *persons(n)], lambda n: [
        joins(group(0), person(k)) for k in range(n)]),
    "groups-of-one-person": (1, lambda n: [*persons(1), *groups(n)], lambda n: [
        joins(group(k), person(0)) for k in range(n)]),
    "in-and-out": (1, lambda n: [*groups(1), *persons(1)], lambda n: to_and_fro(
        n, joins(group(0), person(0)), leaves(group(0), person(0)))),
    "removed-last-first": (1, lambda n: [*groups(1), *persons(n), *[joins(group(0), person(k)) for k in range(n)]],
                           lambda n: [leaves(group(0), person(n - 1 - k)) for k in range(n)]),
    "removed-first-first": (1, lambda n: [*groups(1), *persons(n), *[joins(group(0), person(k)) for k in range(n)]],
                            lambda n: [leaves(group(0), person(k)) for k in range(n)]),
    "windows": (1, lambda n: [*groups(1), *persons(1), joins(group(0), person(0))], lambda n: [
        {"op": "member.window", "group": group(0), "member": person(0), "until": "2999-01-01T00:00:00.%06dZ" % k}
        for k in range(n)]),
    "ends": (1, lambda n: [*groups(1), *persons(n)], lambda n: [
        {**joins(group(0), person(k)), "until": "2999-01-01T00:00:00.%06dZ" % (n - k)} for k in range(n)]),
    "below-a-chain": (1 / 8, lambda n: [*groups(50), *persons(n),
                                        *[joins(group(k + 1), nested(group(k))) for k in range(49)]],
                      lambda n: [joins(group(0), person(k)) for k in range(n)]),
    "groups-in-one": (1, groups, lambda n: [joins(group(0), nested(group(k))) for k in range(1, n)]),
    "persons-through-groups-in-one": (1, lambda n: [
        *groups(n + 1), *persons(n), *[joins(group(n), nested(group(k))) for k in range(n)]],
        lambda n: [joins(group(k), person(k)) for k in range(n)]),
    "out-of-groups-in-one": (1, lambda n: [
        *groups(n + 1), *persons(n), *[joins(group(n), nested(group(k))) for k in range(n)],
        *[joins(group(k), person(k)) for k in range(n)]], lambda n: [leaves(group(k), person(k)) for k in range(n)]),
    "composites-over-one": (1, lambda n: groups(n + 2), lambda n: [
        {"op": "composite.set", "group": group(k + 2), "kind": "complement", "left": group(0), "right": group(1)}
        for k in range(n)]),
    "factor-in-and-out": (1, lambda n: [*groups(3), *persons(1), {
        "op": "composite.set", "group": group(2), "kind": "complement", "left": group(0), "right": group(1)}],
        lambda n: to_and_fro(n, joins(group(0), person(0)), leaves(group(0), person(0)))),
    "grants-on-one-object": (1, lambda n: [*groups(1), *persons(n)], lambda n: [
        grants(group(0), person(k)) for k in range(n)]),
    "grant-on-and-off": (1, lambda n: [*groups(1), *persons(1)], lambda n: to_and_fro(
        n, grants(group(0), person(0)), grants(group(0), person(0), op="grant.remove"))),
    "grants-removed-first-first": (1, lambda n: [
        *groups(1), *persons(n), *[grants(group(0), person(k)) for k in range(n)]],
        lambda n: [grants(group(0), person(k), op="grant.remove") for k in range(n)]),
    "grants-on-many": (1, lambda n: [*groups(n), *persons(1)], lambda n: [
        grants(group(k), person(0)) for k in range(n)]),
    "inherits-on-a-folder": (1 / 80, lambda n: [folder("f"), *groups(1_000, "f:"), *persons(n)], lambda n: [
        inherits("f", person(k)) for k in range(n)]),
    "inherits-on-folders": (1 / 8, lambda n: [*persons(1), *[folder("f%06d" % k) for k in range(n)],
                                          *[{"op": "group.add", "group": "f%06d:g" % k} for k in range(n)]],
                            lambda n: [inherits("f%06d" % k, person(0)) for k in range(n)]),
    "caller-with-many-grants": (1, lambda n: [*groups(n), *persons(1), *[grants(group(k), person(0), "UPDATE")
                                                                       for k in range(n)]],
                                lambda n: [{**joins(group(k), person(0)), "by": person(0)} for k in range(n)]),
    "assignments-of-one-attribute": (1, lambda n: [*ATTRIBUTE, *groups(n)], lambda n: [
        assignment(k) for k in range(n)]),
    "assignments-on-one-group": (1, lambda n: [*ATTRIBUTE, *groups(1)], lambda n: [assignment() for k in range(n)]),
    "values-added": (1, lambda n: [*ATTRIBUTE, *groups(1), assignment()], lambda n: [value(k) for k in range(n)]),
    "values-removed-last-first": (1, lambda n: [
        *ATTRIBUTE, *groups(1), assignment(), *[value(k) for k in range(n)]],
        lambda n: [value(n - 1 - k, "value.remove") for k in range(n)]),
    "values-removed-first-first": (1, lambda n: [
        *ATTRIBUTE, *groups(1), assignment(), *[value(k) for k in range(n)]],
        lambda n: [value(k, "value.remove") for k in range(n)]),
    "vetoes-on-one-group": (1 / 8, lambda n: groups(n + 1), lambda n: [
        {"op": "rule.veto", "owner": group(n), "condition": group(k)} for k in range(n)]),
    "rules-on-many-groups": (1 / 8, lambda n: groups(n + 1), lambda n: [
        {"op": "rule.remove_lost", "check": group(n), "owner": group(k)} for k in range(n)]),
    "groups-with-on-create": (1, lambda n: [folder("f"), *persons(1), {
        "op": "rule.on_create", "folder": "f", "scope": "ONE", "privilege": "READ", "holder": person(0)}],
        lambda n: groups(n, "f:")),
    "load-of-rows": (1, lambda n: [*JOB, *persons(n)], lambda n: [load(n)]),
    "load-again": (1, lambda n: [*JOB, *persons(n), load(n)], lambda n: [load(n)]),
    "acknowledged": (1, lambda n: [*persons(n), {"op": "consumer.add", "consumer": "c"}], lambda n: [
        {"op": "consumer.ack", "consumer": "c", "seq": k + 1} for k in range(n)]),
    "keys-of-one-caller": (1, lambda n: [*groups(1), *persons(n)], lambda n: keyed(
        joins(group(0), person(k)) for k in range(n))),
    "keys-of-many-callers": (1, lambda n: [*groups(1), *persons(n), grants(group(0), "g:isa/GrouperAll", "OPTIN")],
                             lambda n: keyed({**joins(group(0), person(k)), "by": person(k)} for k in range(n))),
    "keys-again": (1, lambda n: [*groups(1), *persons(n), *keyed(joins(group(0), person(k)) for k in range(n))],
                   lambda n: keyed(joins(group(0), person(k)) for k in range(n))),
    "may-of-a-member": (1, lambda n: [*groups(1), *persons(n), *[joins(group(0), person(k)) for k in range(n)]],
                  lambda n: [{"op": "may", "object": group(0), "entity": person(k)} for k in range(n)]),
    "members-of-a-few": (1, lambda n: [*groups(n), *persons(10), *[joins(group(0), person(k)) for k in range(10)]],
                         lambda n: [{"op": "members", "group": group(0)} for k in range(n)]),
    "folder-listed": (1, lambda n: [folder("f"), *groups(10, "f:"), *groups(n)], lambda n: [
        {"op": "folder.list", "folder": "f"} for k in range(n)]),
    "may": (1, lambda n: [*groups(n), *persons(1), *[grants(group(k), person(0)) for k in range(n)]], lambda n: [
        {"op": "may", "object": group(k), "entity": person(0)} for k in range(n)]),
    "grants-asked-then": (1, lambda n: [*groups(1), *persons(1), *to_and_fro(
        n, grants(group(0), person(0)), grants(group(0), person(0), op="grant.remove"))],
        lambda n: [{"op": "grants", "object": group(0), "at": "2026-01-01T00:00:00Z"} for k in range(n)]),
}


class Counted:
    """One run of a command as `Measured` is one, with its instructions in place of the processor's seconds."""

    def __init__(self, words, into, out):
        with open(into, "rb") as source, open(out, "wb") as sink:
            run = subprocess.run(["valgrind", "--tool=callgrind", "--callgrind-out-file=/dev/null", *words],
                                 stdin=source, stdout=sink, stderr=subprocess.PIPE)
        self.status = run.returncode
        self.processor = int(re.search(rb"Collected : (\d+)", run.stderr).group(1)) / 1e9


def ran(words, source, place):
    """A run that has to end with 0 and refuse nothing."""
    out = os.path.join(place, "out")
    run = MEASURE([PROGRAM, os.path.join(place, "journal"), *words], source, out)
    with open(out, "rb") as replies:
        refused = next((line for line in replies if b'"refused"' in line or b'"fault"' in line), None)
    if run.status != 0 or refused:
        sys.exit("growth.py: %s ended with %d: %s" % (words, run.status, refused))
    return run.processor


def written(place, requests):
    with open(os.path.join(place, "in"), "wb") as lines:
        lines.writelines(map(encoded, requests))
    return os.path.join(place, "in")


def cost(shape, size):
    """The seconds of a processor that a shape of this size takes beyond opening what was ready, and those of opening
    it afterwards."""
    _, ready, measured = SHAPES[shape]
    with tempfile.TemporaryDirectory(dir="/dev/shm") as place:
        ran(["init"], os.devnull, place)
        ran(["apply"], written(place, ready(size)), place)
        before = ran(["check"], os.devnull, place)
        whole = ran(["apply"], written(place, measured(size)), place)
        return max(whole - before, 1e-6), ran(["check"], os.devnull, place)


def exponent(costs):
    """That of the last two doublings, or of as many as there are."""
    steps = min(2, len(costs) - 1)
    return math.log2(costs[-1] / costs[-1 - steps]) / steps if steps else math.nan


MEASURE = Measured


def main():
    global MEASURE
    options = argparse.ArgumentParser()
    options.add_argument("--size", type=int, default=4_000)
    options.add_argument("--seconds", type=float, default=15)
    options.add_argument("--instructions", action="store_true")
    options.add_argument("shapes", nargs="*")
    chosen = options.parse_args()
    MEASURE = Counted if chosen.instructions else Measured
    bad = []
    print("%-32s %8s %9s %9s %8s" % ("shape", "size", "seconds", "opening", "exponent"))
    for shape in chosen.shapes or SHAPES:
        size = max(1, int(chosen.size * SHAPES[shape][0]))
        costs = []
        for doubling in range(5):
            seconds, opening = cost(shape, size << doubling)
            costs.append(seconds)
            if seconds > chosen.seconds:
                break
        grown = exponent(costs)
        print("%-32s %8d %9.2f %9.2f %8.2f" % (shape, size << len(costs) - 1, costs[-1], opening, grown), flush=True)
        if not grown <= WORST:
            bad.append(shape)
    if bad:
        sys.exit("growth.py: past %.1f: %s" % (WORST, " ".join(bad)))


main()
