"""Compares the program's reasons for memberships with the model's, byte by byte.

    python3 explained.py PROGRAM [FIRST_SEED] [HISTORIES]

Random histories (50 by itself, from seed 1 on) of groups that are nested in many ways, dated
memberships, composites of composites, and other names. After each the word `why` is asked, now and
as of some moments, of persons and groups that there are and of some that there aren't. There has to
be a way exactly where a group that is no composite has the person. The status is 1 where there is a
difference.
"""

import json
import os
import sys
import tempfile
from collections import Counter
from random import Random
from typing import Dict, List

# the model is in the folder above
sys.path.insert(0, os.path.dirname(os.path.dirname(os.path.abspath(__file__))))

import moments
import names
import reasons
from program import Program
from record import Recorder
from reported import told

START = moments.read("2025-09-01T00:00:00Z") or 0
PERSONS = ["uni/p%d" % n for n in range(3)]
ASKED = 40


class History:
    """One random history: layers of groups, each in groups of the layers above it."""

    def __init__(self, seed: int) -> None:
        self.random = Random(seed)
        self.recorder = Recorder(f"explained {seed}", START)
        many = self.random.random() < 0.15
        self.layers = [
            [f"l{layer}g{n}" for n in range(6 if many else self.random.randint(1, 5))]
            for layer in range(4 if many else self.random.randint(2, 5))
        ]
        self.groups = [group for layer in self.layers for group in layer]
        self.share = 0.95 if many else self.random.choice([0.3, 0.6, 0.9])

    def send(self, **request: object) -> Dict[str, object]:
        """A request of GrouperSystem."""
        return self.recorder.send({"by": names.SYSTEM, **request})

    def one_of(self, choices: List[str]) -> str:
        """One of these."""
        return self.random.choice(choices)

    def make(self) -> None:
        """What stands at first; groups and persons are made in any order."""
        for person in PERSONS:
            self.send(op="subject.add", subject=person)
        for group in self.random.sample(self.groups, len(self.groups)):
            self.send(op="group.add", group=group)
        for _ in range(self.random.choice([0, 1, 2, 4])):
            self.compose()
        for upper, lower in zip(self.layers, self.layers[1:]):
            for group in upper:
                for member in lower:
                    if self.random.random() < self.share:
                        self.add(group, names.GROUP_PREFIX + member)
        for group in self.layers[-1] + self.random.sample(self.groups, 1):
            self.add(group, self.one_of(PERSONS))

    def add(self, group: str, member: str) -> None:
        """A membership, mostly from now on and without an end."""
        request: Dict[str, object] = {"group": group, "member": member}
        if self.random.random() < 0.1:
            request["from"] = moments.text(self.recorder.clock + self.random.randint(-2, 3))
        if self.random.random() < 0.1:
            request["until"] = moments.text(self.recorder.clock + self.random.randint(3, 9))
        self.send(op="member.add", **request)

    def compose(self) -> None:
        """Factors for a group, mostly of the layers below it."""
        upper = self.random.randrange(len(self.layers))
        below = [group for layer in self.layers[upper + 1:] for group in layer]
        left, right = (
            self.one_of(below if below and self.random.random() < 0.95 else self.groups)
            for _ in range(2)
        )
        self.send(op="composite.set", group=self.one_of(self.layers[upper]), left=left,
                  right=right, kind=self.one_of(["intersection", "complement", "union"]))

    def grant(self, group: str, holder: str) -> None:
        """A grant that begins and ends soon: its dates are no reason for a membership."""
        begins = self.recorder.clock + self.random.randint(-1, 3)
        dates = {"from": moments.text(begins), "until": moments.text(begins + 2)}
        self.send(op="grant.add", object=group, privilege="READ", holder=holder, **dates)

    def step(self) -> None:
        """Something happens, at once or later."""
        if self.random.random() < 0.5:
            self.recorder.clock += 1
        what, group = self.random.random(), self.one_of(self.groups)
        member = self.one_of(PERSONS + [names.GROUP_PREFIX + each for each in self.groups])
        if self.random.random() < 0.15:
            self.grant(group, member)
        if what < 0.35:
            self.add(group, member)
        elif what < 0.5:
            until = moments.text(self.recorder.clock + self.random.randint(1, 9))
            self.send(op="member.window", group=group, member=member, until=until)
        elif what < 0.65:
            self.send(op="member.remove", group=group, member=member)
        elif what < 0.8:
            self.compose()
        elif what < 0.88:
            self.send(op="composite.clear", group=group)
        elif what < 0.95:
            self.send(op="group.rename", group=group, extension=self.one_of(self.groups + ["x"]))
        else:
            self.send(op="group.delete", group=group)

    def words(self) -> List[str]:
        """What is asked, mostly of what there is."""
        subject, group = self.one_of(PERSONS), self.one_of(self.groups)
        if self.random.random() < 0.12:
            subject = self.one_of(["uni/none", "p0", "g:gsa/l0g0", "g:gsa/a::b", names.SYSTEM,
                                   names.EVERYONE, subject])
            group = self.one_of(["none", "a::b", ":", "", "g:gsa/l0g0", group])
        if self.random.random() < 0.5:
            return ["why", subject, group]
        moment = self.random.randint(START - 1, self.recorder.clock + 1)
        at = "yesterday" if self.random.random() < 0.03 else moments.text(moment)
        return ["why", subject, group, "--at", at]


def compare(program: Program, seed: int) -> Counter:
    """What was asked after a history, how much was answered, and how much was otherwise."""
    history, counts = History(seed), Counter(histories=1)
    history.make()
    for _ in range(25):
        history.step()
    program.play(history.recorder.history)
    for _ in range(ASKED):
        words = history.words()
        moment = history.recorder.clock + history.random.choice([-2, 0, 0, 1])
        registry = history.recorder.registry.opened_again()
        text, refused = reasons.why(registry, moment, *words[1:3], *words[4:])
        found = told(program, words, moment)
        counts["asked"] += 1
        count(counts, json.loads(text))
        if (text, 11 if refused else 0) != found:
            counts["differences"] += 1
            if counts["differences"] <= 3:
                print(f"{history.recorder.history.title}: {' '.join(words)} at {moment}")
                print(f"  wanted {text}\n  found  {found}")
    return counts


def count(counts: Counter, reply: Dict[str, object]) -> None:
    """Counts what an answer says."""
    if "refused" in reply:
        counts["refused"] += 1
        return
    statements = reply["explained"]
    for each in statements:
        if each["composite"] is None and each["member"] != (each["number"] > 0):
            counts["differences"] += 1
            print(f"members and ways aren't of one mind: {each}")
    counts["members"] += reply["member"]
    counts["ways"] += sum(each["number"] for each in statements)
    counts["composites"] += sum(each["composite"] is not None for each in statements)
    counts["cut"] += sum(each["number"] > len(each["ways"]) for each in statements)


def main() -> int:
    """Reads the words of the command line."""
    first = int(sys.argv[2]) if len(sys.argv) > 2 else 1
    number = int(sys.argv[3]) if len(sys.argv) > 3 else 50
    counts: Counter = Counter()
    with tempfile.TemporaryDirectory() as folder:
        program = Program(sys.argv[1], folder)
        for seed in range(first, first + number):
            counts.update(compare(program, seed))
    kinds = [kind for kind in counts if kind != "differences"] + ["differences"]
    print(", ".join(f"{kind} {counts[kind]}" for kind in kinds))
    return int(counts["differences"] > 0)


if __name__ == "__main__":
    sys.exit(main())
