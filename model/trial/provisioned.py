"""Compares the program's batches of operations with the model's, byte by byte.

    python3 provisioned.py PROGRAM [FIRST_SEED] [HISTORIES]

Random histories (50 by itself, from seed 1 on) of groups that are made, moved and deleted, nesting,
memberships and grants with dates, inherits of several persons, and consumers. Between their steps
the word `provision` is run at some moments, also earlier ones, and with all kinds of words. After
each history an outside list that did all operations, and some runs of them twice, has to have what
the model wants at the last place. The status is 1 where there is a difference.
"""

import json
import os
import sys
import tempfile
from random import Random
from typing import Dict, List, Set, Tuple

# the model is in the folder above
sys.path.insert(0, os.path.dirname(os.path.dirname(os.path.abspath(__file__))))

import moments
import names
import provisioning
from program import Program
from record import Recorder
from reported import told

START = moments.read("2025-09-01T00:00:00Z") or 0
PERSONS = ["uni/p%d" % n for n in range(5)]
LISTS = {"doors": "uni/p0", "mail": "uni/p1", "both": "uni/p0"}
GROUPS = ["g%d" % n for n in range(4)] + ["app:g%d" % n for n in range(3)]


class Trial:
    """One random history, sent line by line, and run by run to the program."""

    def __init__(self, program: Program, seed: int) -> None:
        self.program = program
        self.random = Random(seed)
        self.recorder = Recorder(f"provisioned {seed}", START)
        self.asked = self.different = 0
        self.lists: Dict[str, Set[Tuple[int, str]]] = {name: set() for name in LISTS}

    def send(self, **request: object) -> None:
        """A request of GrouperSystem."""
        self.recorder.send({"by": names.SYSTEM, **request})

    def one_of(self, choices: List[str]) -> str:
        """One of these."""
        return self.random.choice(choices)

    def make(self) -> None:
        """What stands at first."""
        self.send(op="folder.add", folder="app")
        self.send(op="folder.add", folder="out")
        for person in PERSONS:
            self.send(op="subject.add", subject=person)
        for consumer in LISTS:
            self.send(op="consumer.add", consumer=consumer)
        for group in GROUPS:
            self.send(op="group.add", group=group)

    def step(self) -> None:
        """Something happens, at once or later."""
        if self.random.random() < 0.5:
            self.recorder.clock += self.random.choice([1, 1, 2, moments.DAY])
        what = self.random.random()
        if what < 0.55:
            self.member()
        elif what < 0.8:
            self.grant()
        elif what < 0.9:
            folder = self.one_of(["app", "out", ":"])
            self.send(op="group.move", group=self.one_of(GROUPS), to=folder)
        else:
            op = self.one_of(["group.delete", "group.add"])
            self.send(op=op, group=self.one_of(GROUPS))

    def member(self) -> None:
        """A membership comes or goes; it may begin or end later."""
        member = self.one_of(PERSONS * 2 + ["g:gsa/" + group for group in GROUPS])
        request: Dict[str, object] = {"group": self.one_of(GROUPS), "member": member}
        if self.random.random() < 0.4:
            self.send(op="member.remove", **request)
            return
        if self.random.random() < 0.2:
            request["from"] = moments.text(self.recorder.clock + self.random.randrange(3))
        if self.random.random() < 0.3:
            request["until"] = moments.text(self.recorder.clock + self.random.randrange(3, 6))
        self.send(op="member.add", **request)

    def later(self, least: int, greatest: int) -> str:
        """A moment near the clock."""
        return moments.text(self.recorder.clock + self.random.randint(least, greatest))

    def grant(self) -> None:
        """A grant or an inherit comes or goes; a grant may begin or end later."""
        holder = self.one_of(PERSONS[:2] * 3 + ["g:isa/GrouperAll", "g:gsa/g0"])
        written = {"privilege": self.one_of(["READ"] * 4 + ["ADMIN"]), "holder": holder}
        end = self.one_of(["add", "add", "remove"])
        if self.random.random() < 0.7:
            written["object"] = "g:gsa/" + self.one_of(GROUPS)
            if end == "add" and self.random.random() < 0.4:
                written["from"] = self.later(-1, 3)
            if end == "add" and self.random.random() < 0.4:
                written["until"] = self.later(0, 6)
            self.send(op="grant." + end, **written)
        else:
            scope = self.one_of(["ONE", "SUB"])
            self.send(op="inherit." + end, folder=self.one_of(["app", ":"]), kind="group",
                      scope=scope, **written)

    def words(self) -> List[str]:
        """What is asked for."""
        consumer = self.one_of(list(LISTS))
        subject = LISTS[consumer]
        if self.random.random() < 0.1:
            consumer = self.one_of(["none", "a:b", consumer])
            subject = self.one_of(["uni/none", "p0", "g:gsa/g0", names.SYSTEM, subject])
        most = self.one_of(["1", "2", "3", "5", "8", "20", "1000000"])
        return ["provision", consumer, subject, most]

    def provide(self) -> None:
        """The word is run over the history so far, by the program and by the model."""
        words, moment = self.words(), self.recorder.clock + self.random.choice([-5, 0, 1, 1, 4])
        self.program.play(self.recorder.history)
        found = told(self.program, words, moment)
        registry = self.recorder.registry.opened_again()
        text, refused = provisioning.provision(registry, moment, *words[1:3], int(words[3]))
        self.asked += 1
        if (text, 11 if refused else 0) != found:
            self.different += 1
            print(f"{self.recorder.history.title}: {' '.join(words)} at {moments.text(moment)}")
            print(f"  wanted {text}\n  found  {found}")
        if refused:
            return
        self.follow(words[1], text)
        # no command acts before the moment of a run, whether it was acknowledged or cut off
        self.recorder.clock = max(self.recorder.clock, registry.clock)
        if self.random.random() < 0.7:
            place = json.loads(text.splitlines()[-1])["place"]
            self.send(op="consumer.ack", consumer=words[1], seq=place)

    def follow(self, consumer: str, text: str) -> None:
        """The outside list does what the lines say."""
        for line in map(json.loads, text.splitlines()[:-1]):
            pair = (line["group"], line["subject"])
            if line["do"] == "add":
                self.lists[consumer].add(pair)
            else:
                self.lists[consumer].discard(pair)

    def end(self) -> None:
        """Each list comes to the last boundary, and has what is wanted there."""
        self.recorder.clock += moments.DAY
        registry = self.recorder.registry.opened_again()
        for consumer, subject in LISTS.items():
            text, _ = provisioning.provision(
                registry, self.recorder.clock, consumer, subject, provisioning.MOST
            )
            self.follow(consumer, text)
            persons = registry.state.facts.persons
            person = registry.state.persons[subject]
            last = json.loads(text.splitlines()[-1])["place"]
            want = {
                (group.id, persons[member].text)
                for group, member in provisioning.wanted_at(registry, last, person)
            }
            self.asked += 1
            if want != self.lists[consumer]:
                self.different += 1
                print(f"{self.recorder.history.title}: the list of {consumer}")
                print(f"  wanted {sorted(want)}\n  found  {sorted(self.lists[consumer])}")


def main() -> int:
    """Reads the words of the command line."""
    first = int(sys.argv[2]) if len(sys.argv) > 2 else 1
    number = int(sys.argv[3]) if len(sys.argv) > 3 else 50
    asked = different = 0
    with tempfile.TemporaryDirectory() as folder:
        program = Program(sys.argv[1], folder)
        for seed in range(first, first + number):
            trial = Trial(program, seed)
            trial.make()
            for step in range(60):
                trial.step()
                if step % 5 == 4:
                    trial.provide()
            trial.end()
            asked, different = asked + trial.asked, different + trial.different
    print(f"histories {number}, batches {asked}, differences {different}")
    return int(different > 0)


if __name__ == "__main__":
    sys.exit(main())
