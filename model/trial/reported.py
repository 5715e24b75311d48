"""Compares the program's reports with the model's, byte by byte.

    python3 reported.py PROGRAM [FIRST_SEED] [HISTORIES]

Random histories (50 by itself, from seed 1 on) of groups, nesting, dated memberships, permission
definitions with resources above one another, and attestation that comes, changes and goes. After
each the words `permit`, `permitted`, `attested`, `attestation` and `reminders` are asked, at some
moments, of all there is and of some that there isn't. The status is 1 where there is a difference.
"""

import json
import os
import subprocess
import sys
import tempfile
from random import Random
from typing import Dict, List, Sequence, Tuple

# the model is in the folder above
sys.path.insert(0, os.path.dirname(os.path.dirname(os.path.abspath(__file__))))

import moments
import names
import reports
from program import Program
from record import Recorder

START = moments.read("2025-09-01T00:00:00Z") or 0
PERSONS = ["uni/p%d" % n for n in range(5)]
GROUPS = ["g%d" % n for n in range(6)]
RESOURCES = ["hr", "hr.pay", "hr.pay.raise", "hrx", "app:hr", "app:hr.pay", "other", "single"]
ACTIONS = ["read", "write", "hr"]
SAID = ["allow read", "deny read", "allow *", "deny *", "allow write", "deny write"] * 3 + [
    "Allow read", "allow  read", "allow", "allow read ", "*",
]


class History:
    """One random history, sent line by line."""

    def __init__(self, seed: int) -> None:
        self.random = Random(seed)
        self.recorder = Recorder(f"reported {seed}", START)
        self.assigned: List[Tuple[str, str, int]] = []

    def send(self, **request: object) -> Dict[str, object]:
        """A request of GrouperSystem."""
        return self.recorder.send({"by": names.SYSTEM, **request})

    def one_of(self, choices: List[str]) -> str:
        """One of these."""
        return self.random.choice(choices)

    def make(self) -> None:
        """What stands at first."""
        for folder in "etc", "etc:attest", "app":
            self.send(op="folder.add", folder=folder)
        for person in PERSONS:
            self.send(op="subject.add", subject=person)
        for group in GROUPS:
            self.send(op="group.add", group=group)
        if self.random.random() < 0.5:
            kind = self.one_of(["intersection", "complement", "union"])
            self.send(op="composite.set", group="g5", kind=kind, left="g3", right="g4")
        perm = {"owners": ["folder", "group", "subject"], "several": True, "kind": "text"}
        self.send(op="attrdef.add", definition="perm", many=True, **perm)
        self.send(op="attrdef.add", definition="perm2", many=True, **perm)
        self.send(op="attrdef.add", definition="perm1", many=False, **perm)
        for name in RESOURCES:
            definition = {"other": "perm2", "single": "perm1"}.get(name, "perm")
            self.send(op="attr.add", attribute=name, definition=definition)
        several = self.random.random() < 0.5
        for name, kind in ("number", "integer"), ("moment", "timestamp"):
            self.send(op="attrdef.add", definition=name, owners=["group"], several=several,
                      kind=kind, many=True)
        self.send(op="attr.add", attribute=reports.DAYS, definition="number")
        self.send(op="attr.add", attribute=reports.CERTIFIED, definition="moment")
        for _ in range(25):
            self.assign()
            self.value()
            self.member()

    def step(self) -> None:
        """Something happens, some days after what was before or at once."""
        if self.random.random() < 0.6:
            self.recorder.clock += self.random.choice([1, *(n * moments.DAY for n in (1, 5, 20))])
        what = self.random.random()
        if what < 0.3:
            self.member()
        elif what < 0.5:
            self.assign()
        elif what < 0.9:
            self.value()
        elif what < 0.93:
            self.send(op="group.delete", group=self.one_of(GROUPS))
        elif what < 0.97:
            self.grant()
        else:
            self.rename()

    def later(self, days: int) -> str:
        """A moment so many days from the clock, or up to 30 more."""
        return moments.text(
            self.recorder.clock + (days + self.random.randrange(30)) * moments.DAY
        )

    def member(self) -> None:
        """A membership comes or goes; it may begin or end later."""
        member = self.one_of(PERSONS + ["g:gsa/" + group for group in GROUPS])
        request: Dict[str, object] = {"group": self.one_of(GROUPS), "member": member}
        if self.random.random() < 0.3:
            self.send(op="member.remove", **request)
            return
        if self.random.random() < 0.3:
            request["from"] = self.later(0)
        if self.random.random() < 0.3:
            request["until"] = self.later(30)
        self.send(op="member.add", **request)

    def grant(self) -> None:
        """A grant that begins and ends later: its dates change no report."""
        dates = {"from": self.later(0), "until": self.later(30)}
        self.send(op="grant.add", object=self.one_of(GROUPS), privilege="READ",
                  holder=self.one_of(PERSONS), **dates)

    def assign(self) -> None:
        """An assignment comes or goes."""
        if self.assigned and self.random.random() < 0.2:
            attribute, owner, number = self.random.choice(self.assigned)
            self.send(op="assign.remove", attribute=attribute, object=owner, id=number)
            return
        carried = [reports.DAYS, reports.CERTIFIED] * 8
        attribute = self.one_of(RESOURCES[:3] * 3 + RESOURCES + carried)
        owner = self.one_of(GROUPS * 3 + [":", "uni/p0"])
        told = self.send(op="assign.add", attribute=attribute, object=owner)
        if "id" in told:
            self.assigned.append((attribute, owner, int(str(told["id"]))))

    def value(self) -> None:
        """A value comes or goes."""
        if not self.assigned:
            return
        attribute, owner, number = self.random.choice(self.assigned)
        drawn: Dict[str, object] = {
            reports.DAYS: self.random.choice([1, 13, 14, 15, 30, 30, 90, 0, 3650, 3651, -1]),
            reports.CERTIFIED: moments.text(
                self.recorder.clock + self.random.randrange(-40, 20) * moments.DAY
            ),
        }
        op = "value.remove" if self.random.random() < 0.3 else "value.add"
        value = drawn.get(attribute, self.one_of(SAID))
        self.send(op=op, attribute=attribute, object=owner, id=number, value=value)

    def rename(self) -> None:
        """A folder of the attestation has another name, or has its own again."""
        if self.random.random() < 0.5:
            self.send(op="folder.rename", folder="etc:attest", extension="other")
        else:
            self.send(op="folder.rename", folder="etc:other", extension="attest")

    def questions(self) -> List[List[str]]:
        """What is asked at the end."""
        resources = RESOURCES[:6] * 4 + RESOURCES + ["none", "g0", "h::r"]
        subjects = PERSONS * 6 + ["uni/none", "g:gsa/g0", "g:gsa/none", "p0", names.SYSTEM]
        actions, groups = ACTIONS * 4 + ["rea/d"], GROUPS * 4 + ["none", "perm", "g::h"]
        asked = [["reminders"]] + [["attestation", group] for group in GROUPS]
        for _ in range(60):
            asked.append(["permit", *map(self.one_of, (subjects, resources, actions))])
        for _ in range(20):
            asked.append(["permitted", *map(self.one_of, (resources, actions))])
        for _ in range(30):
            days = self.random.choice([-100, -30, -14, -5, -1, 0, 1])
            at = moments.text(max(self.recorder.clock + days * moments.DAY, 0))
            more = self.random.choice([[], ["--at", at], ["--at", at], ["--at", "yesterday"]])
            asked.append(["attested", self.one_of(groups), *more])
        return asked


def told(
    program: Program, words: List[str], moment: int, lines: Sequence[str] = ()
) -> Tuple[str, int]:
    """What the program prints for these lines when the clock says this, and its status."""
    readings = program.folder / "clock.txt"
    readings.write_text(f"{moment}\n")
    done = subprocess.run(
        [program.path, str(program.folder / "journal"), *words],
        input="".join(line + "\n" for line in lines).encode(),
        stdout=subprocess.PIPE,
        env=dict(os.environ, CLOCK_LIST=str(readings), LD_PRELOAD=str(program.shim)),
        cwd=program.folder,
        check=False,
    )
    return done.stdout.decode(), done.returncode


def wanted(history: History, words: List[str], moment: int) -> Tuple[str, int]:
    """What the model says, over the history as it opens again."""
    registry = history.recorder.registry.opened_again()
    given: List[str] = [word for word in words[1:] if word != "--at"]
    text, refused = reports.printed(registry, moment, words[0], *given)
    return text, 11 if refused else 0


def compare(program: Program, seed: int) -> Tuple[int, int]:
    """How many reports of a history were asked, and how many were otherwise."""
    history = History(seed)
    history.make()
    for _ in range(80):
        history.step()
    program.play(history.recorder.history)
    asked = different = 0
    for words in history.questions():
        moment = history.recorder.clock + history.random.choice([0, 0, 1, 15 * moments.DAY])
        asked += 1
        want, found = wanted(history, words, moment), told(program, words, moment)
        if want != found:
            different += 1
            if different <= 3:
                title, clock = history.recorder.history.title, moments.text(moment)
                print(f"{title}: {' '.join(words)} at {clock}")
                print(f"  wanted {want}\n  found  {found}")
    return asked, different


def main() -> int:
    """Reads the words of the command line."""
    first = int(sys.argv[2]) if len(sys.argv) > 2 else 1
    number = int(sys.argv[3]) if len(sys.argv) > 3 else 50
    asked = different = 0
    with tempfile.TemporaryDirectory() as folder:
        program = Program(sys.argv[1], folder)
        for seed in range(first, first + number):
            one = compare(program, seed)
            asked, different = asked + one[0], different + one[1]
    print(f"histories {number}, reports {asked}, differences {different}")
    return int(different > 0)


if __name__ == "__main__":
    sys.exit(main())
