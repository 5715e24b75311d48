"""Compares what the program tells of the past with what the model tells, byte by byte.

    python3 audited.py PROGRAM [FIRST_SEED] [HISTORIES]

After each aimed history, and each of HISTORIES random ones (60 by itself, from seed 1 on), the
journal's bytes are compared, then the list of its commands and parts of it, and the replies of
`as-of` at some moments to questions of all kinds by anybody. Of each moment some questions are also
asked in two ways, as of it and now with its `at`: the answers have to say the same of what stood
then and stands now. Then a command is put behind the journal under a key that its caller has, which
has to be damage. At last the history's journal of the first format is migrated, without the keys,
and up to the first union or dated grant. The status is 1 where there is a difference.
"""

import json
import os
import sys
import tempfile
from collections import Counter
from random import Random
from typing import Dict, Iterator, List, Optional, Sequence, Tuple

# the model is in the folder above
sys.path.insert(0, os.path.dirname(os.path.dirname(os.path.abspath(__file__))))

import audit
import compare
import fields
import journal
import moments
import names
import refusals
import requests
from histories import NASTY_LINES, NASTY_TEXTS, WEIGHTS, Play
from kinds import Kind, Thing
from operations import OPERATIONS
from program import Program
from record import History, Request
from registry import Accepted, Registry
from reported import told

MOMENTS = 10
QUESTIONS = 60
TWICE = 30
SHOWN = 5
SKIPPED = ["", "\r"]  # lines without a reply
IN_TWO_WAYS: Dict[str, Sequence[Kind]] = {  # of what these are asked now and then
    "members": [Kind.GROUP],
    "groups": [Kind.PERSON],
    "grants": [Kind.GROUP, Kind.FOLDER, Kind.DEFINITION],
    "may": [Kind.GROUP, Kind.FOLDER, Kind.DEFINITION, Kind.ATTRIBUTE],
    "attributes": [Kind.GROUP, Kind.FOLDER, Kind.PERSON],
}
Replies = Tuple[str, int]  # what is printed, and the status


class Lines(Play):
    """Draws lines for a registry that is looked at, and seldom for another."""

    def __init__(self, random: Random, now: Registry, then: Registry) -> None:
        super().__init__(random.randrange(10**9))
        self.now, self.then = now, then

    def draw(self) -> List[str]:
        """Questions of all kinds by anybody, some commands, and some broken lines."""
        self.recorder.registry = self.then
        every: Dict[object, List[Request]] = {}
        for question in self.recorder.questions():
            every.setdefault(question["op"], []).append(question)
        lines = []
        for _ in range(QUESTIONS):
            self.recorder.registry = self.now if self.chance(0.2) else self.then
            if self.chance(0.03):
                lines.append(self.random.choice(NASTY_LINES + SKIPPED))
                continue
            request = self.drawn(every)
            if self.chance(0.04):
                self.spoil(request)
            end = "\r" if self.chance(0.03) else ""
            lines.append(json.dumps(request, ensure_ascii=False) + end)
        return lines

    def drawn(self, every: Dict[object, List[Request]]) -> Request:
        """A question about something that stood, or any request."""
        if self.chance(0.5):
            asked = self.random.choice(every[self.random.choice(list(every))])
            return {"by": self.caller(), **asked}
        ops = [op for op in WEIGHTS if OPERATIONS[op].is_question or self.chance(0.05)]
        return self.request(self.random.choice(ops))


class Twice:
    """Questions asked now of a moment, and as of it: what stands now and stood then."""

    def __init__(self, random: Random, now: Registry, then: Registry) -> None:
        self.random = random
        self.now, self.then = now.state, then.state
        self.at = moments.text(then.clock)
        both = {*self.now.facts.objects, *self.now.facts.persons} & {
            *self.then.facts.objects, *self.then.facts.persons
        }
        self.of_kind: Dict[Kind, List[Thing]] = {}
        for thing in sorted(both):
            self.of_kind.setdefault(thing.kind, []).append(thing)
        pairs = map(self.pair, random.choices(list(IN_TWO_WAYS), k=TWICE))
        self.asked = [pair for pair in pairs if pair is not None]

    def pair(self, op: str) -> Optional[Tuple[Request, Request]]:
        """One question of now with `at`, and the same of then, by the names that there were."""
        things = [each for kind in IN_TWO_WAYS[op] for each in self.of_kind.get(kind, [])]
        persons = self.of_kind.get(Kind.PERSON, [])
        if not things or not persons:
            return None
        thing, person = self.random.choice(things), self.random.choice(persons)
        key = {"members": "group", "groups": "subject"}.get(op, "object")
        request: Request = {"op": op, "by": names.SYSTEM}
        if op == "may":
            request["entity"] = self.now.facts.name(person)
        return (
            {**request, key: self.now.facts.name(thing), "at": self.at},
            {**request, key: self.then.facts.name(thing)},
        )

    def present(self, name: str) -> str:
        """The present name, or the last one, of what had the name then."""
        if name.startswith(names.GROUP_PREFIX):
            return names.GROUP_PREFIX + self.present(name[len(names.GROUP_PREFIX):])
        thing = self.then.names.get(name)
        return name if thing is None else self.now.facts.name(thing)

    def said(self, reply: Request) -> Request:
        """What the answer as of then says, in the words of the one of now."""
        if "groups" in reply:
            standing = [each for each in reply["groups"]
                        if self.then.names[each] in self.now.facts.objects]
            return {**reply, "groups": [self.present(each) for each in standing]}
        for key, inner in ("grants", "holder"), ("assignments", "attribute"):
            if key in reply:
                return {**reply, key: [{**each, inner: self.present(each[inner])}
                                       for each in reply[key]]}
        return reply


class Trial:
    """One history on the program, and what is asked of it afterwards."""

    def __init__(self, program: Program, history: History, seed: int) -> None:
        self.program, self.history = program, history
        self.random = Random(seed)
        self.counts: Counter = Counter(histories=1)
        self.registry = registry_of(history)
        self.reading = self.registry.clock + self.random.choice([-3, 0, 0, 1, moments.DAY])
        self.now = self.registry.opened_again()
        self.now.pass_to(max(self.now.clock, min(self.reading, moments.GREATEST)))
        replies = program.play(history)
        for difference in compare.differences(history, replies):
            self.differ("a reply", difference.line.wanted, difference.found)

    def differ(self, what: str, wanted: object, found: object) -> None:
        """Counts a difference, and shows the first ones."""
        self.counts["differences"] += 1
        if self.counts["differences"] <= SHOWN:
            print(f"{self.history.title}: {what}\n  wanted {wanted}\n  found  {found}")

    def hold(self, kind: str, what: str, wanted: object, found: object) -> None:
        """Counts what was compared."""
        self.counts[kind] += 1
        if wanted != found:
            self.differ(what, wanted, found)

    def all(self) -> None:
        """The journal, the list of commands, and the past."""
        kept = (self.program.folder / "journal").read_bytes()
        self.hold("journals", "the journal", journal.content(self.registry.accepted), kept)
        for words in self.ranges():
            numbers = dict(zip(words[::2], map(int, words[1::2])))
            text = audit.commands(
                self.registry, numbers.get("--from", 1), numbers.get("--to", fields.LARGEST_NUMBER)
            )
            found = told(self.program, ["commands", *words], self.registry.clock)
            self.hold("lists", " ".join(["commands", *words]), (text, 0), found)
        for _ in range(MOMENTS):
            self.as_of()
        kept_now = (self.program.folder / "journal").read_bytes()
        self.hold("journals", "the journal afterwards", kept, kept_now)
        self.keyed_again(kept)
        self.migrated()

    def keyed_again(self, kept: bytes) -> None:
        """Another command of a caller who has its key already, which no journal has; without a key
        it opens."""
        keyed = [each for each in self.registry.accepted if each.request.key is not None
                 and each.request.by == names.SYSTEM]
        file = self.program.folder / "journal"
        for key in {each.request.key for each in keyed[:1]} | {None}:
            line = {"by": names.SYSTEM, "op": "subject.add", "subject": "uni/zz-new"}
            one = requests.read(json.dumps(line if key is None else {**line, "key": key}))
            last = self.registry.clock
            more = journal.frame(Accepted(last, "", one, {}, {}))
            file.write_bytes(kept[:-1] + more + journal.CLOSED)
            place = journal.keyed_again(file.read_bytes())
            wanted = None if key is None else len(kept) - 1
            self.hold("keys", "where the model finds the key again", wanted, place)
            count = len(self.registry.accepted) + 1
            opened = f"commands {count} moment {moments.text(last)}\n"
            found = told(self.program, ["check"], self.reading)
            self.hold("keys", "check", (opened, 0) if place is None else ("", 7), found)
        file.write_bytes(kept)

    def migrated(self) -> None:
        """The journal of the first format, which `check` refuses and `migrate` carries over."""
        file, second = (self.program.folder / name for name in ("journal", "journal.v2"))
        accepted = journal.old_front(self.registry.accepted)
        old, wanted = journal.old_content(accepted), journal.content(accepted)
        file.write_bytes(old)
        if second.exists():
            second.unlink()
        refused = told(self.program, ["check"], self.reading)
        self.hold("migrations", "check of the old format", ("", 12), refused)
        found = told(self.program, ["migrate"], self.reading)
        self.hold("migrations", "migrate", ("", 0), found)
        made = second.read_bytes() if second.exists() else b""
        self.hold("migrations", "the second file", wanted, made)
        self.hold("migrations", "the first file", old, file.read_bytes())
        self.hold("migrations", "what the model migrates", wanted, journal.migrated(old))

    def ranges(self) -> Iterator[List[str]]:
        """Words behind `commands`."""
        last = len(self.registry.accepted)
        numbers = [1, 2, last, last + 1, fields.LARGEST_NUMBER]
        yield []
        for _ in range(3):
            first, second = (
                str(max(1, self.random.choice([*numbers, self.random.randint(0, last)])))
                for _ in range(2)
            )
            yield ["--from", first]
            yield ["--to", first]
            yield ["--from", first, "--to", second]

    def moment(self) -> str:
        """Mostly one near a change; at times a bound, one that hasn't come, or none."""
        if self.random.random() < 0.04:
            return self.random.choice([*NASTY_TEXTS, "yesterday"])
        changes, clock = [state.moment for state in self.now.past.states], self.now.clock
        drawn = self.random.random()
        if drawn < 0.75:
            moment = self.random.choice(changes) + self.random.randint(-1, 1)
        elif drawn < 0.85:
            moment = self.random.randint(min(changes), max(changes))
        else:
            moment = self.random.choice([0, clock - 1, clock, clock + 1])
        text = moments.text(max(0, min(moments.GREATEST, moment)))
        return text.replace(".000000Z", "Z") if self.random.random() < 0.3 else text

    def as_of(self) -> None:
        """All kinds of lines at one moment, and some questions asked in two ways."""
        at = self.moment()
        try:
            then = audit.earlier(self.now, at)
        except refusals.Refusal:
            lines = ['{"by":"g:isa/GrouperSystem","op":"admin"}']
            wanted, _ = audit.as_of(self.now, self.reading, at, lines)
            found = told(self.program, ["as-of", at], self.reading, lines)
            self.hold("refused", f"as-of {at}", (wanted, 11), found)
            return
        lines = Lines(self.random, self.now, then).draw()
        twice = Twice(self.random, self.now, then)
        earlier = [json.dumps(then_asked) for _, then_asked in twice.asked]
        found = told(self.program, ["as-of", at], self.reading, lines + earlier)
        answers = self.lines_of(then, at, lines + earlier, found)
        if answers:
            self.two_ways(twice, at, answers[len(answers) - len(earlier):])

    def lines_of(
        self, then: Registry, at: str, lines: List[str], found: Replies
    ) -> List[str]:
        """Holds each reply against the model's; gives the replies where there is one for each."""
        asked = [line for line in lines if line not in SKIPPED]
        replies = found[0].split("\n")[:-1]
        self.counts["moments"] += 1
        if found[1] != 0 or len(replies) != len(asked):
            self.differ(f"as-of {at}", f"{len(asked)} replies", found)
            return []
        for line, reply in zip(asked, replies):
            self.hold("questions", f"as-of {at}: {line}", audit.answer(then, line), reply)
        return replies

    def two_ways(self, twice: Twice, at: str, earlier: List[str]) -> None:
        """The same asked now with `at`."""
        lines = [json.dumps(now_asked) for now_asked, _ in twice.asked]
        found = told(self.program, ["apply"], self.reading, lines)[0].split("\n")[:-1]
        for line, reply, then in zip(lines, found, earlier):
            self.hold("twice", f"as of {at}: {line}", twice.said(json.loads(then)),
                      json.loads(reply))


def registry_of(history: History) -> Registry:
    """What the model comes to over a history."""
    registry = Registry()
    for run, lines in enumerate(history.runs):
        if run > 0:
            registry = registry.opened_again()
        for line in lines:
            registry.answer(line.moment, line.text)
    return registry


def main() -> int:
    """Reads the words of the command line."""
    first = int(sys.argv[2]) if len(sys.argv) > 2 else 1
    number = int(sys.argv[3]) if len(sys.argv) > 3 else 60
    counts: Counter = Counter()
    with tempfile.TemporaryDirectory() as folder:
        program = Program(sys.argv[1], folder)
        for seed, history in enumerate(compare.all_histories(first, number), start=first):
            trial = Trial(program, history, seed)
            trial.all()
            counts.update(trial.counts)
    kinds = [kind for kind in counts if kind != "differences"] + ["differences"]
    print(", ".join(f"{kind} {counts[kind]}" for kind in kinds))
    return int(counts["differences"] > 0)


if __name__ == "__main__":
    sys.exit(main())
