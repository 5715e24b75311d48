"""A history: lines at moments, with the replies that the model wants, and stops between them."""

import json
from dataclasses import dataclass, field
from random import Random
from typing import Dict, Iterator, List, NamedTuple

import moments
import names
from kinds import Kind
from registry import Registry

Request = Dict[str, object]


class Line(NamedTuple):
    """A line as the program reads it, the clock's reading with it, and the reply wanted."""

    moment: int
    text: str
    wanted: str


@dataclass
class History:
    """Runs of the program over one journal; between two of them it is stopped."""

    title: str
    runs: List[List[Line]] = field(default_factory=lambda: [[]])

    def lines(self) -> Iterator[Line]:
        """All lines, in order."""
        return (line for run in self.runs for line in run)


class Recorder:
    """Sends lines to a model and keeps them as a history."""

    def __init__(self, title: str, clock: int) -> None:
        self.registry = Registry()
        self.clock = clock  # what the next reading will be
        self.history = History(title)

    def send_line(self, text: str) -> Dict[str, object]:
        """One line as it stands."""
        wanted = self.registry.answer(self.clock, text)
        self.history.runs[-1].append(Line(self.clock, text, wanted))
        return json.loads(wanted)

    def send(self, request: Request) -> Dict[str, object]:
        """One request."""
        return self.send_line(json.dumps(request, ensure_ascii=False))

    def stop(self) -> None:
        """The program stops and is started again over what it kept."""
        self.registry = self.registry.opened_again()
        self.history.runs.append([])

    def ask_everything(self, random: Random, most: int) -> None:
        """The whole log by a new consumer, and questions by root and two others.

        They are about every moment at which something happened, a microsecond before it and one
        after it. Where they would be more than about `most`, some of each operation are drawn.
        """
        self.clock = self.registry.clock
        self.read_log()
        persons = sorted(self.registry.state.persons)
        callers = [names.SYSTEM] + random.sample(persons, min(2, len(persons)))
        of_each_op: Dict[object, List[Request]] = {}
        for question in self.questions():
            for caller in callers:
                of_each_op.setdefault(question["op"], []).append({"by": caller, **question})
        for questions in of_each_op.values():
            share = max(most // len(of_each_op), 1)
            for question in random.sample(questions, min(share, len(questions))):
                self.send(question)

    def read_log(self) -> None:
        """A new consumer reads up to the end, piece by piece."""
        root = {"by": names.SYSTEM, "consumer": "reader"}
        self.send({"op": "consumer.add", **root})
        place = 0
        while place < len(self.registry.log):
            self.send({"op": "log", "max": 1000, **root})
            place = min(len(self.registry.log), place + 1000)
            self.send({"op": "consumer.ack", "seq": place, **root})

    def questions(self) -> Iterator[Request]:
        """Every question about everything."""
        state, clock = self.registry.state, self.registry.clock
        persons, objects = sorted(state.persons), sorted(state.names)
        groups = {state.facts.name(each) for each in state.facts.of_kind(Kind.GROUP)}
        groups |= {gone.name for gone in state.facts.gone.values()}
        changes = [kept.moment for kept in self.registry.past.states]
        near = {change + offset for change in changes for offset in (-1, 0, 1)} | {clock}
        yield {"op": "admin"}
        for name in sorted(groups):
            for op in ("group.get", "rows", "history"):
                yield {"op": op, "group": name}
        for folder in state.facts.of_kind(Kind.FOLDER):
            yield {"op": "folder.list", "folder": state.facts.name(folder)}
        for moment in sorted(each for each in near if 0 <= each <= clock):
            at = moments.text(moment)
            yield from ({"op": "members", "group": name, "at": at} for name in sorted(groups))
            yield from ({"op": "groups", "subject": person, "at": at} for person in persons)
            for name in objects + persons:
                yield {"op": "attributes", "object": name, "at": at}
            for name in objects:
                yield {"op": "grants", "object": name, "at": at}
                for person in persons + [names.SYSTEM]:
                    yield {"op": "may", "object": name, "entity": person, "at": at}
