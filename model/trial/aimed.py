"""Aimed histories: what random ones hardly reach, each with a title, written line by line.

    +5                          the clock from here on, in microseconds after the start
    9999-12-31T00:00:00Z        the same as a moment
    stop                        the program is stopped and started again
    member.add g uni/p1 until=+7    a command or question of GrouperSystem: the needed fields
                                in their order, and those that may be left out by name, `key` too
    uni/p1: members g           the same by somebody else
    ... => NotFound g           each word behind the arrow has to be in the reply
    | row.add g uni/p1 0        the log's last entries, one a line: kind, object, entity, number

What stands behind arrows and bars was written by hand: the model itself is held to it.
"""

import re
from random import Random
from typing import Iterator, List

import aimed_dates
import aimed_grants
import aimed_keys
import aimed_names
import aimed_rules
import aimed_views
import moments
import names
from fields import Field
from histories import START
from operations import OPERATIONS
from record import History, Recorder, Request
from requests import LONGEST_LINE

QUESTIONS = 400


class Fault(Exception):
    """The model doesn't answer what was written by hand."""


def value_of(field: Field, word: str) -> object:
    """The value that a word means for a field."""
    if field.is_moment and word[0] in "+-":
        return moments.text(START + int(word))
    if re.fullmatch(r"-?\d+", word) and (field.name == "value" or not field.is_right(word)):
        return int(word)
    if word in ("true", "false"):
        return word == "true"
    if field.name == "owners":
        return word.split(",")
    return word.replace("\\n", "\n")


def request_of(text: str) -> Request:
    """The request of a line without arrow."""
    other_caller = re.match(r"(\S+/\S+): ", text)
    caller = other_caller.group(1) if other_caller else names.SYSTEM
    op, *words = text[other_caller.end() if other_caller else 0:].split()
    request: Request = {"op": op, "by": caller}
    fields = {field.name: field for field in OPERATIONS[op].fields}
    needed = [field for field in fields.values() if not field.optional]
    for field in needed:
        request[field.name] = value_of(field, words.pop(0))
    for word in words:
        name, _, value = word.partition("=")
        request[name] = value_of(fields[name], value) if name in fields else value
    return request


def clock_of(text: str) -> int:
    """The clock that a line sets, or -1 where it sets none."""
    if re.fullmatch(r"[+-]\d+", text):
        return START + int(text)
    moment = moments.read(text)
    return -1 if moment is None else moment


class Reader:
    """Plays the lines of one case."""

    def __init__(self, title: str) -> None:
        self.recorder = Recorder(title, START)

    def play(self, text: str) -> History:
        """All lines, and at the end all questions."""
        entries: List[str] = []
        for line in [*(each.strip() for each in text.strip().splitlines()), "end"]:
            if line.startswith("|"):
                entries.append(" ".join(line[1:].split()))
                continue
            self.check_log(entries)
            entries = []
            if line not in ("", "end"):
                self.play_line(line)
        self.recorder.ask_everything(Random(self.recorder.history.title), QUESTIONS)
        return self.recorder.history

    def play_line(self, line: str) -> None:
        """One line that isn't about the log."""
        clock = clock_of(line)
        if clock >= 0:
            self.recorder.clock = clock
        elif line == "stop":
            self.recorder.stop()
        else:
            text, _, wanted = line.partition(" => ")
            self.recorder.send(request_of(text.strip()))
            reply = self.recorder.history.runs[-1][-1].wanted
            if not all(word in reply for word in wanted.split()):
                raise Fault(f"{self.recorder.history.title}: {line}: {reply}")

    def check_log(self, wanted: List[str]) -> None:
        """Holds the log's last entries to those written by hand."""
        registry = self.recorder.registry
        facts = registry.state.facts
        found = [
            " ".join(filter(None, [
                entry.kind,
                "" if entry.object is None else facts.name(entry.object),
                facts.entity_text(entry.entity),
                str(int(entry.number)),
            ]))
            for entry in registry.log
        ]
        if wanted and found[-len(wanted):] != wanted:
            raise Fault(f"{self.recorder.history.title}: log {found[-len(wanted):]}")


def histories() -> Iterator[History]:
    """All aimed histories."""
    parts = (aimed_dates, aimed_grants, aimed_rules, aimed_names, aimed_views, aimed_keys)
    for part in parts:
        for title, text in part.CASES:
            yield Reader(title).play(text)
    yield long_lines()


def long_lines() -> History:
    """Lines of as many bytes as are read, and of one more."""
    recorder = Recorder("lines as long as can be", START)
    question = '{"op":"admin","by":"g:isa/GrouperSystem"}'
    for text in (question, "", question[:-1]):
        recorder.send_line(text.ljust(LONGEST_LINE))
        recorder.send_line(text.ljust(LONGEST_LINE + 1))
    recorder.send_line(question.ljust(LONGEST_LINE - 1) + "\u00e9")
    return recorder.history
