"""The registry: a line of JSON at a moment in, a line of JSON out.

This is an executable statement of what the program does, written to be read and to be compared
with it. It keeps no sets and no indexes: after each step everything is worked out again from the
rows, and each moment's facts are kept whole. README.md says where to begin reading.
"""

from typing import Dict, List, NamedTuple

import attributes
import consumers
import dates
import folders
import grants
import groups
import keys
import limits
import loads
import log
import memberships
import moments
import questions
import requests
import rounds
import rules
from edit import Edit
from facts import Facts, first_facts
from past import Past
from refusals import Refusal
from state import State
from turn import Turn

Reply = Dict[str, object]

# Importing the families enters their operations in the table of `operations`.
FAMILIES = (
    folders, groups, memberships, grants, attributes, rules, loads, consumers, questions,
)


class Accepted(NamedTuple):
    """An accepted command: when it acted, its line and what that asks, the reply, and what else the
    list of commands tells."""

    moment: int
    line: str
    request: requests.Request
    reply: Reply
    did: Dict[str, object]


class Registry:
    """What the accepted commands made, from the first one on."""

    def __init__(self) -> None:
        self.clock = 0
        self.state = State(first_facts(), 0)
        self.past = Past(self.state)
        self.log: List[log.Entry] = []
        self.accepted: List[Accepted] = []

    def answer(self, moment: int, line: str) -> str:
        """The reply to a line that is read at a moment.

        A request acts at the greater of this moment and the greatest one used before. The dates
        up to then come first, also where the request is refused or is a question.
        """
        self.pass_to(max(self.clock, min(moment, moments.GREATEST)))
        try:
            reply = self.reply(line)
        except Refusal as refusal:
            reply = refusal.reply
        return requests.reply_text(reply)

    def reply(self, line: str) -> Reply:
        """What a request that isn't refused is answered."""
        request = requests.read(line)
        if request.operation.is_question:
            turn = Turn(self, request.by)
            return {"ok": True, **request.operation.meaning(turn, *request.values)}
        earlier = keys.earlier(self.accepted, request)
        if earlier is not None:
            return keys.answer_again(earlier, request)
        edit = Edit(self, request.by)
        carried = request.operation.meaning(edit, *request.values) or {}
        limits.demand_room(self.state.facts, edit.facts, len(self.accepted) + 1)
        self.step(self.clock, edit.facts, edit.entries)
        reply: Reply = {"ok": True, "number": len(self.accepted) + 1, **carried}
        self.accepted.append(Accepted(self.clock, line, request, reply, edit.did or carried))
        return reply

    def pass_to(self, moment: int) -> None:
        """Lets the dates come that lie between the clock and the moment, one after another."""
        while True:
            date = dates.next_date(self.state.facts, self.clock, moment)
            if date is None:
                break
            facts = self.state.facts.copy()
            entries = dates.end_all(facts, date)
            self.step(date, facts, entries)
            self.clock = date
        self.clock = moment

    def step(self, moment: int, facts: Facts, direct: List[log.Entry]) -> None:
        """Ends a step: the direct change is made, the rules act on the memberships that it ended.

        The log gets the direct entries, the rules' actions, and then the memberships that the
        whole step began or ended.
        """
        before = self.state.pairs
        actions = rounds.settle(facts, before - State(facts, moment).pairs, moment)
        self.state = State(facts, moment)
        self.past.keep(self.state)
        self.log += direct + actions + log.differences(before, self.state.pairs, moment)

    def opened_again(self) -> "Registry":
        """The registry after a stop: the accepted commands alone, at their moments.

        The clock is the last one's, and may be set back to it; dates after it are to come again.
        """
        again = Registry()
        for command in self.accepted:
            again.answer(command.moment, command.line)
        return again
