"""What follows within one step from memberships that ended: the rounds of the rules.

A step is one accepted command or one date that comes.
"""

from typing import List, Optional, Set, Tuple

import members
import moments
from facts import EndLost, Facts, RemoveLost, Rule, Window
from kinds import Thing
from log import Entry
from members import Pair


def settle(facts: Facts, ended: Set[Pair], moment: int) -> List[Entry]:
    """Lets the rules act on the memberships that ended, round after round.

    If an action of a round changed a row, a further round follows over the memberships that this
    round ended. Each action takes a row away or ends one that had no end, so the rounds end.
    """
    entries: List[Entry] = []
    while True:
        before = members.effective_pairs(facts, moment)
        actions = one_round(facts, ended, moment)
        if not actions:
            return entries
        entries += actions
        ended = before - members.effective_pairs(facts, moment)


def one_round(facts: Facts, ended: Set[Pair], moment: int) -> List[Entry]:
    """The memberships by group and person, and for each the rules that check its group by number.

    Each rule acts on the rows as they then are.
    """
    entries: List[Entry] = []
    for group, person in sorted(ended):
        for number, rule in checking(facts, group):
            kind = act(facts, rule, person, moment)
            if kind is not None:
                entries.append(Entry(moment, kind, rule.owner, person, number))
    return entries


def checking(facts: Facts, group: Thing) -> List[Tuple[int, Rule]]:
    """The rules that act on who is no member of the group any more, by number."""
    return [
        (number, rule) for number, rule in sorted(facts.rules.items())
        if isinstance(rule, (RemoveLost, EndLost)) and rule.check == group
    ]


def act(facts: Facts, rule: Rule, person: Thing, moment: int) -> Optional[str]:
    """One rule on the person's row that is on; tells the kind of entry, or None for no change.

    An end past the greatest moment isn't set.
    """
    row = facts.rows.get((rule.owner, person))
    if row is None or not members.is_on(facts, rule.owner, person, moment):
        return None
    if isinstance(rule, RemoveLost):
        del facts.rows[(rule.owner, person)]
        return "row.remove"
    until = moment + rule.days * moments.DAY
    if row.until is not None or until > moments.GREATEST:
        return None
    facts.rows[(rule.owner, person)] = Window(row.begins, until)
    return "row.window"
