"""How many of each kind there may be."""

from typing import Callable, List, Tuple

import names
import refusals
from facts import Facts


def ever_made(kind: str) -> Callable[[Facts], int]:
    """Counts all there ever were, since their past is kept."""
    return lambda facts: facts.made.get(kind, 0)


def longest_name(facts: Facts) -> int:
    """A new name is short enough by its shape, but a rename or a move can make others longer."""
    return max(len(facts.name(thing)) for thing in facts.objects)


# In the order in which they are tried.
LIMITS: List[Tuple[str, int, Callable[[Facts], int]]] = [
    ("folder", 10_000, ever_made("folder")),
    ("group", 100_000, ever_made("group")),
    ("subject", 500_000, ever_made("subject")),
    ("definition", 10_000, ever_made("definition")),
    ("attribute", 10_000, ever_made("attribute")),
    ("assignment", 500_000, ever_made("assignment")),
    ("rule", 10_000, ever_made("rule")),
    ("job", 1_000, ever_made("job")),
    ("consumer", 100, lambda facts: len(facts.consumers)),
    ("row", 2_000_000, lambda facts: len(facts.rows)),
    ("grant", 500_000, lambda facts: len(facts.grants)),
    ("inherit", 500_000, lambda facts: len(facts.inherits)),
    ("value", 500_000,
     lambda facts: sum(len(each.values) for each in facts.assignments.values())),
]
HISTORY = 4_000_000
RECORDS = 200_000  # of a table


def demand_room(before: Facts, after: Facts, commands: int) -> None:
    """Refuses a command after which a count that it made grow would pass its limit.

    `commands` is the number of commands with this one.
    """
    for kind, limit, count in LIMITS:
        if count(after) > limit and count(after) > count(before):
            raise refusals.full(kind, limit)
    if commands > HISTORY:
        raise refusals.full("history", HISTORY)
    if longest_name(after) > names.LONGEST_NAME:
        raise refusals.full("name", names.LONGEST_NAME)
