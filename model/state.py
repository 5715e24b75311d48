"""The facts that stand at a moment, with what follows from them."""

from functools import cached_property
from typing import Dict, FrozenSet, Set

from facts import Facts
from kinds import Thing
from members import Pair, effective_members


class State:
    """Facts that don't change any more, and the moment at which they are looked at.

    What follows from them is recomputed from the rows, once for each state.
    """

    def __init__(self, facts: Facts, moment: int) -> None:
        self.facts = facts
        self.moment = moment

    @cached_property
    def members(self) -> Dict[Thing, FrozenSet[Thing]]:
        """The persons of each group."""
        return effective_members(self.facts, self.moment)

    @cached_property
    def pairs(self) -> Set[Pair]:
        """Every membership as a pair of group and person."""
        return {(group, person) for group, persons in self.members.items() for person in persons}

    @cached_property
    def names(self) -> Dict[str, Thing]:
        """The object of each name. One name names one object among all kinds."""
        return {self.facts.name(thing): thing for thing in self.facts.objects}

    @cached_property
    def persons(self) -> Dict[str, Thing]:
        """The person of each text."""
        return {person.text: thing for thing, person in self.facts.persons.items()}
