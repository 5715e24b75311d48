"""Effective membership: who is in a group in the end, and which groups depend on which."""

from typing import Dict, FrozenSet, List, Set, Tuple

from facts import Composite, Facts
from kinds import Kind, Thing

Pair = Tuple[Thing, Thing]  # (group, person)


def is_on(facts: Facts, group: Thing, member: Thing, moment: int) -> bool:
    """A row is on from its `from`. At its `until` it is taken away, so no end is asked here."""
    return facts.rows[(group, member)].begins <= moment


def combined(kind: str, left: FrozenSet[Thing], right: FrozenSet[Thing]) -> FrozenSet[Thing]:
    """The persons of a composite, by those of its factors."""
    if kind == "union":
        return left | right
    return left & right if kind == "intersection" else left - right


def effective_members(facts: Facts, moment: int) -> Dict[Thing, FrozenSet[Thing]]:
    """The persons of every group.

    A person is in a composite by its two factors, and in another group by a row that is on and
    names the person or a group that has the person.
    """
    found: Dict[Thing, FrozenSet[Thing]] = {}

    def persons_of(group: Thing) -> FrozenSet[Thing]:
        if group not in found:
            composite = facts.composites.get(group)
            found[group] = by_rows(group) if composite is None else by_factors(composite)
        return found[group]

    def by_rows(group: Thing) -> FrozenSet[Thing]:
        persons: Set[Thing] = set()
        for owner, member in facts.rows:
            if owner == group and is_on(facts, group, member, moment):
                persons |= {member} if member.kind == Kind.PERSON else persons_of(member)
        return frozenset(persons)

    def by_factors(composite: Composite) -> FrozenSet[Thing]:
        left, right = persons_of(composite.left), persons_of(composite.right)
        return combined(composite.kind, left, right)

    return {group: persons_of(group) for group in facts.of_kind(Kind.GROUP)}


def effective_pairs(facts: Facts, moment: int) -> Set[Pair]:
    """Every membership as a pair of group and person."""
    return {
        (group, person)
        for group, persons in effective_members(facts, moment).items()
        for person in persons
    }


def directly_below(facts: Facts, group: Thing) -> List[Thing]:
    """The groups in a group's rows, also in those that aren't on yet, and its factors."""
    nested = [
        member for owner, member in facts.rows if owner == group and member.kind == Kind.GROUP
    ]
    composite = facts.composites.get(group)
    return nested if composite is None else [composite.left, composite.right]


def depends_on(facts: Facts, group: Thing, other: Thing) -> bool:
    """Whether a group is the other, or reaches it through rows and factors."""
    return group == other or any(
        depends_on(facts, below, other) for below in directly_below(facts, group)
    )
