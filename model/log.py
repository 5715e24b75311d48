"""The change log: numbered entries, each at a moment, in the order in which things happened."""

from typing import List, NamedTuple, Optional, Set

from kinds import Thing
from members import Pair


class Entry(NamedTuple):
    """What happened, to what, with whom, and a number: a rule's, an assignment's, a privilege's."""

    moment: int
    kind: str
    object: Optional[Thing] = None
    entity: Optional[Thing] = None
    number: int = 0


def differences(before: Set[Pair], after: Set[Pair], moment: int) -> List[Entry]:
    """The memberships that began or ended in a step, by group and then by person, in one list."""
    return [
        Entry(moment, "member.begin" if pair in after else "member.end", *pair)
        for pair in sorted(before ^ after)
    ]
