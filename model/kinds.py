"""The kinds of things, and what names a thing whatever happens to it.

Ids are given in the order of making and never used again, so an order by id is an order by age.
"""

from enum import IntEnum
from typing import NamedTuple


class Kind(IntEnum):
    """The kinds of things, in the order in which lists of holders and members show them."""

    SYSTEM = 0
    EVERYONE = 1
    PERSON = 2
    GROUP = 3
    FOLDER = 4
    DEFINITION = 5
    ATTRIBUTE = 6


class Thing(NamedTuple):
    """Whatever keeps its identity: a named object, a person, or an internal entity."""

    kind: Kind
    id: int


SYSTEM = Thing(Kind.SYSTEM, 0)
EVERYONE = Thing(Kind.EVERYONE, 0)
ROOT_FOLDER = Thing(Kind.FOLDER, 0)
