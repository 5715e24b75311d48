"""What stands: objects, persons, rows and all the rest, as plain data without any index."""

from dataclasses import dataclass, field
from typing import Dict, FrozenSet, List, NamedTuple, Optional, Set, Tuple, Union

import names
from kinds import EVERYONE, ROOT_FOLDER, Kind, Thing
from privileges import Privilege


@dataclass(frozen=True)
class Named:
    """A named object: an extension in a folder. The root folder alone is in none."""

    folder: Optional[Thing]
    extension: str


@dataclass(frozen=True)
class Folder(Named):
    """A place for objects, other folders among them."""

    display: str


@dataclass(frozen=True)
class Group(Named):
    """A group of persons: composite, or with rows."""

    display: str


@dataclass(frozen=True)
class Definition(Named):
    """What attributes of it may be: on which owners, how often, with which values."""

    owners: FrozenSet[Kind]
    several: bool  # an owner may have one attribute several times
    value_kind: str  # marker, integer, text, timestamp
    many: bool  # an assignment may have several values


@dataclass(frozen=True)
class Attribute(Named):
    """A name that can be given to an owner."""

    definition: Thing


@dataclass(frozen=True)
class Person:
    """Requests say subject; `text` is the source and the id."""

    text: str
    display: str


class Window(NamedTuple):
    """From when a row or a grant is on, and the moment at which it is taken away, if there is one.
    """

    begins: int
    until: Optional[int]


@dataclass(frozen=True)
class Composite:
    """A group whose members are the intersection or the union of two factors, or the left without
    the right."""

    kind: str  # intersection, complement, union
    left: Thing
    right: Thing


class Grant(NamedTuple):
    """A privilege on one object, held by a person, a group's members, or everyone.

    At most one stands of each, whatever its dates are.
    """

    object: Thing
    privilege: Privilege
    holder: Thing


class Inherit(NamedTuple):
    """A privilege on all objects of a kind directly in a folder (ONE) or anywhere below (SUB)."""

    folder: Thing
    kind: Kind
    scope: str
    privilege: Privilege
    holder: Thing


class Value(NamedTuple):
    """A value of an assignment; a timestamp is kept as its moment."""

    kind: str
    content: Union[int, str]


@dataclass(frozen=True)
class Assignment:
    """An attribute given to an owner, with its values in the order of adding."""

    attribute: Thing
    owner: Thing
    values: Tuple[Value, ...]


@dataclass(frozen=True)
class RemoveLost:
    """Who stops being a member of `check` loses the row in `owner`."""

    check: Thing
    owner: Thing


@dataclass(frozen=True)
class EndLost:
    """Who stops being a member of `check` gets an end to the row in `owner`, `days` later."""

    check: Thing
    owner: Thing
    days: int


@dataclass(frozen=True)
class Veto:
    """Who isn't a member of `condition` can't be added to `owner`."""

    owner: Thing
    condition: Thing


@dataclass(frozen=True)
class OnCreate:
    """A new group in the folder's scope gets a grant."""

    folder: Thing
    scope: str
    privilege: Privilege
    holder: Thing


Rule = Union[RemoveLost, EndLost, Veto, OnCreate]


@dataclass(frozen=True)
class Job:
    """A table's target: one group, or a folder whose groups are named in the table."""

    name: str
    target: Thing
    source: str
    min_size: int
    max_percent: int


@dataclass(frozen=True)
class Gone:
    """A named object that was deleted: when, the name that it had then, and what it was."""

    moment: int
    name: str
    was: Named


@dataclass
class Facts:
    """All that stands, and the last names of what is gone.

    Facts that a step has left are never changed: the next step edits a copy.
    """

    objects: Dict[Thing, Named] = field(default_factory=dict)
    persons: Dict[Thing, Person] = field(default_factory=dict)
    rows: Dict[Tuple[Thing, Thing], Window] = field(default_factory=dict)  # (group, member)
    composites: Dict[Thing, Composite] = field(default_factory=dict)
    grants: Dict[Grant, Window] = field(default_factory=dict)
    inherits: Set[Inherit] = field(default_factory=set)
    assignments: Dict[int, Assignment] = field(default_factory=dict)
    rules: Dict[int, Rule] = field(default_factory=dict)
    jobs: Dict[int, Job] = field(default_factory=dict)
    consumers: Dict[str, int] = field(default_factory=dict)  # the place of each, as made
    gone: Dict[Thing, Gone] = field(default_factory=dict)  # in the order of going
    made: Dict[str, int] = field(default_factory=dict)  # how many of a kind there ever were

    def copy(self) -> "Facts":
        """Facts of their own with the same content."""
        return Facts(**{name: content.copy() for name, content in vars(self).items()})

    def next_id(self, kind: str) -> int:
        """Counts one more of a kind; its number is the id."""
        self.made[kind] = self.made.get(kind, 0) + 1
        return self.made[kind]

    def of_kind(self, kind: Kind) -> List[Thing]:
        """The named objects of a kind that stand, by id."""
        return sorted(thing for thing in self.objects if thing.kind == kind)

    def name(self, thing: Thing) -> str:
        """The name of an object now, or the one that it had when it went."""
        if thing == ROOT_FOLDER:
            return names.ROOT
        if thing in self.gone:
            return self.gone[thing].name
        if thing.kind == Kind.PERSON:
            return self.persons[thing].text
        row = self.objects[thing]
        return names.join(self.name(row.folder), row.extension)

    def entity_text(self, thing: Optional[Thing]) -> str:
        """A thing as an entity is printed; nothing is the empty text."""
        if thing is None:
            return ""
        if thing.kind == Kind.GROUP:
            return names.GROUP_PREFIX + self.name(thing)
        return names.EVERYONE if thing == EVERYONE else self.name(thing)

    def folders_above(self, thing: Thing) -> List[Thing]:
        """The folders in which an object stands, from the nearest to the root."""
        folder = self.objects[thing].folder
        return [] if folder is None else [folder] + self.folders_above(folder)

    def in_scope(self, thing: Thing, folder: Thing, scope: str) -> bool:
        """Whether an object is directly in the folder (ONE) or anywhere below it (SUB).

        A folder isn't in its own scope.
        """
        above = self.folders_above(thing)
        return folder in (above[:1] if scope == "ONE" else above)

    def definition_of(self, attribute: Thing) -> Thing:
        """The definition of an attribute, also of one that is gone."""
        if attribute in self.gone:
            return self.gone[attribute].was.definition
        return self.objects[attribute].definition


def first_facts() -> Facts:
    """Where every registry begins: the root folder alone."""
    return Facts(objects={ROOT_FOLDER: Folder(None, "", "")})
