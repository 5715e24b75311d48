"""One request's turn: who asks, which state it meets, and how names are found and demands met.

What the caller can't see is answered as what doesn't exist.
"""

from typing import TYPE_CHECKING, Callable, Optional, Set

import names
import refusals
import rights
from kinds import EVERYONE, SYSTEM, Kind, Thing
from privileges import ADMIN_OF, Privilege

if TYPE_CHECKING:
    from registry import Registry


class Turn:
    """The caller, and the registry at the clock's moment."""

    def __init__(self, registry: "Registry", by: str) -> None:
        self.registry = registry
        self.moment = registry.clock
        self.state = registry.state
        self.caller = self._caller(by)
        self.is_root = rights.is_root(self.state, self.caller)

    def _caller(self, by: str) -> Thing:
        """GrouperSystem or a person; no group, and no internal entity but that one."""
        if by == names.SYSTEM:
            return SYSTEM
        if by in self.state.persons:
            return self.state.persons[by]
        raise refusals.no_caller()

    # What is named

    def sees(self, thing: Thing) -> bool:
        """Whether the thing exists for the caller."""
        return rights.sees(self.state, self.caller, thing)

    def find(self, name: str, *kinds: Kind) -> Thing:
        """The object of one of these kinds that has the name and is seen."""
        thing = self.state.names.get(name)
        if thing is None or thing.kind not in kinds or not self.sees(thing):
            raise refusals.not_found(name)
        return thing

    def find_group(self, name: str) -> Thing:
        """The group of this name."""
        return self.find(name, Kind.GROUP)

    def find_folder(self, name: str) -> Thing:
        """The folder of this name."""
        return self.find(name, Kind.FOLDER)

    def folder_for(self, new_name: str) -> Thing:
        """The folder in which a new name is to stand."""
        return self.find_folder(names.folder_of(new_name))

    def find_entity(
        self, text: str, counts_unseen: Optional[Callable[[Thing], bool]] = None
    ) -> Thing:
        """The entity of a text. The internal ones always stand.

        A group that the caller doesn't see is found all the same where `counts_unseen` says so:
        whoever may take a row or a grant away may do so though its group is hidden.
        """
        if text in (names.SYSTEM, names.EVERYONE):
            return SYSTEM if text == names.SYSTEM else EVERYONE
        if names.is_group_entity(text):
            name = text[len(names.GROUP_PREFIX):]
            thing = self.state.names.get(name)
            if thing is not None and counts_unseen is not None and counts_unseen(thing):
                return thing
            return self.find_group(name)
        if text not in self.state.persons:
            raise refusals.not_found(text)
        return self.state.persons[text]

    def find_object(self, text: str) -> Thing:
        """An entity, or a named object of any kind."""
        if "/" in text:
            return self.find_entity(text)
        return self.find(text, Kind.FOLDER, Kind.GROUP, Kind.DEFINITION, Kind.ATTRIBUTE)

    # What is demanded

    def held(self, thing: Thing) -> Set[Privilege]:
        """The caller's privileges on an object."""
        return rights.held(self.state, self.caller, thing)

    def demand(self, thing: Thing, privilege: Privilege) -> None:
        """Refuses a caller without the privilege. An attribute's are those of its definition."""
        if thing.kind == Kind.ATTRIBUTE:
            thing = self.state.facts.definition_of(thing)
        if privilege not in self.held(thing):
            raise refusals.denied(self.state.facts.name(thing), privilege.name)

    def demand_root(self) -> None:
        """Refuses all but GrouperSystem and the wheel group's members."""
        if not self.is_root:
            raise refusals.denied(names.ROOT, "ROOT")

    def demand_admin(self, thing: Thing) -> None:
        """Refuses who isn't admin of the object; of persons and internal entities only root is."""
        if thing.kind == Kind.ATTRIBUTE:
            thing = self.state.facts.definition_of(thing)
        if thing.kind in ADMIN_OF:
            self.demand(thing, ADMIN_OF[thing.kind])
        else:
            self.demand_root()


def is_no_owner(text: str, thing: Thing) -> bool:
    """Whether attributes can't be assigned here at all: only folders, groups by their names and
    persons have them, and no group that is named as an entity."""
    owners = (Kind.FOLDER, Kind.GROUP, Kind.PERSON)
    return thing.kind not in owners or names.is_group_entity(text)
