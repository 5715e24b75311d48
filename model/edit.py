"""A command's turn: beside who asks and the state that is met, the facts that it leaves.

The checks look at the state as it was. The edits go to a copy, which becomes the registry's facts
where the command isn't refused.
"""

from dataclasses import replace
from typing import TYPE_CHECKING, Dict, List, Optional, Union

import names
import refusals
from facts import Attribute, Definition, Folder, Gone, Grant, Group, Person, Window
from kinds import SYSTEM, Kind, Thing
from log import Entry
from privileges import ADMIN_OF, Privilege
from turn import Turn

if TYPE_CHECKING:
    from registry import Registry

NUMBERED = {
    Kind.FOLDER: "folder",
    Kind.GROUP: "group",
    Kind.PERSON: "subject",
    Kind.DEFINITION: "definition",
    Kind.ATTRIBUTE: "attribute",
}


class Edit(Turn):
    """A command that is judged and carried out."""

    def __init__(self, registry: "Registry", by: str) -> None:
        super().__init__(registry, by)
        self.facts = self.state.facts.copy()
        self.entries: List[Entry] = []
        self.did: Dict[str, object] = {}  # a load's rows: the list of commands tells them

    def note(
        self, kind: str, thing: Optional[Thing] = None, entity: Optional[Thing] = None,
        number: int = 0,
    ) -> None:
        """An entry of the change log, at this command's moment."""
        self.entries.append(Entry(self.moment, kind, thing, entity, number))

    # Checks that several commands share

    def demand_free(self, name: str) -> None:
        """Refuses a name that is in use, whether or not the caller sees by what."""
        if name in self.state.names:
            raise refusals.taken(name)

    # Edits that several commands share

    def make(
        self, kind: Kind, row: Union[Folder, Group, Person, Definition, Attribute]
    ) -> Thing:
        """A new thing with the next id of its kind."""
        thing = Thing(kind, self.facts.next_id(NUMBERED[kind]))
        if isinstance(row, Person):
            self.facts.persons[thing] = row
        else:
            self.facts.objects[thing] = row
        return thing

    def place(self, thing: Thing, folder: Thing, extension: str) -> None:
        """Gives an object another folder or extension; all that stands below goes with it."""
        row = self.facts.objects[thing]
        self.facts.objects[thing] = replace(row, folder=folder, extension=extension)

    def delete(self, thing: Thing) -> None:
        """Takes an object away, with the grants, the inherits and the assignments on it.

        Its last name is kept, whatever is renamed above it later.
        """
        facts, last_name = self.facts, self.facts.name(thing)
        facts.gone[thing] = Gone(self.moment, last_name, facts.objects.pop(thing))
        facts.grants = {
            grant: window for grant, window in facts.grants.items() if grant.object != thing
        }
        facts.inherits = {inherit for inherit in facts.inherits if inherit.folder != thing}
        facts.assignments = {
            number: assignment
            for number, assignment in facts.assignments.items()
            if assignment.owner != thing
        }

    def add_grant(self, thing: Thing, privilege: Privilege, holder: Thing) -> None:
        """A grant from now on, unless the same one stands already, on or not."""
        grant = Grant(thing, privilege, holder)
        if grant not in self.facts.grants:
            self.facts.grants[grant] = Window(self.moment, None)
            self.note("grant.add", thing, holder, privilege)

    def grant_creator(self, thing: Thing) -> None:
        """The creator becomes admin of what was made; GrouperSystem needs no grant."""
        if self.caller != SYSTEM:
            self.add_grant(thing, ADMIN_OF[thing.kind], self.caller)

    def name_in(self, folder: Thing, extension: str) -> str:
        """The name that an extension makes in a folder."""
        return names.join(self.state.facts.name(folder), extension)
