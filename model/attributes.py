"""Commands on definitions, attributes, assignments and values."""

from dataclasses import replace
from typing import Dict, List, Optional, Tuple, Union

import fields
import moments
import names
import refusals
from edit import Edit
from facts import Assignment, Attribute, Definition, Value
from kinds import Kind, Thing
from operations import command
from privileges import Privilege
from turn import is_no_owner

OWNED = (fields.name("attribute"), fields.object_("object"))
OWNERS = {"folder": Kind.FOLDER, "group": Kind.GROUP, "subject": Kind.PERSON}

# Who assigns to a folder or a group needs this on the owner; for a person nothing is asked.
TO_ASSIGN = {Kind.FOLDER: Privilege.stemAttrUpdate, Kind.GROUP: Privilege.groupAttrUpdate}


@command("attrdef.add", fields.name("definition"), fields.words("owners", *OWNERS),
         fields.truth("several"),
         fields.word("kind", "marker", "integer", "text", "timestamp"), fields.truth("many"))
def add_definition(
    edit: Edit, name: str, owners: List[str], several: bool, kind: str, many: bool
) -> None:
    """A new definition; its creator gets attrAdmin on it."""
    folder = edit.folder_for(name)
    edit.demand(folder, Privilege.create)
    edit.demand_free(name)
    suits = frozenset(OWNERS[word] for word in owners)
    row = Definition(folder, names.extension_of(name), suits, several, kind, many)
    definition = edit.make(Kind.DEFINITION, row)
    edit.note("definition.add", definition)
    edit.grant_creator(definition)


@command("attrdef.delete", fields.name("definition"))
def delete_definition(edit: Edit, name: str) -> None:
    """A definition without attributes goes."""
    definition = edit.find(name, Kind.DEFINITION)
    edit.demand(definition, Privilege.attrAdmin)
    attributes = edit.facts.of_kind(Kind.ATTRIBUTE)
    if any(edit.facts.definition_of(each) == definition for each in attributes):
        raise refusals.in_use("attribute")
    edit.delete(definition)
    edit.note("definition.delete", definition)


@command("attr.add", fields.name("attribute"), fields.name("definition"))
def add_attribute(edit: Edit, name: str, definition_name: str) -> None:
    """A new attribute: a name of its definition."""
    folder = edit.folder_for(name)
    definition = edit.find(definition_name, Kind.DEFINITION)
    edit.demand(folder, Privilege.create)
    edit.demand(definition, Privilege.attrAdmin)
    edit.demand_free(name)
    row = Attribute(folder, names.extension_of(name), definition)
    edit.note("attribute.add", edit.make(Kind.ATTRIBUTE, row))


@command("attr.delete", fields.name("attribute"))
def delete_attribute(edit: Edit, name: str) -> None:
    """An attribute that nothing has goes."""
    attribute = edit.find(name, Kind.ATTRIBUTE)
    edit.demand_admin(attribute)
    if any(each.attribute == attribute for each in edit.facts.assignments.values()):
        raise refusals.in_use("assignment")
    edit.delete(attribute)
    edit.note("attribute.delete", attribute)


def judge_owner(edit: Edit, name: str, text: str) -> Tuple[Thing, Thing, Definition]:
    """The attribute, the owner and the definition, where the caller may assign.

    Where the owner is none, only the privilege on the definition is asked before that is told.
    """
    attribute, owner = edit.find(name, Kind.ATTRIBUTE), edit.find_object(text)
    no_owner = is_no_owner(text, owner)
    if not no_owner and owner.kind in TO_ASSIGN:
        edit.demand(owner, TO_ASSIGN[owner.kind])
    edit.demand(attribute, Privilege.attrUpdate)
    if no_owner:
        raise refusals.wrong_kind("object")
    definition = edit.facts.objects[edit.facts.definition_of(attribute)]
    return attribute, owner, definition


def find_assignment(edit: Edit, number: int, attribute: Thing, owner: Thing) -> Assignment:
    """The assignment of this number, where it is of this attribute to this owner."""
    found = edit.facts.assignments.get(number)
    if found is None or (found.attribute, found.owner) != (attribute, owner):
        raise refusals.no_such()
    return found


def value_of(definition: Definition, given: Union[int, str]) -> Optional[Value]:
    """The value where it is of the definition's kind. A marker has none."""
    if definition.value_kind == "integer" and isinstance(given, int):
        return Value("integer", given)
    if definition.value_kind == "text" and isinstance(given, str):
        return Value("text", given)
    if definition.value_kind == "timestamp" and isinstance(given, str):
        moment = moments.read(given)
        return None if moment is None else Value("timestamp", moment)
    return None


@command("assign.add", *OWNED)
def assign(edit: Edit, name: str, text: str) -> Dict[str, int]:
    """An assignment, numbered over the whole registry; a second one only where several may be."""
    attribute, owner, definition = judge_owner(edit, name, text)
    has_it = any(
        (each.attribute, each.owner) == (attribute, owner)
        for each in edit.facts.assignments.values()
    )
    if has_it and not definition.several:
        raise refusals.already()
    if owner.kind not in definition.owners:
        raise refusals.wrong_owner()
    number = edit.facts.next_id("assignment")
    edit.facts.assignments[number] = Assignment(attribute, owner, ())
    edit.note("assign.add", owner, number=number)
    return {"id": number}


@command("assign.remove", *OWNED, fields.number("id"))
def unassign(edit: Edit, name: str, text: str, number: int) -> None:
    """The assignment goes, with its values."""
    attribute, owner, _ = judge_owner(edit, name, text)
    find_assignment(edit, number, attribute, owner)
    del edit.facts.assignments[number]
    edit.note("assign.remove", owner, number=number)


@command("value.add", *OWNED, fields.number("id"), fields.value("value"))
def add_value(edit: Edit, name: str, text: str, number: int, given: Union[int, str]) -> None:
    """A value at the end; a second one only where many may be. Equal values may stand."""
    attribute, owner, definition = judge_owner(edit, name, text)
    assignment = find_assignment(edit, number, attribute, owner)
    value = value_of(definition, given)
    if value is None:
        raise refusals.wrong_value()
    if assignment.values and not definition.many:
        raise refusals.single()
    set_values(edit, number, assignment.values + (value,))
    edit.note("value.add", owner, number=number)


@command("value.remove", *OWNED, fields.number("id"), fields.value("value"))
def remove_value(edit: Edit, name: str, text: str, number: int, given: Union[int, str]) -> None:
    """The first equal value goes. Timestamps are equal as moments."""
    attribute, owner, definition = judge_owner(edit, name, text)
    assignment = find_assignment(edit, number, attribute, owner)
    value = value_of(definition, given)
    if value not in assignment.values:
        raise refusals.no_such()
    place = assignment.values.index(value)
    set_values(edit, number, assignment.values[:place] + assignment.values[place + 1:])
    edit.note("value.remove", owner, number=number)


def set_values(edit: Edit, number: int, values: Tuple[Value, ...]) -> None:
    """Gives an assignment other values."""
    edit.facts.assignments[number] = replace(edit.facts.assignments[number], values=values)
