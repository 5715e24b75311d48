"""Questions. A past moment is answered over what stood then, and shown by the caller's privileges
now; names are printed as they are now, and those of what is gone as they were last."""

from typing import Dict, List, Optional

import fields
import moments
import refusals
import rights
from consumers import demand_consumer
from facts import EndLost, OnCreate, RemoveLost, Value, Veto
from kinds import EVERYONE, SYSTEM, Kind, Thing
from log import Entry
from operations import question
from privileges import OF_KIND, Privilege
from state import State
from turn import Turn, is_no_owner

INTERNAL = (SYSTEM, EVERYONE)
TO_READ_ATTRIBUTES = {Kind.FOLDER: Privilege.stemAttrRead, Kind.GROUP: Privilege.groupAttrRead}
RULE_FORMS = {
    RemoveLost: "remove_lost", EndLost: "end_lost", Veto: "veto", OnCreate: "on_create",
}


def state_asked(turn: Turn, at: Optional[int]) -> State:
    """The state at the moment asked about, which must have come; left out it is now."""
    if at is not None and at > turn.moment:
        raise refusals.future(at, turn.moment)
    return turn.registry.past.at(turn.moment if at is None else at)


def find_readable_group(turn: Turn, name: str) -> Thing:
    """A standing group that the caller may READ; or, for root, a gone one by its last name.

    A standing group goes first, and of the gone ones of that name the one that went last.
    """
    facts = turn.state.facts
    standing = turn.state.names.get(name)
    if turn.is_root and (standing is None or standing.kind != Kind.GROUP):
        for thing, gone in reversed(list(facts.gone.items())):
            if thing.kind == Kind.GROUP and gone.name == name:
                return thing
    group = turn.find_group(name)
    turn.demand(group, Privilege.READ)
    return group


@question("group.get", fields.name("group"))
def show_group(turn: Turn, name: str) -> Dict[str, object]:
    """Name and display of a group that is seen."""
    group = turn.find_group(name)
    return {"display": turn.state.facts.objects[group].display, "name": name}


@question("folder.list", fields.folder("folder"))
def list_folder(turn: Turn, name: str) -> Dict[str, object]:
    """The names directly in a folder of what is seen, by bytes."""
    folder, facts = turn.find_folder(name), turn.state.facts

    def names_of(kind: Kind) -> List[str]:
        inside = [each for each in facts.of_kind(kind) if facts.objects[each].folder == folder]
        return sorted(facts.name(each) for each in inside if turn.sees(each))

    return {
        "attributes": names_of(Kind.ATTRIBUTE),
        "definitions": names_of(Kind.DEFINITION),
        "folders": names_of(Kind.FOLDER),
        "groups": names_of(Kind.GROUP),
    }


@question("members", fields.name("group"), fields.moment("at"))
def list_members(turn: Turn, name: str, at: Optional[int]) -> Dict[str, object]:
    """The persons of a group then, by id."""
    group = find_readable_group(turn, name)
    persons = state_asked(turn, at).members.get(group, ())
    return {"members": [turn.state.facts.name(person) for person in sorted(persons)]}


@question("rows", fields.name("group"))
def list_rows(turn: Turn, name: str) -> Dict[str, object]:
    """A group's factors and rows, on or not, persons before groups."""
    group, facts = turn.find_group(name), turn.state.facts
    turn.demand(group, Privilege.READ)
    composite = facts.composites.get(group)
    return {
        "composite": composite and {
            "kind": composite.kind,
            "left": facts.name(composite.left),
            "right": facts.name(composite.right),
        },
        "rows": [
            {
                "from": moments.text(row.begins),
                "member": facts.entity_text(member),
                "until": None if row.until is None else moments.text(row.until),
            }
            for (owner, member), row in sorted(facts.rows.items(), key=lambda item: item[0])
            if owner == group
        ],
    }


@question("groups", fields.entity("subject"), fields.moment("at"))
def list_groups(turn: Turn, text: str, at: Optional[int]) -> Dict[str, object]:
    """The standing groups that the caller may READ and in which the person was then, by id."""
    person, facts = turn.find_entity(text), turn.state.facts
    state = state_asked(turn, at)
    if person.kind != Kind.PERSON:
        raise refusals.wrong_kind("subject")
    found = [
        group
        for group in facts.of_kind(Kind.GROUP)
        if Privilege.READ in turn.held(group) and person in state.members.get(group, ())
    ]
    return {"groups": [facts.name(group) for group in found]}


@question("grants", fields.object_("object"), fields.moment("at"))
def list_grants(turn: Turn, text: str, at: Optional[int]) -> Dict[str, object]:
    """The grants on an object that were on then, direct and inherited, each once: by privilege,
    then EveryEntity, persons and groups."""
    thing = turn.find_object(text)
    if thing not in INTERNAL:
        turn.demand_admin(thing)
    state = state_asked(turn, at)
    if thing.kind not in OF_KIND:
        raise refusals.wrong_kind("object")
    stood = thing in state.facts.objects
    grants = sorted(rights.grants_on(state, thing)) if stood else []
    return {
        "grants": [
            {"holder": turn.state.facts.entity_text(holder), "privilege": privilege.name}
            for privilege, holder in grants
        ]
    }


@question("may", fields.object_("object"), fields.entity("entity"), fields.moment("at"))
def list_privileges(
    turn: Turn, text: str, entity_text: str, at: Optional[int]
) -> Dict[str, object]:
    """A person's or GrouperSystem's privileges on an object then, those included that others
    give. One may ask about oneself; about others the object's admin may."""
    thing, entity = turn.find_object(text), turn.find_entity(entity_text)
    if thing not in INTERNAL and entity != turn.caller:
        turn.demand_admin(thing)
    state = state_asked(turn, at)
    if thing in INTERNAL:
        raise refusals.wrong_kind("object")
    if entity != SYSTEM and entity.kind != Kind.PERSON:
        raise refusals.wrong_kind("entity")
    stood = thing in state.facts.objects and (entity == SYSTEM or entity in state.facts.persons)
    found = rights.held(state, entity, thing) if stood else set()
    return {"privileges": [privilege.name for privilege in sorted(found)]}


@question("attributes", fields.object_("object"), fields.moment("at"))
def list_assignments(turn: Turn, text: str, at: Optional[int]) -> Dict[str, object]:
    """An owner's assignments then, by number, those on whose definition the caller has attrRead
    now. Those of a definition that is gone are root's alone."""
    owner, facts = turn.find_object(text), turn.state.facts
    no_owner = is_no_owner(text, owner)
    if not no_owner and owner.kind in TO_READ_ATTRIBUTES:
        turn.demand(owner, TO_READ_ATTRIBUTES[owner.kind])
    state = state_asked(turn, at)
    if no_owner:
        raise refusals.wrong_kind("object")

    def is_shown(attribute: Thing) -> bool:
        definition = facts.definition_of(attribute)
        return turn.is_root or (
            definition in facts.objects and Privilege.attrRead in turn.held(definition)
        )

    return {
        "assignments": [
            {
                "attribute": facts.name(each.attribute),
                "id": number,
                "values": [shown_value(value) for value in each.values],
            }
            for number, each in sorted(state.facts.assignments.items())
            if each.owner == owner and is_shown(each.attribute)
        ]
    }


def shown_value(value: Value) -> object:
    """A value as it is printed."""
    return moments.text(value.content) if value.kind == "timestamp" else value.content


@question("history", fields.name("group"))
def show_history(turn: Turn, name: str) -> Dict[str, object]:
    """When each person was in a group, by person and then by begin."""
    group = find_readable_group(turn, name)
    return {
        "history": [
            {
                "from": moments.text(begin),
                "subject": turn.state.facts.name(person),
                "to": None if end is None else moments.text(end),
            }
            for person, intervals in sorted(turn.registry.past.intervals(group).items())
            for begin, end in intervals
        ]
    }


@question("log", fields.extension("consumer"), fields.number("max", 1, 1000))
def show_log(turn: Turn, name: str, most: int) -> Dict[str, object]:
    """The entries after a consumer's place. Showing them doesn't move the place."""
    place, log = demand_consumer(turn, name), turn.registry.log
    entries = enumerate(log[place:place + most], start=place + 1)
    return {
        "entries": [shown_entry(turn, number, entry) for number, entry in entries],
        "last": len(log),
        "place": place,
    }


def shown_entry(turn: Turn, number: int, entry: Entry) -> Dict[str, object]:
    """An entry as it is printed: objects by name, entities as entities."""
    facts = turn.state.facts
    return {
        "at": moments.text(entry.moment),
        "entity": facts.entity_text(entry.entity),
        "kind": entry.kind,
        "number": entry.number,
        "object": "" if entry.object is None else facts.name(entry.object),
        "seq": number,
    }


@question("admin")
def show_administration(turn: Turn) -> Dict[str, object]:
    """For root: consumers as they were made; groups that are gone, jobs and rules by number."""
    turn.demand_root()
    facts = turn.state.facts
    return {
        "consumers": [
            {"consumer": name, "place": place} for name, place in facts.consumers.items()
        ],
        "gone": [
            {"ended": moments.text(gone.moment), "group": gone.name}
            for thing, gone in sorted(facts.gone.items(), key=lambda item: item[0])
            if thing.kind == Kind.GROUP
        ],
        "jobs": [
            {
                "job": job.name,
                "max_percent": job.max_percent,
                "min_size": job.min_size,
                "source": job.source,
                "target": facts.name(job.target),
            }
            for _, job in sorted(facts.jobs.items())
        ],
        "rules": [
            {"form": RULE_FORMS[type(rule)], "id": number, **shown_rule(turn, rule)}
            for number, rule in sorted(facts.rules.items())
        ],
    }


def shown_rule(turn: Turn, rule: object) -> Dict[str, object]:
    """A rule's content under the names of its command's fields."""
    facts = turn.state.facts

    def shown(field: str, content: object) -> object:
        if field == "holder":
            return facts.entity_text(content)
        if field == "privilege":
            return content.name
        return facts.name(content) if isinstance(content, Thing) else content

    return {field: shown(field, content) for field, content in vars(rule).items()}
