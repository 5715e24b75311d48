"""Reports: words of the program that tell of roles and of attestation, as GrouperSystem and at the
clock. Each gives the bytes that are printed, or refuses."""

from typing import Dict, List, Optional, Tuple

import moments
import names
import refusals
import requests
from facts import Attribute, Value
from kinds import Kind, Thing
from registry import Registry
from state import State

SAID = {"allow": True, "deny": False}
NOTICE = 14 * moments.DAY
DAYS, CERTIFIED = "etc:attest:days", "etc:attest:certified"

# What orders the grounds: the first is the least.
Ground = Tuple[int, bool, bool, int, int]


def printed(registry: Registry, moment: int, word: str, *given: str) -> Tuple[str, bool]:
    """What a word prints when the clock says this, and whether it is refused."""
    registry.pass_to(max(registry.clock, min(moment, moments.GREATEST)))
    try:
        return WORDS[word](registry, *given), False
    except refusals.Refusal as refusal:
        return requests.reply_text(refusal.reply) + "\n", True


def reply(**told: object) -> str:
    """A reply and its line end."""
    return requests.reply_text(told) + "\n"


# ---- roles and permissions


def is_action(text: str) -> bool:
    """1 to 32 bytes of an extension."""
    return len(text) <= 32 and names.is_extension(text)


def covers(attribute: Attribute, resource: Attribute) -> bool:
    """Whether what is said of the one is said of the other: of one definition, in one folder."""
    return (
        attribute.definition == resource.definition
        and attribute.folder == resource.folder
        and (resource.extension + ".").startswith(attribute.extension + ".")
    )


def grounds(state: State, person: Thing, resource: Attribute, action: str) -> List[Ground]:
    """All that is said to the person's groups of the action on the resource, what decides first."""
    facts, found = state.facts, []
    for number, assignment in facts.assignments.items():
        attribute = facts.objects[assignment.attribute]
        if assignment.owner.kind != Kind.GROUP or not covers(attribute, resource):
            continue
        if person not in state.members.get(assignment.owner, ()):
            continue
        for place, value in enumerate(assignment.values):
            word, _, spoken = str(value.content).partition(" ")
            if word in SAID and spoken in (action, "*"):
                found.append(
                    (-len(attribute.extension), spoken == "*", SAID[word], number, place)
                )
    return sorted(found)


def resource_of(registry: Registry, name: str) -> Optional[Attribute]:
    """The attribute of a name."""
    thing = registry.state.names.get(name)
    return registry.state.facts.objects[thing] if thing and thing.kind == Kind.ATTRIBUTE else None


def demand_permission(registry: Registry, resource: Attribute) -> None:
    """Refuses an attribute whose definition isn't of texts, many of them, for groups."""
    definition = registry.state.facts.objects[resource.definition]
    suits = Kind.GROUP in definition.owners
    if not (definition.value_kind == "text" and definition.many and suits):
        raise refusals.wrong_kind("resource")


def permit(registry: Registry, subject: str, name: str, action: str) -> str:
    """Whether a person may act so on a resource, and which assignment says it."""
    for field, well_formed in [
        ("subject", names.is_entity(subject)), ("resource", names.is_name(name)),
        ("action", is_action(action)),
    ]:
        if not well_formed:
            raise refusals.bad_name(field)
    person = registry.state.persons.get(subject)
    if person is None and names.is_person(subject):
        raise refusals.not_found(subject)
    resource = resource_of(registry, name)
    if resource is None:
        raise refusals.not_found(name)
    if person is None:
        raise refusals.wrong_kind("subject")
    demand_permission(registry, resource)
    found = grounds(registry.state, person, resource, action)
    return reply(
        allowed=bool(found) and found[0][2], ground=found[0][3] if found else None, ok=True
    )


def permitted(registry: Registry, name: str, action: str) -> str:
    """Who may act so on a resource, by id."""
    for field, well_formed in [("resource", names.is_name(name)), ("action", is_action(action))]:
        if not well_formed:
            raise refusals.bad_name(field)
    resource = resource_of(registry, name)
    if resource is None:
        raise refusals.not_found(name)
    demand_permission(registry, resource)
    allowed = []
    for text, person in sorted(registry.state.persons.items(), key=lambda item: item[1]):
        found = grounds(registry.state, person, resource, action)
        if found and found[0][2]:
            allowed.append(text)
    return reply(ok=True, subjects=allowed)


# ---- attestation


def values_under(registry: Registry, group: Thing, at: int, name: str) -> List[Tuple[Value, ...]]:
    """The values of each assignment to the group then, of an attribute that has this name now."""
    facts = registry.state.facts
    return [
        each.values
        for _, each in sorted(registry.past.at(at).facts.assignments.items())
        if each.owner == group and facts.name(each.attribute) == name
    ]


def state_at(registry: Registry, group: Thing, at: int) -> Tuple[str, Optional[int]]:
    """How a group's attestation stood, and when the last confirmation ends."""
    assigned = values_under(registry, group, at, DAYS)
    first = assigned[0][0] if assigned and assigned[0] else None
    if first is None or first.kind != "integer" or not 1 <= int(first.content) <= 3650:
        return "none", None
    certified = [
        int(value.content)
        for values in values_under(registry, group, at, CERTIFIED)
        for value in values
        if value.kind == "timestamp" and int(value.content) <= at
    ]
    if not certified:
        return "never", None
    end = max(certified) + int(first.content) * moments.DAY
    if end > moments.GREATEST:
        return "attested", None
    if end <= at:
        return "overdue", end
    return ("due" if end <= at + NOTICE else "attested"), end


def find_group(registry: Registry, name: str) -> Thing:
    """The standing group of a name."""
    thing = registry.state.names.get(name)
    if thing is None or thing.kind != Kind.GROUP:
        raise refusals.not_found(name)
    return thing


def attested(registry: Registry, name: str, at: Optional[str] = None) -> str:
    """How a group's attestation stands, or stood."""
    if not names.is_name(name):
        raise refusals.bad_name("group")
    asked = registry.clock if at is None else moments.read(at)
    if asked is None:
        raise refusals.bad_moment("at")
    group = find_group(registry, name)
    if asked > registry.clock:
        raise refusals.future(asked, registry.clock)
    state, until = state_at(registry, group, asked)
    return reply(ok=True, state=state, until=None if until is None else moments.text(until))


def attestation(registry: Registry, name: str) -> str:
    """How it stood from the first moment on.

    The state is asked at each moment at which something happened, and at each at which one of the
    certified moments that there ever were is, ends, or is 14 days from its end, for all days that
    there ever were.
    """
    if not names.is_name(name):
        raise refusals.bad_name("group")
    group = find_group(registry, name)
    asked = {0, *(state.moment for state in registry.past.states)}
    for state in registry.past.states:
        contents = [
            value
            for each in state.facts.assignments.values()
            if each.owner == group
            for value in each.values
        ]
        spans = [int(v.content) for v in contents if v.kind == "integer"]
        for certified in (int(v.content) for v in contents if v.kind == "timestamp"):
            ends = [certified + span * moments.DAY for span in spans if 1 <= span <= 3650]
            asked.update([certified, *ends, *(end - NOTICE for end in ends)])
    listed: List[Dict[str, object]] = []
    for moment in sorted(each for each in asked if 0 <= each <= registry.clock):
        told = state_at(registry, group, moment)[0]
        if not listed or listed[-1]["state"] != told:
            listed.append({"from": moments.text(moment), "state": told})
    return reply(ok=True, states=listed)


def reminders(registry: Registry) -> str:
    """A line for each standing group that nobody confirmed in time, by id."""
    lines = []
    for group in registry.state.facts.of_kind(Kind.GROUP):
        told, until = state_at(registry, group, registry.clock)
        if told in ("never", "due", "overdue"):
            end = "" if until is None else " " + moments.text(until)
            lines.append(f"{registry.state.facts.name(group)} {told}{end}\n")
    return "".join(lines)


WORDS = {
    "permit": permit, "permitted": permitted, "attested": attested,
    "attestation": attestation, "reminders": reminders,
}
