"""Why a person is in a group: the ways by rows from the group down to the person, and the factors
of the composites among them."""

from typing import Dict, List, Tuple

import audit
import moments
import names
import refusals
import requests
from kinds import Kind, Thing
from members import is_on
from registry import Registry
from state import State

Way = List[Tuple[Thing, Thing]]  # rows, each of the group that the one before it has

PRINTED = 100
GREATEST_NUMBER = 2**64 - 1


def ways(state: State, group: Thing, person: Thing) -> List[Way]:
    """All ways from a group by rows that are on, down to the person or to a composite that has
    the person. From a composite there are none."""
    found: List[Way] = []
    if group in state.facts.composites:
        return found
    for row in state.facts.rows:
        owner, member = row
        if owner != group or not is_on(state.facts, owner, member, state.moment):
            continue
        if member == person:
            found.append([row])
        elif member in state.facts.composites:
            found += [[row]] if person in state.members[member] else []
        elif member.kind == Kind.GROUP:
            found += [[row, *way] for way in ways(state, member, person)]
    return found


def shown_way(state: State, way: Way) -> List[Dict[str, object]]:
    """The rows of a way as `rows` shows them, and the group of each."""
    facts = state.facts

    def shown_row(group: Thing, member: Thing) -> Dict[str, object]:
        begins, until = facts.rows[(group, member)]
        return {
            "from": moments.text(begins),
            "group": facts.name(group),
            "member": facts.entity_text(member),
            "until": None if until is None else moments.text(until),
        }

    return [shown_row(*row) for row in way]


def explained(state: State, group: Thing, person: Thing) -> List[Dict[str, object]]:
    """A statement on the group, and on each group that one before it comes to: a composite's
    factors, and the composites at which printed ways end.

    Shorter ways come first, and of one length the one whose first row was added earlier, or the
    next one, where they have that in common. Other dates don't add a row anew.
    """
    facts, groups = state.facts, [group]
    added = {row: place for place, row in enumerate(facts.rows)}
    told: List[Dict[str, object]] = []
    for each in groups:  # which grows
        composite = facts.composites.get(each)
        found = ways(state, each, person)
        found.sort(key=lambda way: (len(way), [added[row] for row in way]))
        printed = found[:PRINTED]
        told.append({
            "composite": composite and {
                "kind": composite.kind,
                "left": facts.name(composite.left),
                "right": facts.name(composite.right),
            },
            "group": facts.name(each),
            "member": person in state.members[each],
            "number": min(len(found), GREATEST_NUMBER),
            "ways": [shown_way(state, way) for way in printed],
        })
        ends = [way[-1][1] for way in printed if way[-1][1] != person]
        named = ends if composite is None else [composite.left, composite.right]
        groups += [other for other in dict.fromkeys(named) if other not in groups]
    return told


def judged(registry: Registry, subject: str, name: str) -> Tuple[Thing, Thing]:
    """The person and the group that are asked about."""
    if not names.is_entity(subject):
        raise refusals.bad_name("subject")
    if not names.is_name(name):
        raise refusals.bad_name("group")
    person = registry.state.persons.get(subject)
    if person is None and names.is_person(subject):
        raise refusals.not_found(subject)
    group = registry.state.names.get(name)
    if group is None or group.kind != Kind.GROUP:
        raise refusals.not_found(name)
    if person is None:
        raise refusals.wrong_kind("subject")
    return person, group


def why(registry: Registry, moment: int, subject: str, name: str, *at: str) -> Tuple[str, bool]:
    """What the word prints when the clock says this, now or as of a moment, and whether it is
    refused."""
    registry.pass_to(max(registry.clock, min(moment, moments.GREATEST)))
    try:
        then = audit.earlier(registry, *at) if at else registry
        person, group = judged(then, subject, name)
    except refusals.Refusal as refusal:
        return requests.reply_text(refusal.reply) + "\n", True
    statements = explained(then.state, group, person)
    reply = {"explained": statements, "member": statements[0]["member"], "ok": True}
    return requests.reply_text(reply) + "\n", False
