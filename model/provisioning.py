"""Provisioning: what an outside list of memberships has to add and to remove, from a consumer's
place in the log on. The word prints it, and acknowledges where it ends."""

import json
from typing import List, Set, Tuple

import moments
import names
import refusals
import requests
from kinds import Thing
from members import Pair
from privileges import Privilege
from registry import Registry
from rights import grants_on
from state import State

MOST = 1_000_000


def wanted(state: State, person: Thing) -> Set[Pair]:
    """The memberships of the groups on which the person itself has a grant of READ."""
    return {
        pair for pair in state.pairs
        if (Privilege.READ, person) in grants_on(state, pair[0])
    }


def boundaries(registry: Registry) -> List[int]:
    """0, and the number of the last entry of each moment."""
    log = registry.log
    return [0] + [
        number for number in range(1, len(log) + 1)
        if number == len(log) or log[number].moment != log[number - 1].moment
    ]


def wanted_at(registry: Registry, boundary: int, person: Thing) -> Set[Pair]:
    """What is wanted at a boundary: nothing at 0."""
    if boundary == 0:
        return set()
    return wanted(registry.past.at(registry.log[boundary - 1].moment), person)


def end_of(registry: Registry, place: int, most: int) -> int:
    """Where a batch ends: the greatest end up to so many entries on, or else the least one."""
    ends = [
        number for number in boundaries(registry)
        if number > place and registry.log[number - 1].moment < registry.clock
    ]
    near = [number for number in ends if number <= place + most]
    return max(near) if near else min(ends, default=place)


def operations(registry: Registry, place: int, end: int, person: Thing) -> List[Tuple[str, Pair]]:
    """What comes into what is wanted and what leaves it, boundary by boundary."""
    passed = [number for number in boundaries(registry) if number <= end]
    start = max(number for number in passed if number <= place)
    found, before = [], wanted_at(registry, start, person)
    for boundary in passed:
        if boundary > start:
            now = wanted_at(registry, boundary, person)
            found += [
                ("add" if pair in now else "remove", pair) for pair in sorted(before ^ now)
            ]
            before = now
    return found


def asked(registry: Registry, consumer: str, subject: str) -> Tuple[int, Thing]:
    """The place of the consumer, and the person."""
    if not names.is_extension(consumer):
        raise refusals.bad_name("consumer")
    if not names.is_entity(subject):
        raise refusals.bad_name("subject")
    consumers = registry.state.facts.consumers
    if consumer not in consumers:
        raise refusals.not_found(consumer)
    person = registry.state.persons.get(subject)
    if person is None:
        raise refusals.not_found(subject) if names.is_person(subject) else (
            refusals.wrong_kind("subject")
        )
    return consumers[consumer], person


def provision(
    registry: Registry, moment: int, consumer: str, subject: str, most: int
) -> Tuple[str, bool]:
    """What the word prints when the clock says this, and whether it is refused."""
    registry.pass_to(max(registry.clock, min(moment, moments.GREATEST)))
    try:
        place, person = asked(registry, consumer, subject)
    except refusals.Refusal as refusal:
        return requests.reply_text(refusal.reply) + "\n", True
    end = end_of(registry, place, most)
    lines = [
        requests.reply_text(
            {"do": word, "group": group.id, "subject": registry.state.facts.persons[member].text}
        )
        for word, (group, member) in operations(registry, place, end, person)
    ]
    if place < end:
        ack = {"by": names.SYSTEM, "op": "consumer.ack", "consumer": consumer, "seq": end}
        registry.answer(moment, json.dumps(ack))
    lines.append(requests.reply_text({"ok": True, "place": end}))
    return "".join(line + "\n" for line in lines), False
