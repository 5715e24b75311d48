"""The words that tell what happened: `commands` lists what was accepted, and `as-of` answers
questions as they would have been answered at a past moment."""

from typing import Dict, List, Tuple

import attributes
import journal
import moments
import refusals
import requests
from fields import LARGEST_NUMBER, Field
from registry import Accepted, Registry

# The list of commands


def shown(field: Field, value: object) -> object:
    """A field's value as it is listed. The order in which owners were given isn't kept."""
    if field.is_moment:
        return moments.text(value)
    if isinstance(value, list):
        return [owner for owner in attributes.OWNERS if owner in value]
    return value


def command_line(number: int, place: int, command: Accepted) -> str:
    """A command as it is listed: its request's fields, a load's table aside, and what it did."""
    request = command.request
    told: Dict[str, object] = {
        field.name: shown(field, value)
        for field, value in zip(request.operation.fields, request.values)
        if value is not None and field.name != "table"
    }
    told.update(
        at=moments.text(command.moment), by=request.by, op=request.operation.name,
        number=number, place=place, **command.did,
    )
    if request.key is not None:
        told["key"] = request.key
    return requests.reply_text(told) + "\n"


def commands(registry: Registry, first: int = 1, last: int = LARGEST_NUMBER) -> str:
    """The accepted commands from one number to another, both of them listed."""
    places = journal.places(registry.accepted)
    return "".join(
        command_line(number, place, command)
        for number, (place, command) in enumerate(zip(places, registry.accepted), start=1)
        if first <= number <= last
    )


# The registry as it was


def earlier(registry: Registry, at: str) -> Registry:
    """The registry as it was at a moment: the commands up to then, with the clock there."""
    asked = moments.read(at)
    if asked is None:
        raise refusals.bad_moment("at")
    if asked > registry.clock:
        raise refusals.future(asked, registry.clock)
    then = Registry()
    for command in registry.accepted:
        if command.moment <= asked:
            then.answer(command.moment, command.line)
    then.pass_to(asked)
    return then


def answer(then: Registry, line: str) -> str:
    """The reply to a line. A command is none of the requests that can be asked, whoever asks."""
    try:
        if not requests.read(line).operation.is_question:
            raise refusals.bad_request("op")
    except refusals.Refusal as refusal:
        return requests.reply_text(refusal.reply)
    return then.answer(then.clock, line)


def as_of(registry: Registry, moment: int, at: str, lines: List[str]) -> Tuple[str, bool]:
    """What the word prints when the clock says this, and whether it is refused."""
    registry.pass_to(max(registry.clock, min(moment, moments.GREATEST)))
    try:
        then = earlier(registry, at)
    except refusals.Refusal as refusal:
        return requests.reply_text(refusal.reply) + "\n", True
    return "".join(answer(then, line) + "\n" for line in lines), False
