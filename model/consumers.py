"""Commands on the consumers of the change log. They make no entries themselves."""

import fields
import refusals
from edit import Edit
from operations import command
from turn import Turn


def demand_consumer(turn: Turn, name: str) -> int:
    """The place of a consumer. Only root sees any."""
    consumers = turn.state.facts.consumers
    if not turn.is_root or name not in consumers:
        raise refusals.not_found(name)
    return consumers[name]


@command("consumer.add", fields.extension("consumer"))
def add_consumer(edit: Edit, name: str) -> None:
    """A consumer, which has read nothing."""
    edit.demand_root()
    if name in edit.facts.consumers:
        raise refusals.taken(name)
    edit.facts.consumers[name] = 0


@command("consumer.ack", fields.extension("consumer"), fields.number("seq"))
def acknowledge(edit: Edit, name: str, number: int) -> None:
    """All up to a number was read. A place never goes back, and never past the last entry."""
    kept, last = demand_consumer(edit, name), len(edit.registry.log)
    if not kept <= number <= last:
        raise refusals.bad_place(kept, last)
    edit.facts.consumers[name] = number
