"""The answers that refuse a request.

Each has a code; refusals are tried in the order of their codes, but the last behind BadMoment, and
within one code in the order of the operation's fields. So each function that judges a request
raises the first one that holds.
"""

from typing import Dict, Union

import moments


class Refusal(Exception):
    """A refused request: it changes nothing."""

    def __init__(self, code: int, name: str, **carried: Union[int, str]) -> None:
        super().__init__(name)
        self.reply: Dict[str, object] = dict(carried, code=code, refused=name)


def too_long(limit: int) -> Refusal:
    """The line has more bytes than are read."""
    return Refusal(1, "TooLong", limit=limit)


def bad_request(field: str) -> Refusal:
    """No JSON object (the empty field), a field that is missing or of a wrong type or range, or
    one that the operation doesn't have."""
    return Refusal(2, "BadRequest", field=field)


def bad_name(field: str) -> Refusal:
    """A name, an extension or an entity of a wrong shape."""
    return Refusal(3, "BadName", field=field)


def bad_moment(field: str) -> Refusal:
    """A text that is no moment."""
    return Refusal(4, "BadMoment", field=field)


def no_caller() -> Refusal:
    """The caller is neither GrouperSystem nor a person that stands."""
    return Refusal(5, "NoCaller")


def not_found(text: str) -> Refusal:
    """What is named doesn't stand, is of another kind, or is hidden from the caller."""
    return Refusal(6, "NotFound", object=text)


def denied(name: str, privilege: str) -> Refusal:
    """The caller lacks a privilege; the first one that is lacking is told."""
    return Refusal(7, "Denied", object=name, privilege=privilege)


def future(asked: int, clock: int) -> Refusal:
    """The moment asked about hasn't come."""
    return Refusal(8, "Future", asked=moments.text(asked), clock=moments.text(clock))


def bad_window() -> Refusal:
    """A row or a grant would end before it begins, or has ended already."""
    return Refusal(9, "BadWindow")


def wrong_kind(field: str) -> Refusal:
    """What the field names stands, and isn't of a kind that suits."""
    return Refusal(10, "WrongKind", field=field)


def taken(text: str) -> Refusal:
    """The new name is in use, whoever may see by what."""
    return Refusal(11, "Taken", object=text)


def already() -> Refusal:
    """What would be made stands."""
    return Refusal(12, "Already")


def no_such() -> Refusal:
    """What would be changed or taken away doesn't stand."""
    return Refusal(13, "NoSuch")


def is_composite(name: str) -> Refusal:
    """Rows or factors for a group that is composite."""
    return Refusal(14, "IsComposite", object=name)


def has_members() -> Refusal:
    """Factors for a group that has rows."""
    return Refusal(15, "HasMembers")


def circular(text: str) -> Refusal:
    """A group under itself, or a folder in itself."""
    return Refusal(16, "Circular", object=text)


def in_use(use: str) -> Refusal:
    """What would be deleted is named by something else."""
    return Refusal(17, "InUse", use=use)


def not_empty() -> Refusal:
    """The folder to be deleted holds an object."""
    return Refusal(18, "NotEmpty")


def wrong_owner() -> Refusal:
    """The definition doesn't suit the owner's kind."""
    return Refusal(19, "WrongOwner")


def wrong_value() -> Refusal:
    """The value isn't of the definition's kind."""
    return Refusal(20, "WrongValue")


def single() -> Refusal:
    """A value stands, and only one may."""
    return Refusal(21, "Single")


def vetoed(rule: int) -> Refusal:
    """A rule forbids the new member; the first such rule is told."""
    return Refusal(22, "Vetoed", rule=rule)


def bad_table(record: int) -> Refusal:
    """The first bad record, or 0 for the header."""
    return Refusal(23, "BadTable", record=record)


def failsafe(before: int, removes: int) -> Refusal:
    """The table would remove too many."""
    return Refusal(24, "Failsafe", before=before, removes=removes)


def bad_place(kept: int, last: int) -> Refusal:
    """The acknowledged number is before the kept one or after the log's last."""
    return Refusal(25, "Place", kept=kept, last=last)


def full(kind: str, limit: int) -> Refusal:
    """One more than there may be."""
    return Refusal(26, "Full", kind=kind, limit=limit)


def other_command(number: int) -> Refusal:
    """The caller gave another command under this key, and it was kept with this number."""
    return Refusal(27, "OtherCommand", number=number)
