"""The journal: the bytes of its file, from the accepted commands, in the format of today and in the
first one, and what migrating makes of a file of the first."""

from dataclasses import replace
from itertools import takewhile
from typing import Dict, List, Optional

import attributes
import fields
from registry import Accepted

HEADER, OLD_HEADER = b"GRPREG2\n", b"GRPREG1\n"
CLOSED, OPEN = b"\0", b"\1"
# Behind the caller a key, or that there is none; behind the holder of `grant.add` two moments.
NO_KEY, A_KEY, NO_DATES = b"\0", b"\1", b"\0\0"

# A command's code is its place here, from 1 on.
CODES = """
    folder.add folder.rename folder.move folder.delete subject.add
    group.add group.rename group.move group.delete member.add member.remove member.window
    composite.set composite.clear grant.add grant.remove inherit.add inherit.remove
    attrdef.add attrdef.delete attr.add attr.delete assign.add assign.remove value.add value.remove
    rule.remove_lost rule.end_lost rule.veto rule.on_create rule.delete
    job.simple job.list job.delete load consumer.add consumer.ack
""".split()


def number(value: int, size: int, signed: bool = False) -> bytes:
    """A number in so many bytes, the least byte first."""
    return value.to_bytes(size, "little", signed=signed)


def text(content: str) -> bytes:
    """A text behind its length."""
    return number(len(content.encode()), 2) + content.encode()


def value_bytes(value: object) -> bytes:
    """A value of an assignment, as it was given."""
    if isinstance(value, str):
        return b"\2" + text(value)
    return b"\1" + number(value, 8, signed=True)


def field_bytes(field: fields.Field, value: object) -> bytes:
    """A field as it was read: a moment is a number, or none where it was left out."""
    if field.is_moment:
        return b"\0" if value is None else b"\1" + number(value, 8)
    if field.choice:
        return number(1 + field.choice.index(value), 1)
    if field.name == "value":
        return value_bytes(value)
    if isinstance(value, list):
        owners = list(attributes.OWNERS)
        return number(sum(2 ** owners.index(owner) for owner in value), 1)
    if isinstance(value, str):
        return text(value)
    return number(value, 1 if isinstance(value, bool) else 8)


def load_bytes(did: Dict[str, list]) -> bytes:
    """What a load made, removed and added; its table isn't kept."""
    found = number(len(did["created"]), 4) + b"".join(map(text, did["created"]))
    for key in ("removed", "added"):
        rows = [text(row["group"]) + text(row["person"]) for row in did[key]]
        found += number(len(rows), 4) + b"".join(rows)
    return found


def command_bytes(command: Accepted) -> bytes:
    """A command's code, and its fields in order."""
    op, values = command.request.operation, command.request.values
    code = number(1 + CODES.index(op.name), 1)
    if op.name == "load":
        return code + text(values[0]) + load_bytes(command.did)
    return code + b"".join(map(field_bytes, op.fields, values))


def stamp(command: Accepted) -> bytes:
    """The moment and the caller."""
    return number(command.moment, 8) + text(command.request.by)


def key_bytes(key: Optional[str]) -> bytes:
    """A key, or that there is none."""
    return NO_KEY if key is None else A_KEY + text(key)


def payload(command: Accepted) -> bytes:
    """What is kept of a command."""
    return stamp(command) + key_bytes(command.request.key) + command_bytes(command)


def old_payload(command: Accepted) -> bytes:
    """What the first format keeps of a command that it has: no key, and a grant's three fields."""
    kept = command_bytes(command)
    if command.request.operation.name == "grant.add":
        kept = kept[:-len(NO_DATES)]
    return stamp(command) + kept


def is_old(command: Accepted) -> bool:
    """Whether the first format has a command. It has no unions, and no dates of grants."""
    name, values = command.request.operation.name, command.request.values
    if name == "grant.add":
        return values[3:] == [None, None]
    return name != "composite.set" or values[1] != "union"


def old_front(accepted: List[Accepted]) -> List[Accepted]:
    """The commands before the first one that the first format hasn't, without their keys."""
    return [
        command._replace(request=replace(command.request, key=None))
        for command in takewhile(is_old, accepted)
    ]


def framed(kept: bytes) -> bytes:
    """A payload behind an open gate and its length."""
    return OPEN + number(len(kept), 4) + kept


def frame(command: Accepted) -> bytes:
    """A command's frame."""
    return framed(payload(command))


def places(accepted: List[Accepted]) -> List[int]:
    """Where each command's frame begins."""
    found, place = [], len(HEADER)
    for command in accepted:
        found.append(place)
        place += len(frame(command))
    return found


def content(accepted: List[Accepted]) -> bytes:
    """The whole file."""
    return HEADER + b"".join(map(frame, accepted)) + CLOSED


def old_content(accepted: List[Accepted]) -> bytes:
    """The whole file in the first format."""
    return OLD_HEADER + b"".join(framed(old_payload(each)) for each in accepted) + CLOSED


def payloads(content: bytes) -> List[bytes]:
    """The payloads of a whole file, up to the first gate that isn't open."""
    found, place = [], len(HEADER)
    while content[place:place + 1] == OPEN:
        length = int.from_bytes(content[place + 1:place + 5], "little")
        found.append(content[place + 5:place + 5 + length])
        place += 5 + length
    return found


def migrated(old: bytes) -> bytes:
    """What migrating makes of a whole file of the first format."""
    found = HEADER
    for kept in payloads(old):
        behind = 10 + int.from_bytes(kept[8:10], "little")  # the caller's text
        is_grant = kept[behind] == 1 + CODES.index("grant.add")
        dates = NO_DATES if is_grant else b""
        found += framed(kept[:behind] + NO_KEY + kept[behind:] + dates)
    return found + CLOSED


def text_at(kept: bytes, place: int) -> bytes:
    """A text with its length, which begins at a place of a payload."""
    return kept[place:place + 2 + int.from_bytes(kept[place:place + 2], "little")]


def keyed_again(content: bytes) -> Optional[int]:
    """The place of the first frame whose caller has its key already: the file is damaged there, if
    it isn't before. None where no caller has one key twice."""
    place, seen = len(HEADER), set()
    for kept in payloads(content):
        by = text_at(kept, 8)
        behind = 8 + len(by)
        if kept[behind:behind + 1] == A_KEY:
            keyed = (by, text_at(kept, behind + 1))
            if keyed in seen:
                return place
            seen.add(keyed)
        place += 5 + len(kept)
    return None
