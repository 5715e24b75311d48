"""A line of JSON read as a request, or refused; and a reply as a line of JSON."""

import json
import math
from dataclasses import dataclass
from typing import Dict, List, NoReturn, Optional

import moments
import names
import refusals
from operations import OPERATIONS, Operation

LONGEST_LINE = 8_388_608
DEEPEST = 127  # levels of objects and lists in one another


@dataclass
class Request:
    """Which operation, by whom, under which key, and with what."""

    operation: Operation
    by: str
    key: Optional[str]  # none where it was left out
    values: List[object]  # in the order of the operation's fields


def _no_json(text: str) -> NoReturn:
    """Makes the whole text none of JSON."""
    raise ValueError(text)


def _whole(text: str) -> object:
    """A number without fraction and exponent. `-0` isn't taken for whole."""
    if math.isinf(float(text)):
        _no_json(text)
    return -0.0 if text == "-0" else int(text)


def _broken(text: str) -> float:
    """A number with a fraction or an exponent. One that is past all bounds makes the text none."""
    found = float(text)
    return _no_json(text) if math.isinf(found) else found


def _levels(value: object) -> int:
    """How many objects and lists stand in one another."""
    if isinstance(value, (dict, list)):
        inner = value.values() if isinstance(value, dict) else value
        return 1 + max(map(_levels, inner), default=0)
    return 0


def read_object(line: str) -> Dict[str, object]:
    """The JSON object of a line; of a key given twice the last value counts."""
    try:
        found = json.loads(line, parse_int=_whole, parse_float=_broken, parse_constant=_no_json)
        json.dumps(found, ensure_ascii=False).encode()  # no half of a surrogate pair stands alone
    except (ValueError, RecursionError):
        raise refusals.bad_request("") from None
    if not isinstance(found, dict) or _levels(found) > DEEPEST:
        raise refusals.bad_request("")
    return found


def read(line: str) -> Request:
    """The request of a line: types and ranges first, then shapes, then moments."""
    if len(line.encode()) > LONGEST_LINE:
        raise refusals.too_long(LONGEST_LINE)
    given = read_object(line)
    operation = _read_types(given)
    key = given.get("key") if operation.takes_key else None
    if key is not None and not names.is_extension(key):
        raise refusals.bad_name("key")
    for field in operation.fields:
        if field.name in given and not field.in_shape(given[field.name]):
            raise refusals.bad_name(field.name)
    values = []
    for field in operation.fields:
        value = given.get(field.name, field.left_out)
        if field.is_moment and value is not None:
            value = moments.read(value)
            if value is None:
                raise refusals.bad_moment(field.name)
        values.append(value)
    return Request(operation, given["by"], key, values)


def _read_types(given: Dict[str, object]) -> Operation:
    """The operation asked, where all its fields are there, and right, and no others."""
    op = given.get("op")
    if not isinstance(op, str) or op not in OPERATIONS:
        raise refusals.bad_request("op")
    if not isinstance(given.get("by"), str):
        raise refusals.bad_request("by")
    operation = OPERATIONS[op]
    own = {"op", "by"}
    if operation.takes_key:
        own.add("key")
        if "key" in given and not isinstance(given["key"], str):
            raise refusals.bad_request("key")
    for field in operation.fields:
        if field.name not in given:
            if not field.optional:
                raise refusals.bad_request(field.name)
        elif not field.is_right(given[field.name]):
            raise refusals.bad_request(field.name)
    others = set(given) - own - {field.name for field in operation.fields}
    if others:
        raise refusals.bad_request(min(others, key=str.encode))
    return operation


def reply_text(reply: Dict[str, object]) -> str:
    """Compact JSON whose keys ascend."""
    return json.dumps(reply, sort_keys=True, separators=(",", ":"), ensure_ascii=False)
