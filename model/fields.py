"""The fields of requests: what a value has to be, and in which shape a text has to come.

A value of a wrong type, outside its range or outside its list of words is BadRequest. A text in a
wrong shape is BadName, or BadMoment where it should be a moment.
"""

from dataclasses import dataclass
from typing import Callable, Tuple

import names

LONGEST_TEXT = 255
LARGEST_NUMBER = 2**64 - 1


def is_text(value: object) -> bool:
    """A string."""
    return isinstance(value, str)


def is_whole(value: object, low: int, high: int) -> bool:
    """A whole number from `low` to `high`; a truth value is none."""
    return isinstance(value, int) and not isinstance(value, bool) and low <= value <= high


def is_short_text(value: object) -> bool:
    """A string of at most 255 bytes."""
    return isinstance(value, str) and len(value.encode()) <= LONGEST_TEXT


def any_shape(text: str) -> bool:
    """Every text will do."""
    return True


@dataclass(frozen=True)
class Field:
    """One field of an operation."""

    name: str
    is_right: Callable[[object], bool] = is_text
    in_shape: Callable[[str], bool] = any_shape
    optional: bool = False
    is_moment: bool = False
    left_out: object = None  # what stands for an optional field that isn't given
    choice: Tuple[str, ...] = ()  # the words, where it is one of a list


def name(field: str) -> Field:
    """The name of an object below the root folder."""
    return Field(field, in_shape=names.is_name)


def folder(field: str) -> Field:
    """The name of a folder, which may be the root."""
    return Field(field, in_shape=names.is_folder_name)


def entity(field: str) -> Field:
    """A person, a group as an entity, or an internal entity."""
    return Field(field, in_shape=names.is_entity)


def object_(field: str) -> Field:
    """An entity or the name of any object."""
    return Field(field, in_shape=names.is_object)


def extension(field: str) -> Field:
    """An extension; also the name of a job or a consumer."""
    return Field(field, in_shape=names.is_extension)


def source(field: str) -> Field:
    """The source of persons."""
    return Field(field, in_shape=names.is_source)


def table(field: str) -> Field:
    """A table as one text."""
    return Field(field)


def display(field: str) -> Field:
    """A short text that may be left out."""
    return Field(field, is_right=is_short_text, optional=True, left_out="")


def moment(field: str) -> Field:
    """A moment that may be left out."""
    return Field(field, optional=True, is_moment=True)


def word(field: str, *words: str) -> Field:
    """One of some words."""
    return Field(
        field, is_right=lambda value: is_text(value) and value in words, choice=words
    )


def words(field: str, *choice: str) -> Field:
    """A list of some of the words: at least one, and none twice."""

    def is_right(value: object) -> bool:
        return (
            isinstance(value, list)
            and len(value) > 0
            and all(is_text(each) and each in choice for each in value)
            and len(set(value)) == len(value)
        )

    return Field(field, is_right=is_right)


def truth(field: str) -> Field:
    """True or false."""
    return Field(field, is_right=lambda value: isinstance(value, bool))


def number(field: str, low: int = 0, high: int = LARGEST_NUMBER) -> Field:
    """A whole number in a range, by itself below 2^64."""
    return Field(field, is_right=lambda value: is_whole(value, low, high))


def value(field: str) -> Field:
    """A short text or a whole number of 64 bits with sign."""
    return Field(
        field, is_right=lambda given: is_short_text(given) or is_whole(given, -(2**63), 2**63 - 1)
    )
