"""The table of operations. The modules of the families fill it, each function with its fields.

A command's function judges and edits; it gives what its reply carries besides the number, or
None. A question's function gives the content of its reply. Both take their turn and then the
values of the fields, in the order in which the fields are listed.
"""

from dataclasses import dataclass
from typing import Callable, Dict, Tuple

from fields import Field


@dataclass
class Operation:
    """What can be asked: a name, its fields, and the function that says what it means."""

    name: str
    fields: Tuple[Field, ...]
    meaning: Callable
    is_question: bool

    @property
    def takes_key(self) -> bool:
        """Whether its request may have a key: a command's may, but a load's."""
        return not self.is_question and self.name != "load"


OPERATIONS: Dict[str, Operation] = {}


def _enter(name: str, fields: Tuple[Field, ...], is_question: bool) -> Callable:
    """A decorator that puts a function into the table."""

    def enter(meaning: Callable) -> Callable:
        OPERATIONS[name] = Operation(name, fields, meaning, is_question)
        return meaning

    return enter


def command(name: str, *fields: Field) -> Callable:
    """Makes a function the meaning of a command."""
    return _enter(name, fields, is_question=False)


def question(name: str, *fields: Field) -> Callable:
    """Makes a function the meaning of a question."""
    return _enter(name, fields, is_question=True)
