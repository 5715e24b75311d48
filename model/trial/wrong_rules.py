"""What a wrong model is: the model with one function, or one entry of a table, replaced."""

from typing import Any, Callable, ContextManager, List, NamedTuple
from unittest import mock


class WrongRule(NamedTuple):
    """A title, where the change is, and what stands there; a dict is one's changed entries."""

    title: str
    place: object
    name: str
    change: Any

    def in_force(self) -> ContextManager:
        """While this is entered, the model is wrong."""
        if isinstance(self.change, dict):
            return mock.patch.dict(getattr(self.place, self.name), self.change)
        return mock.patch.object(self.place, self.name, self.change, create=True)


ALL: List[WrongRule] = []


def wrong(title: str, place: object, name: str) -> Callable:
    """Enters a function as the wrong one for what stands at a place under a name."""

    def enter(change: Callable) -> Callable:
        ALL.append(WrongRule(title, place, name, change))
        return change

    return enter
