"""What aimed histories are written with."""

from typing import List, Tuple

Cases = List[Tuple[str, str]]  # a title, and the lines


def lines(*parts: str) -> str:
    """Joins lines that are made."""
    return "\n".join(parts)


def world(groups: str, persons: int) -> str:
    """Some persons and groups to begin with, and a consumer."""
    return lines(
        *(f"subject.add uni/p{number}" for number in range(1, persons + 1)),
        *(f"group.add {group}" for group in groups.split()),
        "consumer.add c1",
    ) + "\n"
