"""Request keys: a command that its caller gave before under the same key acts no more. So a client
that lost a reply sends its request again.

A key is the caller's own: under the same one another caller's command is another. A refused command
keeps none.
"""

from typing import TYPE_CHECKING, Dict, List, Optional

import refusals
from requests import Request

if TYPE_CHECKING:
    from registry import Accepted


def earlier(accepted: List["Accepted"], request: Request) -> Optional["Accepted"]:
    """The accepted command that this caller gave under this key, if there is one."""
    if request.key is None:
        return None
    for command in accepted:
        if (command.request.by, command.request.key) == (request.by, request.key):
            return command
    return None


def is_same(one: Request, other: Request) -> bool:
    """Whether two commands are equal as they are read: lists in any order."""

    def read(request: Request) -> List[object]:
        return [sorted(each) if isinstance(each, list) else each for each in request.values]

    return one.operation.name == other.operation.name and read(one) == read(other)


def answer_again(command: "Accepted", request: Request) -> Dict[str, object]:
    """The reply of then, whatever stands now; or that it was another command."""
    if not is_same(command.request, request):
        raise refusals.other_command(command.reply["number"])
    return command.reply
