"""How often each operation was answered in which way, and which answers never came."""

import json
from collections import Counter
from typing import Dict, Set

from operations import OPERATIONS
from record import Line

# The refusals beyond those of reading that an operation has. BadName and BadMoment come where a
# field has a shape, Full where something grows, OtherCommand where there may be a key.
REFUSALS: Dict[str, str] = {
    "folder.add": "NotFound Denied Taken",
    "folder.rename": "NotFound Denied WrongKind Taken Full",
    "folder.move": "NotFound Denied WrongKind Taken Circular Full",
    "folder.delete": "NotFound Denied WrongKind InUse NotEmpty",
    "subject.add": "Denied WrongKind Taken",
    "group.add": "NotFound Denied Taken",
    "group.rename": "NotFound Denied Taken Full",
    "group.move": "NotFound Denied Taken Full",
    "group.delete": "NotFound Denied InUse",
    "member.add": "NotFound Denied BadWindow WrongKind Already IsComposite Circular Vetoed",
    "member.remove": "NotFound Denied WrongKind NoSuch",
    "member.window": "NotFound Denied BadWindow WrongKind NoSuch",
    "composite.set": "NotFound Denied IsComposite HasMembers Circular",
    "composite.clear": "NotFound Denied NoSuch",
    "grant.add": "NotFound Denied BadWindow WrongKind Already",
    "grant.remove": "NotFound Denied WrongKind NoSuch",
    "inherit.add": "NotFound Denied WrongKind Already",
    "inherit.remove": "NotFound Denied WrongKind NoSuch",
    "attrdef.add": "NotFound Denied Taken",
    "attrdef.delete": "NotFound Denied InUse",
    "attr.add": "NotFound Denied Taken",
    "attr.delete": "NotFound Denied InUse",
    "assign.add": "NotFound Denied WrongKind Already WrongOwner",
    "assign.remove": "NotFound Denied WrongKind NoSuch",
    "value.add": "NotFound Denied WrongKind NoSuch WrongValue Single",
    "value.remove": "NotFound Denied WrongKind NoSuch",
    "rule.remove_lost": "NotFound Denied Already",
    "rule.end_lost": "NotFound Denied Already",
    "rule.veto": "NotFound Denied Already",
    "rule.on_create": "NotFound Denied WrongKind Already",
    "rule.delete": "Denied NoSuch",
    "job.simple": "NotFound Denied Taken",
    "job.list": "NotFound Denied Taken",
    "job.delete": "NotFound",
    "load": "NotFound IsComposite BadTable Failsafe",
    "consumer.add": "Denied Taken Full",
    "consumer.ack": "NotFound Place",
    "group.get": "NotFound",
    "folder.list": "NotFound",
    "members": "NotFound Denied Future",
    "rows": "NotFound Denied",
    "groups": "NotFound Future WrongKind",
    "grants": "NotFound Denied Future WrongKind",
    "may": "NotFound Denied Future WrongKind",
    "attributes": "NotFound Denied Future WrongKind",
    "history": "NotFound Denied",
    "log": "NotFound",
    "admin": "Denied",
}


def possible(op: str) -> Set[str]:
    """The answers that an operation can get."""
    fields = OPERATIONS[op].fields
    found = {"Ok", "BadRequest", "NoCaller", *REFUSALS[op].split()}
    shapes = [field for field in fields if not field.is_moment and not field.in_shape("")]
    found |= {"BadName"} if shapes else set()
    found |= {"BadName", "OtherCommand"} if OPERATIONS[op].takes_key else set()
    return found | ({"BadMoment"} if any(field.is_moment for field in fields) else set())


class Answers:
    """Counts of operation and answer."""

    def __init__(self) -> None:
        self.counts: Counter = Counter()

    def add(self, line: Line) -> None:
        """One line and its reply."""
        answer = json.loads(line.wanted).get("refused", "Ok")
        try:
            op = json.loads(line.text).get("op")
        except (ValueError, AttributeError):
            op = None
        if isinstance(op, str) and op in OPERATIONS:
            self.counts[op, answer] += 1
        else:
            self.counts["no operation", answer] += 1

    def show(self) -> None:
        """A line for each operation."""
        for op in [*OPERATIONS, "no operation"]:
            came = {answer: n for (of, answer), n in self.counts.items() if of == op}
            shown = ", ".join(f"{answer} {n}" for answer, n in sorted(came.items()))
            never = possible(op) - set(came) if op in OPERATIONS else set()
            print(f"{op}: {shown}" + (f"; never {', '.join(sorted(never))}" if never else ""))
