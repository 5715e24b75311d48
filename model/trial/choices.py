"""Draws names, entities, moments and values for random requests, mostly of what stands."""

from random import Random
from typing import Any, Callable, Dict, Iterable, List

import fields
import moments
import names
from facts import Facts
from kinds import EVERYONE, Kind
from privileges import OF_KIND
from record import Recorder, Request

NEW_EXTENSIONS: Dict[str, List[str]] = {
    "folder.add": ["a", "b", "c", "etc"],
    "group.add": ["g", "h", "x", "y", "sysadmingroup"],
    "attrdef.add": ["d", "e", "g"],
    "attr.add": ["t", "u", "g"],
}
EXTENSIONS = ["a", "b", "etc", "g", "h", "x", "sysadmingroup"]
PERSONS = ["uni/p1", "uni/p2", "uni/p3", "uni/p4"]
JOBS = ["j1", "j2", "j3"]
CONSUMERS = ["c1", "c2"]
VALUES = [1, 2, -(2**63), 2**63 - 1, "x", "y", "", "\u00e9\"\\\u0001", "2025-13-01T00:00:00Z"]
OF_VALUE_KIND: Dict[str, List[object]] = {
    "marker": [1, "x"],
    "integer": [1, 2, 2**63 - 1],
    "text": ["x", "y", ""],
    "timestamp": [
        "2025-09-01T00:00:00Z", "2025-09-01T00:00:00.0Z", "2025-09-01T00:00:01.5Z",
    ],
}


def text_of(moment: int) -> str:
    """A moment's text; of some moments without the zeros at its end."""
    text = moments.text(moment)
    return text if moment % 3 else text[:-1].rstrip("0").rstrip(".") + "Z"


class Choices:
    """Draws for one history."""

    def __init__(self, random: Random, recorder: Recorder, dense: bool) -> None:
        self.random = random
        self.recorder = recorder
        self.dense = dense  # moments close together, persons rather than groups as members
        self.draws: Dict[str, Callable[[], object]] = {
            "folder": self.folder, "to": self.folder,
            "group": self.group, "left": self.group, "right": self.group,
            "check": self.group, "owner": self.group, "condition": self.group,
            "definition": lambda: self.named(Kind.DEFINITION),
            "attribute": lambda: self.named(Kind.ATTRIBUTE),
            "object": self.object, "member": self.entity, "holder": self.entity,
            "entity": self.entity, "subject": self.entity,
            "extension": lambda: self.one_of(EXTENSIONS),
            "display": lambda: self.one_of(["", "Ann", "\u00e9\"\\"]),
            "from": self.moment, "until": self.moment, "at": self.past_moment,
            "several": lambda: self.chance(0.5), "many": lambda: self.chance(0.6),
            "owners": lambda: self.random.sample(
                ["folder", "group", "subject"], self.one_of([1, 2, 3, 3])
            ),
            "id": lambda: self.one_of([0, 1, 2, 3, 99]), "value": lambda: self.one_of(VALUES),
            "days": lambda: self.one_of([1, 1, 1, 2, 3650]),
            "job": lambda: self.one_of(JOBS), "source": lambda: "uni",
            "min_size": lambda: self.one_of([0, 1, 2, 5]),
            "max_percent": lambda: self.one_of([0, 50, 100, 100]), "table": self.table,
            "consumer": lambda: self.one_of(CONSUMERS), "seq": self.place,
            "max": lambda: self.one_of([1, 3, 10, 1000]),
        }

    @property
    def facts(self) -> Facts:
        """What stands now."""
        return self.recorder.registry.state.facts

    def chance(self, part: float) -> bool:
        """True in a part of the cases."""
        return self.random.random() < part

    def one_of(self, choice: Iterable[Any]) -> Any:
        """One of some things, which are in an order that doesn't depend on the run."""
        return self.random.choice(list(choice))

    def field(self, op: str, field: fields.Field) -> object:
        """A value for a field of an operation."""
        if field.choice:
            return self.one_of(field.choice)
        if op in NEW_EXTENSIONS and field.name in ("folder", "group", "definition", "attribute"):
            if not (op == "attr.add" and field.name == "definition"):
                return names.join(self.folder(), self.one_of(NEW_EXTENSIONS[op]))
        if op == "subject.add" and field.name == "subject" and self.chance(0.9):
            return self.one_of(PERSONS + ["x@y/z."])
        if op == "load" and field.name == "job" and self.facts.jobs and self.chance(0.9):
            return self.one_of(self.facts.jobs.values()).name
        if op == "rule.delete" and self.facts.rules and self.chance(0.8):
            return self.one_of(self.facts.rules)
        return self.draws[field.name]()

    # Names and entities

    def named(self, kind: Kind) -> str:
        """Mostly the name of an object of the kind, else of any, or of none."""
        standing = self.facts.of_kind(kind)
        if standing and self.chance(0.92):
            return self.facts.name(self.one_of(standing))
        if self.chance(0.7):
            return self.one_of(sorted(self.recorder.registry.state.names))
        return self.one_of(["a", "a:b", "g", "zz", "a:zz"])

    def folder(self) -> str:
        """A folder's name."""
        return self.named(Kind.FOLDER)

    def group(self) -> str:
        """A group's name, or the last one of something that is gone."""
        if self.facts.gone and self.chance(0.06):
            return self.one_of(self.facts.gone.values()).name
        return self.named(Kind.GROUP)

    def person(self) -> str:
        """A person that stands, or seldom one that doesn't."""
        standing = sorted(self.recorder.registry.state.persons)
        return self.one_of(standing if standing and self.chance(0.96) else PERSONS + ["uni/z"])

    def entity(self) -> str:
        """A person, a group, or an internal entity."""
        drawn = self.random.random()
        if drawn < 0.03:
            return names.SYSTEM
        if drawn < 0.09:
            return names.EVERYONE
        if drawn < (0.2 if self.dense else 0.38):
            return names.GROUP_PREFIX + self.group()
        return self.person()

    def object(self) -> str:
        """Whatever can be meant by an object."""
        kinds = [Kind.GROUP, Kind.GROUP, Kind.FOLDER, Kind.DEFINITION, Kind.ATTRIBUTE]
        return self.entity() if self.chance(0.25) else self.named(self.one_of(kinds))

    # Moments, places and tables

    def moment(self) -> str:
        """Mostly one near the clock, so that dates meet; at times a bound."""
        clock = self.recorder.registry.clock
        drawn = self.random.random() * (0.8 if self.dense else 1.0)
        if drawn < 0.6:
            moment = clock + self.random.randint(-3, 6)
        elif drawn < 0.75:
            moment = clock + self.one_of([-1, 1, 2]) * moments.DAY + self.random.randint(-1, 1)
        elif drawn < 0.93:
            moment = self.change() + self.random.randint(-1, 1)
        else:
            moment = self.one_of([0, 1, moments.GREATEST - 1, moments.GREATEST, clock])
        return text_of(max(0, min(moments.GREATEST, moment)))

    def change(self) -> int:
        """A moment at which something happened."""
        return self.one_of(self.recorder.registry.past.states).moment

    def past_moment(self) -> str:
        """Mostly one near a change; at times one that hasn't come."""
        clock = self.recorder.registry.clock
        near = self.change() + self.random.randint(-1, 1)
        far = self.one_of([0, clock - 1, clock, clock + 1, moments.GREATEST])
        moment = near if self.chance(0.75) else far
        return text_of(max(0, min(moments.GREATEST, moment)))

    def place(self) -> int:
        """A number of the log, or one just outside what may be acknowledged."""
        last = len(self.recorder.registry.log)
        kept = self.one_of(list(self.facts.consumers.values()) or [0])
        choice = [kept, kept + 1, max(0, kept - 1), last, last + 1, (kept + last) // 2]
        return self.one_of(choice)

    def table(self) -> str:
        """A table of few records, mostly for groups in some job's folder."""
        header = "GROUP_NAME,SUBJECT_ID"
        if self.chance(0.25):
            header = self.one_of([
                "SUBJECT_ID", "group_name,Subject_Id,Subject_Source_Id", "ID",
                'x,SUBJECT_ID,"GROUP_NAME",SUBJECT_ID', "\ufeffSUBJECT_ID,GROUP_NAME", "",
            ])
        lines = [header] + [self.record(header) for _ in range(self.random.randint(0, 6))]
        return self.one_of(["\n", "\n", "\r\n"]).join(lines) + self.one_of(["\n", ""])

    def record(self, header: str) -> str:
        """A record that suits the header, but for few."""
        cells = []
        folders = [job.target for job in self.facts.jobs.values()]
        for column in header.upper().replace('"', "").replace("\ufeff", "").split(","):
            cell = {"SUBJECT_SOURCE_ID": "uni", "X": '"a,""b"""'}.get(column)
            if column == "GROUP_NAME":
                cell = self.group()
                if folders and self.chance(0.8):
                    folder = self.facts.name(self.one_of(folders))
                    cell = names.join(folder, self.one_of(NEW_EXTENSIONS["group.add"]))
            cells.append(cell or self.person().split("/")[1])
        return ",".join(cells[:-1] if self.chance(0.02) else cells)

    # What makes a request meet something

    def fit(self, request: Request) -> None:
        """Mostly points a request at what stands, and gives privileges and values that suit."""
        fitting = {
            "member.remove": self.fit_row, "member.window": self.fit_row,
            "composite.clear": self.fit_composite,
            "grant.add": self.fit_new_grant, "grant.remove": self.fit_grant,
            "inherit.add": self.fit_privilege, "inherit.remove": self.fit_inherit,
            "rule.on_create": self.fit_privilege, "assign.add": self.fit_owner,
            "assign.remove": self.fit_assignment, "value.add": self.fit_assignment,
            "value.remove": self.fit_assignment,
        }
        if request["op"] in fitting and self.chance(0.8):
            fitting[request["op"]](request)

    def fit_row(self, request: Request) -> None:
        """A row that stands."""
        if self.facts.rows:
            group, member = self.one_of(self.facts.rows)
            request["group"] = self.facts.name(group)
            request["member"] = self.facts.entity_text(member)

    def fit_composite(self, request: Request) -> None:
        """A composite group."""
        if self.facts.composites:
            request["group"] = self.facts.name(self.one_of(self.facts.composites))

    def fit_new_grant(self, request: Request) -> None:
        """A privilege of the object's kind; at times the same grant as one that stands."""
        if self.chance(0.12):
            self.fit_grant(request)
        else:
            self.fit_privilege(request)

    def fit_grant(self, request: Request) -> None:
        """A grant that stands, on or not."""
        if self.facts.grants:
            grant = self.one_of(sorted(self.facts.grants))
            request["object"] = self.facts.name(grant.object)
            request["privilege"] = grant.privilege.name
            request["holder"] = self.facts.entity_text(grant.holder)

    def fit_inherit(self, request: Request) -> None:
        """An inherit that stands."""
        if self.facts.inherits:
            inherit = self.one_of(sorted(self.facts.inherits))
            request["folder"] = self.facts.name(inherit.folder)
            request["kind"] = inherit.kind.name.lower()
            request["scope"] = inherit.scope
            request["privilege"] = inherit.privilege.name
            request["holder"] = self.facts.entity_text(inherit.holder)

    def fit_privilege(self, request: Request) -> None:
        """A privilege of the kind that is meant."""
        kind = Kind.GROUP
        if request["op"] == "grant.add":
            name = str(request["object"]).replace(names.GROUP_PREFIX, "")
            kind = self.recorder.registry.state.names.get(name, EVERYONE).kind
        elif request["op"] == "inherit.add":
            kind = Kind[request["kind"].upper()]
        if kind in OF_KIND:
            request["privilege"] = self.one_of(sorted(OF_KIND[kind])).name

    def fit_owner(self, request: Request) -> None:
        """An attribute that stands, and mostly an owner whom its definition suits."""
        attributes = self.facts.of_kind(Kind.ATTRIBUTE)
        if attributes:
            attribute = self.one_of(attributes)
            definition = self.facts.objects[self.facts.definition_of(attribute)]
            things = [*self.facts.persons, *self.facts.objects]
            owners = [thing for thing in things if thing.kind in definition.owners]
            request["attribute"] = self.facts.name(attribute)
            if owners:
                request["object"] = self.facts.name(self.one_of(owners))

    def fit_assignment(self, request: Request) -> None:
        """An assignment that stands, and mostly a value that suits or that it has."""
        removes = request["op"] == "value.remove"
        assignments = {
            number: each
            for number, each in self.facts.assignments.items()
            if each.values or not removes
        }
        if not assignments:
            return
        number = self.one_of(assignments)
        assignment = assignments[number]
        request["id"] = number
        request["attribute"] = self.facts.name(assignment.attribute)
        request["object"] = self.facts.name(assignment.owner)
        if "value" in request and assignment.values and self.chance(0.8 if removes else 0.2):
            value = self.one_of(assignment.values)
            stamp = value.kind == "timestamp"
            request["value"] = moments.text(value.content) if stamp else value.content
        elif "value" in request and self.chance(0.7):
            definition = self.facts.objects[self.facts.definition_of(assignment.attribute)]
            request["value"] = self.one_of(OF_VALUE_KIND[definition.value_kind])
