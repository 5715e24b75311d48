"""Random histories: small worlds in which things collide, by callers who mostly hold little.

One seed gives one history. Each has a theme that makes some operations frequent, some commands
that open its world, random requests between which the clock goes on (or back) and the program is
stopped at times, and at its end questions about all its past.
"""

import json
from random import Random
from typing import Dict, List

import fields
import moments
import names
from choices import PERSONS, Choices
from kinds import Kind
from operations import OPERATIONS
from privileges import OF_KIND
from record import History, Recorder, Request

START = 1_756_684_800_000_000  # 2025-09-01T00:00:00Z
REQUESTS = 150
QUESTIONS = 500

# How often each operation is drawn, by itself.
WEIGHTS: Dict[str, float] = {
    "folder.add": 4, "folder.rename": 1.5, "folder.move": 2, "folder.delete": 2,
    "subject.add": 3, "group.add": 6, "group.rename": 2, "group.move": 2, "group.delete": 3,
    "member.add": 16, "member.remove": 8, "member.window": 6,
    "composite.set": 4, "composite.clear": 2,
    "grant.add": 5, "grant.remove": 2.5, "inherit.add": 3, "inherit.remove": 1.5,
    "attrdef.add": 1, "attrdef.delete": 0.7, "attr.add": 1, "attr.delete": 0.7,
    "assign.add": 2, "assign.remove": 1, "value.add": 2, "value.remove": 1,
    "rule.remove_lost": 3, "rule.end_lost": 3, "rule.veto": 2, "rule.on_create": 2,
    "rule.delete": 2, "job.simple": 0.8, "job.list": 0.8, "job.delete": 0.5, "load": 1.5,
    "consumer.add": 0.8, "consumer.ack": 1.5,
    "group.get": 0.7, "folder.list": 0.7, "members": 3, "rows": 1.5, "groups": 2, "grants": 2,
    "may": 3, "attributes": 1.5, "history": 2, "log": 2, "admin": 1,
}

# What a theme makes more frequent, and how many times.
THEMES: Dict[str, Dict[str, float]] = {
    "everything": {},
    "rules": {"rule": 2.5, "member": 1.5},
    "the past": {"group.delete": 2, "group.rename": 3, "folder": 2, "members": 3, "groups": 4,
                 "grants": 3, "may": 3, "history": 3, "attributes": 4},
    "privileges": {"grant": 3, "inherit": 3, "group.move": 2.5, "folder.move": 2, "may": 3},
    "attributes": {"attrdef": 4, "attr": 5, "assign": 6, "value": 6, "attributes": 6},
    "loads": {"job": 4, "load": 9, "rule.on_create": 2, "rule.veto": 2.5},
    "dates": {"member": 1.6, "member.window": 2},
    "dated grants": {"grant": 7, "grants": 4, "may": 4, "group.delete": 2, "folder.delete": 2,
                     "rule.on_create": 2, "attrdef": 2},
    "keys": {"rule": 1.5, "assign": 2, "subject": 2},
    "dense": {"member": 2.5, "member.window": 2, "load": 4, "composite.clear": 2, "folder": 0.2,
              "attrdef": 0.1, "attr": 0.1, "grant": 0.2, "inherit": 0.2, "rule.veto": 0.4},
}
KEYS = ["k1", "k2", "k3", "K1", "k" * 100, "-._9"]
BY_ROOT: Dict[str, float] = {"dense": 0.93, "rules": 0.72, "dates": 0.72, "loads": 0.72}

# Texts and values at the bounds of the shapes, and just beyond.
LONG_NAME = ":".join(["b" * 100] * 9 + ["b" * 91])
NASTY_TEXTS: List[str] = [
    "", ":", "::", "a::b", ":a", "a:", "\u00e9", "a b", "a" * 100, "a" * 101, LONG_NAME,
    LONG_NAME + "b", "uni/" + "x" * 64, "uni/" + "x" * 65, "s" * 32 + "/x", "s" * 33 + "/x",
    "uni/", "/x", "g:gsa/", "g:gsa/a/b", "g:isa/x", "x" * 255, "x" * 256, "one",
    "2025-02-29T00:00:00Z", "2024-02-29T00:00:00Z", "2025-02-28T24:00:00Z",
    "2025-02-28T23:59:60Z", "2025-02-28T23:59:59.1234567Z", "1969-12-31T23:59:59Z",
    "9999-12-31T23:59:59.999999Z", "2025-02-28t00:00:00Z", "2025-02-28T00:00:00.Z",
]
NASTY_VALUES: List[object] = [
    None, 5, True, [], {}, "x", -1, 1.5, 2**64 - 1, 2**64, "", ["group", "group"], ["groups"],
]
NASTY_LINES: List[str] = [
    "nonsense", "[]", "{", '{"op":"admin"}', '{"op":"admin","by":5}', '{"op":7,"by":"x"}',
    '{"op":"admin","by":"g:isa/GrouperSystem","op":"nothing"}', "\ufeff{}", " ", "null",
    '{"op":"rule.delete","by":"g:isa/GrouperSystem","id":-0}',
    '{"op":"rule.delete","by":"g:isa/GrouperSystem","id":1e0}',
    '{"op":"rule.delete","by":"g:isa/GrouperSystem","id":1e999}',
    '{"op":"admin","by":"g:isa/GrouperSystem","x":"\\ud800"}',
    '{"op":"admin","by":"g:isa/GrouperSystem","z":1,"\u00e9":2,"b":3}',
    '{"op":"admin","by":"g:isa/GrouperSystem","x":' + "[" * 127 + "]" * 127 + "}",
    '{"op":"admin","by":"g:isa/GrouperSystem","x":' + "[" * 126 + "]" * 126 + "}",
]
STRANGERS = ["uni/zed", names.EVERYONE, "g:gsa/g", "", "\u00e9", "uni/p4"]


class Play:
    """One random history while it is made."""

    def __init__(self, seed: int) -> None:
        self.random = Random(seed)
        self.theme = self.random.choice(list(THEMES) + ["dense", "dense"])
        start = START
        if self.random.random() > 0.92:
            start = self.random.choice([0, 1, 5, moments.GREATEST - 3 * moments.DAY])
        # in some histories no grant has dates: the journal's first format knows of none
        self.dates_grants = self.theme == "dated grants" or self.chance(0.6)
        self.recorder = Recorder(f"seed {seed}, {self.theme}", start)
        self.choices = Choices(self.random, self.recorder, self.theme == "dense")

    def chance(self, part: float) -> bool:
        """True in a part of the cases."""
        return self.random.random() < part

    def by_system(self, op: str, **values: object) -> None:
        """A command of GrouperSystem."""
        self.recorder.send({"op": op, "by": names.SYSTEM, **values})

    # The opening

    def open_world(self) -> None:
        """A few persons, folders, groups and grants."""
        for person in PERSONS[:self.random.randint(2, 4)]:
            self.by_system("subject.add", subject=person, display=self.random.choice(["", "A"]))
        for folder in ("a", "a:b", "etc"):
            if self.chance(0.8):
                self.by_system("folder.add", folder=folder)
        for group in ("g", "h", "a:x", "a:b:y", "etc:sysadmingroup", "k"):
            if self.chance(0.6):
                self.by_system("group.add", group=group)
        if self.theme in ("attributes", "privileges", "the past") or self.chance(0.5):
            self.open_attributes()
        self.open_grants()
        if self.chance(0.6):
            self.by_system("consumer.add", consumer="c1")

    def open_attributes(self) -> None:
        """Two definitions, two attributes, and some assignments."""
        for definition, attribute in (("d", "t"), ("e", "u")):
            request = {**self.request("attrdef.add"), "by": names.SYSTEM}
            self.recorder.send({**request, "definition": definition})
            self.by_system("attr.add", attribute=attribute, definition=definition)
        for op in ["assign.add"] * 3 + ["value.add"] * 3:
            self.recorder.send({**self.request(op), "by": names.SYSTEM})

    def open_grants(self) -> None:
        """Something is seen by all, or by one; some hold more."""
        state = self.recorder.registry.state
        to_see = {Kind.GROUP: "VIEW", Kind.FOLDER: "create", Kind.DEFINITION: "attrView"}
        for name, thing in sorted(state.names.items()):
            if thing.kind not in to_see:
                continue
            person = self.choices.person()
            suiting = self.random.choice(sorted(OF_KIND[thing.kind])).name
            if self.chance(0.5):
                holder = self.random.choice([names.EVERYONE, person])
                self.grant(name, to_see[thing.kind], holder)
            if self.chance(0.5):
                holder = self.random.choice([self.choices.entity(), person])
                self.grant(name, suiting, holder)
        if self.chance(0.5):
            self.by_system(
                "inherit.add", folder=names.ROOT, kind="group", scope="SUB",
                privilege=self.random.choice(["VIEW", "READ", "ADMIN", "UPDATE"]),
                holder=self.choices.person(),
            )

    def grant(self, name: str, privilege: str, holder: str) -> None:
        """A grant, which may begin and end soon."""
        dates = {}
        if self.dates_grants and self.chance(0.5):
            for field, least, greatest in (("from", -1, 3), ("until", 0, 6)):
                if self.chance(0.6):
                    date = self.recorder.clock + self.random.randint(least, greatest)
                    dates[field] = moments.text(max(0, date))
        self.by_system("grant.add", object=name, privilege=privilege, holder=holder, **dates)

    def open_dense_world(self) -> None:
        """Few groups, one in another, many rules between them, and rows and grants that end very
        soon."""
        persons = PERSONS[:self.random.randint(2, 4)]
        groups = ["g", "h", "k", "a:x", "a:y", "q"][:self.random.randint(4, 6)]
        for person in persons:
            self.by_system("subject.add", subject=person)
        self.by_system("folder.add", folder="a")
        for group in groups:
            self.by_system("group.add", group=group)
        for _ in range(self.random.randint(0, 3)):
            nested = names.GROUP_PREFIX + self.random.choice(groups)
            self.by_system("member.add", group=self.random.choice(groups), member=nested)
        for op in ["composite.set"] * self.random.randint(0, 2) + ["rule.veto"]:
            self.recorder.send({**self.request(op), "by": names.SYSTEM})
        for _ in range(self.random.randint(3, 8)):
            op = self.random.choice(["rule.remove_lost", "rule.end_lost"])
            self.recorder.send({**self.request(op), "by": names.SYSTEM})
        for group in groups:
            for person in persons:
                if self.chance(0.75):
                    self.by_system("member.add", group=group, member=person, **self.soon())
            if self.chance(0.6):
                suiting = self.random.choice(sorted(OF_KIND[Kind.GROUP])).name
                self.grant(group, suiting, self.random.choice(persons + [names.EVERYONE]))
        self.by_system("consumer.add", consumer="c1")

    def soon(self) -> Request:
        """No end, or one within some microseconds."""
        end = self.recorder.clock + self.random.randint(1, 4)
        return {"until": moments.text(end)} if self.chance(0.4) else {}

    # The requests

    def request(self, op: str) -> Request:
        """A request whose fields are mostly right and mostly fit what stands."""
        request: Request = {"op": op, "by": self.caller()}
        for field in OPERATIONS[op].fields:
            if not field.optional or self.chance(self.share_given(op, field)):
                request[field.name] = self.choices.field(op, field)
        self.choices.fit(request)
        return request

    def share_given(self, op: str, field: fields.Field) -> float:
        """How often an optional field is given."""
        if op == "grant.add" and not self.dates_grants:
            return 0
        often = self.theme in ("dates", "dated grants", "rules")
        return {"from": 0.4 if often else 0.25, "until": 0.7 if often else 0.4}.get(
            field.name, 0.6
        )

    def caller(self) -> str:
        """GrouperSystem, a person, or seldom nobody."""
        drawn = self.random.random()
        persons = sorted(self.recorder.registry.state.persons)
        if drawn < BY_ROOT.get(self.theme, 0.55) or not persons:
            return names.SYSTEM
        return self.random.choice(persons if drawn < 0.98 else STRANGERS)

    def spoil(self, request: Request) -> None:
        """Breaks the form of a request."""
        own = [key for key in request if key not in ("op", "by")]
        drawn = self.random.random()
        if drawn < 0.2 or not own:
            request[self.random.choice(["x", "zz", "key", "at", "B"])] = 1
            return
        key = self.random.choice(own)
        if drawn < 0.35:
            del request[key]
        elif drawn < 0.55:
            request[key] = self.random.choice(NASTY_VALUES)
        elif isinstance(request[key], str):
            request[key] = self.random.choice(NASTY_TEXTS)

    def let_time_pass(self) -> None:
        """Mostly not at all or a microsecond, at times a day, and at times back."""
        clock = self.recorder.clock
        drawn = self.random.random()
        if 0.45 <= drawn < 0.75:
            clock += 1
        elif 0.75 <= drawn < 0.87:
            clock += self.random.randint(2, 4)
        elif 0.87 <= drawn < 0.95:
            clock += moments.DAY + self.random.randint(-2, 2)
        elif 0.95 <= drawn < 0.96:
            clock += 3650 * moments.DAY
        elif 0.96 <= drawn < 0.98:
            clock -= self.random.randint(1, 5)
        elif 0.98 <= drawn:
            clock = self.recorder.registry.clock
        self.recorder.clock = max(-3, min(moments.GREATEST, clock))

    def one_line(self, op: str) -> None:
        """A request, one that was sent before, or one that is broken."""
        sent = self.recorder.history.runs[-1]
        keyed = self.theme == "keys"
        if self.chance(0.25 if keyed else 0.03):
            self.keyed_again()
        elif sent and self.chance(0.04):
            self.recorder.send_line(self.random.choice(sent).text)
        elif self.chance(0.01):
            self.recorder.send_line(self.random.choice(NASTY_LINES))
        else:
            request = self.request(op)
            if OPERATIONS[op].takes_key and self.chance(0.6 if keyed else 0.1):
                request["key"] = self.key()
            if self.chance(0.06):
                self.spoil(request)
            self.recorder.send(request)

    def key(self) -> str:
        """A key, mostly one that no command has yet."""
        if self.chance(0.4):
            return self.random.choice(KEYS)
        return f"n{self.random.randrange(1000)}"

    def keyed_again(self) -> None:
        """A line that has a key is sent again: as it was, written otherwise, by somebody else, with
        another field, or its key with another command."""
        lines = [line for line in self.recorder.history.lines() if '"key"' in line.text]
        if not lines:
            return
        request: Request = json.loads(self.random.choice(lines).text)
        op = str(request["op"])
        fields_of = {
            field.name: field for field in OPERATIONS[op].fields
            if self.share_given(op, field) > 0
        }
        drawn = self.random.random()
        if drawn < 0.2:
            request = self.written_otherwise(request)
        elif drawn < 0.35:
            request["by"] = self.caller()
        elif drawn < 0.55 and fields_of:
            name = self.random.choice(list(fields_of))
            request[name] = self.choices.field(op, fields_of[name])
        elif drawn < 0.65:
            op = self.random.choice([op for op, each in OPERATIONS.items() if each.takes_key])
            request = {**self.request(op), "by": request.get("by"), "key": request.get("key")}
        self.recorder.send(request)

    def written_otherwise(self, request: Request) -> Request:
        """The same command in other bytes: keys and owners in another order, a moment with its
        zeros, an empty display that is given or left out."""
        other = dict(reversed(list(request.items())))
        for name in "from", "until":
            moment = moments.read(other[name]) if isinstance(other.get(name), str) else None
            if moment is not None:
                other[name] = moments.text(moment)
        if isinstance(other.get("owners"), list):
            other["owners"] = other["owners"][::-1]
        if other.get("display") == "":
            del other["display"]
        elif str(other["op"]) in ("folder.add", "subject.add", "group.add"):
            other.setdefault("display", "")
        return other

    def stop(self) -> None:
        """The program is stopped, and the clock may be set back before it goes on."""
        self.recorder.stop()
        if self.chance(0.6):
            back = self.random.randint(0, 6)
            self.recorder.clock = max(0, self.recorder.registry.clock - back)

    def play(self) -> History:
        """The whole history."""
        if self.theme == "dense":
            self.open_dense_world()
        else:
            self.open_world()
        weights = {op: weight * self.factor(op) for op, weight in WEIGHTS.items()}
        for op in self.random.choices(list(weights), list(weights.values()), k=REQUESTS):
            self.let_time_pass()
            self.one_line(op)
            if self.chance(0.01):
                self.stop()
        self.recorder.ask_everything(self.random, QUESTIONS)
        return self.recorder.history

    def factor(self, op: str) -> float:
        """How many times more frequent the theme makes an operation."""
        factors = THEMES[self.theme]
        return factors.get(op, factors.get(op.partition(".")[0], 1))


def history(seed: int) -> History:
    """The random history of a seed."""
    return Play(seed).play()
