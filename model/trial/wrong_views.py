"""Wrong models of what is seen and shown: privileges, the past, names, attributes, loads, shapes.

The titles say what is wrong.
"""

import re
from bisect import bisect_left

import attributes
import consumers
import edit
import facts
import limits
import loads
import moments
import names
import past
import privileges
import questions
import refusals
import rights
import turn
from kinds import SYSTEM, Kind
from operations import OPERATIONS
from privileges import Privilege
from wrong_rules import ALL, WrongRule, wrong

# The right functions, for wrong ones that stand on them.
find_entity = turn.Turn.find_entity
in_scope = facts.Facts.in_scope
intervals = past.Past.intervals
name_of = facts.Facts.name
read_moment = moments.read
show_log = questions.show_log


# Privileges and what is seen

ALL.append(WrongRule(
    "READ doesn't give VIEW", privileges, "GIVES", {Privilege.READ: set()}
))
ALL.append(WrongRule(
    "UPDATE gives READ", privileges, "GIVES",
    {Privilege.UPDATE: privileges.GIVES[Privilege.UPDATE] | {Privilege.READ}},
))


@wrong("a folder is in its own scope", facts.Facts, "in_scope")
def own_scope(self, thing, folder, scope):
    return thing == folder or in_scope(self, thing, folder, scope)


@wrong("the scope ONE goes as deep as SUB", facts.Facts, "in_scope")
def deep_scope(self, thing, folder, scope):
    return in_scope(self, thing, folder, "SUB")


EVER_IN_SCOPE = set()


@wrong("an inherited privilege stays after a move", facts.Facts, "in_scope")
def scope_for_ever(self, thing, folder, scope):
    if in_scope(self, thing, folder, scope):
        EVER_IN_SCOPE.add((thing, folder, scope))
    return (thing, folder, scope) in EVER_IN_SCOPE


@wrong("Denied where a group is hidden", turn.Turn, "find")
def find_or_deny(self, name, *kinds):
    thing = self.state.names.get(name)
    if thing is None or thing.kind not in kinds:
        raise refusals.not_found(name)
    if not self.sees(thing):
        raise refusals.denied(name, "VIEW")
    return thing


@wrong("a hidden member or holder is never found", turn.Turn, "find_entity")
def find_seen_entity(self, text, counts_unseen=None):
    return find_entity(self, text)


@wrong("a new name that is hidden isn't Taken", edit.Edit, "demand_free")
def free_where_unseen(self, name):
    if name in self.state.names and self.sees(self.state.names[name]):
        raise refusals.taken(name)


@wrong("the wheel group is whichever has the extension", rights, "is_root")
def root_by_extension(state, caller):
    wheels = [
        thing for name, thing in state.names.items() if name.endswith("sysadmingroup")
    ]
    return caller == SYSTEM or any(
        caller in state.members.get(each, ()) for each in wheels
    )


# The past

@wrong("an ended interval lasts a microsecond longer", past.Past, "intervals")
def longer_intervals(self, group):
    return {
        person: [(begin, end if end is None else end + 1) for begin, end in spans]
        for person, spans in intervals(self, group).items()
    }


@wrong("a state is kept for each step, also within one moment", past.Past, "keep")
def keep_each(self, state):
    self.states.append(state)


ALL.append(WrongRule(
    "what stands at a moment is what stood before it", past, "bisect_right",
    lambda moments_kept, moment: max(1, bisect_left(moments_kept, moment)),
))


@wrong("the clock's moment is in the future", questions, "state_asked")
def future_now(at_turn, at):
    if at is not None and at >= at_turn.moment:
        raise refusals.future(at, at_turn.moment)
    return at_turn.registry.past.at(at_turn.moment if at is None else at)


@wrong("the groups of the past are judged by privileges then", OPERATIONS["groups"], "meaning")
def groups_judged_then(at_turn, text, at):
    person, all_facts = at_turn.find_entity(text), at_turn.state.facts
    state = questions.state_asked(at_turn, at)
    if person.kind != Kind.PERSON:
        raise refusals.wrong_kind("subject")
    return {"groups": [
        all_facts.name(group) for group in all_facts.of_kind(Kind.GROUP)
        if person in state.members.get(group, ())
        and Privilege.READ in rights.held(state, at_turn.caller, group)
    ]}


ALL.append(WrongRule(
    "of gone groups the one that went first is found", questions, "reversed", lambda gone: gone
))


@wrong("the name of what is gone follows its folder", facts.Facts, "name")
def follow_folder(self, thing):
    if thing in self.gone:
        was = self.gone[thing].was
        return names.join(self.name(was.folder), was.extension)
    return name_of(self, thing)


@wrong("showing the log moves the place", OPERATIONS["log"], "meaning")
def moving_log(at_turn, name, most):
    reply = show_log(at_turn, name, most)
    at_turn.state.facts.consumers[name] = reply["place"] + len(reply["entries"])
    return reply


@wrong("only a greater number is acknowledged", OPERATIONS["consumer.ack"], "meaning")
def acknowledge_more(at_edit, name, number):
    kept, last = consumers.demand_consumer(at_edit, name), len(at_edit.registry.log)
    if not kept < number <= last:
        raise refusals.bad_place(kept, last)
    at_edit.facts.consumers[name] = number


# Attributes, loads, limits and shapes

@wrong("a timestamp is the text that was given", attributes, "value_of")
def value_as_text(definition, given):
    kinds = {"integer": int, "text": str, "timestamp": str}
    suits = isinstance(given, kinds.get(definition.value_kind, ()))
    stamp = definition.value_kind == "timestamp"
    if not suits or stamp and moments.read(given) is None:
        return None
    return facts.Value("text", given)


@wrong("a load may remove one less", loads, "demand_safe")
def safer(job, plan):
    removes = len(plan.removed)
    if plan.before >= job.min_size and removes * 100 >= job.max_percent * plan.before:
        raise refusals.failsafe(plan.before, removes)


@wrong("a name may be made longer", limits, "longest_name")
def any_length(all_facts):
    return 0


@wrong("a minute has a second 60", moments, "read")
def read_leap_second(text):
    return read_moment(re.sub(r":60(\.\d+)?Z$", ":59Z", text))


ALL.append(WrongRule(
    "an extension may have 101 letters", names, "_EXTENSION",
    re.compile(r"[A-Za-z0-9_.\-]{1,101}"),
))
