"""Commands on rows and factors: who is directly in a group."""

from typing import Callable, Optional

import dates
import fields
import members
import refusals
from edit import Edit
from facts import Composite, Veto
from kinds import EVERYONE, SYSTEM, Kind, Thing
from operations import command
from privileges import Privilege
from state import State

ROW = (fields.name("group"), fields.entity("member"))


def demand_member(member: Thing) -> None:
    """Refuses the internal entities, which are in no group."""
    if member in (SYSTEM, EVERYONE):
        raise refusals.wrong_kind("member")


def vetoing_rule(state: State, group: Thing, person: Thing) -> Optional[int]:
    """The first rule that keeps the person out of the group, if there is one."""
    for number, rule in sorted(state.facts.rules.items()):
        if isinstance(rule, Veto) and rule.owner == group:
            if person not in state.members[rule.condition]:
                return number
    return None


def has_row(edit: Edit, group: Thing) -> Callable[[Thing], bool]:
    """Tells of a member whether it has a row in the group."""
    return lambda member: (group, member) in edit.facts.rows


def demand_row(edit: Edit, group: Thing, member: Thing) -> None:
    """Refuses a member that has no row."""
    if (group, member) not in edit.facts.rows:
        raise refusals.no_such()


@command("member.add", *ROW, fields.moment("from"), fields.moment("until"))
def add_member(
    edit: Edit, name: str, text: str, begins: Optional[int], until: Optional[int]
) -> None:
    """A row. Persons may put themselves in by OPTIN; a group is put in by who may READ it."""
    group, member = edit.find_group(name), edit.find_entity(text)
    edit.demand(group, Privilege.OPTIN if member == edit.caller != SYSTEM else Privilege.UPDATE)
    if member.kind == Kind.GROUP:
        edit.demand(member, Privilege.READ)
    row = dates.window(edit.moment, begins, until)
    demand_member(member)
    if (group, member) in edit.facts.rows:
        raise refusals.already()
    if group in edit.facts.composites:
        raise refusals.is_composite(name)
    if member.kind == Kind.GROUP and members.depends_on(edit.facts, member, group):
        raise refusals.circular(edit.facts.name(member))
    if member.kind == Kind.PERSON:
        rule = vetoing_rule(edit.state, group, member)
        if rule is not None:
            raise refusals.vetoed(rule)
    edit.facts.rows[(group, member)] = row
    edit.note("row.add", group, member)


@command("member.remove", *ROW)
def remove_member(edit: Edit, name: str, text: str) -> None:
    """The row goes, on or not. Persons may take themselves out by OPTOUT."""
    group = edit.find_group(name)
    member = edit.find_entity(text, has_row(edit, group))
    edit.demand(group, Privilege.OPTOUT if member == edit.caller != SYSTEM else Privilege.UPDATE)
    demand_member(member)
    demand_row(edit, group, member)
    del edit.facts.rows[(group, member)]
    edit.note("row.remove", group, member)


@command("member.window", *ROW, fields.moment("from"), fields.moment("until"))
def set_window(
    edit: Edit, name: str, text: str, begins: Optional[int], until: Optional[int]
) -> None:
    """The row gets another begin and end. No veto is asked."""
    group = edit.find_group(name)
    member = edit.find_entity(text, has_row(edit, group))
    edit.demand(group, Privilege.UPDATE)
    row = dates.window(edit.moment, begins, until)
    demand_member(member)
    demand_row(edit, group, member)
    edit.facts.rows[(group, member)] = row
    edit.note("row.window", group, member)


@command("composite.set", fields.name("group"),
         fields.word("kind", "intersection", "complement", "union"), fields.name("left"),
         fields.name("right"))
def set_composite(edit: Edit, name: str, kind: str, left_name: str, right_name: str) -> None:
    """A group without rows gets two factors, neither of which may depend on it."""
    group = edit.find_group(name)
    left, right = edit.find_group(left_name), edit.find_group(right_name)
    edit.demand(group, Privilege.UPDATE)
    edit.demand(left, Privilege.READ)
    edit.demand(right, Privilege.READ)
    if group in edit.facts.composites:
        raise refusals.is_composite(name)
    if any(owner == group for owner, _ in edit.facts.rows):
        raise refusals.has_members()
    for factor in (left, right):
        if members.depends_on(edit.facts, factor, group):
            raise refusals.circular(edit.facts.name(factor))
    edit.facts.composites[group] = Composite(kind, left, right)
    edit.note("composite.set", group)


@command("composite.clear", fields.name("group"))
def clear_composite(edit: Edit, name: str) -> None:
    """The factors go; the group is an empty one with rows again."""
    group = edit.find_group(name)
    edit.demand(group, Privilege.UPDATE)
    if group not in edit.facts.composites:
        raise refusals.no_such()
    del edit.facts.composites[group]
    edit.note("composite.clear", group)
