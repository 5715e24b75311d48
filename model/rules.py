"""Commands on rules. What the rules do stands where it is done: `remove_lost` and `end_lost` in
`rounds`, `veto` in `memberships` and `loads`, `on_create` in `groups`."""

from typing import Dict

import fields
import refusals
from edit import Edit
from facts import EndLost, OnCreate, RemoveLost, Rule, Veto
from kinds import SYSTEM, Kind
from grants import PRIVILEGES
from operations import command
from privileges import OF_KIND, Privilege

MOST_DAYS = 3650


def make_rule(edit: Edit, rule: Rule) -> Dict[str, int]:
    """A new rule, unless one of the same form and content stands."""
    if rule in edit.facts.rules.values():
        raise refusals.already()
    number = edit.facts.next_id("rule")
    edit.facts.rules[number] = rule
    edit.note("rule.add", number=number)
    return {"id": number}


@command("rule.remove_lost", fields.name("check"), fields.name("owner"))
def add_remove_lost(edit: Edit, check_name: str, owner_name: str) -> Dict[str, int]:
    """A rule that takes rows away."""
    check, owner = edit.find_group(check_name), edit.find_group(owner_name)
    edit.demand_root()
    return make_rule(edit, RemoveLost(check, owner))


@command("rule.end_lost", fields.name("check"), fields.name("owner"),
         fields.number("days", 1, MOST_DAYS))
def add_end_lost(edit: Edit, check_name: str, owner_name: str, days: int) -> Dict[str, int]:
    """A rule that gives rows an end."""
    check, owner = edit.find_group(check_name), edit.find_group(owner_name)
    edit.demand_root()
    return make_rule(edit, EndLost(check, owner, days))


@command("rule.veto", fields.name("owner"), fields.name("condition"))
def add_veto(edit: Edit, owner_name: str, condition_name: str) -> Dict[str, int]:
    """A rule that keeps persons out."""
    owner, condition = edit.find_group(owner_name), edit.find_group(condition_name)
    edit.demand_root()
    return make_rule(edit, Veto(owner, condition))


@command("rule.on_create", fields.folder("folder"), fields.word("scope", "ONE", "SUB"),
         fields.word("privilege", *PRIVILEGES), fields.entity("holder"))
def add_on_create(
    edit: Edit, name: str, scope: str, word: str, holder_text: str
) -> Dict[str, int]:
    """A rule that grants a group's privilege on every new group in the scope."""
    folder, holder = edit.find_folder(name), edit.find_entity(holder_text)
    edit.demand_root()
    privilege = Privilege[word]
    if privilege not in OF_KIND[Kind.GROUP]:
        raise refusals.wrong_kind("privilege")
    if holder == SYSTEM:
        raise refusals.wrong_kind("holder")
    return make_rule(edit, OnCreate(folder, scope, privilege, holder))


@command("rule.delete", fields.number("id"))
def delete_rule(edit: Edit, number: int) -> None:
    """The rule goes; what it did stays."""
    edit.demand_root()
    if number not in edit.facts.rules:
        raise refusals.no_such()
    del edit.facts.rules[number]
    edit.note("rule.delete", number=number)
