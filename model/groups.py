"""Commands on persons and on groups as objects."""

import fields
import names
import refusals
from edit import Edit
from facts import Group, OnCreate, Person, Rule
from kinds import Kind, Thing
from operations import command
from privileges import Privilege


@command("subject.add", fields.entity("subject"), fields.display("display"))
def add_person(edit: Edit, text: str, display: str) -> None:
    """A new person, by root. There is no way to take one away."""
    edit.demand_root()
    if not names.is_person(text):
        raise refusals.wrong_kind("subject")
    if text in edit.state.persons:
        raise refusals.taken(text)
    edit.note("subject.add", edit.make(Kind.PERSON, Person(text, display)))


@command("group.add", fields.name("group"), fields.display("display"))
def add_group(edit: Edit, name: str, display: str) -> None:
    """A new group, with its creator's grant and those of the `on_create` rules."""
    edit.demand(edit.folder_for(name), Privilege.create)
    edit.demand_free(name)
    make_group(edit, name, display)


def make_group(edit: Edit, name: str, display: str) -> Thing:
    """Makes the group; the rules whose scope it stands in grant in the order of their numbers."""
    folder = edit.state.names[names.folder_of(name)]
    group = edit.make(Kind.GROUP, Group(folder, names.extension_of(name), display))
    edit.note("group.add", group)
    edit.grant_creator(group)
    for _, rule in sorted(edit.facts.rules.items()):
        if isinstance(rule, OnCreate) and edit.facts.in_scope(group, rule.folder, rule.scope):
            edit.add_grant(group, rule.privilege, rule.holder)
    return group


@command("group.rename", fields.name("group"), fields.extension("extension"))
def rename_group(edit: Edit, name: str, extension: str) -> None:
    """Another extension. The wheel group goes by name, so `create` is demanded too."""
    group = edit.find_group(name)
    folder = edit.state.facts.objects[group].folder
    edit.demand(group, Privilege.ADMIN)
    edit.demand(folder, Privilege.create)
    edit.demand_free(edit.name_in(folder, extension))
    edit.place(group, folder, extension)
    edit.note("group.rename", group)


@command("group.move", fields.name("group"), fields.folder("to"))
def move_group(edit: Edit, name: str, to_name: str) -> None:
    """Another folder; the one in which it stands is taken, by itself."""
    group, to = edit.find_group(name), edit.find_folder(to_name)
    extension = edit.state.facts.objects[group].extension
    edit.demand(group, Privilege.ADMIN)
    edit.demand(to, Privilege.create)
    edit.demand_free(edit.name_in(to, extension))
    edit.place(group, to, extension)
    edit.note("group.move", group)


@command("group.delete", fields.name("group"))
def delete_group(edit: Edit, name: str) -> None:
    """A group goes that nothing else names, with its rows, its factors and what is on it."""
    group = edit.find_group(name)
    edit.demand(group, Privilege.ADMIN)
    demand_group_unused(edit, group)
    edit.delete(group)
    edit.facts.composites.pop(group, None)
    for owner, member in list(edit.facts.rows):
        if owner == group:
            del edit.facts.rows[(owner, member)]
    edit.note("group.delete", group)


def demand_group_unused(edit: Edit, group: Thing) -> None:
    """Refuses a group that is a member, a factor, a holder (also of a grant on itself), or named
    by a rule or a job."""
    facts = edit.facts
    if any(member == group for _, member in facts.rows):
        raise refusals.in_use("member")
    if any(group in (each.left, each.right) for each in facts.composites.values()):
        raise refusals.in_use("factor")
    if any(each.holder == group for each in [*facts.grants, *facts.inherits]):
        raise refusals.in_use("holder")
    if any(names_group(rule, group) for rule in facts.rules.values()):
        raise refusals.in_use("rule")
    if any(job.target == group for job in facts.jobs.values()):
        raise refusals.in_use("job")


def names_group(rule: Rule, group: Thing) -> bool:
    """Whether the group is one of the rule's: to check, to own, to ask, or to hold its grant."""
    return group in vars(rule).values()
