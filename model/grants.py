"""Commands on grants, on one object, and on inherits, on all objects of a kind in a folder."""

from typing import Optional

import dates
import fields
import refusals
from edit import Edit
from facts import Grant, Inherit
from kinds import SYSTEM, Kind
from operations import command
from privileges import OF_KIND, Privilege

PRIVILEGES = [privilege.name for privilege in Privilege]
KINDS = {"folder": Kind.FOLDER, "group": Kind.GROUP, "definition": Kind.DEFINITION}

GRANT = (
    fields.object_("object"),
    fields.word("privilege", *PRIVILEGES),
    fields.entity("holder"),
)
INHERIT = (
    fields.folder("folder"),
    fields.word("kind", *KINDS),
    fields.word("scope", "ONE", "SUB"),
    fields.word("privilege", *PRIVILEGES),
    fields.entity("holder"),
)


def find_grant(edit: Edit, text: str, word: str, holder_text: str, stands: bool) -> Grant:
    """The grant that is meant, by the object's admin. Where it has to stand, on or not, its holder
    may be hidden."""
    thing, privilege = edit.find_object(text), Privilege[word]
    holder = edit.find_entity(
        holder_text,
        lambda group: stands and Grant(thing, privilege, group) in edit.facts.grants,
    )
    edit.demand_admin(thing)
    return Grant(thing, privilege, holder)


def demand_kinds(grant: Grant) -> None:
    """Grants are on folders, groups (by name or as entities) and definitions, of a privilege of
    the object's kind. GrouperSystem needs none."""
    if grant.object.kind not in OF_KIND:
        raise refusals.wrong_kind("object")
    if grant.privilege not in OF_KIND[grant.object.kind]:
        raise refusals.wrong_kind("privilege")
    if grant.holder == SYSTEM:
        raise refusals.wrong_kind("holder")


@command("grant.add", *GRANT, fields.moment("from"), fields.moment("until"))
def add_grant(
    edit: Edit, text: str, word: str, holder_text: str, begins: Optional[int],
    until: Optional[int],
) -> None:
    """A grant, which is entered at once, also where it begins later. Its dates don't make it
    another one."""
    grant = find_grant(edit, text, word, holder_text, stands=False)
    window = dates.window(edit.moment, begins, until)
    demand_kinds(grant)
    if grant in edit.facts.grants:
        raise refusals.already()
    edit.facts.grants[grant] = window
    edit.note("grant.add", grant.object, grant.holder, grant.privilege)


@command("grant.remove", *GRANT)
def remove_grant(edit: Edit, text: str, word: str, holder_text: str) -> None:
    """The grant goes, on or not."""
    grant = find_grant(edit, text, word, holder_text, stands=True)
    demand_kinds(grant)
    if grant not in edit.facts.grants:
        raise refusals.no_such()
    del edit.facts.grants[grant]
    edit.note("grant.remove", grant.object, grant.holder, grant.privilege)


def judge_inherit(
    edit: Edit, name: str, kind_word: str, scope: str, word: str, holder_text: str, stands: bool
) -> Inherit:
    """The inherit that is meant. Where it has to stand, its holder may be hidden."""
    folder, kind, privilege = edit.find_folder(name), KINDS[kind_word], Privilege[word]
    holder = edit.find_entity(
        holder_text,
        lambda group: stands
        and Inherit(folder, kind, scope, privilege, group) in edit.facts.inherits,
    )
    edit.demand(folder, Privilege.stemAdmin)
    if privilege not in OF_KIND[kind]:
        raise refusals.wrong_kind("privilege")
    if holder == SYSTEM:
        raise refusals.wrong_kind("holder")
    return Inherit(folder, kind, scope, privilege, holder)


@command("inherit.add", *INHERIT)
def add_inherit(
    edit: Edit, name: str, kind_word: str, scope: str, word: str, holder_text: str
) -> None:
    """A privilege on all objects in a scope, by the folder's admin."""
    inherit = judge_inherit(edit, name, kind_word, scope, word, holder_text, stands=False)
    if inherit in edit.facts.inherits:
        raise refusals.already()
    edit.facts.inherits.add(inherit)
    edit.note("inherit.add", inherit.folder, inherit.holder, inherit.privilege)


@command("inherit.remove", *INHERIT)
def remove_inherit(
    edit: Edit, name: str, kind_word: str, scope: str, word: str, holder_text: str
) -> None:
    """The inherit goes."""
    inherit = judge_inherit(edit, name, kind_word, scope, word, holder_text, stands=True)
    if inherit not in edit.facts.inherits:
        raise refusals.no_such()
    edit.facts.inherits.remove(inherit)
    edit.note("inherit.remove", inherit.folder, inherit.holder, inherit.privilege)
