"""Commands on folders, and what renaming and moving mean for every object."""

import fields
import names
import refusals
from edit import Edit
from facts import Folder, OnCreate
from kinds import ROOT_FOLDER, Kind, Thing
from operations import command
from privileges import Privilege


@command("folder.add", fields.name("folder"), fields.display("display"))
def add_folder(edit: Edit, name: str, display: str) -> None:
    """A new folder; its creator gets stemAdmin on it."""
    parent = edit.folder_for(name)
    edit.demand(parent, Privilege.create)
    edit.demand_free(name)
    folder = edit.make(Kind.FOLDER, Folder(parent, names.extension_of(name), display))
    edit.note("folder.add", folder)
    edit.grant_creator(folder)


@command("folder.rename", fields.folder("folder"), fields.extension("extension"))
def rename_folder(edit: Edit, name: str, extension: str) -> None:
    """Another extension; the root has none."""
    folder = edit.find_folder(name)
    edit.demand(folder, Privilege.stemAdmin)
    if folder == ROOT_FOLDER:
        raise refusals.wrong_kind("folder")
    parent = edit.state.facts.objects[folder].folder
    edit.demand(parent, Privilege.create)
    edit.demand_free(edit.name_in(parent, extension))
    edit.place(folder, parent, extension)
    edit.note("folder.rename", folder)


@command("folder.move", fields.folder("folder"), fields.folder("to"))
def move_folder(edit: Edit, name: str, to_name: str) -> None:
    """Another parent, which can't be the folder itself or a folder below it."""
    folder, to = edit.find_folder(name), edit.find_folder(to_name)
    edit.demand(folder, Privilege.stemAdmin)
    edit.demand(to, Privilege.create)
    if folder == ROOT_FOLDER:
        raise refusals.wrong_kind("folder")
    extension = edit.state.facts.objects[folder].extension
    edit.demand_free(edit.name_in(to, extension))
    if folder == to or folder in edit.state.facts.folders_above(to):
        raise refusals.circular(to_name)
    edit.place(folder, to, extension)
    edit.note("folder.move", folder)


@command("folder.delete", fields.folder("folder"))
def delete_folder(edit: Edit, name: str) -> None:
    """An empty folder goes that no rule and no job names."""
    folder = edit.find_folder(name)
    edit.demand(folder, Privilege.stemAdmin)
    if folder == ROOT_FOLDER:
        raise refusals.wrong_kind("folder")
    demand_folder_unused(edit, folder)
    if any(row.folder == folder for row in edit.facts.objects.values()):
        raise refusals.not_empty()
    edit.delete(folder)
    edit.note("folder.delete", folder)


def demand_folder_unused(edit: Edit, folder: Thing) -> None:
    """Refuses a folder of an `on_create` rule or of a list job."""
    if any(
        isinstance(rule, OnCreate) and rule.folder == folder
        for rule in edit.facts.rules.values()
    ):
        raise refusals.in_use("rule")
    if any(job.target == folder for job in edit.facts.jobs.values()):
        raise refusals.in_use("job")
