"""Loader jobs, and the runs that make a group's persons those of a table."""

from dataclasses import dataclass, field
from typing import Dict, List, Optional, Set, Tuple

import fields
import groups
import limits
import names
import refusals
import tables
from edit import Edit
from facts import Job, Window
from kinds import Kind, Thing
from memberships import vetoing_rule
from operations import command

JOB = (
    fields.source("source"),
    fields.number("min_size", 0, 2**32 - 1),
    fields.number("max_percent", 0, 100),
)


@dataclass
class Plan:
    """What a run does, and how many records came to nothing for which reason."""

    created: List[str] = field(default_factory=list)
    removed: List[Tuple[Thing, Thing]] = field(default_factory=list)
    added: List[Tuple[str, Thing]] = field(default_factory=list)
    before: int = 0  # the person rows of the job's groups
    counts: Dict[str, int] = field(
        default_factory=lambda: dict.fromkeys(
            ("bad_group", "unknown", "repeated", "unchanged", "vetoed"), 0
        )
    )


@command("job.simple", fields.extension("job"), fields.name("group"), *JOB)
def add_simple_job(
    edit: Edit, name: str, group_name: str, source: str, min_size: int, max_percent: int
) -> None:
    """A job whose tables name the persons of one group."""
    target = edit.find_group(group_name)
    make_job(edit, Job(name, target, source, min_size, max_percent))


@command("job.list", fields.extension("job"), fields.folder("folder"), *JOB)
def add_list_job(
    edit: Edit, name: str, folder_name: str, source: str, min_size: int, max_percent: int
) -> None:
    """A job whose tables name groups directly in one folder, each with its persons."""
    target = edit.find_folder(folder_name)
    make_job(edit, Job(name, target, source, min_size, max_percent))


def make_job(edit: Edit, job: Job) -> None:
    """A new job, by root."""
    edit.demand_root()
    if any(each.name == job.name for each in edit.facts.jobs.values()):
        raise refusals.taken(job.name)
    number = edit.facts.next_id("job")
    edit.facts.jobs[number] = job
    edit.note("job.add", number=number)


def find_job(edit: Edit, name: str) -> int:
    """The number of the job with this name. Only root sees any."""
    for number, job in edit.facts.jobs.items():
        if job.name == name and edit.is_root:
            return number
    raise refusals.not_found(name)


@command("job.delete", fields.extension("job"))
def delete_job(edit: Edit, name: str) -> None:
    """The job goes; what it loaded stays."""
    number = find_job(edit, name)
    del edit.facts.jobs[number]
    edit.note("job.delete", number=number)


@command("load", fields.extension("job"), fields.table("table"))
def load(edit: Edit, name: str, table: str) -> Dict[str, int]:
    """One run: groups are created, then rows removed, then rows added, all in one step."""
    job = edit.facts.jobs[find_job(edit, name)]
    if job.target in edit.facts.composites:
        raise refusals.is_composite(edit.facts.name(job.target))
    records = tables.read(table, needs_group=job.target.kind == Kind.FOLDER)
    if len(records) > limits.RECORDS:
        raise refusals.full("record", limits.RECORDS)
    plan = make_plan(edit, job, records)
    demand_safe(job, plan)
    carry_out(edit, plan)
    edit.did = rows_of(edit, plan)
    return {
        "added": len(plan.added),
        "created": len(plan.created),
        "removed": len(plan.removed),
        **plan.counts,
    }


def groups_of(edit: Edit, job: Job) -> List[Thing]:
    """The job's groups: its one, or all directly in its folder that aren't composite."""
    if job.target.kind == Kind.GROUP:
        return [job.target]
    return [
        group
        for group in edit.facts.of_kind(Kind.GROUP)
        if edit.facts.objects[group].folder == job.target and group not in edit.facts.composites
    ]


def is_bad_group(edit: Edit, job: Job, name: str) -> bool:
    """Whether a table's group name is malformed, elsewhere, or names what can't have rows."""
    if not names.is_name(name) or names.folder_of(name) != edit.facts.name(job.target):
        return True
    thing = edit.state.names.get(name)
    return thing is not None and (
        thing.kind != Kind.GROUP or thing in edit.facts.composites
    )


def make_plan(edit: Edit, job: Job, records: List[tables.Record]) -> Plan:
    """Walks the records in order; all is judged on the state before the run.

    A group that no object's name stands for is created, also where all its persons are unknown.
    """
    plan = Plan()
    wanted: Set[Tuple[str, Thing]] = set()
    for record in records:
        group_name = edit.facts.name(job.target)
        if job.target.kind == Kind.FOLDER:
            group_name = record.group
            if is_bad_group(edit, job, group_name):
                plan.counts["bad_group"] += 1
                continue
            if group_name not in edit.state.names and group_name not in plan.created:
                plan.created.append(group_name)
        source = job.source if record.source is None else record.source
        person = edit.state.persons.get(f"{source}/{record.id}")
        if person is None:
            plan.counts["unknown"] += 1
        elif (group_name, person) in wanted:
            plan.counts["repeated"] += 1
        else:
            wanted.add((group_name, person))
            plan_row(edit, plan, group_name, person)
    plan_removals(edit, job, plan, wanted)
    return plan


def plan_row(edit: Edit, plan: Plan, group_name: str, person: Thing) -> None:
    """A wanted row stands already, is vetoed, or is added."""
    group: Optional[Thing] = edit.state.names.get(group_name)
    if (group, person) in edit.facts.rows:
        plan.counts["unchanged"] += 1
    elif group is not None and vetoing_rule(edit.state, group, person) is not None:
        plan.counts["vetoed"] += 1
    else:
        plan.added.append((group_name, person))


def plan_removals(edit: Edit, job: Job, plan: Plan, wanted: Set[Tuple[str, Thing]]) -> None:
    """Person rows of the job's groups that aren't wanted go, on or not; nested groups stay."""
    own_groups = groups_of(edit, job)
    rows = sorted(
        (group, member)
        for group, member in edit.facts.rows
        if group in own_groups and member.kind == Kind.PERSON
    )
    plan.before = len(rows)
    plan.removed = [
        (group, person) for group, person in rows if (edit.facts.name(group), person) not in wanted
    ]


def demand_safe(job: Job, plan: Plan) -> None:
    """Refuses a run that would remove more than the job's percentage of many rows."""
    removes = len(plan.removed)
    if plan.before >= job.min_size and removes * 100 > job.max_percent * plan.before:
        raise refusals.failsafe(plan.before, removes)


def carry_out(edit: Edit, plan: Plan) -> None:
    """Added rows begin now and have no end."""
    made = {name: groups.make_group(edit, name, display="") for name in plan.created}
    for group, person in plan.removed:
        del edit.facts.rows[(group, person)]
        edit.note("row.remove", group, person)
    for name, person in plan.added:
        group = made[name] if name in made else edit.state.names[name]
        edit.facts.rows[(group, person)] = Window(edit.moment, None)
        edit.note("row.add", group, person)


def rows_of(edit: Edit, plan: Plan) -> Dict[str, object]:
    """What the run did, in names, as the list of commands and the journal have it."""

    def row(group_name: str, person: Thing) -> Dict[str, str]:
        return {"group": group_name, "person": edit.facts.name(person)}

    return {
        "created": plan.created,
        "removed": [row(edit.facts.name(group), person) for group, person in plan.removed],
        "added": [row(name, person) for name, person in plan.added],
    }
