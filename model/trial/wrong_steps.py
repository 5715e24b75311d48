"""Wrong models of steps: dates, membership, rules, the log. The titles say what is wrong."""

from dataclasses import replace

import dates
import edit
import facts
import groups
import log
import members
import memberships
import refusals
import registry
import rounds
from facts import RemoveLost, Veto
from kinds import Kind
from operations import OPERATIONS
from wrong_rules import ALL, WrongRule, wrong

# The right functions, for wrong ones that stand on them.
act = rounds.act
delete_group = groups.delete_group
next_date = dates.next_date
opened_again = registry.Registry.opened_again


# Dates and membership

@wrong("a row begins a microsecond after its begin", members, "is_on")
def is_on(all_facts, group, member, moment):
    return all_facts.rows[(group, member)].begins < moment


@wrong("a date that meets a request is passed over", dates, "next_date")
def date_before(all_facts, after, up_to):
    return next_date(all_facts, after, up_to - 1)


@wrong("rows that end at one date are walked with groups before persons", dates, "end_rows")
def end_groups_first(all_facts, date):
    ending = [key for key, row in all_facts.rows.items() if row.until == date]
    ending.sort(key=lambda key: (key[0], key[1].kind == Kind.PERSON, key[1]))
    for key in ending:
        del all_facts.rows[key]
    return [log.Entry(date, "row.remove", *key) for key in ending]


@wrong("an end at the clock's moment is accepted", dates, "window")
def late_window(moment, begins, until):
    begins = moment if begins is None else begins
    if until is not None and (until < moment or until <= begins):
        raise refusals.bad_window()
    return facts.Window(begins, until)


@wrong("circles through factors aren't seen", members, "directly_below")
def nested_only(all_facts, group):
    return [
        member for owner, member in all_facts.rows
        if owner == group and member.kind == Kind.GROUP
    ]


# Rules

@wrong("one round of rules only", rounds, "settle")
def one_round_only(all_facts, ended, moment):
    return rounds.one_round(all_facts, ended, moment)


@wrong("later rounds walk only what was there before the rules acted", rounds, "settle")
def settle_first_members(all_facts, ended, moment):
    first = members.effective_pairs(all_facts, moment) | ended
    entries = []
    while True:
        actions = rounds.one_round(all_facts, ended, moment)
        if not actions:
            return entries
        entries += actions
        ended = first - members.effective_pairs(all_facts, moment)


ALL.append(WrongRule(
    "rounds walk backwards", rounds, "sorted", lambda things: sorted(things, reverse=True)
))


@wrong("rules act on rows that aren't on yet", rounds, "act")
def act_on_all(all_facts, rule, person, moment):
    if isinstance(rule, RemoveLost) and (rule.owner, person) in all_facts.rows:
        del all_facts.rows[(rule.owner, person)]
        return "row.remove"
    return act(all_facts, rule, person, moment)


@wrong("end_lost moves an end that stands", rounds, "act")
def act_on_ended(all_facts, rule, person, moment):
    row = all_facts.rows.get((rule.owner, person))
    if row is not None and not isinstance(rule, RemoveLost):
        all_facts.rows[(rule.owner, person)] = row._replace(until=None)
    kind = act(all_facts, rule, person, moment)
    if row is not None and kind is None:
        all_facts.rows[(rule.owner, person)] = row
    return kind


@wrong("end_lost ends a day later", rounds, "act")
def act_a_day_later(all_facts, rule, person, moment):
    if not isinstance(rule, RemoveLost):
        rule = replace(rule, days=rule.days + 1)
    return act(all_facts, rule, person, moment)


@wrong("a veto asks for a row rather than a member", memberships, "vetoing_rule")
def veto_by_rows(state, group, person):
    for number, rule in sorted(state.facts.rules.items()):
        if isinstance(rule, Veto) and rule.owner == group:
            if (rule.condition, person) not in state.facts.rows:
                return number
    return None


@wrong("the last vetoing rule is told", memberships, "vetoing_rule")
def last_veto(state, group, person):
    vetoes = [
        number for number, rule in state.facts.rules.items()
        if isinstance(rule, Veto) and rule.owner == group
        and person not in state.members[rule.condition]
    ]
    return max(vetoes, default=None)


@wrong("grants that stand are made again", edit.Edit, "add_grant")
def grant_again(self, thing, privilege, holder):
    self.facts.grants[facts.Grant(thing, privilege, holder)] = facts.Window(self.moment, None)
    self.note("grant.add", thing, holder, privilege)


# The log

@wrong("memberships that end are told before those that begin", log, "differences")
def ends_first(before, after, moment):
    return [log.Entry(moment, "member.end", *pair) for pair in sorted(before - after)] + [
        log.Entry(moment, "member.begin", *pair) for pair in sorted(after - before)
    ]


@wrong("a deleted group's rows are told", OPERATIONS["group.delete"], "meaning")
def delete_group_loudly(at_edit, name):
    rows = sorted(at_edit.facts.rows)
    delete_group(at_edit, name)
    for group, member in rows:
        if (group, member) not in at_edit.facts.rows:
            at_edit.note("row.remove", group, member)


@wrong("after a stop the clock goes on where it was", registry.Registry, "opened_again")
def open_at_clock(self):
    again = opened_again(self)
    again.pass_to(self.clock)
    return again
