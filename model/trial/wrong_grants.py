"""Wrong models of the dates of grants. The titles say what is wrong."""

from unittest import mock

import dates
import edit
import grants
import groups
import log
import past
import questions
import refusals
import registry
import rights
from operations import OPERATIONS
from state import State
from wrong_rules import ALL, WrongRule, wrong

# The right functions, for wrong ones that stand on them.
add_grant = grants.add_grant
at = past.Past.at
delete = edit.Edit.delete
demand_unused = groups.demand_group_unused
end_all = dates.end_all
end_grants = dates.end_grants
next_date = dates.next_date
opened_again = registry.Registry.opened_again
pass_to = registry.Registry.pass_to
place = dates.place
window = dates.window

ALL.append(WrongRule("a grant counts before it begins", rights, "has_begun", lambda *_: True))
ALL.append(WrongRule(
    "a grant begins a microsecond after its begin", rights, "has_begun",
    lambda window, moment: window.begins < moment,
))


@wrong("a grant that ends makes no entry", dates, "end_grants")
def end_silently(facts, date):
    end_grants(facts, date)
    return []


@wrong("a grant that begins makes an entry", dates, "end_all")
def begin_loudly(facts, date):
    return end_all(facts, date) + [
        log.Entry(date, "grant.add", grant.object, grant.holder, grant.privilege)
        for grant in sorted(facts.grants, key=place) if facts.grants[grant].begins == date
    ]


@wrong("grants that end are told before rows", dates, "end_all")
def end_grants_first(facts, date):
    return end_grants(facts, date) + dates.end_rows(facts, date)


@wrong("grants on groups end before those on folders", dates, "place")
def groups_first(grant):
    return grant.object, grant.privilege, grant.holder


@wrong("grants that end at one date are told by holder, then by privilege", dates, "place")
def holders_first(grant):
    kind, number, privilege, holder = place(grant)
    return kind, number, holder, privilege


@wrong("grants that end at one date are told in the order of making", dates, "place")
def as_made(grant):
    return 0


@wrong("a grant ends one line late", registry.Registry, "pass_to")
def end_late(self, moment):
    facts = self.state.facts.copy()
    overdue = [
        date for window in facts.grants.values() for date in [window.until]
        if date is not None and date <= self.clock
    ]
    entries = [entry for date in sorted(set(overdue)) for entry in end_grants(facts, date)]
    if entries:
        self.step(self.clock, facts, [entry._replace(moment=self.clock) for entry in entries])
    with mock.patch.object(dates, "end_grants", lambda *_: []):
        pass_to(self, moment)


@wrong("a date at which grants alone begin or end is passed over", dates, "next_date")
def rows_dates(facts, after, up_to):
    only = facts.copy()
    only.grants = {}
    return next_date(only, after, up_to)


@wrong("a grant ends a microsecond late", OPERATIONS["grant.add"], "meaning")
def add_longer(at_edit, text, word, holder_text, begins, until):
    add_grant(at_edit, text, word, holder_text, begins, until)
    if until is not None:
        found = grants.find_grant(at_edit, text, word, holder_text, stands=True)
        at_edit.facts.grants[found] = at_edit.facts.grants[found]._replace(until=until + 1)


@wrong("a grant's begin in the past changes what is told of the past", past.Past, "at")
def at_with_later(self, moment):
    facts = at(self, moment).facts.copy()
    for state in self.states:
        for grant, dated in state.facts.grants.items():
            if state.moment > moment >= dated.begins:
                facts.grants.setdefault(grant, dated)
    return State(facts, at(self, moment).moment)


@wrong("what begins at a moment isn't told of that moment", questions, "state_asked")
def asked_before(at_turn, at):
    if at is not None and at > at_turn.moment:
        raise refusals.future(at, at_turn.moment)
    state = at_turn.registry.past.at(at_turn.moment if at is None else at)
    return State(state.facts, state.moment - 1)


@wrong("BadWindow behind WrongKind", OPERATIONS["grant.add"], "meaning")
def kinds_first(at_edit, text, word, holder_text, begins, until):
    found = grants.find_grant(at_edit, text, word, holder_text, stands=False)
    grants.demand_kinds(found)
    add_grant(at_edit, text, word, holder_text, begins, until)


@wrong("BadWindow before Denied", OPERATIONS["grant.add"], "meaning")
def window_first(at_edit, text, word, holder_text, begins, until):
    at_edit.find_object(text)
    at_edit.find_entity(holder_text)
    window(at_edit.moment, begins, until)
    add_grant(at_edit, text, word, holder_text, begins, until)


@wrong("BadWindow behind Already", OPERATIONS["grant.add"], "meaning")
def already_first(at_edit, text, word, holder_text, begins, until):
    found = grants.find_grant(at_edit, text, word, holder_text, stands=False)
    if found in at_edit.facts.grants:
        grants.demand_kinds(found)
        raise refusals.already()
    add_grant(at_edit, text, word, holder_text, begins, until)


@wrong("a grant that is to come isn't Already", OPERATIONS["grant.add"], "meaning")
def add_over(at_edit, text, word, holder_text, begins, until):
    found = grants.find_grant(at_edit, text, word, holder_text, stands=False)
    to_come = at_edit.facts.grants.get(found)
    if to_come is not None and to_come.begins > at_edit.moment:
        del at_edit.facts.grants[found]
    add_grant(at_edit, text, word, holder_text, begins, until)


@wrong("a grant that is to come can't be removed", OPERATIONS["grant.remove"], "meaning")
def remove_begun(at_edit, text, word, holder_text):
    found = grants.find_grant(at_edit, text, word, holder_text, stands=True)
    grants.demand_kinds(found)
    if found in at_edit.facts.grants and at_edit.facts.grants[found].begins > at_edit.moment:
        raise refusals.no_such()
    grants.remove_grant(at_edit, text, word, holder_text)


@wrong("a group isn't in use by a grant that is to come", groups, "demand_group_unused")
def unused_now(at_edit, group):
    begun = at_edit.facts.copy()
    begun.grants = {
        grant: dated for grant, dated in begun.grants.items() if dated.begins <= at_edit.moment
    }
    with mock.patch.object(at_edit, "facts", begun):
        demand_unused(at_edit, group)


@wrong("at opening the ends of grants are forgotten", registry.Registry, "opened_again")
def opened_without_ends(self):
    return opened_with(self, lambda dated: dated._replace(until=None))


@wrong("at opening grants begin", registry.Registry, "opened_again")
def opened_begun(self):
    return opened_with(self, lambda dated: dated._replace(begins=0))


def opened_with(self, change):
    """Opened again, with other dates of grants."""
    again = opened_again(self)
    facts = again.state.facts.copy()
    facts.grants = {grant: change(dated) for grant, dated in facts.grants.items()}
    again.state = State(facts, again.state.moment)
    again.past.states[-1] = again.state
    return again


@wrong("the grants on what is gone stay until they end", edit.Edit, "delete")
def delete_alone(self, thing):
    standing = dict(self.facts.grants)
    delete(self, thing)
    self.facts.grants = standing
