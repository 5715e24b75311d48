"""Dates: the moments at which rows and grants begin and end."""

from typing import List, Optional, Tuple

import refusals
from facts import Facts, Grant, Window
from kinds import Kind
from log import Entry

OBJECTS = [Kind.FOLDER, Kind.GROUP, Kind.DEFINITION]  # as the grants on them end at one date


def window(moment: int, begins: Optional[int], until: Optional[int]) -> Window:
    """The dates that a command at a moment gives a row or a grant.

    Left out, it begins now and has no end. An end must be after now and after the begin. A begin
    in the past is accepted, and changes nothing of the past.
    """
    if begins is None:
        begins = moment
    if until is not None and until <= max(moment, begins):
        raise refusals.bad_window()
    return Window(begins, until)


def next_date(facts: Facts, after: int, up_to: int) -> Optional[int]:
    """The first moment in (after, up_to] at which a row or a grant begins or ends."""
    windows = [*facts.rows.values(), *facts.grants.values()]
    dates = [date for window in windows for date in window if date is not None]
    return min((date for date in dates if after < date <= up_to), default=None)


def end_all(facts: Facts, date: int) -> List[Entry]:
    """Takes away what ends at the date: rows, and then grants.

    What begins at it needs nothing: it is on from now on.
    """
    return end_rows(facts, date) + end_grants(facts, date)


def end_rows(facts: Facts, date: int) -> List[Entry]:
    """Takes away the rows that end, by group, and in it persons before groups."""
    ending = sorted(key for key, row in facts.rows.items() if row.until == date)
    for key in ending:
        del facts.rows[key]
    return [Entry(date, "row.remove", group, member) for group, member in ending]


def end_grants(facts: Facts, date: int) -> List[Entry]:
    """Takes away the grants that end: by object, then by privilege, then by holder."""
    ending = sorted(
        (grant for grant, window in facts.grants.items() if window.until == date), key=place
    )
    for grant in ending:
        del facts.grants[grant]
    return [
        Entry(date, "grant.remove", grant.object, grant.holder, grant.privilege)
        for grant in ending
    ]


def place(grant: Grant) -> Tuple:
    """What orders grants: folders before groups before definitions, each by id; privileges; and
    EveryEntity before persons before groups."""
    return OBJECTS.index(grant.object.kind), grant.object.id, grant.privilege, grant.holder
