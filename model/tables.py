"""A loader's table: comma-separated values with a header, and which columns are meant."""

from dataclasses import dataclass
from typing import List, Optional, Tuple

import refusals

ID_COLUMN = "SUBJECT_ID"
SOURCE_COLUMN = "SUBJECT_SOURCE_ID"
GROUP_COLUMN = "GROUP_NAME"


@dataclass
class Record:
    """What a record says; None for a column that the table doesn't have."""

    id: str
    source: Optional[str]
    group: Optional[str]


def split(text: str) -> List[List[str]]:
    """The records of comma-separated values, each a list of fields.

    LF, CR or CR LF ends a record, and a line of no bytes is none. A field that begins with a quote
    goes on to the next quote that isn't doubled; what follows it up to the comma is added as it
    stands. A quote at another place is a letter like any other.
    """
    records: List[List[str]] = []
    at = 0
    while at < len(text):
        if text[at] in "\r\n":
            at += 1
            continue
        record: List[str] = []
        more = True
        while more:
            content, at = read_field(text, at)
            record.append(content)
            more = text[at:at + 1] == ","
            at += more
        records.append(record)
    return records


def read_field(text: str, at: int) -> Tuple[str, int]:
    """One field from a place on, and the place of the comma or line end behind it."""
    content = ""
    if text[at:at + 1] == '"':
        at += 1
        while at < len(text) and (text[at] != '"' or text[at + 1:at + 2] == '"'):
            content += text[at]
            at += 2 if text[at] == '"' else 1
        at += 1
    while at < len(text) and text[at] not in ",\r\n":
        content += text[at]
        at += 1
    return content, at


def column(header: List[bytes], name: str) -> Optional[int]:
    """The first column of the name, without regard to the case of ASCII letters."""
    return header.index(name.encode()) if name.encode() in header else None


def read(text: str, needs_group: bool) -> List[Record]:
    """The records after the header, or BadTable with the first record that is bad.

    The header is record 0. A needed column has to be there, and each record has as many fields as
    the header. One byte order mark at the beginning is dropped.
    """
    rows = split(text[1:] if text.startswith("\ufeff") else text)
    if not rows:
        raise refusals.bad_table(0)
    header = [name.encode().upper() for name in rows[0]]
    id_at, source_at = column(header, ID_COLUMN), column(header, SOURCE_COLUMN)
    group_at = column(header, GROUP_COLUMN)
    if id_at is None or (needs_group and group_at is None):
        raise refusals.bad_table(0)
    records = []
    for number, row in enumerate(rows[1:], start=1):
        if len(row) != len(header):
            raise refusals.bad_table(number)
        records.append(
            Record(
                id=row[id_at],
                source=None if source_at is None else row[source_at],
                group=None if group_at is None else row[group_at],
            )
        )
    return records
