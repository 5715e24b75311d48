"""Moments: whole microseconds since 1970-01-01T00:00:00Z, and their texts."""

import datetime
import re
from typing import Optional

SECOND = 1_000_000
DAY = 86_400 * SECOND
GREATEST = 253_402_300_799_999_999  # 9999-12-31T23:59:59.999999Z

_SHAPE = re.compile(
    r"(\d{4})-(\d\d)-(\d\d)T(\d\d):(\d\d):(\d\d)(?:\.(\d{1,6}))?Z", re.ASCII
)
_FIRST_DAY = datetime.date(1970, 1, 1)


def read(text: str) -> Optional[int]:
    """The moment of `YYYY-MM-DDThh:mm:ssZ`, with 1 to 6 digits after a point or without.

    None where the text has another shape, names a day or a time that doesn't exist (there is no
    second 60), or lies before 1970.
    """
    match = _SHAPE.fullmatch(text)
    if match is None:
        return None
    year, month, day, hour, minute, second = (int(part) for part in match.groups()[:6])
    if year < 1970 or hour > 23 or minute > 59 or second > 59:
        return None
    try:
        days = (datetime.date(year, month, day) - _FIRST_DAY).days
    except ValueError:
        return None
    seconds = (hour * 60 + minute) * 60 + second
    return days * DAY + seconds * SECOND + int((match.group(7) or "0").ljust(6, "0"))


def text(moment: int) -> str:
    """The printed form, which always has six digits after the point."""
    days, rest = divmod(moment, DAY)
    seconds, micros = divmod(rest, SECOND)
    day = _FIRST_DAY + datetime.timedelta(days=days)
    hour, minute, second = seconds // 3600, seconds // 60 % 60, seconds % 60
    return f"{day.isoformat()}T{hour:02}:{minute:02}:{second:02}.{micros:06}Z"
