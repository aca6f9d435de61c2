"""Files of holidays, and weekdays in words (docs/formats.md, "A file of holidays")."""

import datetime
import re

from .texts import START
from .words import Fault

MOST_BYTES, MOST_DAYS = 1048576, 10000
WEEKDAYS = ("mon", "tue", "wed", "thu", "fri", "sat", "sun")


def date_of(text):
    """The date that a text is, from 1900 to 2199; None if it is none."""
    try:
        date = datetime.date.fromisoformat(text) if START.fullmatch(text) else None
    except ValueError:
        return None
    return date if date and 1900 <= date.year <= 2199 else None


def days_of(entry):
    """The days of a date or a range, as ordinals; None if the entry is neither."""
    ends = [date_of(end) for end in entry.split("..")]
    if None in ends or len(ends) > 2 or ends[-1] < ends[0]:
        return None
    return range(ends[0].toordinal(), ends[-1].toordinal() + 1)


def read_holidays(text):
    """The holidays in a file, as a set of ordinals."""
    if len(text) > MOST_BYTES:
        raise Fault("G6 holidays")
    found, count = set(), 0
    for number, line in enumerate(text.removeprefix(b"\xef\xbb\xbf").split(b"\n"), 1):
        entry = re.sub("[ \t\r]", "", line.decode("latin-1").split("#")[0])
        days = days_of(entry) if entry else ()
        if days is None:
            raise Fault(f"G5 line {number} date")
        count += len(days)
        if count > MOST_DAYS:
            raise Fault("G6 holidays")
        found.update(days)
    return found


def item_days(item):
    """The weekdays of a name or a range of names; None if the item is neither."""
    ends = item.split("-")
    if len(ends) > 2 or any(end not in WEEKDAYS for end in ends):
        return None
    day, last = WEEKDAYS.index(ends[0]), WEEKDAYS.index(ends[-1])
    days = [day]
    while day != last:
        day = (day + 1) % 7
        days.append(day)
    return days


def digits_of(marks):
    """Marks as digits, if they are words."""
    items = [item_days(item) for item in marks.split(",")]
    if None in items:
        return marks
    return "".join(str(int(any(day in days for days in items))) for day in range(7))
