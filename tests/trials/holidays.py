#!/usr/bin/env python3
"""Compares `plan days --holidays` with a plain model, over drawn files of holidays, projects and job
shops: model/holidays.py reads the file as a set of days, and each working day is found by walking
from day to day. Half of the schedules are given by --starts.

    tests/trials/holidays.py               3,000 files; prints nothing on success
    tests/trials/holidays.py CASES SEED    so many, drawn from this seed

The program is the one that ./plan runs, or the one that PLAN_PROGRAM names.
"""

import collections
import datetime
import os
import sys
import tempfile
from random import Random

sys.dont_write_bytecode = True
sys.path.insert(0, os.path.dirname(os.path.abspath(__file__)))

from answers import plan, same, written
from drawing import Draw
from drawing.texts import project_text, shop_text
from drawing.words import NO_MARKS, NO_STARTS, instance, rule
from model.commands import pages_of
from model.holidays import digits_of, read_holidays
from model.texts import LAST_DAY, check_calendar
from model.words import Fault

FIRST = datetime.date(2024, 2, 20).toordinal()
MARKS = ("1111100", "1111111", "0000001", "1010101", "mon-fri", "mon-sat", "mon,wed,fri", "sun-thu")
MARKS += ("sat", "mon-sun", "fri-mon,wed", "tue-tue,tue")
BAD_MARKS = NO_MARKS + ("mon-", "mon-wed-fri", "Mon", "mon;tue", "mon, tue", "monday", "mon,,tue")
STARTS = ("2024-03-01", "2024-02-27", "2024-12-30")
ENTRIES = ("2023-02-29", "2024-3-1", "1899-12-31", "2200-01-01", "2024-03-04.2024-03-05", "x", "..")
ENTRIES += ("2024-03-05..2024-03-04", "2024-03-04..", "2024-03-04...2024-03-06", "20240304")
BLANKS = ("", "", "", " ", "\t", "  ")
ENDS = ("\n", "\n", "\r\n")


def entry(draw):
    """A date or a range, as a rule near the start, at times none of these."""
    if draw.slips(0.01):
        return draw.pick(ENTRIES)
    day = draw.number(FIRST, FIRST + 60)
    first = datetime.date.fromordinal(day).isoformat()
    if draw.chance(0.7):
        return first
    days = draw.pick((0, 1, 3, 10, 400)) if draw.chance(0.98) else draw.pick((9999, 10000))
    blank = draw.pick(BLANKS)
    return f"{first}{blank}..{blank}{datetime.date.fromordinal(day + days).isoformat()}"


def holiday_line(draw):
    comment = draw.pick(("", "", "", "# x", "#2024-03-05", "#"))
    own = entry(draw) if draw.chance(0.8) else ""
    return draw.pick(BLANKS) + own + draw.pick(BLANKS) + comment + draw.pick(ENDS)


def holiday_text(draw):
    """A file of holidays, at times with a byte changed."""
    lines = [holiday_line(draw) for _ in range(draw.number(0, 12))]
    text = ("".join(lines) + draw.pick(("", "2024-03-15"))).encode()
    text = b"\xef\xbb\xbf" + text if draw.chance(0.1) else text
    text = draw.other_byte(text) if draw.chance(0.1) else text
    return draw.pick((b"\n" * 1048576, b"#" * 1048577)) if draw.chance(0.001) else text


class Calendar:
    """Working days, found by walking from day to day."""

    def __init__(self, start, marks, off):
        self.day, self.marks, self.off = datetime.date.fromisoformat(start).toordinal(), marks, off
        self.found = []

    def working_day(self, t):
        while len(self.found) <= t:
            if self.day > LAST_DAY:
                raise Fault("G3 beyond calendar")
            if self.marks[(self.day - 1) % 7] == "1" and self.day not in self.off:
                self.found.append(datetime.date.fromordinal(self.day).isoformat())
            self.day += 1
        return self.found[t]


def wanted_of(text, holidays, rule_name, start, marks, name):
    """The status and both outputs that the model wants."""
    try:
        pages = pages_of(text, name)
        starts = pages.starts(rule_name)
        digits = digits_of(marks)
        check_calendar(start, digits)
        off = read_holidays(holidays)
        return 0, pages.days(starts, Calendar(start, digits, off)).encode(), b""
    except Fault as fault:
        return 1, b"", fault.line.encode() + b"\n"


def small_file(draw, is_shop):
    """A small project or job shop, mostly a valid one, and the words behind its name."""
    while True:
        text = shop_text(draw) if is_shop else project_text(draw)
        name = [instance(draw, text)] if is_shop else []
        if len(text) < 1500 and (is_valid(text, name) or draw.chance(0.1)):
            return text, name


def is_valid(text, name):
    try:
        pages_of(text, name)
    except Fault:
        return False
    return True


def try_file(draw, folder):
    """One file of holidays."""
    is_shop = draw.chance(0.3)
    text, name = small_file(draw, is_shop)
    own = rule(draw, is_shop)
    start = draw.pick(NO_STARTS if draw.slips(0.03) else STARTS)
    marks = draw.pick(BAD_MARKS if draw.slips(0.05) else MARKS)
    holidays = holiday_text(draw)
    wanted = wanted_of(text, holidays, own, start, marks, name)
    file, off = written(folder, "drawn", text), written(folder, "holidays", holidays)
    what = f"{text!r} with {holidays!r}"[:3000] + f": days {own} {start} {marks} {name}"
    same(what, plan(folder, "days", "--holidays", off, own, start, marks, file, *name), wanted)
    if wanted[0] == 0 and not is_shop and draw.chance(0.5):
        listed = written(folder, "starts", plan(folder, "schedule", own, file)[1])
        words = ["days", "--holidays", off, "--starts", listed, start, marks, file]
        same(f"{what}, by starts", plan(folder, *words), wanted)
    return wanted[2].split(b" ")[0].decode() or "fine"


def try_holidays(cases=3000, seed=1, is_verbose=False):
    draw, tally = Draw(Random(seed)), collections.Counter()
    with tempfile.TemporaryDirectory() as folder:
        for _ in range(cases):
            tally[try_file(draw, folder)] += 1
    if is_verbose:
        print(f"{cases} files of holidays by seed {seed}: {dict(tally)}")


if __name__ == "__main__":
    try_holidays(*map(int, sys.argv[1:]), is_verbose=True)
