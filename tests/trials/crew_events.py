#!/usr/bin/env python3
"""Reads calendar files of `plan days --format ics` with --uid, --sequence, --only, --per-day and
--opens back, over drawn projects and job shops with names and ids, and over drawn lists: lines are
unfolded, values unescaped, and the events compared with those of a plain model: their identifiers by
a word, their revisions, the resources in their names, the events of one resource, machine or order,
and times of day.

    tests/trials/crew_events.py               1,000 files; prints nothing on success
    tests/trials/crew_events.py CASES SEED    so many, drawn from this seed

The program is the one that ./plan runs, or the one that PLAN_PROGRAM names.
"""

import collections
import datetime
import os
import re
import sys
import tempfile
from random import Random

sys.dont_write_bytecode = True
sys.path.insert(0, os.path.dirname(os.path.abspath(__file__)))

from answers import Wrong, plan, same, written
from drawing import Draw
from drawing.words import rule
from events import HEAD, content_lines, digest_of, name_lines, shown_name, text_of
from holidays import Calendar, STARTS, small_file
from list_rows import RULES, List, bytes_of
from model.commands import pages_of
from model.schedules import rule_starts
from model.texts import shop_steps
from model.words import Fault

FILE = "drawn"
MARKS = ("1111100", "1111111", "0000001", "1010101")
WORDS = ("house", "Haus; Süd, 2", "back\\slash", "名前" * 30, "a-b", "x" * 90)
FIELDS = ("UID", "DTSTAMP", "SEQUENCE", "DTSTART", "DTEND", "SUMMARY")


# ---- what is drawn


def with_names(draw, text, instance):
    """A file with names, the first names of its rows and of its resources or machines, and the first
    ids of its activities."""
    if instance:
        front = re.escape(instance[0].encode())
        head = re.search(rb"(?m)^[ \t\r\x0b\x0c]*instance[ \t\r\x0b\x0c]+" + front + rb"[ \t\r\x0b\x0c]*\n", text)
        if head is None:
            return text, {}, {}, {}
        rows, found = name_lines(draw, b"+ job ", range(1, 6))
        more, others = name_lines(draw, b"+ machine ", range(0, 4))
        return text[: head.end()] + rows + more + text[head.end() :], found, others, {}
    rows, found = name_lines(draw, b"name ", range(1, 8))
    more, others = name_lines(draw, b"resource ", range(1, 4))
    ids, own = name_lines(draw, b"id ", range(1, 8)) if draw.chance(0.5) else (b"", {})
    end = b"" if text.endswith(b"\n") else b"\n"
    return text + end + b"PROJECT INFORMATION:\n" + ids + rows + more, found, others, own


class Case:
    """A plan, its names, and a choice of its events."""

    def __init__(self, draw):
        self.is_shop = draw.chance(0.4)
        text, self.instance = small_file(draw, self.is_shop)
        self.text, self.names, self.others, self.ids = with_names(draw, text, self.instance)
        pages = pages_of(self.text, self.instance)
        self.plan = pages.shop if self.is_shop else pages.project
        self.notes = b""
        self.rule = rule(draw, self.is_shop)
        self.starts = pages.starts(self.rule)
        self.choose(draw)

    def choose(self, draw):
        """Draws the options."""
        self.start, self.marks = draw.pick(STARTS), draw.pick(MARKS)
        self.word = draw.pick(WORDS) if draw.chance(0.7) else None
        self.sequence = draw.pick((0, 0, 1, 2, 12, 2147483647))
        self.per_day, self.opens = draw.pick(((1, 0), (1, 420), (8, 420), (3, 425), (24, 0), (2, 1320)))
        self.only = self.a_name(draw) if draw.chance(0.6) else None
        self.is_plain = self.word is None and self.only is None and not self.sequence

    def digest(self, folder):
        """The digest of the file."""
        return digest_of(self.text, self.instance)

    def title(self):
        """The word of identifiers if none is given."""
        return self.instance[0] if self.instance and self.instance[0] != "-" else FILE

    def a_name(self, draw):
        """A name of a resource, a machine or an order, at times of none."""
        names = [shown_name(name) for name in (*self.others.values(), *self.names.values())]
        return draw.pick([*names, "R1", "R2", "machine 0", "2", "nobody"])

    def bars(self):
        """Number, step, start, end, and the numbers and amounts of the parts."""
        if self.is_shop:
            steps = shop_steps(self.plan, self.starts)
            return [(job, step, begin, end, [(machine, 0)]) for job, step, machine, _, begin, end in steps]
        return [
            (j, 0, self.starts[j], self.starts[j] + time, [*self.parts_of(j)])
            for j, time in self.plan.durations.items()
        ]

    def parts_of(self, j):
        return [(r, amount) for r, amount in enumerate(self.plan.needs[j], 1) if amount]

    def words(self, file):
        """The words of the command."""
        given = {"--uid": self.word, "--only": self.only, "--sequence": self.sequence or None}
        if self.per_day > 1:
            given |= {"--per-day": self.per_day, "--opens": f"{self.opens // 60:02}:{self.opens % 60:02}"}
        options = [f"{name}={value}" for name, value in given.items() if value is not None]
        return ["days", "--format", "ics", *options, self.rule, self.start, self.marks, file, *self.instance]


class ListCase(Case):
    """The same of a list."""

    def __init__(self, draw, random):
        drawn, self.is_shop, self.instance = List(random), False, []
        self.text, self.notes = bytes_of(random, drawn)
        rows = enumerate(drawn.names, 2)
        self.names = {j: name.encode() for j, name in rows if name}
        self.others = {r: name.encode() for r, name in enumerate(drawn.resources, 1)}
        self.ids = {j: name.encode() for j, name in enumerate(drawn.ids, 2)}
        self.plan, self.rule = drawn.project(), random.choice(RULES)
        self.starts = rule_starts(self.plan, self.rule)
        self.choose(draw)

    def digest(self, folder):
        """The digest of the file that `plan import` makes of it."""
        return digest_of(plan(folder, "import", FILE)[1], [])


# ---- what is wanted


def name_or(names, number, front=""):
    return shown_raw(names.get(number, b"")) or f"{front}{number}"


def shown_raw(name):
    return name.decode("utf-8", "replace").lstrip(" \t")


def escaped_back(text):
    """A text as a reader of its value gets it back."""
    return shown_name(text.encode())


def moment(case, calendar, unit, is_end):
    """The date or the time of day of a unit."""
    day = datetime.date.fromisoformat(calendar.working_day(unit // case.per_day))
    if case.per_day == 1:
        return (day + datetime.timedelta(is_end)).strftime("%Y%m%d")
    minutes = case.opens + 60 * (unit % case.per_day + is_end)
    return (datetime.datetime.combine(day, datetime.time()) + datetime.timedelta(minutes=minutes)).strftime("%Y%m%dT%H%M00")


def wanted_event(case, digest, calendar, bar):
    number, step, begin, end, parts = bar
    times = moment(case, calendar, begin, 0), moment(case, calendar, end - 1, 1)
    if case.ids and number not in case.ids:
        return None
    front = "machine " if case.is_shop else "R"
    labels = [(name_or(case.others, part, front), amount) for part, amount in parts]
    name = shown_raw(case.names.get(number, b"")) or name_or(case.ids, number)
    if case.only is not None and case.only not in [label for label, _ in labels] + [name] * case.is_shop:
        return None
    mark, tail = (f"-{step}", f", step {step}") if step else ("", "")
    key = name_or(case.ids, number)
    uid = f"{digest}-{number}{mark}@plan" if case.is_plain else escaped_back(f"{case.word or case.title()}-{key}{mark}@plan")
    listed = ", ".join(f"{label} {amount}" if amount else label for label, amount in labels)
    summary = name + tail + (f" ({listed})" if listed else "")
    if case.is_plain:
        summary = (f"{number} {name}" if case.names.get(number) else str(number)) + tail
    return uid, case.sequence, *times, escaped_back(summary)


# ---- the reader


def events_of(text, has_times):
    """The events of a calendar file, in order."""
    lines = content_lines(text)
    same("the head", lines[:3], HEAD)
    same("the end", lines[-1], "END:VCALENDAR")
    own, found = lines[3:-1], []
    while own:
        last = own.index("END:VEVENT")
        same("the first line of an event", own[0], "BEGIN:VEVENT")
        fields = dict(line.split(":", 1) for line in own[1:last])
        kinds = {} if has_times else {"DTSTART;VALUE=DATE": "DTSTART", "DTEND;VALUE=DATE": "DTEND"}
        fields = {kinds.get(name, name): value for name, value in fields.items()}
        if not {*fields} <= {*FIELDS} or len(fields) != last - 1:
            raise Wrong(f"the properties of an event are {fields}")
        if not re.fullmatch(r"\d{8}T000000Z", fields["DTSTAMP"]):
            raise Wrong(f"the stamp is {fields['DTSTAMP']}")
        sequence = int(fields.get("SEQUENCE", "0"))
        found.append((text_of(fields["UID"]), sequence, fields["DTSTART"], fields["DTEND"], text_of(fields["SUMMARY"])))
        own = own[last + 1 :]
    return found


# ---- the trial


def drawn_case(draw, random):
    return ListCase(draw, random) if draw.chance(0.3) else Case(draw)


def try_file(draw, random, folder):
    try:
        case = drawn_case(draw, random)
    except Fault:
        return "refused"
    words = case.words(written(folder, FILE, case.text))
    what = f"{case.text!r}: {words}"
    status, output, errors = plan(folder, *words)
    calendar = Calendar(case.start, case.marks, set())
    bars = [bar for bar in case.bars() if bar[2] < bar[3]]
    digest = case.digest(folder)
    try:
        events = [wanted_event(case, digest, calendar, bar) for bar in bars]
    except Fault as fault:
        same(f"{what}: a late day", (status, output, errors), (1, b"", fault.line.encode() + b"\n"))
        return "late"
    same(f"{what}: the status and the errors", (status, errors), (0, case.notes))
    found = events_of(output, case.per_day > 1)
    same(what, found, [event for event in events if event])
    keys = {(escaped_back(name_or(case.ids, number)), step) for number, step, *_ in bars}
    if len(keys) == len(bars):
        same(f"{what}: the number of identifiers", len({event[0] for event in found}), len(found))
    return "some" if any(events) else "none"


def try_crew_events(cases=1000, seed=1, is_verbose=False):
    random = Random(seed)
    draw, tally = Draw(random), collections.Counter()
    with tempfile.TemporaryDirectory() as folder:
        for _ in range(cases):
            tally[try_file(draw, random, folder)] += 1
    if is_verbose:
        print(f"{cases} calendar files by seed {seed}: {dict(tally)}")


if __name__ == "__main__":
    try_crew_events(*map(int, sys.argv[1:]), is_verbose=True)
