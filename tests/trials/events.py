#!/usr/bin/env python3
"""Reads the calendar files of `plan days --format ics` back, over drawn projects and job shops with
names and holidays: lines of at most 75 bytes are unfolded, values unescaped, and the events compared
with the days of a plain model (model/), with hashlib's digests and with the drawn names. Half of the
schedules of projects are given by --starts.

    tests/trials/events.py               2,000 files; prints nothing on success
    tests/trials/events.py CASES SEED    so many, drawn from this seed

The program is the one that ./plan runs, or the one that PLAN_PROGRAM names.
"""

import collections
import datetime
import hashlib
import os
import re
import sys
import tempfile
from random import Random

sys.dont_write_bytecode = True
sys.path.insert(0, os.path.dirname(os.path.abspath(__file__)))

from answers import Wrong, plan, same, written
from drawing import Draw
from drawing.words import rule
from holidays import MARKS, STARTS, holiday_text, small_file, wanted_of

LONGEST_LINE = 75
HEAD = ["BEGIN:VCALENDAR", "VERSION:2.0", "PRODID:-//plan//plan//EN"]
FIELDS = ["UID", "DTSTAMP", "DTSTART;VALUE=DATE", "DTEND;VALUE=DATE", "SUMMARY"]
NAMES = (
    b"Roof", b"Walls, north; south", b"back\\slash \\n \\, \\;", b'The "big" one', b"<b>&amp;</b>",
    "Fundament Süd".encode(), "名前".encode() * 30, "é".encode() * 90, "🏗".encode() * 40, b"x" * 200,
    b"tab\tand bell \x07 \x7f", "\u0085 next \ufffe line".encode(), b"no \xff text \xc3", b"BEGIN:VEVENT",
    b"a\rb", b"colon: quote' ^", "e\u0301".encode() * 70,
)
BLANK = rb"[ \t\r\x0b\x0c]"
HIDDEN = re.compile("[\x00-\x1f\x7f-\x9f\ufffe\uffff]")


# ---- what is drawn


def name_lines(draw, front, numbers):
    """Lines with names for some of these numbers, now and then two for one."""
    lines = [(draw.pick(numbers), draw.pick(NAMES)) for _ in range(draw.number(0, 8))]
    found = {}
    for number, name in lines:
        found.setdefault(number, name)
    return b"".join(front + b"%d " % number + name + b"\n" for number, name in lines), found


def named_lines(draw, text, instance, front, numbers):
    """A job shop file with lines of names behind the line of an instance, and the first name of each
    number."""
    name = re.escape(instance[0].encode())
    head = re.search(rb"(?m)^" + BLANK + rb"*instance" + BLANK + rb"+" + name + BLANK + rb"*\n", text)
    if head is None:
        return text, {}
    lines, found = name_lines(draw, front, numbers)
    return text[: head.end()] + lines + text[head.end() :], found


def with_names(draw, text, instance):
    """A file with names of activities or orders, and the first name of each number."""
    if instance:
        return named_lines(draw, text, instance, b"+ job ", range(1, 6))
    lines, found = name_lines(draw, b"name ", range(1, 8))
    end = b"" if text.endswith(b"\n") else b"\n"
    return text + end + b"PROJECT INFORMATION:\n" + lines, found


# ---- a reader of calendar files


def content_lines(text):
    """The content lines of a calendar file, unfolded (RFC 5545, section 3.1)."""
    same("the last two bytes", text[-2:], b"\r\n")
    found = []
    for line in text[:-2].split(b"\r\n"):
        if len(line) > LONGEST_LINE or b"\r" in line or b"\n" in line:
            raise Wrong(f"a line of a calendar file is {line!r}")
        own = line.decode()
        if own.startswith(" "):
            found[-1] += own[1:]
        else:
            found.append(own)
    return found


def text_of(value):
    """The text that a value spells (section 3.3.11)."""
    if re.search(r"[,;]", re.sub(r"\\[\\,;]", "", value)) or "\\" in re.sub(r"\\[\\,;]", "", value):
        raise Wrong(f"a text value is {value!r}")
    return re.sub(r"\\(.)", r"\1", value)


def events_of(text):
    """The events of a calendar file by their identifiers: stamp, first day, end and summary."""
    lines = content_lines(text)
    same("the head", lines[:3], HEAD)
    same("the end", lines[-1], "END:VCALENDAR")
    own, found = lines[3:-1], {}
    for at in range(0, len(own), len(FIELDS) + 2):
        first, *fields, last = own[at : at + len(FIELDS) + 2]
        same("the marks of an event", (first, last), ("BEGIN:VEVENT", "END:VEVENT"))
        names, values = zip(*(field.split(":", 1) for field in fields))
        same("the properties of an event", list(names), FIELDS)
        uid, *rest, summary = values
        if uid in found:
            raise Wrong(f"two events have the identifier {uid}")
        found[uid] = (*rest, text_of(summary))
    return found


# ---- what is wanted


def day_after(day):
    return (datetime.date.fromisoformat(day) + datetime.timedelta(1)).isoformat()


def compact(day):
    return day.replace("-", "")


def shown_name(name):
    """The characters of a name, as texts show it."""
    return HIDDEN.sub(chr(0xFFFD), name.decode("utf-8", "replace").lstrip(" \t"))


def title(number, names):
    """A number and its name."""
    name = shown_name(names.get(number, b""))
    return f"{number} {name}" if name else str(number)


def wanted_events(table, digest, names):
    """The events of the rows of a table of days, except the stamp."""
    found = {}
    for row in table.decode().splitlines()[1:]:
        *numbers, first, last = row.split()
        if first != "-":
            step = f", step {numbers[1]}" if len(numbers) > 1 else ""
            days = compact(first), compact(day_after(last))
            found[f"{digest}-{'-'.join(numbers)}@plan"] = (*days, title(int(numbers[0]), names) + step)
    return found


def digest_of(text, instance):
    return hashlib.sha256(text + b"\0" + instance[0].encode() if instance else text).hexdigest()


# ---- the trial


def try_answer(what, answer, wanted, digest, names):
    """Compares an answer with the table, or the error, that the model gives."""
    if wanted[0]:
        same(what, answer, wanted)
        return
    same(f"{what}: the status and the errors", (answer[0], answer[2]), (0, b""))
    events = events_of(answer[1])
    stamps = {event[0] for event in events.values()}
    firsts = [event[1] for event in events.values()]
    same(f"{what}: the stamps", len(stamps) <= 1, True)
    if firsts and not re.fullmatch(r"\d{8}T000000Z", [*stamps][0]) or firsts and [*stamps][0][:8] > min(firsts):
        raise Wrong(f"{what}: the stamp is {stamps}")
    same(what, {uid: event[1:] for uid, event in events.items()}, wanted_events(wanted[1], digest, names))


def try_file(draw, folder):
    """One file with names, and one of holidays."""
    is_shop = draw.chance(0.4)
    text, instance = small_file(draw, is_shop)
    text, names = with_names(draw, text, instance)
    own, start, marks = rule(draw, is_shop), draw.pick(STARTS), draw.pick(MARKS)
    holidays = holiday_text(draw) if draw.chance(0.3) else b""
    wanted = wanted_of(text, holidays, own, start, marks, instance)
    file, off = written(folder, "drawn", text), written(folder, "holidays", holidays)
    what = f"{text!r} with {holidays!r}"[:3000] + f": days {own} {start} {marks} {instance}"
    words, digest = ["days", "--format", "ics", "--holidays", off], digest_of(text, instance)
    try_answer(what, plan(folder, *words, own, start, marks, file, *instance), wanted, digest, names)
    if wanted[0] == 0 and not is_shop and draw.chance(0.5):
        listed = written(folder, "starts", plan(folder, "schedule", own, file)[1])
        words = [*words, "--starts", listed, start, marks, file]
        try_answer(f"{what}, by starts", plan(folder, *words), wanted, digest, names)
    return wanted[2].split(b" ")[0].decode() or "fine"


def try_events(cases=2000, seed=1, is_verbose=False):
    draw, tally = Draw(Random(seed)), collections.Counter()
    with tempfile.TemporaryDirectory() as folder:
        for _ in range(cases):
            tally[try_file(draw, folder)] += 1
    if is_verbose:
        print(f"{cases} calendar files by seed {seed}: {dict(tally)}")


if __name__ == "__main__":
    try_events(*map(int, sys.argv[1:]), is_verbose=True)
