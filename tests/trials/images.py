#!/usr/bin/env python3
"""Reads the images of `plan chart --svg` back, over drawn projects and job shops with names:
xml.etree parses each, and its lines, bars, places and names are compared with the schedule that
`plan schedule` or `plan shop` prints as JSON, and with the drawn names. Half of the schedules are
given by --starts.

    tests/trials/images.py               2,000 files; prints nothing on success
    tests/trials/images.py CASES SEED    so many, drawn from this seed

The program is the one that ./plan runs, or the one that PLAN_PROGRAM names.
"""

import collections
import json
import os
import re
import sys
import tempfile
import xml.etree.ElementTree as ElementTree
from random import Random

sys.dont_write_bytecode = True
sys.path.insert(0, os.path.dirname(os.path.abspath(__file__)))

from answers import plan, same, written
from drawing import Draw
from drawing.words import rule
from events import named_lines, shown_name, with_names
from holidays import small_file

SVG = "{http://www.w3.org/2000/svg}"
DIAMOND = re.compile(r"M(\d+) 3l7 7-7 7-7-7z")
# The room beside the axis, in columns of 0.6 em.
ROOM = 33


class Bar:
    """A bar of a schedule: its line, its number, the number of its step or 0, its two ends."""

    def __init__(self, line, number, step, start, end):
        self.line, self.number, self.step, self.start, self.end = line, number, step, start, end


def bars_of(rows):
    """The bars of the rows of a schedule as JSON."""
    if rows and "job" in rows[0]:
        return [Bar(row["mach"], row["job"], row["step"], row["start"], row["end"]) for row in rows]
    return [Bar(row["act"], row["act"], 0, row["start"], row["end"]) for row in rows]


def label(number, names):
    name = shown_name(names.get(number, b""))
    return f"{number} {name}" if name else str(number)


def columns(character):
    return 1 if ord(character) < 0x1100 else 2


def cut(text, room=ROOM):
    """A text, or its first characters and an ellipsis if it needs more columns."""
    if sum(map(columns, text)) <= room:
        return text
    front, room = "", room - 2
    for character in text:
        room -= columns(character)
        if room < 0:
            break
        front += character
    return front + "\u2026"


def place(span, at):
    """The place of an instant: names have 330 units, the axis 1,000."""
    return 330 + at * 1000 // max(span, 1)


def is_drawn(step, start, end):
    """A step that takes no time isn't drawn."""
    return step == 0 or start < end


def wanted_bar(bar, span, names):
    """What is wanted of a bar: its kind, its places, and its description."""
    step = f", step {bar.step}" if bar.step else ""
    tip = f"{label(bar.number, names)}{step}, {bar.start} to {bar.end}"
    left, right = place(span, bar.start), place(span, bar.end)
    return ("path", left, None, tip) if bar.start == bar.end else ("rect", left, max(right - left, 3), tip)


def found_bar(element):
    """The same of an element."""
    tip = "".join(element.find(SVG + "title").itertext())
    if element.tag == SVG + "path":
        return "path", int(DIAMOND.fullmatch(element.get("d"))[1]), None, tip
    return "rect", int(element.get("x")), int(element.get("width")), tip


def lines_of(root):
    """The labels of the lines of an image, in order, each with its bars."""
    found = []
    for group in root.findall(SVG + "g"):
        own = [found_bar(element) for element in group if "bar" in element.get("class", "").split()]
        found.append(("".join(group.find(SVG + "svg").itertext()), own))
    return found


def try_image(what, answer, bars, numbers, rows, names, title):
    """Compares an image with the bars and the names of a schedule: its lines have these numbers."""
    same(f"{what}: the status and the errors", (answer[0], answer[2]), (0, b""))
    root = ElementTree.fromstring(answer[1].decode())
    same(f"{what}: the title", "".join(root.find(SVG + "title").itertext()), title)
    span = max((bar.end for bar in bars), default=0)
    wanted = []
    for number in numbers:
        own = [bar for bar in bars if bar.line == number and is_drawn(bar.step, bar.start, bar.end)]
        wanted.append((cut(label(number, rows)), [wanted_bar(bar, span, names) for bar in own]))
    same(what, lines_of(root), wanted)


def try_file(draw, folder):
    """One file with names: its image, or the error of its chart."""
    is_shop = draw.chance(0.4)
    text, instance = small_file(draw, is_shop)
    text, names = with_names(draw, text, instance)
    machines = {}
    if is_shop:
        text, machines = named_lines(draw, text, instance, b"+ machine ", range(0, 4))
    own, file = rule(draw, is_shop), written(folder, "drawn", text)
    what = f"{text!r}"[:3000] + f": chart --svg {own} {instance}"
    answer = plan(folder, "chart", "--svg", own, file, *instance)
    chart = plan(folder, "chart", own, file, *instance)
    if chart[0]:
        same(what, answer, chart)
        return chart[2].split(b" ")[0].decode()
    command = "shop" if is_shop else "schedule"
    table = plan(folder, command, "--format", "json", own, file, *instance)[1]
    bars = bars_of(json.loads(table)["rows"])
    numbers = sorted({bar.line for bar in bars})
    if is_shop:
        numbers = range(len(plan(folder, "chart", own, file, *instance)[1].splitlines()) - 1)
    title = instance[0] if is_shop and instance[0] != "-" else "drawn"
    rows = machines if is_shop else names
    try_image(what, answer, bars, numbers, rows, names, title)
    if draw.chance(0.5):
        listed = written(folder, "starts", plan(folder, command, own, file, *instance)[1])
        answer = plan(folder, "chart", "--svg", "--starts", listed, file, *instance)
        try_image(f"{what}, by starts", answer, bars, numbers, rows, names, title)
    return "fine"


def try_images(cases=2000, seed=1, is_verbose=False):
    draw, tally = Draw(Random(seed)), collections.Counter()
    with tempfile.TemporaryDirectory() as folder:
        for _ in range(cases):
            tally[try_file(draw, folder)] += 1
    if is_verbose:
        print(f"{cases} images by seed {seed}: {dict(tally)}")


if __name__ == "__main__":
    try_images(*map(int, sys.argv[1:]), is_verbose=True)
