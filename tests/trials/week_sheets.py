#!/usr/bin/env python3
"""Compares the pages of `plan report --solve` with the plans of `plan solve`, on drawn lists with dates, and the
output of `plan compare --old` on these lists and changed copies with a model. Many lists are on a calendar.

    tests/trials/week_sheets.py               500 lists; prints nothing on success
    tests/trials/week_sheets.py CASES SEED    so many, drawn from this seed; prints the answers

The program is the one that ./plan runs, or the one that PLAN_PROGRAM names.
"""

import collections
import copy
import json
import os
import re
import sys
import tempfile
import xml.etree.ElementTree as ElementTree

sys.dont_write_bytecode = True
sys.path.insert(0, os.path.dirname(os.path.abspath(__file__)))

import boxes
from answers import Wrong, plan, printed, same, written
from images import SVG, cut, lines_of
from model import weeks
from reports import FIGURE, Page, number_of, tails_of, tights_of
from week_checks import Table
from weeks import Calendar, Drawn, dated, days_shown, error_of, goal_words, start_shown, week_of

Bar = collections.namedtuple("Bar", "id name predecessors start end needs")


def on_calendar(folder, case, *others):
    """A calendar for lists without errors, or None; and the options of the lists."""
    if case.draw.random() < 0.4 or any(map(error_of, (case, *others))):
        return None, case.options()
    calendar = Calendar(case.draw)
    now = case.draw.choice([None, calendar.day(case.now or 0)])
    return calendar, [*case.options(now), *calendar.options(folder)]


def text_on(case, calendar):
    """The text of a list. On a calendar most lists have calendar dates, and the others instants."""
    if calendar is None or case.draw.random() < 0.3:
        return case.text()
    return case.text([{head: dated(calendar, head, cell) for head, cell in row.items()} for row in case.rows])


def wanted_bars(case, week, rows, makespan):
    """The bars of a plan with these rows: the activities that aren't done, then the absences up to its end."""
    for i, (cells, row, state) in enumerate(zip(case.activities(), rows, week.states)):
        # If the list says that work began after today, its bar begins today.
        start = min(state.began, week.today) if isinstance(state, weeks.Begun) else row["start"]
        before = ", ".join(word.split("+")[0] for word in cells["predecessors"].split())
        if not isinstance(state, weeks.Done):
            name = case.names[i] if case.has_names else ""
            yield Bar(cells["id"], name, before, start, row["end"], week.needs[i])
    for one in week.absences:
        needs = [one.amount if k == one.resource else 0 for k in range(len(week.capacities))]
        if one.earliest < makespan:
            yield Bar("absence", "", "", one.earliest, min(one.earliest + one.duration, makespan), needs)


def used_at(week, bars, k, t):
    """The use of resource k: from now on needs and absences together, before now bars up to the capacity."""
    running = [bar for bar in bars if bar.start <= t < bar.end]
    if t < week.today:
        return sum(min(bar.needs[k], week.capacities[k]) for bar in running)
    return week.missing(k, t) + sum(bar.needs[k] for bar in running if bar.id != "absence")


def wanted_line(axis, bar):
    label, left, right = f"{bar.id} {bar.name}".rstrip(), axis.from_place(bar.start), axis.to_place(bar.end)
    tip, is_point = f"{label}, {bar.start} to {bar.end}", bar.start == bar.end
    return cut(label), [("path", right, None, tip) if is_point else ("rect", left, max(right - left, 3), tip)]


def wanted_row(case, bar, calendar):
    times = [str(bar.end - bar.start), str(bar.start), str(bar.end)]
    days = days_shown(calendar, bar.start, bar.end) if calendar else []
    needs = ", ".join(f"{crew} {need}" for crew, need in zip(case.crews, bar.needs) if need)
    return [bar.id, bar.name, *times, *days, needs, bar.predecessors]


def compare_images(what, text, case, week, bars, axis, makespan):
    """Compares the bars, the use of each resource, and their places."""
    images = [ElementTree.fromstring(image) for image in FIGURE.findall(text)]
    charts = [image for image in images if image.findall(SVG + "g")]
    found, uses = sum((lines_of(image) for image in charts), []), images[len(charts) :]
    same(f"{what}: the bars", found, [wanted_line(axis, bar) for bar in bars])
    same(f"{what}: charts with slack", any(any(tights_of(one)) or tails_of(one) for one in charts), False)
    boxes.check_chart(what, charts, axis)
    same(f"{what}: the images of resources", len(uses), len(case.crews))
    for k, (image, crew, capacity) in enumerate(zip(uses, case.crews, week.capacities)):
        used = [(t, t + 1, used_at(week, bars, k, t)) for t in range(makespan)]
        path = boxes.use_path(axis, makespan, capacity, used)
        boxes.check_use(f"{what}: {crew}", image, axis, f"{k + 1} {crew}", capacity, path)


def compare_page(what, text, case, found, calendar, is_late):
    """Compares a page with a plan in JSON. For the goal of the tardiness its note has no bound."""
    page, week, makespan = Page(text), week_of(case), max(row["end"] for row in found["rows"])
    bars = list(wanted_bars(case, week, found["rows"], makespan))
    same(f"{what}: the titles", (page.texts["title"], page.texts["h1"]), (["week.csv"], ["week.csv"]))
    days = [calendar.day(t) for t in range(makespan)] if calendar else []
    note = f"Makespan {makespan}" + (f", {days[0]} to {days[-1]}" if days else "")
    same(f"{what}: the note", page.texts["p"], [note if is_late else f"{note}, optimal {makespan}"])
    heads = "Id,Name,Duration,Start,End," + "First day,Last day," * bool(calendar) + "Resources,Predecessors"
    same(f"{what}: the table", page.rows, [heads.split(","), *(wanted_row(case, bar, calendar) for bar in bars)])
    compare_images(what, text, case, week, bars, boxes.Axis(makespan, list(map(number_of, days))), makespan)


def try_page(case, folder):
    """The page of a plan, or the error of `plan solve`."""
    is_late, (calendar, options) = case.draw.random() < 0.3, on_calendar(folder, case)
    text = text_on(case, calendar)
    words = [*options, *goal_words(is_late), written(folder, "week.csv", text.encode())]
    what = f"report --solve {words} of\n{text} on {calendar and calendar.holidays}"
    solved, answer = plan(folder, "solve", *words), plan(folder, "report", "--solve", *words)
    if solved[0]:
        same(what, answer, solved)
        return solved[2].split()[0].decode()
    same(f"{what}: the status and the errors", (answer[0], answer[2]), (0, b""))
    found = json.loads(plan(folder, "solve", *words, "--format", "json")[1])
    compare_page(what, answer[1].decode(), case, found, calendar, is_late)
    return "shown"


def changed(case):
    """A copy of a list with rows that are removed, added, changed and in another order."""
    draw, new, kept = case.draw, copy.copy(case), case.draw.randrange(case.week.count())
    new.rows = [dict(row) for k, row in enumerate(case.rows) if k == kept or draw.random() < 0.85]
    for own in draw.sample(["new1", "another2", "absence"], draw.choice([0, 0, 1, 2])):
        row = {"id": own, "duration": draw.randint(1, 4), "predecessors": "", case.crews[0]: 1}
        new.rows.insert(draw.randint(0, len(new.rows)), row)
    ids = [row["id"] for row in new.rows]
    for row in new.rows:
        kind = draw.choice(["same", "same", "duration", "done", "begun"])
        if row["id"] == "absence":
            row |= {} if kind == "same" else {"duration": draw.randint(1, 5), "earliest": draw.randint(0, 9)}
            continue
        if kind in ("done", "begun"):
            row |= {"begun": "", "remaining": "", "done": "", kind: draw.randint(0, case.now or 0)}
        row["duration"] = draw.randint(1, 4) if kind == "duration" else row["duration"]
        row["predecessors"] = " ".join(word for word in row["predecessors"].split() if word.split("+")[0] in ids)
    if draw.random() < 0.3:
        draw.shuffle(new.rows)
    return new


class Side:
    """A list of a comparison, the starts of its activities, and their file, which may lack an open activity."""

    def __init__(self, folder, case, own, options, calendar):
        self.case, self.draw, self.error, self.lacks = case, case.draw, error_of(case), False
        self.text, self.starts, self.table = text_on(case, calendar), [], b""
        self.list = written(folder, f"{own}.csv", self.text.encode())
        self.week = week_of(case) if self.error is None else None
        if self.week and (self.draw.random() < 0.3 or not self.solve(folder, options)):
            self.draw_starts()
        self.file = written(folder, f"{own}.starts", self.table)

    def solve(self, folder, options):
        """Takes the starts of `plan solve`. Returns whether there is a plan."""
        words = ["solve", *options, *goal_words(self.draw.random() < 0.3), self.list]
        status, output, _ = plan(folder, *words, "--format", "json")
        if status == 0:
            self.starts = [row["start"] for row in json.loads(output)["rows"]]
            self.table = plan(folder, *words, *self.draw.choice([[], ["--format", "csv"]]))[1]
        return status == 0

    def draw_starts(self):
        """Draws starts, and writes them as a printed table or as CSV."""
        self.starts = [self.draw.randint(0, 20) for _ in self.week.states]
        table = Table(self.case, self.week, self.starts)
        opened = [row for row in table.rows if table.is_open(row[0])]
        self.lacks = opened != [] and self.draw.random() < 0.1
        if self.lacks:
            table.rows.remove(self.draw.choice(opened))
        self.table = table.text()

    def shown(self):
        """The starts that are compared: begun work by the instant at which it began, done work without one."""
        starts = [start_shown(self.week, i, start) for i, start in enumerate(self.starts)]
        return {row["id"]: start for row, start in zip(self.case.activities(), starts) if start is not None}


def compared(before, after):
    """The comparison in JSON: rows in the order of the new list, then the removed ones."""
    removed, rows = [own for own in before if own not in after], []
    for own in [*after, *removed]:
        old, new = before.get(own), after.get(own)
        rows.append({"id": own, "old": old, "new": new, "shift": None if None in (old, new) else new - old})
    shifts = [row["shift"] for row in rows if row["shift"] is not None]
    found = {"rows": rows, "added": [own for own in after if own not in before], "removed": removed}
    return found | {"moved": sum(shift != 0 for shift in shifts), "compared": len(shifts)}


def text_of(found):
    """The text of a comparison."""
    room = max([4, *(len(row["id"]) for row in found["rows"])])
    lines = [f"{'id':>{room}}{'old':>8}{'new':>8}{'shift':>8}"]
    for own, *times, shift in map(dict.values, found["rows"]):
        cells = ("-" if n is None else n for n in (*times, f"{shift:+}" if shift else shift))
        lines.append(f"{own:>{room}}" + "".join(f"{cell:>8}" for cell in cells))
    lines.append(f"moved {found['moved']} of {found['compared']}")
    lines += [" ".join([word, *found[word]]) if found[word] else f"none {word}" for word in ("added", "removed")]
    return "".join(f"{line}\n" for line in lines)


def try_pair(case, folder):
    """Compares a list with a changed copy. `compare --old` has no --map and no --ignore."""
    case.header, case.is_remarked = None, False
    later = changed(case)
    calendar, options = on_calendar(folder, case, later)
    old, new = (Side(folder, one, own, options, calendar) for one, own in ((case, "old"), (later, "new")))
    words = ["compare", "--old", old.list, *options, new.list, old.file, new.file]
    what = f"{words} on {calendar and calendar.holidays}, old:\n{old.text}{old.table.decode()}new:\n{new.text}"
    what, answer = what + new.table.decode(), plan(folder, *words)
    errors = [old.error and f"{old.error} of the old list", old.lacks and "F9 line N of the starts A"]
    error = next(filter(None, [*errors, new.error, new.lacks and "F9 line N of the starts B"]), None)
    if error is not None:
        told = re.sub(r"^F9 line \d+", "F9 line N", answer[2].decode())
        same(what, (answer[0], answer[1], told), (1, b"", f"{error}\n"))
        return error.split()[0]
    found = compared(old.shown(), new.shown())
    same(what, answer, printed(text_of(found)))
    lines = [["" if cell is None else str(cell) for cell in row.values()] for row in found["rows"]]
    wanted = "".join(",".join(line) + "\n" for line in [["id", "old", "new", "shift"], *lines])
    same(f"CSV of {what}", plan(folder, *words, "--format", "csv"), printed(wanted))
    same(f"JSON of {what}", json.loads(plan(folder, *words, "--format", "json")[1]), found)
    return "compared"


def try_week_sheets(cases=500, seed=1, is_verbose=False):
    tally = collections.Counter()
    with tempfile.TemporaryDirectory() as folder:
        for place in range(seed * 1_000_000, seed * 1_000_000 + cases):
            try:
                tally[f"page {try_page(Drawn(place), folder)}"] += 1
                tally[f"pair {try_pair(Drawn(place), folder)}"] += 1
            except Exception as error:
                raise Wrong(f"Drawn({place}): {type(error).__name__}: {error}") from error
    if is_verbose:
        print(f"{cases} lists by seed {seed}: {dict(tally)}")


if __name__ == "__main__":
    try_week_sheets(*map(int, sys.argv[1:]), is_verbose=len(sys.argv) > 1)
