#!/usr/bin/env python3
"""Reads the pages of `plan report` back, over drawn projects and job shops with names, and over lists
of 1 to 90 activities with ids: html.parser reads the page, xml.etree each of its images. Title, note,
bars and the table are compared with the results of other commands as JSON (`schedule`, `shop`,
`days`, `cpm`), with the slacks of the model, and with what was drawn; the places and heights of the
images with boxes.py. All labels have room, but for those that docs/known-gaps.md names. A report of
`--solve` is the one of its starts.

    tests/trials/reports.py               1,000 files; prints nothing on success
    tests/trials/reports.py CASES SEED    so many, drawn from this seed

The program is the one that ./plan runs, or the one that PLAN_PROGRAM names.
"""

import collections
import csv
import datetime
import html.parser
import io
import json
import os
import re
import sys
import tempfile
import xml.etree.ElementTree as ElementTree
from random import Random

sys.dont_write_bytecode = True
sys.path.insert(0, os.path.dirname(os.path.abspath(__file__)))

import boxes
from answers import plan, same, written
from drawing import Draw
from drawing.words import PROJECT_RULES, rule
from events import NAMES, named_lines, shown_name, with_names
from holidays import FIRST, MARKS, STARTS, Calendar, holiday_text, small_file
from images import SVG, cut, is_drawn, label, lines_of
from model.holidays import digits_of, read_holidays
from model.projects import read_project
from model.verdicts import slack

VOID = {"meta"}
# The model tries each delay, so that it counts the slacks of schedules up to this makespan.
LONGEST = 300
# Three activities that take no time.
POINTS = b"""projects : 1
jobs (incl. supersource/sink ): 3
- renewable : 1 R
- nonrenewable : 0 N
- doubly constrained : 0 D
PRECEDENCE RELATIONS:
jobnr. #modes #successors successors
1 1 1 2
2 1 1 3
3 1 0
REQUESTS/DURATIONS:
jobnr. mode duration R 1
1 1 0 0
2 1 0 1
3 1 0 0
RESOURCEAVAILABILITIES:
R 1
1
"""
# Names of a list, and of its crews: hostile, wide and long ones, and those that just have room.
LIST_NAMES = ("", "Roof", 'The "big" one', "<b>&amp;</b>", "a, b; c", "x" * 200, "名前" * 30, "🏗" * 40)
LIST_NAMES += ("e\u0301" * 60, "' ^ \\n", "W" * 29, "W" * 30, "W" * 31, "名" * 14, "名" * 15, "名" * 16)
CREWS = ("crew", "Kran süd", "b<i>&c", "職人" * 7, "r" * 25, "r" * 26)
# The search closes lists of so many rows at once.
MOST_SOLVED = 8
HOLIDAYS = b"2025-12-24..2026-01-01\n"
# The numbers of long activities, and their calendars.
LONG = ((10, []), (11, []), (100, []), (3, ["2024-03-01", "1111100"]), (11, ["2000-01-01", "1000000"]))
FIGURE = re.compile(r"(?s)<figure>\n(<svg.*?</svg>)\n</figure>")


# ---- a reader of pages


class Page(html.parser.HTMLParser):
    """A page: its title, its headings, its paragraphs and the rows of its table."""

    def __init__(self, text):
        super().__init__(convert_charrefs=True)
        self.open, self.texts, self.rows = [], collections.defaultdict(list), []
        self.feed(text)
        self.close()
        same("the open elements at the end", self.open, [])

    def handle_starttag(self, tag, attributes):
        if tag not in VOID:
            self.open.append(tag)
        if tag == "tr":
            self.rows.append([])
        elif tag in ("th", "td"):
            self.rows[-1].append("")
        elif tag in ("title", "h1", "h2", "p") and "svg" not in self.open:
            self.texts[tag].append("")

    def handle_startendtag(self, tag, attributes):
        pass

    def handle_endtag(self, tag):
        same("the element that ends", self.open.pop(), tag)

    def handle_data(self, data):
        if self.open and self.open[-1] in ("th", "td"):
            self.rows[-1][-1] += data
        elif self.open and self.open[-1] in ("title", "h1", "h2", "p") and "svg" not in self.open:
            self.texts[self.open[-1]][-1] += data


# ---- what is drawn


class RowList:
    """A list: of each row id, name, duration, predecessors by their places and needs; the names and the
    capacities of its crews."""

    def __init__(self, crews, rows):
        self.crews, self.rows = crews, rows

    def names(self):
        return {k: row[1].encode() for k, row in enumerate(self.rows, 2)}

    def crew_names(self):
        return {k: name.encode() for k, name in enumerate(self.crews, 1)}

    def text(self):
        file = io.StringIO()
        table = csv.writer(file, lineterminator="\n")
        table.writerow(["id", "name", "duration", "predecessors", *self.crews])
        for own, name, duration, before, needs in self.rows:
            table.writerow([own, name, duration, " ".join(self.rows[k][0] for k in before), *needs])
        if self.crews:
            table.writerow(["capacity", "", "", "", *self.crews.values()])
        return file.getvalue().encode()

    def links(self, k):
        """The cells of the resources and of the predecessors of a row."""
        _, _, _, before, needs = self.rows[k]
        used = [f"{crew} {need}" for crew, need in zip(self.crews, needs) if need]
        return [", ".join(used), ", ".join(self.rows[i][0] for i in before)]


def drawn_list(draw):
    """A list of up to 90 rows; a report has 40 in an image."""
    count = draw.pick((1, 3, draw.number(1, 8), draw.number(9, 38), draw.number(39, 42), draw.number(43, 90)))
    crews = {name: draw.pick((1, 2, 3, 7, 10000)) for name in draw.random.sample(CREWS, draw.number(0, 3))}
    return RowList(crews, [drawn_row(draw, k, crews) for k in range(count)])


def drawn_row(draw, k, crews):
    own = f"{draw.pick(('a', 'B-', 'ü', '名'))}{k}"
    before = draw.random.sample(range(max(0, k - 6), k), min(k, draw.number(0, 2)))
    needs = [draw.number(0, most) if draw.chance(0.6) else 0 for most in crews.values()]
    return own, draw.pick(LIST_NAMES), draw.pick((0, 1, 2, 5, 12, 40)), sorted(before), needs


def long_list(count):
    """A list of so many activities of the longest duration, one after another."""
    return RowList({"crew": 2}, [(f"a{k}", "", 10000, [k - 1] if k else [], [k % 3]) for k in range(count)])


# ---- what is wanted


class Schedule:
    """What other commands and the model say of a schedule: its rows, the days of each row, floats and
    slacks."""

    ids = None

    def __init__(self, folder, text, words, dates, holidays=()):
        self.is_shop = len(words) > 2
        own, rest = words[0], words[1:]
        command = "shop" if self.is_shop else "schedule"
        self.table = plan(folder, command, own, *rest)
        self.rows = json.loads(plan(folder, command, "--format", "json", own, *rest)[1])["rows"]
        self.makespan = max(row["end"] for row in self.rows)
        self.days, self.floats, self.slacks = None, None, None
        if dates:
            given = ["--holidays", "holidays"] if holidays else []
            days = json.loads(plan(folder, "days", *given, "--format", "json", own, *dates, *rest)[1])["rows"]
            self.days = [(row["first"] or "-", row["last"] or "-") for row in days]
        self.axis = boxes.Axis(self.makespan, self.instants(dates, holidays))
        if not self.is_shop:
            self.needs, self.capacities = self.uses_of(text)
            self.floats = [row["TF"] for row in json.loads(plan(folder, "cpm", "--format", "json", *rest)[1])["rows"]]
            self.slacks = self.counted_slacks(text)
            if self.slacks is None:
                starts = written(folder, "schedule", self.table[1])
                lines = plan(folder, "slack", *rest, starts)[1].decode().splitlines()[1:-1]
                self.slacks = [int(lines[row["act"] - 1].split()[4]) for row in self.rows]

    def instants(self, dates, holidays):
        """The ordinals of the working days of all instants, by the model."""
        if not dates:
            return []
        calendar = Calendar(dates[0], digits_of(dates[1]), read_holidays(holidays) if holidays else set())
        return [number_of(calendar.working_day(t)) for t in range(self.makespan)]

    def uses_of(self, text):
        """The needs of each activity by its number, and the capacities."""
        project = read_project(text)
        return project.needs, project.capacities

    def counted_slacks(self, text):
        """The slacks, or None if there are too many delays to try."""
        project, starts = read_project(text), {row["act"]: row["start"] for row in self.rows}
        return [slack(project, starts, j) for j in starts] if self.makespan <= LONGEST else None

    def first_day(self):
        return min(first for first, _ in self.days if first != "-")

    def last_day(self):
        return max(last for _, last in self.days if last != "-")

    def label(self, number, names):
        return label(number, names)


class Listed(Schedule):
    """The same of a list, whose rows have ids, resources and predecessors."""

    def __init__(self, folder, drawn, own, dates, holidays):
        self.drawn, self.ids = drawn, {k: row[0] for k, row in enumerate(drawn.rows, 2)}
        super().__init__(folder, None, [own, "list.sm"], dates, holidays)
        same("the ids of the rows", [row["id"] for row in self.rows], [row[0] for row in drawn.rows])

    def uses_of(self, text):
        """A list without resources is a project with one that nothing needs."""
        needs = {k: row[4] or [0] for k, row in enumerate(self.drawn.rows, 2)}
        return needs, list(self.drawn.crews.values()) or [0]

    def counted_slacks(self, text):
        """None: `plan slack` counts the slacks of lists."""
        return None

    def label(self, number, names):
        name = shown_name(names.get(number, b""))
        return f"{self.ids[number]} {name}" if name else self.ids[number]


def number_of(day):
    return datetime.date.fromisoformat(day).toordinal()


def cells_of(schedule, k, row, names, machines):
    """The cells of a row of the table."""
    number = row.get("act", row.get("job"))
    step = f".{row['step']}" if schedule.is_shop else ""
    first = schedule.ids[number] if schedule.ids else f"{number}{step}"
    cells = [first, shown_name(names.get(number, b""))]
    if schedule.is_shop:
        cells.append(label(row["mach"], machines))
    cells += [str(row["end"] - row["start"]), str(row["start"]), str(row["end"])]
    cells += schedule.days[k] if schedule.days else ()
    if not schedule.is_shop:
        unit = " d" if schedule.ids and schedule.days else ""
        cells += [f"{schedule.floats[k]}{unit}", f"{schedule.slacks[k]}{unit}"]
    return cells + (schedule.drawn.links(k) if schedule.ids else [])


def heads_of(schedule):
    found = ["Id" if schedule.ids else "No.", "Name", *(["Machine"] if schedule.is_shop else [])]
    found += ["Duration", "Start", "End"] + (["First day", "Last day"] if schedule.days else [])
    found += ["Float", "Slack"] if not schedule.is_shop else []
    return found + (["Resources", "Predecessors"] if schedule.ids else [])


def wanted_bar(schedule, row, names):
    number = row.get("act", row.get("job"))
    step = f", step {row['step']}" if schedule.is_shop else ""
    tip = f"{schedule.label(number, names)}{step}, {row['start']} to {row['end']}"
    if row["start"] == row["end"]:
        return "path", schedule.axis.to_place(row["end"]), None, tip
    left, right = schedule.axis.from_place(row["start"]), schedule.axis.to_place(row["end"])
    return "rect", left, max(right - left, 3), tip


def wanted_lines(schedule, by_job, names, machines):
    """The lines of the chart, each with its label and its bars."""
    key = ("job" if by_job else "mach") if schedule.is_shop else "act"
    titles = machines if key == "mach" else names
    found = {}
    for row in schedule.rows:
        own = found.setdefault(row[key], [])
        if is_drawn(row.get("step", 0), row["start"], row["end"]):
            own.append(wanted_bar(schedule, row, names))
    # A job has as many steps as there are machines, some of which may have none.
    numbers = range(max(row["step"] for row in schedule.rows)) if key == "mach" else sorted(found)
    return [(cut(schedule.label(number, titles)), found.get(number, [])) for number in numbers]


# ---- the trial


def tights_of(image):
    """Whether each rectangle of an image is marked as one without slack."""
    rectangles = [element for element in image.iter(SVG + "rect")]
    return ["tight" in element.get("class").split() for element in rectangles]


def tails_of(image):
    """The two places of each thin line of an image."""
    tails = [element for element in image.iter(SVG + "path") if element.get("class") == "tail"]
    return [tuple(map(int, re.fullmatch(r"M(\d+) 10H(\d+)", tail.get("d")).groups())) for tail in tails]


def wanted_tails(schedule):
    """The same, of the schedule of a project."""
    rows = [(row["end"], slack) for row, slack in zip(schedule.rows, schedule.slacks) if row["start"] < row["end"]]
    return [(schedule.axis.to_place(end), schedule.axis.to_place(end + slack)) for end, slack in rows if slack]


def compare_images(what, images, schedule, crews):
    """Compares the sizes and the marks of all images, the use of resources, and the boxes of labels.
    Returns whether there is a known fault."""
    axis = schedule.axis
    charts = [image for image in images if image.findall(SVG + "g")]
    boxes.check_chart(what, charts, axis)
    uses = images[len(charts) :]
    has_uses = not schedule.is_shop and schedule.makespan <= boxes.MOST_USED
    capacities = schedule.capacities if has_uses else []
    same(f"{what}: the images of resources", len(uses), len(capacities))
    for k, (image, capacity) in enumerate(zip(uses, capacities)):
        used = [(row["start"], row["end"], schedule.needs[row["act"]][k]) for row in schedule.rows]
        path = boxes.use_path(axis, schedule.makespan, capacity, used)
        boxes.check_use(what, image, axis, label(k + 1, crews), capacity, path)
    long = boxes.long_labels(axis)
    return any([boxes.check_boxes(what, image, long) for image in images])


def compare(what, text, schedule, by_job, title, names, machines):
    """Compares a page with a schedule. `machines` are the names of machines, or of the resources of a
    project. Returns whether a label has a known fault."""
    page = Page(text)
    same(f"{what}: the titles", (page.texts["title"], page.texts["h1"]), ([title], [title]))
    note = f"Makespan {schedule.makespan}"
    if schedule.days and schedule.makespan:
        note += f", {schedule.first_day()} to {schedule.last_day()}"
    same(f"{what}: the note", page.texts["p"], [note])
    images = [ElementTree.fromstring(image) for image in FIGURE.findall(text)]
    charts = [image for image in images if image.findall(SVG + "g")]
    found = sum((lines_of(image) for image in charts), [])
    same(f"{what}: the lines", found, wanted_lines(schedule, by_job, names, machines))
    tights = sum((tights_of(image) for image in charts), [])
    slacks = schedule.slacks or [None] * len(schedule.rows)
    drawn = [slack == 0 for row, slack in zip(schedule.rows, slacks) if row["start"] < row["end"]]
    same(f"{what}: the bars without slack", sorted(tights), sorted(drawn))
    if schedule.slacks is not None:
        tails = sum((tails_of(image) for image in charts), [])
        same(f"{what}: the tails", tails, wanted_tails(schedule))
    rows = [cells_of(schedule, k, row, names, machines) for k, row in enumerate(schedule.rows)]
    same(f"{what}: the table", page.rows, [heads_of(schedule), *rows])
    return compare_images(what, images, schedule, machines)


def drawn_dates(draw, folder, start, marks):
    """The words of a calendar, the bytes of its holidays, and the words of both for `report`."""
    holidays = holiday_text(draw) if draw.chance(0.5) else b""
    options = ["--start", start, "--days", marks]
    if holidays:
        options += ["--holidays", written(folder, "holidays", holidays)]
    return [start, marks], holidays, options


def try_file(draw, folder):
    """One file with names: its report, or the error of its chart or its days."""
    is_shop = draw.chance(0.4)
    text, instance = small_file(draw, is_shop)
    text, names = with_names(draw, text, instance)
    machines = {}
    if is_shop:
        text, machines = named_lines(draw, text, instance, b"+ machine ", range(0, 4))
    own, file = rule(draw, is_shop), written(folder, "drawn", text)
    dates, holidays, options = [], b"", []
    if draw.chance(0.5):
        dates, holidays, options = drawn_dates(draw, folder, draw.pick(STARTS), draw.pick(MARKS))
    by_job = is_shop and draw.chance(0.5)
    title = shown_name(draw.pick(NAMES)) if draw.chance(0.5) else None
    options += ["--by", "job"] if by_job else []
    options += [f"--title={title}"] if title else []
    what = f"{text!r} with {holidays!r}"[:3000] + f": report {own} {options} {instance}"
    answer = plan(folder, "report", "--rule", own, *options, file, *instance)
    given = ["--holidays", "holidays"] if holidays else []
    other = plan(folder, *(["days", *given, own, *dates] if dates else ["chart", own]), file, *instance)
    if other[0]:
        same(what, answer, other)
        return other[2].split(b" ")[0].decode()
    same(f"{what}: the status and the errors", (answer[0], answer[2]), (0, b""))
    schedule = Schedule(folder, text, [own, file, *instance], dates, holidays)
    default = instance[0] if is_shop and instance[0] != "-" else "drawn"
    page = answer[1].decode()
    is_known = compare(what, page, schedule, by_job, title or default, names, machines)
    if draw.chance(0.5):
        listed = written(folder, "starts", schedule.table[1])
        again = plan(folder, "report", "--starts", listed, *options, file, *instance)
        same(f"{what}, by starts", again, answer)
    if own == ("mwkr" if is_shop else "lft"):
        same(f"{what}, by the default rule", plan(folder, "report", *options, file, *instance), answer)
    return "known fault of labels" if is_known else "fine"


def try_list(draw, folder):
    """One list with ids: its report by a rule, and at times the one of a search."""
    drawn = drawn_list(draw)
    own, file = draw.pick(PROJECT_RULES), written(folder, "list.csv", drawn.text())
    written(folder, "list.sm", plan(folder, "import", file)[1])
    dates, holidays, options = [], b"", []
    if draw.chance(0.7):
        start = datetime.date.fromordinal(draw.number(FIRST, FIRST + 30)).isoformat()
        dates, holidays, options = drawn_dates(draw, folder, start, draw.pick(MARKS))
    what = f"{drawn.text().decode()} with {holidays!r}"[:3000] + f": report {own} {options}"
    answer = plan(folder, "report", "--rule", own, *options, file)
    given = ["--holidays", "holidays"] if holidays else []
    other = plan(folder, *(["days", *given, own, *dates] if dates else ["chart", own]), file)
    if other[0]:
        same(what, answer, other)
        return other[2].split(b" ")[0].decode()
    same(f"{what}: the status and the errors", (answer[0], answer[2]), (0, b""))
    schedule = Listed(folder, drawn, own, dates, holidays)
    names, crews = drawn.names(), drawn.crew_names()
    is_known = compare(what, answer[1].decode(), schedule, False, "list.csv", names, crews)
    if len(drawn.rows) <= MOST_SOLVED:
        try_solved(what, folder, file, options)
    return "known fault of labels" if is_known else "fine list"


def try_solved(what, folder, file, options):
    """The report of a search: that of the starts in its table, and a least makespan in its note."""
    status, text, errors = plan(folder, "report", "--solve", *options, file)
    same(f"{what}: a search", (status, errors), (0, b""))
    starts = [row[3] for row in Page(text.decode()).rows[1:]]
    ends = max(int(row[4]) for row in Page(text.decode()).rows[1:])
    listed = written(folder, "starts", " ".join(["0", *starts, str(ends)]).encode())
    by_starts = plan(folder, "report", "--starts", listed, *options, file)
    shown = text.replace(b", optimal %d</p>" % ends, b"</p>")
    same(f"{what}: a search and its starts", (0, shown, b""), by_starts)
    first = plan(folder, "solve", "--conflicts", "1000000", file)[1].split(b"\n")[0]
    same(f"{what}: the least makespan", first, b"optimal %d" % ends)
    same(f"{what}: the note", len(text) - len(shown), len(", optimal ") + len(str(ends)))


def try_points(folder):
    """A report on a calendar has the columns of the days, also if all activities take no time."""
    file, dates = written(folder, "points", POINTS), [STARTS[0], MARKS[0]]
    words = ["report", "--start", dates[0], "--days", dates[1], file]
    status, text, errors = plan(folder, *words)
    same("a report of makespan 0", (status, errors), (0, b""))
    schedule = Schedule(folder, POINTS, ["lft", file], dates)
    compare("a report of makespan 0", text.decode(), schedule, False, "points", {}, {})


def try_long(folder):
    """Reports with a long axis: with and without images of resource use, and without shades of weeks."""
    for count, dates in LONG:
        drawn = long_list(count)
        written(folder, "list.csv", drawn.text())
        written(folder, "list.sm", plan(folder, "import", "list.csv")[1])
        options = ["--start", dates[0], "--days", dates[1]] if dates else []
        status, text, errors = plan(folder, "report", *options, "list.csv")
        what = f"a report of {count} long activities {dates}"
        same(what, (status, errors), (0, b""))
        schedule = Listed(folder, drawn, "lft", dates, b"")
        compare(what, text.decode(), schedule, False, "list.csv", {}, drawn.crew_names())


def try_moved(folder):
    """A report in which holidays move the first day of a week, which then has no label."""
    drawn, dates, holidays = RowList({"crew": 1}, [("A", "Dig", 30, [], [1])]), ["2025-12-01", "mon-fri"], HOLIDAYS
    written(folder, "list.csv", drawn.text())
    written(folder, "list.sm", plan(folder, "import", "list.csv")[1])
    options = ["--start", dates[0], "--days", dates[1], "--holidays", written(folder, "holidays", holidays)]
    status, text, errors = plan(folder, "report", *options, "list.csv")
    same("a report with holidays", (status, errors), (0, b""))
    schedule = Listed(folder, drawn, "lft", dates, holidays)
    names = drawn.names(), drawn.crew_names()
    return compare("a report with holidays", text.decode(), schedule, False, "list.csv", *names)


def try_reports(cases=1000, seed=1, is_verbose=False):
    draw, tally = Draw(Random(seed)), collections.Counter()
    with tempfile.TemporaryDirectory() as folder:
        try_points(folder)
        try_long(folder)
        try_moved(folder)
        for _ in range(cases):
            trial = try_list if draw.chance(0.4) else try_file
            tally[trial(draw, folder)] += 1
    if is_verbose:
        print(f"{cases} reports by seed {seed}: {dict(tally)}")


if __name__ == "__main__":
    try_reports(*map(int, sys.argv[1:]), is_verbose=True)
