#!/usr/bin/env python3
"""Draws plans, writes each as a list, and compares what the commands that read lists print with models
in Python: the rows with ids, names, resources and predecessors, weekdays and times of day, and the changes from
another list, as text, CSV and JSON, and the line of notes on standard error.

    tests/trials/list_rows.py               2,000 lists; prints nothing on success
    tests/trials/list_rows.py CASES SEED    so many, drawn from this seed

A list has ids or none, lags, notes, one of three separators and of five encodings. Each lag is a wait, an
activity that isn't printed. The schedules, slacks and
verdicts are those of model/, the forms those of docs/formats.md and docs/lists.md. A schedule of
`plan solve` isn't known beforehand: it has to be active, and all else follows from its starts. The
program is the one that ./plan runs, or the one that PLAN_PROGRAM names.
"""

import csv
import datetime
import io
import json
import os
import sys
import tempfile
from random import Random

sys.dont_write_bytecode = True
sys.path.insert(0, os.path.dirname(os.path.abspath(__file__)))

import results
from answers import Wrong, plan, same, written
from model import schedules, texts, verdicts
from model.projects import Project

RULES = ("lft", "slk", "spt", "mts", "num")
NAMES = ("Roof", "Walls, north", "Fundament Süd", 'The "big" one', "", "a\\b", "</td>&amp;", "=1+1", "'", "Straße")
# Texts for columns without a capacity, each with a header that no rule knows.
NOTES = {"Boss": ("Ann", "Béla", "two men"), "Site, old": ("north", "7a"), "crew leader": ("Tom", "n/a")}
HEADERS = {"id": ("id", "ID", "Nr.", "Task ID"), "name": ("name", "Task", "Vorgang")}
HEADERS |= {"duration": ("duration", "Days", "Dauer"), "after": ("predecessors", "After", "Vorgänger")}
RESOURCES = ("crew", "Digger", "maçon")
WORDS = {**results.WORDS, "A": "start_a", "B": "start_b"}
FORMS = ("text", "csv", "json")
LINKS = ("resources", "predecessors")


# ---- what is drawn


class List:
    """A drawn plan of rows 1 to n, which are the activities 2 to n + 1. The start is before them; waits
    and the end follow."""

    def __init__(self, draw):
        count = draw.choice((1, 2, 3, 5, 8))
        self.ids = drawn_ids(draw, count) if draw.random() < 0.7 else []
        self.resources = draw.sample(RESOURCES, draw.randrange(4)) if self.ids else []
        self.capacities = [draw.randrange(1, 4) for _ in self.resources]
        self.has_names = draw.random() < 0.8
        self.names = [draw.choice(NAMES) if self.has_names else "" for _ in range(count)]
        self.durations = [draw.randrange(6) for _ in range(count)]
        order = draw.sample(range(count), count)
        self.before = [[] for _ in range(count)]
        for place, k in enumerate(order):
            self.before[k] = sorted(draw.sample(order[:place], min(place, draw.randrange(3))))
        self.needs = [[draw.randrange(most + 1) for most in self.capacities] for _ in range(count)]
        self.notes = draw.sample(list(NOTES), draw.choice((0, 0, 1, 2)))
        share = 0.5 if self.ids and draw.random() < 0.4 else 0
        self.lags = [{i: draw.choice((0, 1, 2, 5)) for i in own if draw.random() < share} for own in self.before]

    def reorder(self, heads):
        """Takes up the order of the columns with these heads, for resources and notes."""
        self.notes = [name for name in heads if name in NOTES]
        places = [self.resources.index(name) for name in heads if name in self.resources]
        self.resources = [self.resources[k] for k in places]
        self.capacities = [self.capacities[k] for k in places]
        self.needs = [[own[k] for k in places] for own in self.needs]

    def waits(self):
        """The waits by their numbers: the activities before and behind each, and its lag."""
        pairs = [(i, k) for k, before in enumerate(self.before) for i in before if i in self.lags[k]]
        first = len(self.durations) + 2
        return {w: (i + 2, k + 2, self.lags[k][i]) for w, (i, k) in enumerate(pairs, first)}

    def project(self):
        """The project of the list. Without resources it has one, of which there is nothing."""
        waits = self.waits()
        end = len(self.durations) + len(waits) + 2
        durations = {1: 0, **{k + 2: days for k, days in enumerate(self.durations)}, end: 0}
        durations |= {w: lag for w, (_, _, lag) in waits.items()}
        arcs = [(i + 2, k + 2) for k, before in enumerate(self.before) for i in before if i not in self.lags[k]]
        arcs += [arc for w, (i, k, _) in waits.items() for arc in ((i, w), (w, k))]
        arcs += [(1, k + 2) for k, before in enumerate(self.before) if not before]
        last = set(range(2, end)) - {i for i, _ in arcs}
        arcs += [(i, end) for i in last] if end > 2 else [(1, end)]
        none = [0] * max(1, len(self.capacities))
        needs = {1: none, **{k + 2: own or none for k, own in enumerate(self.needs)}, end: none}
        needs |= dict.fromkeys(waits, none)
        return Project(durations, arcs, needs, self.capacities or none)

    def numbers(self):
        """The activities that have a row in the outputs."""
        count = len(self.durations)
        return range(2, count + 2) if self.ids else range(1, count + 3)

    def label(self, number):
        return self.ids[number - 2] if self.ids else str(number)

    def name(self, number):
        return self.names[number - 2] if 2 <= number < len(self.names) + 2 else ""

    def links(self, number):
        """The resources and the predecessors of an activity, as CSV and JSON have them."""
        amounts = zip(self.resources, self.needs[number - 2])
        used = ", ".join(f"{name} {amount}" for name, amount in amounts if amount)
        before, lags = self.before[number - 2], self.lags[number - 2]
        words = [self.ids[i] for i in before if i not in lags]
        words += [f"{self.ids[i]}+{lags[i]}" for i in before if i in lags]
        return {"resources": used, "predecessors": ", ".join(words)}

    def with_waits(self, starts):
        """The starts of the rows and of the waits: each begins when the activity before it ends."""
        return starts | {w: starts[i] + self.durations[i - 2] for w, (i, _, _) in self.waits().items()}


def drawn_ids(draw, count):
    form = draw.choice(("{}", "A{}", "{}0", "step-{}", "Süd{}", "an-id-of-some-more-letters-{}"))
    return [form.format(k + 1) for k in range(count)]


def with_lag(draw, word, lag):
    """A predecessor, perhaps with a lag."""
    return word if lag is None else word + draw.choice((f"+{lag}", f"FS+{lag}d", f"+{lag} days"))


def rows_of(draw, drawn):
    """The rows of the list, in a drawn order of columns."""
    columns = [(draw.choice(HEADERS["duration"]), list(map(str, drawn.durations)), "")]
    if drawn.ids:
        columns.append((draw.choice(HEADERS["id"]), drawn.ids, draw.choice(("capacity", "Capacity"))))
    if drawn.has_names:
        columns.append((draw.choice(HEADERS["name"]), drawn.names, ""))
    words = drawn.ids or [str(k + 1) for k in range(len(drawn.durations))]
    cells = [[with_lag(draw, words[i], lags.get(i)) for i in own] for own, lags in zip(drawn.before, drawn.lags)]
    before = [draw.choice((" ", ",", "; ")).join(own) for own in cells]
    columns.append((draw.choice(HEADERS["after"]), before, ""))
    for k, name in enumerate(drawn.resources):
        columns.append((name, [str(own[k]) for own in drawn.needs], str(drawn.capacities[k])))
    for name in drawn.notes:
        cells = [draw.choice(NOTES[name] + ("",)) for _ in drawn.durations]
        cells[draw.randrange(len(cells))] = draw.choice(NOTES[name])
        columns.append((name, cells, ""))
    draw.shuffle(columns)
    drawn.reorder([name for name, _, _ in columns])
    rows = [[cells[k] for _, cells, _ in columns] for k in range(len(drawn.durations))]
    if drawn.resources:
        rows.insert(draw.randrange(len(rows) + 1), [most for _, _, most in columns])
    return [[name for name, _, _ in columns], *rows]


def bytes_of(draw, drawn):
    """The list, and the line of notes on it."""
    text = io.StringIO()
    mark = draw.choice(",;\t")
    csv.writer(text, delimiter=mark, lineterminator=draw.choice(("\n", "\r\n"))).writerows(rows_of(draw, drawn))
    text = text.getvalue()
    encoding = draw.choice(("utf-8", "utf-8", "utf-8-sig", "utf-16", "utf-16-be", "cp1252"))
    data = text.encode(encoding)
    if encoding == "utf-16-be":
        data = b"\xfe\xff" + data
    notes = ["read as Windows-1252"] if encoding == "cp1252" and not text.isascii() else []
    notes += ["ignored columns: " + ", ".join(drawn.notes)] if drawn.notes else []
    return data, "".join("; ".join(notes) + "\n" for _ in notes[:1]).encode()


# ---- the forms of a table


class Sheet:
    """A table with a row for each activity: its cells under these heads, of this width. `flags` marks
    some activities; `words` are the lines below, `members` those of JSON."""

    def __init__(self, drawn, heads, width, cells, flags=None, words=(), members=None):
        self.drawn, self.heads, self.width, self.cells, self.flags = drawn, heads, width, cells, flags
        self.words, self.members = words, members or {}

    def front(self):
        return "id" if self.drawn.ids else "act"

    def line(self, places, front, cells):
        return padded(places, front) + "".join(padded(self.width, cell) for cell in cells)

    def linked(self, mark, link):
        """The mark, the resources and the predecessors behind a row, which activities with ids have."""
        links = [self.drawn.links(j) for j in self.drawn.numbers()]
        widths = {head: max(map(len, (head, *(own[head] for own in links)))) for head in LINKS}
        return mark.ljust(2 if self.flags else 0) + "".join(" " + link[head].rjust(widths[head]) for head in LINKS)

    def behind(self, mark, link):
        return self.linked(mark, link) if self.drawn.ids else mark

    def text(self):
        drawn = self.drawn
        places = max([4, *(len(name.encode()) for name in drawn.ids)])
        heading = self.line(places, self.front(), self.heads) + self.behind("", {head: head for head in LINKS})
        lines = [(heading, "name")]
        for j in drawn.numbers():
            line = self.line(places, drawn.label(j), map(shown, self.cells[j]))
            mark = " *" if self.flags and self.flags[j] else ""
            lines.append((line + self.behind(mark, drawn.ids and drawn.links(j)), drawn.name(j)))
        place = max(len(line) for line, name in lines if name) + 1
        rows = [line.ljust(place) + name if name else line for line, name in lines]
        return "".join(row + "\n" for row in [*rows, *self.words]).encode()

    def columns(self):
        """The heads behind the first one, with the cells of each activity."""
        drawn = self.drawn
        found = {head: {j: cells[k] for j, cells in self.cells.items()} for k, head in enumerate(self.heads)}
        if self.flags:
            found["critical"] = self.flags
        if any(drawn.names):
            found["name"] = {j: drawn.name(j) or None for j in drawn.numbers()}
        if drawn.ids:
            links = {j: drawn.links(j) for j in drawn.numbers()}
            found |= {head: {j: own[head] for j, own in links.items()} for head in LINKS}
        return found

    def csv(self):
        """The records."""
        drawn, columns = self.drawn, self.columns()
        rows = [[drawn.label(j), *(field(cells[j]) for cells in columns.values())] for j in drawn.numbers()]
        return [[self.front(), *columns], *rows]

    def json(self):
        drawn, columns = self.drawn, self.columns()
        rows = []
        for j in drawn.numbers():
            row = {"act": j, "activity": j, **{head: cells[j] for head, cells in columns.items()}}
            row |= {WORDS[head]: value for head, value in row.items() if head in WORDS}
            rows.append({**row, "id": drawn.label(j)} if drawn.ids else row)
        return {**self.members, "rows": rows}


class Signed(int):
    """A number that text shows with its sign."""


def padded(width, text):
    return " " * (width - len(text.encode())) + text


def shown(cell):
    if cell is None:
        return "-"
    return f"{cell:+d}" if isinstance(cell, Signed) and cell else str(cell)


def field(cell):
    return "" if cell is None else str(cell).lower() if isinstance(cell, bool) else str(cell)


def dumped(value):
    return json.dumps(value, sort_keys=True, separators=(",", ":"), ensure_ascii=False).encode() + b"\n"


def compare(what, form, output, sheet):
    """Compares an output with a table, or with a chart."""
    if form == "csv":
        found = list(csv.reader(io.StringIO(output.decode(), newline="")))
        same(what, found, sheet.csv())
    else:
        same(what, output, sheet.text() if form == "text" else dumped(sheet.json()))


class Chart:
    """The chart of a schedule."""

    def __init__(self, drawn, project, starts):
        self.drawn, self.project = drawn, project
        self.spans = {j: (starts[j], starts[j] + project.durations[j]) for j in starts}
        self.whole = max(end for _, end in self.spans.values())

    def text(self):
        drawn = self.drawn
        places = max([4, *(len(name.encode()) for name in drawn.ids)])
        lines = ["unit 1"]
        for j in drawn.numbers():
            cells = texts.cells_of(1, self.whole, [self.spans[j]])
            lines.append(f"{padded(places, drawn.label(j))} |{cells}|" + (" " + drawn.name(j) if drawn.name(j) else ""))
        return "".join(line + "\n" for line in lines).encode()

    def csv(self):
        drawn, has_names = self.drawn, any(self.drawn.names)
        rows = [[drawn.label(j), *map(str, self.spans[j]), *[drawn.name(j)] * has_names] for j in drawn.numbers()]
        return [["id" if drawn.ids else "activity", "start", "end", *["name"] * has_names], *rows]

    def json(self):
        drawn, rows = self.drawn, []
        for j in drawn.numbers():
            row = {"activity": j, "bars": [dict(zip(("start", "end"), self.spans[j]))]}
            row |= {"id": drawn.label(j)} if drawn.ids else {}
            rows.append(row | ({"name": drawn.name(j) or None} if any(drawn.names) else {}))
        return {"makespan": self.whole, "rows": rows, "unit": 1}


# ---- the commands


class Case:
    """A list in a folder, with its project."""

    def __init__(self, draw, folder):
        self.draw, self.folder, self.drawn = draw, folder, List(draw)
        self.data, self.notes = bytes_of(draw, self.drawn)
        written(folder, "list.csv", self.data)
        self.project = self.drawn.project()
        self.rule = draw.choice(RULES)
        self.starts = schedules.rule_starts(self.project, self.rule)
        self.form = draw.choice(FORMS)

    def output(self, *words):
        """What a command prints in the form of the case, with the notes on the list."""
        form = [] if self.form == "text" else ["--format", self.form]
        self.what = f"{self.data!r}: {words} as {self.form}"
        status, output, errors = plan(self.folder, words[0], *form, *words[1:])
        same(f"{self.what}: the status and the notes", (status, errors), (0, self.notes))
        return output

    def moved(self):
        """Starts of which some are later."""
        starts = dict(self.starts)
        for _ in range(self.draw.randrange(3)):
            starts[self.draw.choice(list(starts))] += self.draw.randrange(1, 4)
        return starts

    def write(self, name, starts):
        return written(self.folder, name, numbers(starts))


def times_of(project, starts):
    return {j: [days, starts[j], starts[j] + days] for j, days in project.durations.items()}


def try_chart(case):
    output = case.output("chart", case.rule, "list.csv")
    compare(case.what, case.form, output, Chart(case.drawn, case.project, case.starts))


def try_days(case):
    first = datetime.date(2024, 1, 1) + datetime.timedelta(case.draw.randrange(3000))
    marks = case.draw.choice(("1111100", "1111111", "1000010", "0000001"))
    cells = {}
    for j, days in case.project.durations.items():
        spans = (case.starts[j], case.starts[j] + days - 1)
        cells[j] = [texts.marked_day(str(first), marks, t) for t in spans] if days else [None, None]
    output = case.output("days", case.rule, str(first), marks, "list.csv")
    compare(case.what, case.form, output, Sheet(case.drawn, ["first", "last"], 12, cells))


def moments_of(case, style, first, marks):
    """The moments at which each activity begins and ends, in a style: whether days have their weekday,
    the hours of a working day or 0, and the minute at which the first hour begins."""
    weekdays, hours, opens = style

    def moment(unit, after):
        day, hour = divmod(unit, hours or 1)
        date = texts.marked_day(first, marks, day)
        minute = opens + (hour + after) * 60
        weekday = datetime.date.fromisoformat(date).strftime("%a ") if weekdays else ""
        return weekday + date + (f" {minute // 60:02}:{minute % 60:02}" if hours else "")

    return {
        j: [moment(case.starts[j], 0), moment(case.starts[j] + days - 1, 1)] if days else [None, None]
        for j, days in case.project.durations.items()
    }


def try_moments(case):
    draw = case.draw
    first = str(datetime.date(2024, 1, 1) + datetime.timedelta(draw.randrange(3000)))
    marks = draw.choice(("1111100", "1111111", "1000010", "0000001"))
    weekdays, hours = draw.random() < 0.6, draw.choice((None, 1, 2, 7, 8, 24))
    timed = 0 if hours in (None, 1) else hours
    opens = draw.randrange(1440 - (hours or 0) * 60 + 1) if timed else 0
    opens = min(opens, 1439)
    words = ["--weekdays"] if weekdays else []
    words += ["--per-day", str(hours)] if hours else []
    is_given = timed and (opens or draw.random() < 0.5)
    words += ["--opens", f"{opens // 60:02}:{opens % 60:02}"] if is_given else []
    cells = moments_of(case, (weekdays, timed, opens), first, marks)
    output = case.output("days", *words, case.rule, first, marks, "list.csv")
    width = 12 + 4 * weekdays + 6 * bool(timed)
    compare(case.what, case.form, output, Sheet(case.drawn, ["first", "last"], width, cells))


def try_bad_hours(case):
    """Hours that are refused, before the list is read."""
    draw = case.draw
    hours, opens = draw.choice(((0, "07:00"), (25, "00:00"), (8, "16:01"), (2, "24:00"), (3, "7:00"), (1, "x")))
    words = ["days", "--per-day", str(hours), "--opens", opens, "lft", "2024-01-01", "mon-fri"]
    answer = plan(case.folder, *words, draw.choice(("list.csv", "none.csv")))
    same(f"{words}", answer, (1, b"", b"G7 hours\n"))


def try_check(case):
    starts = case.moved()
    output = case.output("check", "list.csv", case.write("starts", starts))
    drawn = case.drawn
    ids, names, resources = (dict(enumerate(words, first)) for words, first in (
        (drawn.ids, 2), (drawn.names, 2), (drawn.resources, 1)))
    ids |= {w: f"wait+{k}" for k, w in enumerate(drawn.waits())}
    verdict = verdicts.named_verdict(case.project, starts, ids, names, resources)
    if case.form == "csv":
        same(case.what, list(csv.reader(io.StringIO(output.decode(), newline=""))), [["verdict"], [verdict]])
    else:
        wanted = {"text": verdict.encode() + b"\n", "json": dumped({"rows": [{"verdict": verdict}]})}
        same(case.what, output, wanted[case.form])
    status = plan(case.folder, "check", "--status", "list.csv", "starts")[0]
    same(f"{case.what}: the status", status, 0 if verdict == "active" else 3)


def try_compare(case):
    first, second = case.moved(), case.moved()
    words = ["list.csv", case.write("first", first), case.write("second", second)]
    cells = {j: [first[j], second[j], Signed(second[j] - first[j])] for j in first}
    lines, members = [], {}
    for name, starts in (("A", first), ("B", second)):
        whole, verdict = schedules.makespan(case.project, starts), verdicts.verdict(case.project, starts)
        lines.append(f"{name} makespan {whole}: {verdict}")
        members |= {f"makespan_{name}": whole, f"verdict_{name}": verdict}
    sheet = Sheet(case.drawn, ["A", "B", "shift"], 8, cells, None, lines, members)
    output = case.output("compare", *words)
    compare(case.what, case.form, output, sheet)


class Changed:
    """The list of a case before some changes: another plan, which has some of its ids."""

    def __init__(self, case):
        draw, folder = case.draw, case.folder
        self.drawn = List(draw)
        if self.drawn.ids:
            own = [f"old-{k}" for k in range(len(self.drawn.ids))]
            common = draw.sample(case.drawn.ids, min(len(case.drawn.ids), draw.randrange(len(own) + 1)))
            self.drawn.ids = draw.sample([*common, *own[len(common) :]], len(own))
        data, _ = bytes_of(draw, self.drawn)
        written(folder, "old.csv", data)
        self.project = self.drawn.project()
        self.starts = schedules.rule_starts(self.project, draw.choice(RULES))

    def by_id(self):
        return by_id(self.drawn, self.starts)


def by_id(drawn, starts):
    """The starts of the activities with ids, in the order of the list."""
    return {drawn.label(j): starts[j] for j in drawn.numbers()}


def changes(old, new):
    """The rows, the lines and the members of a comparison of two schedules by ids."""
    rows = [[name, old.get(name), t, Signed(t - old[name]) if name in old else None] for name, t in new.items()]
    rows += [[name, t, None, None] for name, t in old.items() if name not in new]
    common = [name for name in new if name in old]
    moved = [name for name in common if old[name] != new[name]]
    added, removed = [name for name in new if name not in old], [name for name in old if name not in new]
    lines = [f"moved {len(moved)} of {len(common)}"]
    for word, names in (("added", added), ("removed", removed)):
        lines.append(" ".join([word, *names]) if names else f"none {word}")
    members = {"added": added, "compared": len(common), "moved": len(moved), "removed": removed}
    return rows, lines, members


def try_changes(case):
    """Schedules of two lists, compared by ids; or the error if one has none."""
    before, starts = Changed(case), case.moved()
    words = ["compare", "--old", "old.csv", "list.csv"]
    words += [written(case.folder, "a", numbers(before.starts)), case.write("b", starts)]
    if not (case.drawn.ids and before.drawn.ids):
        line = "T3 no column id" + (" of the old list" if case.drawn.ids else "")
        return same(f"{case.data!r}: {words}", plan(case.folder, *words), (1, b"", f"{line}\n".encode()))
    rows, lines, members = changes(before.by_id(), by_id(case.drawn, starts))
    heads, output = ["id", "old", "new", "shift"], case.output(*words)
    if case.form == "csv":
        found = list(csv.reader(io.StringIO(output.decode(), newline="")))
        return same(case.what, found, [heads, *([field(cell) for cell in row] for row in rows)])
    if case.form == "json":
        return same(case.what, output, dumped({**members, "rows": [dict(zip(heads, row)) for row in rows]}))
    places = max([4, *(len(row[0].encode()) for row in rows)])
    text = [padded(places, row[0]) + "".join(padded(8, shown(cell)) for cell in row[1:]) for row in [heads, *rows]]
    same(case.what, output.decode(), "".join(line + "\n" for line in [*text, *lines]))


def numbers(starts):
    return " ".join(str(starts[j]) for j in sorted(starts)).encode()


def try_slack(case):
    project, starts = case.project, case.starts
    slacks = {j: verdicts.slack(project, starts, j) for j in starts}
    words = ["slack", "list.csv", case.write("starts", starts)]
    chain = chain_in(case, words, slacks)
    output = case.output(*words)
    cells = {j: [*own, slacks[j]] for j, own in times_of(project, starts).items()}
    labels = None if chain is None else [case.drawn.label(j) for j in chain if j in case.drawn.numbers()]
    members = {"chain": chain, **({"chain_ids": labels} if case.drawn.ids and chain else {})}
    line = "no chain" if chain is None else " ".join(["chain", *labels])
    flags = {j: slack == 0 for j, slack in slacks.items()}
    sheet = Sheet(case.drawn, ["d", "start", "end", "slack"], 8, cells, flags, [line], members)
    compare(case.what, case.form, output, sheet)


def chain_in(case, words, slacks):
    """The chain that a command shows as JSON, once it is one. There may be several. At a makespan of 0 it
    is the start, which has no id."""
    form, case.form = case.form, "json"
    chain = json.loads(case.output(*words))["chain"]
    case.form = form
    model = results.Model.__new__(results.Model)
    project, count = case.project, len(slacks)
    model.durations = [project.durations[j] for j in range(1, count + 1)]
    model.arcs = [(i - 1, j - 1) for i, j in project.arcs]
    model.needs = [project.needs[j] for j in range(1, count + 1)]
    starts, slacks = ([found[j] for j in range(1, count + 1)] for found in (case.starts, slacks))
    if chain is None:
        same(f"{case.what}: no chain", model.has_chain(starts, slacks), False)
    elif not chain or not model.is_chain(starts, slacks, [j - 1 for j in chain]):
        raise Wrong(f"{case.what}: {chain} is no chain")
    return chain


def try_solve(case):
    """The starts are those of the JSON; the other forms are made of them."""
    form, case.form = case.form, "json"
    value = json.loads(case.output("solve", "--conflicts", "1000", "list.csv"))
    case.form = form
    output = case.output("solve", "--conflicts", "1000", "list.csv")
    starts = solved_starts(case, value)
    same(f"{case.what}: the verdict", verdicts.verdict(case.project, starts), "active")
    whole, bounds = schedules.makespan(case.project, starts), ("lower_bound", "upper_bound", "status")
    members = {"makespan": whole, **{name: value[name] for name in bounds}}
    same(f"{case.what}: the bounds", (value["lower_bound"], value["upper_bound"], value["status"]), (whole, whole, "optimal"))
    cells = times_of(case.project, starts)
    sheet = Sheet(case.drawn, ["d", "start", "end"], 8, cells, None, [f"makespan {whole}"], members)
    if form == "text":
        output = output.removeprefix(f"optimal {whole}\n".encode())
    compare(case.what, form, output, sheet)


def try_read_back(case):
    """A solution in any form, with its rows in any order, is read as the starts in it."""
    output = case.output("solve", "--conflicts", "1000", "list.csv")
    written(case.folder, "solved", shuffled(case, output))
    case.form = "text"
    same(f"{case.what}: read back", case.output("check", "list.csv", "solved"), b"active\n")
    case.form = "json"
    value = json.loads(case.output("compare", "list.csv", "solved", case.write("starts", case.starts)))
    own = {row["activity"]: row["start_a"] for row in value["rows"]}
    lines = case.output("solve", "--conflicts", "1000", "list.csv")
    solved = {row["activity"]: row["start"] for row in json.loads(lines)["rows"]}
    same(f"{case.what}: the starts", own, solved)


def shuffled(case, output):
    """A table in another order of its rows, if it has ids."""
    if not case.drawn.ids:
        return output
    if case.form == "json":
        value = json.loads(output)
        case.draw.shuffle(value["rows"])
        return dumped(value)
    lines = output.splitlines(keepends=True)
    first = 1 if case.form == "csv" else 2
    last = len(lines) - (case.form == "text")
    rows = lines[first:last]
    case.draw.shuffle(rows)
    return b"".join([*lines[:first], *rows, *lines[last:]])


def solved_starts(case, value):
    """The starts in the JSON of a solution. Those of the start, the waits and the end follow, if the list
    has ids."""
    starts = {row["activity"]: row["start"] for row in value["rows"]}
    if case.drawn.ids:
        starts = case.drawn.with_waits(starts)
        starts = {1: 0, **starts, len(starts) + 2: value["makespan"]}
    return starts


COMMANDS = (try_chart, try_days, try_moments, try_bad_hours, try_check, try_compare, try_changes, try_slack)
COMMANDS += (try_solve, try_read_back)


def try_list_rows(cases=2000, seed=1):
    memory = "/dev/shm" if os.path.isdir("/dev/shm") else None
    with tempfile.TemporaryDirectory(dir=memory) as folder:
        for number in range(cases):
            draw = Random(f"{seed} {number}")
            try:
                draw.choice(COMMANDS)(Case(draw, folder))
            except Wrong as wrong:
                raise Wrong(f"list {number} of seed {seed}: {wrong}") from None


def main():
    cases, seed = [int(word) for word in sys.argv[1:3]] + [2000, 1][len(sys.argv) - 1 :]
    try:
        try_list_rows(cases, seed)
    except Wrong as wrong:
        sys.exit(f"list_rows.py: {wrong}")


if __name__ == "__main__":
    main()
