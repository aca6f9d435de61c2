#!/usr/bin/env python3
"""Checks drawn starts of drawn lists with dates, and compares the verdict of `plan check` with that
of a model: as text and JSON, its status, and on the same list with calendar dates. The starts are
tables and CSV, with and without the rows of what has begun or is done.

    tests/trials/week_checks.py               500 lists; prints nothing on success
    tests/trials/week_checks.py CASES SEED    so many, drawn from this seed; prints the verdicts

The program is the one that ./plan runs, or the one that PLAN_PROGRAM names.
"""

import collections
import json
import os
import sys
import tempfile

sys.dont_write_bytecode = True
sys.path.insert(0, os.path.dirname(os.path.abspath(__file__)))

from answers import plan, printed, refused, same, written
from model import weeks
from weeks import Calendar, Drawn, dated, end_shown, error_of, start_shown, week_of

MARK = b"\xef\xbb\xbf"


def called(case, i):
    """An activity as a verdict names it."""
    name = case.names[i] if case.has_names else ""
    return f"a{i} {name}".rstrip()


def sentence(case, starts, verdict):
    """What `plan check` prints for a verdict."""
    kind, *about = verdict
    if kind == "feasible":
        return kind
    if kind == "over":
        return f"at time {about[0]} more of {case.crews[about[1]]} is needed than there is"
    i, other = about
    if kind == "broken":
        return f"{called(case, i)} starts before {called(case, other)} ends"
    told = {
        "past": f"starts before --now {other}",
        "early": f"starts before its earliest start {other}",
        "moved": f"starts at {starts[i]}, not at its appointment {other}",
    }
    return f"{called(case, i)} {told[kind]}"


class Table:
    """Starts as a table: printed or CSV, with or without the rows that don't count."""

    def __init__(self, case, week, starts):
        self.draw, self.week = case.draw, week
        self.is_csv, self.is_late = self.draw.random() < 0.5, self.draw.random() < 0.3
        self.has_settled, self.has_ends = self.draw.random() < 0.7, self.draw.random() < 0.7
        self.rows = [self.row(case, i, start) for i, start in enumerate(starts)]
        if self.draw.random() < 0.3:
            self.draw.shuffle(self.rows)

    def is_open(self, i):
        return isinstance(self.week.states[i], weeks.Open)

    def row(self, case, i, start):
        numbers = [self.week.durations[i], start_shown(self.week, i, start)]
        numbers += [end_shown(self.week, i, start)] + [0] * self.is_late
        nothing, own = "" if self.is_csv else "-", case.activities()[i]
        cells = [own["id"], *(nothing if n is None else str(n) for n in numbers)]
        return i, cells + [own.get("name", "")] * case.has_names

    def counted(self):
        """The rows of the file: those of open activities, and maybe the others."""
        return [cells for i, cells in self.rows if self.has_settled or self.is_open(i)]

    def text(self):
        heads = ["id", "d", "start", "end"] + ["late"] * self.is_late
        rows = [heads, *self.counted()]
        if self.is_csv:
            separator = self.draw.choice(",,;")
            quoted = [[f'"{row[0]}"', *row[1:]] for row in rows[1:]]
            rows = [heads, *quoted] if self.draw.random() < 0.2 else rows
            mark = MARK if self.draw.random() < 0.2 else b""
            return mark + "".join(separator.join(row) + "\n" for row in rows).encode()
        lines = ["".join(f"{cell:>8}" for cell in row[:-1]) + f" {row[-1]}" for row in rows]
        if self.has_ends:
            above = ["tardiness between 1 3"] * self.is_late + ["optimal 9"]
            lines = [*above, *lines, "makespan 9"] + ["late 1 of 3"] * self.is_late
        return "".join(line + "\n" for line in lines).encode()


def try_dates(case, folder, starts, wanted):
    """Compares the verdict for a list with calendar dates with that for the list with instants."""
    calendar = Calendar(case.draw)
    rows = [
        {column: dated(calendar, column, cell) for column, cell in row.items()} for row in case.rows
    ]
    name = written(folder, "dates.csv", case.text(rows).encode())
    now = calendar.day(case.now) if case.now is not None and case.draw.random() < 0.5 else None
    words = ["check", *case.options(now), *calendar.options(folder), name, starts]
    what = f"{words} of\n{case.text(rows)} on {calendar.holidays}"
    same(what, plan(folder, *words), wanted)


def try_starts(case, week, folder, name, starts):
    """Compares the verdict on starts with that of the model."""
    table = Table(case, week, starts)
    text, verdict = table.text(), weeks.verdict(week, starts)
    told = sentence(case, starts, verdict)
    file = written(folder, "starts", text)
    words = ["check", *case.options(), name, file]
    what = f"{words} of\n{case.text()}\nand\n{text.decode()}"
    same(what, plan(folder, *words), printed(f"{told}\n"))
    status = 0 if verdict[0] == "feasible" else 3
    wanted = status, f"{told}\n".encode(), b""
    same(f"--status of {what}", plan(folder, *words, "--status"), wanted)
    found = plan(folder, *words, "--format", "json")
    same(f"JSON of {what}", json.loads(found[1]), {"rows": [{"verdict": told}]})
    try_dates(case, folder, file, printed(f"{told}\n"))
    if any(table.is_open(i) for i in range(week.count())):
        try_missing(case, table, folder, name, what)
    return verdict[0]


def try_missing(case, table, folder, name, what):
    """A table without the row of an open activity is refused."""
    rows = [(i, cells) for i, cells in table.rows if table.is_open(i)]
    table.rows.remove(case.draw.choice(rows))
    words = ["check", *case.options(), name, written(folder, "starts", table.text())]
    status, output, errors = plan(folder, *words)
    code, *rest = errors.decode().split("\n")[0].split(" line ")
    same(f"a row less of {what}", (status, output, code, len(rest)), (1, b"", "F9", 1))


def try_list(seed, folder, tally):
    case = Drawn(seed)
    case.given = None
    name = written(folder, "week.csv", case.text().encode())
    error = error_of(case)
    if error is not None:
        words = ["check", *case.options(), name, written(folder, "starts", b"")]
        same(f"{words} of\n{case.text()}", plan(folder, *words), refused(error))
        tally[error.split()[0]] += 1
        return
    week = week_of(case)
    for starts in weeks.drawn_starts(week, case.draw):
        tally[try_starts(case, week, folder, name, starts)] += 1


def try_week_checks(cases=500, seed=1, is_verbose=False):
    tally = collections.Counter()
    with tempfile.TemporaryDirectory() as folder:
        for number in range(cases):
            try_list(seed * 1_000_000 + number, folder, tally)
    if is_verbose:
        print(f"{cases} lists by seed {seed}: {dict(tally)}")


if __name__ == "__main__":
    try_week_checks(*map(int, sys.argv[1:]), is_verbose=len(sys.argv) > 1)
