#!/usr/bin/env python3
"""Plans drawn lists with dates and compares `plan solve` with a brute force: the least makespan, the
least greatest tardiness and the least makespan with it, overloads, lists without a plan, and errors
of dates. The starts must be a plan by its definition, and the text must show them. `plan days
--solve` must show the working days of these starts, and a list with calendar dates must give the
same plan.

    tests/trials/weeks.py               500 lists; prints nothing on success
    tests/trials/weeks.py CASES SEED    so many, drawn from this seed; prints what they were

The program is the one that ./plan runs, or the one that PLAN_PROGRAM names.
"""

import collections
import datetime
import json
import os
import random
import sys
import tempfile

sys.dont_write_bytecode = True
sys.path.insert(0, os.path.dirname(os.path.abspath(__file__)))

from answers import Wrong, plan, printed, refused, same, written
from model import weeks

COLUMNS = ["id", "duration", "predecessors", "earliest", "fixed", "begun", "remaining", "done", "due"]
DATES = COLUMNS[3:]
BAD = ["x", "-1", "1.5", "10000001", "3 d", "1234567890"]
NAMES = "Resource Names"
# cells of an absence in the column of names, and their errors
BAD_NAMES = {
    "crew A;CREW A": "T20",
    "crew A[50%]": "T20",
    "crew A;digger[x]": "T20",
    "crew A[10000001]": "T20",
    "digger": "T14 no resource digger",
    "crew A;dig[2]ger": "T14 no resource dig[2]ger",
}
MOST = 10_000_000


class Drawn:
    """A drawn week as a list. Its rows are dictionaries from columns to cells."""

    def __init__(self, seed):
        self.draw = draw = random.Random(seed)
        self.week = week = weeks.drawn(seed)
        self.crews = [f"crew {'ABCDEFGH'[k]}" for k in range(len(week.capacities))]
        self.names = [f"Task {i}" if draw.random() < 0.7 else "" for i in range(week.count())]
        self.has_names = draw.random() < 0.5
        self.now = None if draw.random() < (0.03 if self.has_history() else 0.3) else week.today
        self.rows = [self.row(i) for i in range(week.count())]
        self.rows += [self.absence(absence) for absence in week.absences]
        # one column with the names of the crews, or one for each crew
        self.is_named, self.is_loud = draw.random() < 0.3, draw.random() < 0.3
        self.given = self.capacity() if draw.random() < 0.1 else None
        self.header = self.draw.choice(DATES) if draw.random() < 0.1 else None
        self.is_remarked = draw.random() < 0.05
        if draw.random() < 0.15:
            self.spoil()

    def capacity(self):
        """A resource and another capacity for it."""
        return self.draw.randrange(len(self.crews)), self.draw.randint(0, 4)

    def has_history(self):
        return any(not isinstance(state, weeks.Open) for state in self.week.states)

    def row(self, i):
        """The row of an activity; what is planned anew may have been interrupted."""
        week, state = self.week, self.week.states[i]
        before = [
            f"a{first}" + (f"+{lag}d" if lag else "")
            for first, second, lag in week.arcs
            if second == i
        ]
        cells = {"id": f"a{i}", "duration": week.durations[i], "predecessors": " ".join(before)}
        if isinstance(state, weeks.Begun):
            cells |= {"begun": state.began, "remaining": state.remaining}
        elif isinstance(state, weeks.Done):
            cells |= {"done": state.ended}
        else:
            cells |= {"earliest": state.earliest or ""}
            cells |= {} if state.fixed is None else {"fixed": state.fixed}
            if self.now is not None and self.draw.random() < 0.1:
                cells |= {"begun": "interrupted", "remaining": week.durations[i]}
                cells["duration"] = week.durations[i] + self.draw.randint(0, 3)
                cells["duration"] = max(cells["duration"], 1)
        cells |= {} if week.dues[i] is None else {"due": week.dues[i]}
        cells |= {crew: need for crew, need in zip(self.crews, week.needs[i])}
        return cells | {"name": self.names[i]}

    def absence(self, absence):
        cells = {"id": "absence", "duration": absence.duration, "earliest": absence.earliest or ""}
        return cells | {self.crews[absence.resource]: absence.amount, "name": "ill"}

    def spoil(self):
        """Replaces a date, or adds one."""
        row = self.draw.choice(self.rows)
        if self.is_named and row["id"] == "absence" and self.draw.random() < 0.5:
            row[NAMES] = self.draw.choice(list(BAD_NAMES))
            return
        column = self.draw.choice(DATES if row["id"] != "absence" else ["earliest", "duration"])
        row[column] = self.draw.choice([*BAD, "interrupted", "2", "0", str(self.week.today + 2)])

    def activities(self):
        """The rows of activities."""
        return [row for row in self.rows if row["id"] != "absence"]

    def columns(self):
        crews = [NAMES] if self.is_named else self.crews
        return COLUMNS[:1] + ["name"] * self.has_names + COLUMNS[1:] + crews

    def named(self, row):
        """A row with a cell of names: the crews, each with its amount in brackets unless it is 1."""
        amounts = [(crew, row[crew]) for crew in self.crews if row.get(crew)]
        cell = ";".join(crew + ("" if n == 1 else f"[{n}]") for crew, n in amounts)
        is_upper = self.is_loud and row["id"] == "absence"
        return {NAMES: cell.upper() if is_upper else cell} | row

    def text(self, rows=None):
        columns = self.columns() + ["remark"] * self.is_remarked
        capacities = {"id": "capacity"} | dict(zip(self.crews, self.week.capacities))
        rows = [capacities, *({"remark": "see 2"} | row for row in rows or self.rows)]
        rows = [self.named(row) for row in rows] if self.is_named else rows
        lines = [[str(row.get(column, "")) for column in columns] for row in rows]
        heads = ["Tag" if column == self.header else column for column in columns]
        return "".join(",".join(line) + "\n" for line in [heads, *lines])

    def options(self, now=None):
        words = [] if self.now is None else ["--now", now or str(self.now)]
        if self.given is not None:
            place, amount = self.given
            name = [self.crews[place], str(place + 1), f"R{place + 1}"][(place + amount) % 3]
            words += ["--capacity", f"{name}={amount}"]
        words += ["--ignore", "remark"] if self.is_remarked else []
        return words + (["--map", f"Tag={self.header}"] if self.header else [])


# ---- errors of dates


def number(cell):
    """The number in a cell; None if it is empty."""
    cell = str(cell)
    if not cell:
        return None
    if not (cell.isdigit() and len(cell) <= 9 and int(cell) <= MOST):
        raise ValueError
    return int(cell)


def check_row(row, now, line):
    """Raises the line of the first check that a row fails."""
    cells = {column: str(row.get(column, "")) for column in DATES}
    fixed = begun = remaining = done = earliest = None
    try:
        earliest, fixed = number(cells["earliest"]), number(cells["fixed"])
        if cells["begun"] and now is None:
            raise Wrong(f"T17 line {line} begun")
        begun = cells["begun"] if cells["begun"] == "interrupted" else number(cells["begun"])
        remaining = number(cells["remaining"])
        if cells["done"] and now is None:
            raise Wrong(f"T17 line {line} begun")
        done = number(cells["done"])
        number(cells["due"])
    except ValueError:
        raise Wrong(f"T20 line {line} number") from None
    is_ahead = done is None and begun in (None, "interrupted")
    if is_ahead and fixed is not None and fixed < max(now or 0, earliest or 0):
        raise Wrong(f"T21 line {line} dates")
    if remaining is not None and begun is None:
        raise Wrong(f"T21 line {line} dates")


def check_absence(row, line):
    try:
        number(row.get("earliest", ""))
        if number(row["duration"]) is None:
            raise ValueError
        if BAD_NAMES.get(row.get(NAMES)) == "T20":
            raise ValueError
    except ValueError:
        raise Wrong(f"T20 line {line} number") from None


def error_of(case):
    """The error of the dates of a list, or None."""
    try:
        for place, row in enumerate(case.rows):
            if row["id"] == "absence":
                check_absence(row, place + 3)
            else:
                check_row(row, case.now, place + 3)
    except Wrong as wrong:
        return str(wrong)
    unknown = (BAD_NAMES[row[NAMES]] for row in case.rows if NAMES in row)
    return next(unknown, None)


def week_of(case):
    """The week that a list says, whose dates are right."""
    week, states, durations, dues = case.week, [], [], []
    today, absences = case.now or 0, []
    for row in case.rows:
        cell = {column: row.get(column, "") for column in [*DATES, "duration"]}
        if row["id"] == "absence":
            (resource,) = [k for k, crew in enumerate(case.crews) if crew in row]
            first = number(cell["earliest"]) or 0
            lasts, amount = number(cell["duration"]), int(row[case.crews[resource]])
            absences.append(weeks.Absence(resource, first, lasts, amount))
            continue
        lasts, remaining = int(cell["duration"]), number(cell["remaining"])
        dues.append(number(cell["due"]))
        durations.append(lasts)
        if str(cell["done"]):
            states.append(weeks.Done(number(cell["done"])))
        elif str(cell["begun"]) not in ("", "interrupted"):
            began = number(cell["begun"])
            rest = max(0, lasts - max(0, today - began))
            states.append(weeks.Begun(began, rest if remaining is None else remaining))
        else:
            states.append(weeks.Open(number(cell["earliest"]) or 0, number(cell["fixed"])))
        if str(cell["begun"]) == "interrupted" and remaining is not None:
            durations[-1] = remaining
    arcs, needs, capacities = week.arcs, week.needs, list(week.capacities)
    if case.given is not None:
        capacities[case.given[0]] = case.given[1]
    return weeks.Week(durations, arcs, needs, capacities, states, dues, absences, today)


# ---- plans


def start_shown(week, i, start):
    state = week.states[i]
    if isinstance(state, weeks.Done):
        return None
    return state.began if isinstance(state, weeks.Begun) else start


def end_shown(week, i, start):
    """An end; what was done later than today counts as done today."""
    state = week.states[i]
    return min(state.ended, week.today) if isinstance(state, weeks.Done) else start + week.rest(i)


def starts_in(week, rows):
    """The starts of a plan in JSON; what can't move starts where the definition says."""
    settled = [week.settled(i) for i in range(week.count())]
    return [row["start"] if at is None else at for at, row in zip(settled, rows)]


def cells_of(case, week, starts, is_late):
    """The rows that a plan shows: the id, the duration, the start, the end, how late it is, and the
    name."""
    late = weeks.tardiness(week, starts) if is_late else [None] * week.count()
    for i, start in enumerate(starts):
        numbers = [week.durations[i], start_shown(week, i, start), end_shown(week, i, start)]
        yield [f"a{i}", *numbers, *([late[i]] if is_late else [])], case.names[i]


def text_of(case, week, starts, is_late, bound):
    """The text of a plan."""
    heads = ["d", "start", "end"] + ["late"] * is_late
    has_names = case.has_names and any(case.names)
    lines = ["  id" + "".join(f"{head:>8}" for head in heads) + " name" * has_names]
    for (word, *numbers), name in cells_of(case, week, starts, is_late):
        cells = "".join(f"{'-' if n is None else n:>8}" for n in numbers)
        lines.append(f"{word:>4}{cells}" + (f" {name}" if has_names and name else ""))
    ends = weeks.makespan(week, starts)
    lines = [*bound, f"optimal {ends}", *lines, f"makespan {ends}"]
    if is_late:
        late = sum(tardy > 0 for tardy in weeks.tardiness(week, starts))
        lines.append(f"late {late} of {week.count()}")
    return "".join(line.rstrip() + "\n" for line in lines)


def unpadded(output):
    """A text without blanks at the ends of its lines."""
    return "".join(line.rstrip() + "\n" for line in output.decode().splitlines()).encode()


class Calendar:
    """A drawn calendar: the working days from a date on."""

    def __init__(self, draw):
        self.start = datetime.date(2024, 1, 1) + datetime.timedelta(draw.randrange(900))
        self.marks = [draw.random() < 0.7 for _ in range(7)]
        self.marks[draw.randrange(7)] = True
        self.holidays = [
            self.start + datetime.timedelta(draw.randrange(20)) for _ in range(draw.randrange(3))
        ]

    def words(self):
        return [str(self.start), "".join("1" if mark else "0" for mark in self.marks)]

    def holiday_options(self, folder):
        if not self.holidays:
            return []
        lines = "".join(f"{day}\n" for day in self.holidays)
        return ["--holidays", written(folder, "holidays.txt", lines.encode())]

    def options(self, folder):
        start, marks = self.words()
        return ["--start", start, "--days", marks, *self.holiday_options(folder)]

    def day(self, instant):
        """The working day with so many working days before it."""
        date, left = self.start, instant
        while True:
            if self.marks[date.weekday()] and date not in self.holidays:
                if left == 0:
                    return str(date)
                left -= 1
            date += datetime.timedelta(1)


def days_shown(calendar, begin, end):
    """The first and the last day between two instants; what was done has no known begin."""
    if end == 0 or begin is not None and begin >= end:
        return ["-", "-"]
    return ["-" if begin is None else calendar.day(begin), calendar.day(end - 1)]


def days_text(case, week, starts, is_late, calendar):
    """The text of the working days of a plan."""
    has_names = case.has_names and any(case.names)
    heads = f"  id{'first':>12}{'last':>12}" + f"{'late':>8}" * is_late
    lines = [heads + " name" * has_names]
    late = weeks.tardiness(week, starts) if is_late else []
    for i, start in enumerate(starts):
        days = days_shown(calendar, start_shown(week, i, start), end_shown(week, i, start))
        cells = "".join(f"{day:>12}" for day in days) + (f"{late[i]:>8}" if is_late else "")
        name = f" {case.names[i]}" if has_names and case.names[i] else ""
        lines.append(f"{f'a{i}':>4}{cells}{name}")
    return "".join(line.rstrip() + "\n" for line in lines)


def dated(calendar, column, cell):
    """A cell with the date of its instant: in `done` and `due` the day that ends then."""
    if not str(cell).isdigit():
        return cell
    if column in ("earliest", "fixed", "begun"):
        return calendar.day(int(cell))
    return calendar.day(int(cell) - 1) if column in ("done", "due") and int(cell) > 0 else cell


def try_dates(case, folder, is_late, wanted):
    """Compares the plan of a list with calendar dates with the one of the same list with instants."""
    calendar = Calendar(case.draw)
    rows = [
        {column: dated(calendar, column, cell) for column, cell in row.items()} for row in case.rows
    ]
    name = written(folder, "dates.csv", case.text(rows).encode())
    now = calendar.day(case.now) if case.now is not None and case.draw.random() < 0.5 else None
    words = ["solve", *case.options(now), *goal_words(is_late), *calendar.options(folder), name]
    status, output, errors = plan(folder, *words)
    what = f"{words} of\n{case.text(rows)} on {calendar.holidays}"
    same(what, (status, unpadded(output), errors), wanted)


def try_days(case, week, folder, name, starts, is_late):
    """Compares the working days of the plan of a list with those of its starts."""
    calendar = Calendar(case.draw)
    words = ["days", "--solve", *case.options(), *goal_words(is_late)]
    words += [*calendar.holiday_options(folder), *calendar.words(), name]
    status, output, errors = plan(folder, *words)
    wanted = printed(days_text(case, week, starts, is_late, calendar))
    what = f"{words} of\n{case.text()} on {calendar.holidays}"
    same(what, (status, unpadded(output), errors), wanted)


def goal_words(is_late):
    return ["--goal", "tardiness"] if is_late else []


def try_plan(case, week, folder, name, is_late, wanted):
    """Compares the plan of a list for a goal with what is wanted."""
    words = ["solve", *case.options(), *goal_words(is_late), name]
    what = f"{words} of\n{case.text()}"
    status, output, errors = plan(folder, *words, "--format", "json")
    same(f"{what}: the status and the errors", (status, errors), (0, b""))
    found = json.loads(output)
    starts = starts_in(week, found["rows"])
    if not weeks.is_plan(week, starts):
        raise Wrong(f"{what}: no plan: {starts}")
    tardy, ends = wanted if is_late else (None, wanted)
    same(f"{what}: the makespan", weeks.makespan(week, starts), ends)
    same(f"{what}: the bounds", (found["lower_bound"], found["upper_bound"]), (ends, ends))
    bound = []
    if is_late:
        same(f"{what}: the tardiness", max(weeks.tardiness(week, starts)), tardy)
        bound = [f"tardiness optimal {tardy}"]
    text = text_of(case, week, starts, is_late, bound)
    status, output, errors = plan(folder, *words)
    same(f"{what}: the text", (status, unpadded(output), errors), printed(text))
    try_days(case, week, folder, name, starts, is_late)
    try_dates(case, folder, is_late, printed(text))


def wanted_error(case, week, found):
    """The line of the error of a list whose dates are right, or None."""
    overload = weeks.overload(week)
    if overload is not None:
        return f"S11 {case.crews[overload[1]]} {overload[0]}"
    return None if found else "S12 no plan"


def try_list(seed, folder):
    case = Drawn(seed)
    name = written(folder, "week.csv", case.text().encode())
    error = error_of(case)
    if error is None:
        week = week_of(case)
        found = weeks.plans(week)
        error = wanted_error(case, week, found)
    if error is not None:
        for goal in (False, True):
            words = ["solve", *case.options(), *goal_words(goal), name]
            what = f"{words} of\n{case.text()}"
            same(what, plan(folder, *words), refused(error))
        return error.split()[0]
    try_plan(case, week, folder, name, False, weeks.least_makespan(week, found))
    if week.latest_due() is not None:
        try_plan(case, week, folder, name, True, weeks.least_tardiness(week, found))
    return "planned"


def try_weeks(cases=500, seed=1, is_verbose=False):
    tally = collections.Counter()
    with tempfile.TemporaryDirectory() as folder:
        for number in range(cases):
            tally[try_list(seed * 1_000_000 + number, folder)] += 1
    if is_verbose:
        print(f"{cases} lists by seed {seed}: {dict(tally)}")


if __name__ == "__main__":
    try_weeks(*map(int, sys.argv[1:]), is_verbose=len(sys.argv) > 1)
