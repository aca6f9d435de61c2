#!/usr/bin/env python3
"""Carries one planner's list through twelve weeks. People fall ill, work is late, early, added or
interrupted, a second site shares the crew, and some work is due. Each week `plan solve --now T --format
list` prints the list with its plan. The planner enters what has happened, and that is the list of the next
week. A model checks each plan by its definition, and all other cells of the list. `plan days` must print
the same list with the days of the plan.

If begun work needs more than the crew that is left, `plan solve` must return S11. The planner then
interrupts some work.

    tests/trials/twelve_weeks.py       prints nothing on success
    tests/trials/twelve_weeks.py -v    prints a line a week

The program is the one that ./plan runs, or the one that PLAN_PROGRAM names.
"""

import csv
import datetime
import io
import json
import os
import sys
import tempfile

sys.dont_write_bytecode = True
sys.path.insert(0, os.path.dirname(os.path.abspath(__file__)))

from answers import Wrong, plan, refused, same, written
from model import weeks

# Five working days.
LONG = 5
# The day of instant 0, a Monday.
FIRST = datetime.date(2027, 5, 3)
CREWS = ("crew", "digger")
HEADS = "id,name,duration,predecessors,crew,digger,earliest,fixed,begun,remaining,done,due,remark".split(",")
HOUSE = """\
A,Excavation,4,,2,1,,,,,,,dry days only
B,Foundation,6,A,3,,,,,,,,
C,Drains,3,A,2,1,,,,,,,
D,"Walls, ground floor",7,B,4,,,,,,,,
E,"Walls, first floor",7,D,4,,,,,,,,
F,Roof,5,E,3,,,,,,,,"tiles: ask Fynn"
G,Windows,4,F,2,,,,,,,,
H,Stairs,3,E,2,,,,,,,,
I,Plumbing,6,C G,1,,,,,,,,
J,Wiring,5,G,1,,,,,,,,
K,Plaster,6,H I J,3,,,,,,,,
L,Painting,5,K,2,,,,,,,,
M,Garden,4,C,2,1,,,,,,,
capacity,,,,5,1,,,,,,,
"""
BARN = """\
S1,Strip the barn,3,,2,,,,,,,,barn
S2,New beams,6,S1,3,,,,,,,,barn
S3,Barn roof,5,S2,3,,,,,,,60,barn
S4,Barn floor,4,S2,2,,,,,,,,barn
"""


class Sheet:
    """A list as rows of cells, which are read and written by the names of their columns."""

    def __init__(self, text):
        heads, *rows = csv.reader(io.StringIO(text, newline=""))
        self.heads, self.rows = heads, [row + [""] * (len(heads) - len(row)) for row in rows]

    def text(self):
        out = io.StringIO(newline="")
        csv.writer(out).writerows([self.heads, *self.rows])
        return out.getvalue()

    def row(self, name):
        return next(row for row in self.rows if row[0] == name)

    def get(self, name, head):
        return self.row(name)[self.heads.index(head)]

    def put(self, name, **cells):
        for head, cell in cells.items():
            self.row(name)[self.heads.index(head)] = str(cell)

    def add(self, text):
        for cells in csv.reader(io.StringIO(text, newline="")):
            own = dict(zip(HEADS, cells))
            self.rows.append([own.get(head, "") for head in self.heads])

    def remove(self, name):
        self.rows = [row for row in self.rows if row[0] != name]

    def activities(self):
        return [row[0] for row in self.rows if row[0] not in ("absence", "capacity")]


def number(cell):
    return int(cell) if cell else None


def state_of(sheet, name, now):
    """What has happened to an activity, and its duration in the plan."""
    lasts, begun = int(sheet.get(name, "duration")), sheet.get(name, "begun")
    rest, done = number(sheet.get(name, "remaining")), number(sheet.get(name, "done"))
    if done is not None:
        return weeks.Done(done), lasts
    if begun not in ("", "interrupted"):
        left = max(0, lasts - max(0, now - int(begun)))
        return weeks.Begun(int(begun), left if rest is None else rest), lasts
    earliest = number(sheet.get(name, "earliest")) or 0
    if begun and rest is not None:
        lasts = rest
    return weeks.Open(earliest, number(sheet.get(name, "fixed"))), lasts


def week_of(sheet, now):
    """The week of a list for the model."""
    names = sheet.activities()
    states, durations = zip(*(state_of(sheet, name, now) for name in names))
    arcs = [
        (names.index(before), place, 0)
        for place, name in enumerate(names)
        for before in sheet.get(name, "predecessors").split()
    ]
    needs = [[number(sheet.get(name, crew)) or 0 for crew in CREWS] for name in names]
    columns = [sheet.heads.index(head) for head in ("earliest", "duration", *CREWS)]
    absences = []
    for row in sheet.rows:
        if row[0] == "absence":
            first, lasts, *missing = (number(row[column]) or 0 for column in columns)
            absences += [weeks.Absence(k, first, lasts, n) for k, n in enumerate(missing) if n]
    capacities = [int(sheet.get("capacity", crew)) for crew in CREWS]
    dues = [number(sheet.get(name, "due")) for name in names]
    return weeks.Week(list(durations), arcs, needs, capacities, list(states), dues, absences, now)


# ---- the plan of a week


def times_of(sheet, week, starts, place, name):
    """The start of an activity, or None if it isn't known, and its finish."""
    state = week.states[place]
    if isinstance(state, weeks.Done):
        begun = sheet.get(name, "begun")
        return int(begun) if begun.isdigit() else None, min(state.ended, week.today)
    start = state.began if isinstance(state, weeks.Begun) else starts[place]
    return start, starts[place] + week.rest(place)


def day(instant):
    """The working day of an instant."""
    weeks_before, days = divmod(instant, LONG)
    return str(FIRST + datetime.timedelta(7 * weeks_before + days))


def instants(start, finish):
    return ["" if start is None else str(start), str(finish)]


def days(start, finish):
    """The days of the first and of the last instant of an activity that takes time."""
    if start is None:
        return ["", day(finish - 1) if finish else ""]
    return [day(start), day(finish - 1)] if start < finish else ["", ""]


def starts_of(week, rows):
    settled = [week.settled(place) for place in range(week.count())]
    return [row["start"] if at is None else at for at, row in zip(settled, rows)]


def check_plan(what, week, found):
    """Checks the plan in JSON by its definition. Returns its starts."""
    starts = starts_of(week, found["rows"])
    if not weeks.is_plan(week, starts):
        raise Wrong(f"{what}: no plan: {starts}")
    same(f"{what}: the makespan", found["upper_bound"], weeks.makespan(week, starts))
    if found["lower_bound"] > found["upper_bound"]:
        raise Wrong(f"{what}: the bounds are {found['lower_bound']} and {found['upper_bound']}")
    return starts


def with_columns(sheet, week, starts, texts, is_late):
    """A list with the columns of a plan: the heads, and the rows."""
    fields = ["start", "finish", *["late"] * is_late]
    heads = sheet.heads + [field for field in fields if field not in sheet.heads]
    late = weeks.tardiness(week, starts) if is_late else []
    cells = {}
    for place, name in enumerate(sheet.activities()):
        times = texts(*times_of(sheet, week, starts, place, name))
        cells[name] = dict(zip(fields, [*times, *map(str, late[place : place + 1])]))
    rows = []
    for row in sheet.rows:
        own, new = dict(zip(sheet.heads, row)), cells.get(row[0], dict.fromkeys(fields, ""))
        rows.append([(own | new).get(head, "") for head in heads])
    return [heads, *rows]


def printed_list(what, folder, words, wanted):
    """The list that a command prints, which has these heads and rows."""
    status, output, errors = plan(folder, *words, "--format", "list")
    same(f"{what}: {errors}", status, 0)
    made = Sheet(output.decode())
    same(what, [made.heads, *made.rows], wanted)
    return made


def planned(folder, sheet, now, goal):
    """The list with its plan, its week and the starts."""
    what = f"week {now // LONG + 1}"
    name = written(folder, f"week{now // LONG + 1}.csv", sheet.text().encode())
    options = ["--now", str(now), *(["--goal", goal] if goal else [])]
    status, output, errors = plan(folder, "solve", *options, name, "--format", "json")
    same(f"{what}: {errors}", status, 0)
    week, is_late = week_of(sheet, now), goal == "tardiness"
    starts = check_plan(what, week, json.loads(output))
    wanted = with_columns(sheet, week, starts, days, is_late)
    printed_list(f"{what}: days", folder, ["days", "--solve", *options, str(FIRST), "mon-fri", name], wanted)
    wanted = with_columns(sheet, week, starts, instants, is_late)
    return printed_list(what, folder, ["solve", *options, name], wanted), week, starts


def interrupt_overload(folder, sheet, now):
    """Interrupts begun work while it needs more than the crew that is left; the program must report the
    same overload. Returns how many activities it interrupted."""
    name, count = f"overload{now // LONG + 1}.csv", 0
    while (overload := weeks.overload(week_of(sheet, now))) is not None:
        instant, resource = overload
        crew = CREWS[resource]
        written(folder, name, sheet.text().encode())
        found = plan(folder, "solve", "--now", str(now), name)
        same(f"week {now // LONG + 1}: an overload", found, refused(f"S11 {crew} {instant}"))
        sheet.put(begun_with(sheet, crew), begun="interrupted")
        count += 1
    return count


# ---- what happens in a week


def live(sheet, week, starts, now):
    """Writes into a list what happens up to an instant if all goes by its plan."""
    for place, name in enumerate(sheet.activities()):
        start, finish = starts[place], starts[place] + week.rest(place)
        if isinstance(week.states[place], weeks.Done):
            continue
        if finish <= now:
            sheet.put(name, done=finish, remaining="")
        elif start < now or isinstance(week.states[place], weeks.Begun):
            if isinstance(week.states[place], weeks.Open):
                sheet.put(name, begun=start)
            sheet.put(name, remaining=finish - now)


def begun_with(sheet, *crews):
    """The first activity that has begun and needs all of these crews, or None."""
    for name in sheet.activities():
        goes_on = sheet.get(name, "begun").isdigit() and not sheet.get(name, "done")
        if goes_on and all(sheet.get(name, crew) for crew in crews):
            return name
    return None


# Each event returns whether it can happen in this week; if not, it is tried in a later one.


def ill(sheet, now):
    sheet.add(f"absence,Ben is ill,3,,1,,{now},,,,,,\n")
    return True


def late(sheet, now):
    name = begun_with(sheet)
    if name:
        sheet.put(name, remaining=int(sheet.get(name, "remaining")) + 2)
    return name is not None


def added(sheet, now):
    sheet.add("N,Terrace,3,E,2,,,,,,,,wished by the owner\nO,Fence,2,N,1,,,,,,,,\n")
    return True


def finished(sheet, now):
    name = begun_with(sheet)
    if name:
        sheet.put(name, done=now, remaining="")
    return name is not None


def interrupted(sheet, now):
    name = begun_with(sheet)
    if name:
        sheet.put(name, begun="interrupted")
    return name is not None


def appointed(sheet, now):
    sheet.add(f"P,Inspection,1,F,,,,{now + 30},,,,,\n")
    return True


def second_site(sheet, now):
    sheet.add(BARN)
    sheet.put("L", due=now + 30)
    return True


def three_away(sheet, now):
    sheet.add(f"absence,a course,4,,3,,{now + 1},,,,,,\nabsence,digger in repair,3,,,1,{now},,,,,,\n")
    return True


def hired(sheet, now):
    sheet.put("capacity", crew=6)
    sheet.remove("absence")
    return True


def dropped(sheet, now):
    sheet.remove("O")
    return True


EVENTS = [ill, late, added, finished, interrupted, appointed, second_site, three_away, hired, dropped]
# The goal of the plans after an event.
GOALS = {"second_site": "tardiness", "dropped": "makespan"}


def happening(sheet, now, events):
    """Makes the first event happen that can, and returns its name, or "nothing"."""
    for event in events:
        if event(sheet, now):
            events.remove(event)
            return event.__name__
    return "nothing"


def try_twelve_weeks(_room=None, is_verbose=False):
    sheet, goal, events, count = Sheet(",".join(HEADS) + "\n" + HOUSE), None, list(EVENTS), 0
    with tempfile.TemporaryDirectory() as folder:
        for now in range(0, 12 * LONG, LONG):
            made, week, starts = planned(folder, sheet, now, goal)
            live(made, week, starts, now + LONG)
            event = happening(made, now + LONG, events) if now else "nothing"
            count += interrupt_overload(folder, made, now + LONG)
            if is_verbose:
                print(f"week {now // LONG + 1}: {weeks.makespan(week, starts)}, then {event}")
            sheet, goal = made, GOALS.get(event, goal)
    same("events that haven't happened", events, [])
    same("an overload has happened", count > 0, True)


if __name__ == "__main__":
    try_twelve_weeks(is_verbose=len(sys.argv) > 1)
