#!/usr/bin/env python3
"""Compares the results of drawn projects with plain models in Python: JSON and CSV, also of slacks and
charts, with the modules json and csv, working days with the module datetime, the slack and the chain
of a schedule with a search over all start times.

    tests/trials/results.py [--projects 1000] [--seed 1]

It prints nothing on success. The program is the one that ./plan runs, or the one that PLAN_PROGRAM
names.
"""

import argparse
import csv
import datetime
import io
import json
import os
import random
import sys
import tempfile

sys.dont_write_bytecode = True
TRIALS = os.path.dirname(os.path.abspath(__file__))
sys.path.insert(0, os.path.join(os.path.dirname(TRIALS), "clients"))
sys.path.insert(0, TRIALS)
import tables
from programs import Wrong, plan, same

RULES = ["lft", "slk", "spt", "mts", "num"]
NAMES = ["Roof", "Walls, north", "Fundament Süd", 'The "big" one', "", "a\\b", "</td>&amp;", "名前", "=1+1", "'"]


# ---- drawn projects


def drawn(draw):
    """A project with an activity for each row, in which each need fits the capacity."""
    capacities = [draw.randrange(1, 5) for _ in range(draw.randrange(3))]
    rows = []
    for k in range(draw.randrange(1, 8)):
        before = [i + 2 for i in draw.sample(range(k), min(k, draw.randrange(3)))]
        needs = [draw.randrange(capacity + 1) for capacity in capacities]
        rows.append({"name": draw.choice(NAMES), "duration": draw.randrange(6), "before": before, "needs": needs})
    return tables.Project(rows, [f"crew{k}" for k in range(len(capacities))], capacities)


class Model:
    """The activities of a project, indexed from 0, with the first and the last of its file."""

    def __init__(self, project):
        jobs = project.jobs()
        self.durations = [duration for duration, _, _ in jobs]
        self.arcs = [(i, k - 1) for i, (_, after, _) in enumerate(jobs) for k in after]
        width = len(project.amounts or [0])
        self.needs = [list(needs) + [0] * (width - len(needs)) for _, _, needs in jobs]
        self.capacities = list(project.amounts or [0])
        self.names = ["", *(row["name"] for row in project.rows), ""]

    def is_feasible(self, starts):
        if any(starts[j] < starts[i] + self.durations[i] for i, j in self.arcs):
            return False
        for t in set(starts):
            busy = [j for j, start in enumerate(starts) if start <= t < start + self.durations[j]]
            used = [sum(self.needs[j][k] for j in busy) for k in range(len(self.capacities))]
            if any(amount > capacity for amount, capacity in zip(used, self.capacities)):
                return False
        return True

    def makespan(self, starts):
        return max(start + duration for start, duration in zip(starts, self.durations))

    def slack(self, starts, j):
        """The greatest delay of j such that, while the others stay, each delay up to it leaves the
        schedule feasible and its makespan the same."""
        most = self.makespan(starts) - self.durations[j] - starts[j]
        for delay in range(1, most + 1):
            if not self.is_feasible(starts[:j] + [starts[j] + delay] + starts[j + 1 :]):
                return delay - 1
        return most

    def is_linked(self, starts, i, j):
        if starts[j] != starts[i] + self.durations[i]:
            return False
        shares = any(a > 0 and b > 0 for a, b in zip(self.needs[i], self.needs[j]))
        return (i, j) in self.arcs or self.durations[i] > 0 and self.durations[j] > 0 and shares

    def is_chain(self, starts, slacks, chain):
        """Whether these activities, at least one, lead from 0 to the makespan without slack."""
        return (
            starts[chain[0]] == 0
            and starts[chain[-1]] + self.durations[chain[-1]] == self.makespan(starts)
            and all(slacks[j] == 0 for j in chain)
            and all(self.is_linked(starts, i, j) for i, j in zip(chain, chain[1:]))
        )

    def has_chain(self, starts, slacks):
        """Whether there is such a chain: a walk over all links."""
        tight = [j for j, slack in enumerate(slacks) if slack == 0]
        found, ready = set(), [j for j in tight if starts[j] == 0]
        while ready:
            i = ready.pop()
            if i not in found:
                found.add(i)
                ready += [j for j in tight if j != i and self.is_linked(starts, i, j)]
        return any(starts[j] + self.durations[j] == self.makespan(starts) for j in found)


# ---- what the program prints

# The words of docs/formats.md for the names of columns.
WORDS = {
    "act": "activity",
    "mach": "machine",
    "d": "duration",
    "ES": "earliest_start",
    "EF": "earliest_finish",
    "LS": "latest_start",
    "LF": "latest_finish",
    "TF": "total_float",
    "FF": "free_float",
    "first": "first_day",
    "last": "last_day",
}


def worded(row):
    """A row of JSON, which has a cell also under the word for its column."""
    return {**row, **{WORDS[name]: value for name, value in row.items() if name in WORDS}}


def text_of(what, answer):
    status, output, errors = answer
    same(f"{what}: the status and the errors", (status, errors), (0, b""))
    return output


def table_of(text):
    """The rows of numbers of a printed table, and the lines behind them."""
    lines = text.decode().splitlines()
    rows = [[int(word) for word in line.replace("*", " ").split()] for line in lines[1:] if line[:4].strip().isdigit()]
    return rows, lines[1 + len(rows) :]


def try_forms(what, words, columns, others, model):
    """Compares the JSON and the CSV of a command with its table; returns the starts, if it has some."""
    rows, _ = table_of(text_of(what, plan(*words)))
    named = any(model.names)
    names = [name if name else None for name in model.names]
    wanted = [worded(dict(zip(columns, row))) for row in rows]
    if named:
        wanted = [{**row, "name": name} for row, name in zip(wanted, names)]
    output = text_of(what, plan(words[0], "--format", "json", *words[1:]))
    value = {**others(rows), "rows": wanted}
    same(f"{what}: the value of the JSON", json.loads(output), value)
    bytes_of = json.dumps(value, sort_keys=True, separators=(",", ":"), ensure_ascii=False).encode() + b"\n"
    same(f"{what}: the bytes of the JSON", output, bytes_of)
    output = text_of(what, plan(words[0], "--format", "csv", *words[1:]))
    records = list(csv.reader(io.StringIO(output.decode(), newline="")))
    heads = columns + (["name"] if named else [])
    cells = [[str(number) for number in row] + ([name] if named else []) for row, name in zip(rows, model.names)]
    same(f"{what}: the records of the CSV", records, [heads, *cells])
    return rows


def try_dates(what, file, model):
    rows, last = table_of(text_of(what, plan("cpm", file)))
    stars = [row[4] == row[2] for row in rows]
    columns = ["act", "d", "ES", "EF", "LS", "LF", "TF", "FF"]
    value = json.loads(text_of(what, plan("cpm", "--format", "json", file)))
    same(f"{what}: critical", [row.pop("critical") for row in value["rows"]], stars)
    names = [{"name": name or None} if any(model.names) else {} for name in model.names]
    wanted = [{**worded(dict(zip(columns, row))), **name} for row, name in zip(rows, names)]
    same(f"{what}: the dates", value["rows"], wanted)
    same(f"{what}: T", (last, value["project_duration"]), ([f"T {value['T']}"], value["T"]))


def try_slack_forms(what, file, path, model, rows, last):
    """The JSON and the CSV of slacks: a row for each activity, and the chain of the text."""
    columns = ["act", "d", "start", "end", "slack", "critical"]
    value = json.loads(text_of(what, plan("slack", "--format", "json", file, path)))
    names = [{"name": name or None} if any(model.names) else {} for name in model.names]
    wanted = [{**worded(dict(zip(columns, [*row, row[4] == 0]))), **name} for row, name in zip(rows, names)]
    chain = None if last == ["no chain"] else [int(word) for word in last[0].split()[1:]]
    same(f"{what}: the slacks as JSON", value, {"chain": chain, "rows": wanted})
    output = text_of(what, plan("slack", "--format", "csv", file, path))
    cells = [[*map(str, row), "true" if row[4] == 0 else "false"] for row in rows]
    more = [[name] if any(model.names) else [] for name in model.names]
    wanted = [columns + ["name"] * any(model.names), *(row + own for row, own in zip(cells, more))]
    same(f"{what}: the slacks as CSV", list(csv.reader(io.StringIO(output.decode(), newline=""))), wanted)


def try_chart_forms(what, file, rule, model, starts):
    """The JSON and the CSV of a chart: one bar for each activity."""
    value = json.loads(text_of(what, plan("chart", "--format", "json", rule, file)))
    bars = [(start, start + duration) for start, duration in zip(starts, model.durations)]
    unit = text_of(what, plan("chart", rule, file)).split(b"\n")[0].decode()
    rows = [{"activity": j + 1, "bars": [{"start": a, "end": b}]} for j, (a, b) in enumerate(bars)]
    names = [{"name": name or None} if any(model.names) else {} for name in model.names]
    wanted = {"makespan": model.makespan(starts), "rows": [{**row, **name} for row, name in zip(rows, names)]}
    same(f"{what}: the chart as JSON", {**value, "unit": f"unit {value['unit']}"}, {**wanted, "unit": unit})
    output = text_of(what, plan("chart", "--format", "csv", rule, file))
    more = [[name] if any(model.names) else [] for name in model.names]
    cells = [[str(j + 1), str(a), str(b)] + own for j, ((a, b), own) in enumerate(zip(bars, more))]
    heads = ["activity", "start", "end"] + ["name"] * any(model.names)
    same(f"{what}: the chart as CSV", list(csv.reader(io.StringIO(output.decode(), newline=""))), [heads, *cells])


def try_slack(what, file, folder, model, starts):
    """The slacks and the chain of a schedule, read from a file with bare numbers."""
    path = os.path.join(folder, "starts.txt")
    with open(path, "w", encoding="utf-8") as output:
        output.write(" ".join(str(start) for start in starts))
    rows, last = table_of(text_of(what, plan("slack", file, path)))
    slacks = [model.slack(starts, j) for j in range(len(starts))]
    wanted = [[j + 1, d, s, s + d, slack] for j, (d, s, slack) in enumerate(zip(model.durations, starts, slacks))]
    same(f"{what}: the slacks of {starts}", rows, wanted)
    try_slack_forms(what, file, path, model, wanted, last)
    if last == ["no chain"]:
        same(f"{what}: a chain of {starts}", model.has_chain(starts, slacks), False)
        return
    word, *chain = last[0].split()
    if word != "chain" or not model.is_chain(starts, slacks, [int(j) - 1 for j in chain]):
        raise Wrong(f"{what}: {last} is no chain of {starts}")


def working_days(first, marks, count):
    """The first so many days from a date whose weekday is marked."""
    days, day = [], first
    while len(days) < count:
        if marks[day.weekday()] == "1":
            days.append(day)
        day += datetime.timedelta(1)
    return days


def try_days(what, draw, file, model, starts, rule):
    first = datetime.date(2024, 1, 1) + datetime.timedelta(draw.randrange(3000))
    marks = "".join(draw.choice("01") for _ in range(7))
    if "1" not in marks:
        return
    days = working_days(first, marks, model.makespan(starts) + 1)
    rows = []
    for j, (start, duration, name) in enumerate(zip(starts, model.durations, model.names)):
        row = {"act": j + 1, "first": None, "last": None}
        if duration:
            row.update(first=str(days[start]), last=str(days[start + duration - 1]))
        row = worded(row)
        rows.append({**row, "name": name or None} if any(model.names) else row)
    output = text_of(what, plan("days", "--format", "json", rule, str(first), marks, file))
    same(f"{what}: the days from {first} with {marks}", json.loads(output), {"rows": rows})


def later(draw, model, starts):
    """A feasible schedule with some activities moved to later starts, mostly not active."""
    for _ in range(3):
        j = draw.randrange(len(starts))
        moved = starts[:j] + [starts[j] + draw.randrange(1, 5)] + starts[j + 1 :]
        if model.is_feasible(moved):
            starts = moved
    return starts


def try_project(draw, folder, what):
    project = drawn(draw)
    model = Model(project)
    file = os.path.join(folder, "drawn.sm")
    with open(file, "wb") as output:
        output.write(project.text().encode())
    rule = draw.choice(RULES)
    columns = ["act", "d", "start", "end"]
    rows = try_forms(what, ["schedule", rule, file], columns, lambda rows: {"makespan": max(r[3] for r in rows)}, model)
    starts = [row[2] for row in rows]
    same(f"{what}: the schedule is feasible", model.is_feasible(starts), True)
    try_dates(what, file, model)
    try_chart_forms(what, file, rule, model, starts)
    try_slack(what, file, folder, model, starts)
    try_slack(what, file, folder, model, later(draw, model, starts))
    try_days(what, draw, file, model, starts, rule)


# The house by `lft`, worked out by hand. The stairs (8) start at 20 and need 2 of a crew of 5. From 21 to
# 26 they would meet Garden (2) and Roof (3) or Windows (2), so that they have no slack, although they
# could start at 27.
HOUSE = os.path.join(os.path.dirname(os.path.dirname(TRIALS)), "examples", "house.sm")
HOUSE_SLACKS = [0, 0, 0, 3, 0, 0, 0, 0, 0, 1, 0, 18, 0, 0]


def try_house():
    """The slacks of examples/house.sm by `lft`."""
    with tempfile.TemporaryDirectory() as folder:
        path = os.path.join(folder, "starts.txt")
        with open(path, "wb") as output:
            output.write(text_of("the house by lft", plan("schedule", "lft", HOUSE)))
        rows, _ = table_of(text_of("the slack of the house", plan("slack", HOUSE, path)))
        same("the slacks of the house by lft", [row[4] for row in rows], HOUSE_SLACKS)


def try_drawn_results(count, seed):
    try_house()
    draw = random.Random(seed)
    with tempfile.TemporaryDirectory() as folder:
        for n in range(count):
            try_project(draw, folder, f"project {n} of seed {seed}")


def main():
    parser = argparse.ArgumentParser(prog="tests/trials/results.py")
    parser.add_argument("--projects", type=int, default=1000, help="how many projects")
    parser.add_argument("--seed", type=int, default=1, help="where the projects begin")
    words = parser.parse_args()
    try:
        try_drawn_results(words.projects, words.seed)
    except Wrong as wrong:
        sys.exit(str(wrong))


if __name__ == "__main__":
    main()
