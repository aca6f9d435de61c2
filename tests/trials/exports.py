#!/usr/bin/env python3
"""Draws plans, writes each as a list in the form of some spreadsheet or planning program, and compares
what `plan import` reads with the plan that was drawn.

    tests/trials/exports.py               2,000 lists; prints nothing on success
    tests/trials/exports.py CASES SEED    so many, drawn from this seed

The forms vary in encoding, separator, quotes, words and order of headers, notes, cells of durations,
predecessors by id, row or name, lags such as `12FS+2d`, and resources in columns or as names such as
`crew[2],digger`. The reader of the project file below shares nothing with the program. The program is
the one that ./plan runs, or the one that PLAN_PROGRAM names.
"""

import collections
import os
import re
import sys
import tempfile
from random import Random

sys.dont_write_bytecode = True
sys.path.insert(0, os.path.dirname(os.path.abspath(__file__)))

from answers import Wrong, plan, same, written

Activity = collections.namedtuple("Activity", "id name duration waits needs group")
Plan = collections.namedtuple("Plan", "activities capacities")

HEADERS = {
    "id": "ID|id|Nr.|No|Number|Task ID|nr|Activity ID",
    "name": "Name|Task Name|task|Activity|Bezeichnung|Vorgangsname|Tarea|nom|Nombre",
    "duration": "duration|Days|Dauer|Durée|Duración|Work Days",
    "predecessors": "predecessors|after|Depends on|Vorgänger|Prédécesseurs|Predecesoras|Dependencies",
}
NOTES = {
    "Owner": ("Ann", "Béla", "two men", "", "n/a"),
    "Bemerkung": ("bis Freitag", "mit Öl", "", ""),
    "Site": ("north", "south", "river; left bank"),
    "crew leader": ("Ann", "Tom", ""),
    "Phase, old": ("1a", "1b", "2"),
}
DAYS = ("{}", "{} days", "{}d", "{},0", "{}.0", "{} Tage", "{} jours", "{} d", "{}.0d")
NAMES = ("Walls", "Dämmung", "Roof, north", 'Door "2"', "Électricité", "Über 2", "Straße", "Plan")
RESOURCE_NAMES = ("Resource Names", "Resources", "Ressourcennamen", "Noms ressources", "Nombres de los recursos")
RESOURCES = ("crew", "digger", "Kran", "maçon")


# ---- the plan


def drawn_plan(random, has_names):
    """A plan of 1 to 8 activities; a predecessor is an earlier row, or a later one without a cycle."""
    count = random.randint(1, 8)
    order = random.sample(range(count), count)
    resources = random.sample(RESOURCES, random.randint(0, 3))
    capacities = {name: random.randint(1, 4) for name in resources}
    ids = drawn_ids(random, count)
    names = random.sample(NAMES, count) if has_names else [""] * count
    activities = []
    for k in range(count):
        before = [j for j in range(count) if order.index(j) < order.index(k) and random.random() < 0.35]
        waits = {j: random.choice((0, 0, 0, 1, 2, 10)) for j in before}
        needs = {name: random.randint(0, capacities[name]) for name in resources}
        activities.append(Activity(ids[k], names[k], random.choice((0, 1, 2, 3, 12)), waits, needs, 0))
    return Plan(activities, capacities)


def drawn_ids(random, count):
    form = random.choice(("number", "letter", "gap", "zero"))
    return {
        "number": [str(k + 1) for k in range(count)],
        "letter": [chr(ord("A") + k) for k in range(count)],
        "gap": [str(10 * (k + 1)) for k in range(count)],
        "zero": [str(k) for k in range(count)],
    }[form]


# ---- the form of a list


class Form:
    """How a plan is written."""

    def __init__(self, random, drawn):
        self.random = random
        self.separator = random.choice(",,;;\t")
        self.has_ids = random.random() < 0.7
        self.by_names = random.random() < 0.2
        self.as_names = random.random() < 0.3
        self.names_header = random.choice(RESOURCE_NAMES)
        self.days = random.choice(DAYS)
        self.notes = random.sample(list(NOTES), random.choice((0, 0, 1, 2)))
        self.headers = {kind: random.choice(words.split("|")) for kind, words in HEADERS.items()}
        self.case = random.choice((str, str, str.upper, str.lower))
        self.given = self.as_names or not self.has_ids or random.random() < 0.2

    def columns(self, drawn):
        """The kinds of the columns in a drawn order."""
        found = ["name", "duration", "predecessors"] + (["id"] if self.has_ids else [])
        found += ["resources"] if self.as_names else [("need", name) for name in drawn.capacities]
        found += [("note", name) for name in self.notes]
        self.random.shuffle(found)
        return found

    def header(self, kind):
        if isinstance(kind, tuple):
            return kind[1]
        if kind == "resources":
            return self.names_header
        word = self.headers[kind]
        return self.case(word) if self.case(word).isascii() else word

    def word_of(self, drawn, j):
        """The word for an activity in a cell of predecessors."""
        activity = drawn.activities[j]
        if self.by_names and re.fullmatch(r"[A-Za-zäöüßÉéè]+", activity.name):
            return activity.name
        return activity.id if self.has_ids else str(j + 1)

    def predecessors(self, drawn, activity):
        words = []
        for j, wait in activity.waits.items():
            word = self.word_of(drawn, j)
            if wait:
                word += self.random.choice((f"FS+{wait}d", f"+{wait}d", f"FS+{wait} days", f"+{wait}"))
            elif self.random.random() < 0.1:
                word += "FS"
            words.append(word)
        return self.random.choice((", ", ",", ";", "; ")).join(words)

    def resources(self, needs):
        """A cell with names of resources."""
        words = []
        for name, need in needs.items():
            if need:
                words.append(name if need == 1 and self.random.random() < 0.7 else f"{name}[{need}]")
        return self.random.choice((",", ";", ", ")).join(words)

    def cell(self, drawn, activity, kind):
        if kind == "id":
            return activity.id
        if kind == "name":
            return activity.name
        if kind == "duration":
            return self.days.format(activity.duration)
        if kind == "predecessors":
            return self.predecessors(drawn, activity)
        if kind == "resources":
            return self.resources(activity.needs)
        if kind[0] == "need":
            need = activity.needs[kind[1]]
            return "" if need == 0 and self.random.random() < 0.5 else str(need)
        return self.random.choice(NOTES[kind[1]])

    def capacity_cell(self, drawn, kind):
        if kind == "id":
            return self.random.choice(("capacity", "Capacity", "CAPACITY"))
        return str(drawn.capacities[kind[1]]) if kind[0] == "need" else ""

    def rows(self, drawn):
        """The rows of the list. A note has a text in some row, or else it would be a resource."""
        kinds = self.columns(drawn)
        rows = [[self.cell(drawn, activity, kind) for kind in kinds] for activity in drawn.activities]
        for k, kind in enumerate(kinds):
            if kind[0] == "note" and all(not row[k] or row[k].isdecimal() for row in rows):
                rows[0][k] = "text"
        if not self.given and any(kind[0] == "need" for kind in kinds):
            place = self.random.randrange(len(rows) + 1)
            rows.insert(place, [self.capacity_cell(drawn, kind) for kind in kinds])
        return [[self.header(kind) for kind in kinds]] + rows

    def quoted(self, cell):
        must = any(mark in cell for mark in (self.separator, '"', "\n"))
        if must or self.random.random() < 0.1:
            return '"' + cell.replace('"', '""') + '"'
        return cell

    def text(self, drawn):
        lines = [self.separator.join(map(self.quoted, row)) for row in self.rows(drawn)]
        for _ in range(self.random.choice((0, 0, 0, 1, 2))):
            lines.insert(self.random.randrange(len(lines) + 1), self.separator * self.random.randrange(3))
        return self.random.choice(("\n", "\r\n")).join(lines) + self.random.choice(("", "\n"))

    def bytes(self, drawn):
        text = self.text(drawn)
        encoding = self.random.choice(("utf-8", "utf-8", "utf-8-sig", "utf-16", "utf-16-be", "cp1252"))
        if encoding == "utf-16-be":
            return b"\xfe\xff" + text.encode(encoding)
        return text.encode(encoding)


# ---- the project file


def numbers(line):
    return [int(word) for word in line.split()]


def read_project(text):
    """The durations, needs and predecessors of all activities by number, the capacities, and the names."""
    lines = text.split("\n")
    at = lines.index("PRECEDENCE RELATIONS:") + 2
    before = collections.defaultdict(set)
    while not lines[at].startswith("*"):
        number, _, _, *after = numbers(lines[at])
        for j in after:
            before[j].add(number)
        at += 1
    at = lines.index("REQUESTS/DURATIONS:") + 3
    jobs = {}
    while not lines[at].startswith("*"):
        number, _, duration, *needs = numbers(lines[at])
        jobs[number] = (duration, needs)
        at += 1
    amounts = numbers(lines[lines.index("RESOURCEAVAILABILITIES:") + 2])
    named = collections.defaultdict(dict)
    for line in lines:
        found = re.fullmatch(r"(name|resource|id) (\d+) (.*)", line)
        if found:
            named[found[1]][int(found[2])] = found[3]
    return jobs, before, amounts, named


def waits_of(before, jobs, count, number):
    """The predecessors of an activity with their waits, through the waiting activities, which come last."""
    found = {}
    for i in before[number]:
        pairs = waits_of(before, jobs, count, i).items() if i > count + 1 else [(i, 0)]
        more = jobs[i][0] if i > count + 1 else 0
        for j, wait in pairs:
            found[j] = max(found.get(j, 0), wait + more)
    return found


def plan_of(text, drawn, has_ids):
    """The plan in a project file, with the ids that it has or else those of the drawn plan."""
    jobs, before, amounts, named = read_project(text)
    count = len(drawn.activities)
    resources = [named["resource"][k + 1] for k in range(len(named["resource"]))]
    activities = []
    for k, wanted in enumerate(drawn.activities):
        duration, needs = jobs[k + 2]
        own = named["id"].get(k + 2) if has_ids else wanted.id
        waits = {j - 2: wait for j, wait in waits_of(before, jobs, count, k + 2).items() if j > 1}
        needs = dict(zip(resources, needs))
        activities.append(Activity(own, named["name"].get(k + 2, ""), duration, waits, needs, 0))
    return Plan(activities, dict(zip(resources, amounts)))


# ---- the trial


def try_export(random, folder):
    drawn = drawn_plan(random, True)
    form = Form(random, drawn)
    drawn = drawn if form.has_ids else without_waits(drawn)
    data = form.bytes(drawn)
    written(folder, "list.csv", data)
    given = [f"--capacity={name}={most}" for name, most in drawn.capacities.items()] if form.given else []
    if form.as_names:
        used = {name for a in drawn.activities for name, need in a.needs.items() if need}
        given = [f"--capacity={name}={drawn.capacities[name]}" for name in sorted(used)]
        drawn = without_unused(drawn, used)
    status, output, errors = plan(folder, "import", *given, "list.csv")
    what = f"{data!r} {given}"
    if status:
        raise Wrong(f"{what}\n  refused: {errors!r}")
    if form.as_names and not drawn.capacities and form.names_header.encode() not in errors:
        raise Wrong(f"{what}\n  an empty column isn't ignored: {errors!r}")
    found = plan_of(output.decode(), drawn, form.has_ids)
    same(what, normal(found), normal(drawn))


def without_waits(drawn):
    """The plan without lags, which need a column of ids."""
    activities = [a._replace(waits=dict.fromkeys(a.waits, 0)) for a in drawn.activities]
    return Plan(activities, drawn.capacities)


def without_unused(drawn, used):
    """The plan without the resources that no activity needs."""
    activities = [a._replace(needs={n: k for n, k in a.needs.items() if n in used}) for a in drawn.activities]
    return Plan(activities, {name: most for name, most in drawn.capacities.items() if name in used})


def normal(found):
    """A plan in which the order of resources and predecessors doesn't matter."""
    rows = [(a.id, a.name, a.duration, sorted(a.waits.items()), sorted(a.needs.items())) for a in found.activities]
    return rows, sorted(found.capacities.items())


def try_exports(room, cases=2000, seed=1):
    with tempfile.TemporaryDirectory(dir=room) as folder:
        for case in range(cases):
            random = Random(f"{seed} {case}")
            try:
                try_export(random, folder)
            except Wrong as wrong:
                raise Wrong(f"case {case} of seed {seed}: {wrong}") from None


def main():
    cases, seed = [int(word) for word in sys.argv[1:3]] + [2000, 1][len(sys.argv) - 1 :]
    try:
        try_exports(None, cases, seed)
    except Wrong as wrong:
        sys.exit(f"exports.py: {wrong}")


if __name__ == "__main__":
    main()
