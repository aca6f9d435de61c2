"""Compares the modules of the browser page that need no browser (subject, search, layout, project,
handin, table, view) with Python's datetime and csv, with plain models, and with `plan`. Needs node.
"""

import csv
import datetime
import glob
import io
import json
import os
import random
import re
import shutil
import subprocess

from exchanges import HERE, TOP, file_of
import page_messages
from programs import Unable, Wrong, plan, same

NODE = shutil.which("node") or shutil.which("nodejs")


class Modules:
    """The page's modules in a folder, where node takes them for modules."""

    def __init__(self, room, web):
        self.room = room
        for path in glob.glob(os.path.join(web, "*.js")) + [os.path.join(HERE, "units.mjs")]:
            shutil.copy(path, room)
        os.makedirs(os.path.join(room, "engine"))
        shutil.copy(os.path.join(web, "engine", "runtime.js"), os.path.join(room, "engine"))
        with open(os.path.join(room, "package.json"), "w", encoding="ascii") as file:
            file.write('{"type": "module"}\n')

    def call(self, calls):
        """The results of calls [module, function, arguments], each {value} or {fault}."""
        words = [NODE, os.path.join(self.room, "units.mjs")]
        done = subprocess.run(words, input=json.dumps(calls).encode(), capture_output=True,
                              timeout=120)
        if done.returncode:
            raise Wrong("node: " + done.stderr.decode()[-600:])
        return json.loads(done.stdout)

    def values(self, calls):
        results = self.call(calls)
        for call, result in zip(calls, results):
            if "value" not in result:
                raise Wrong(f"{call[:2]} throws {result['fault']}")
        return [result["value"] for result in results]


# ---- calendar


def worked_days(start, marks, count):
    """The first so many worked days from a date, by stepping from day to day."""
    days, date = [], start
    while len(days) < count:
        if marks[date.weekday()] == "1":
            days.append(date)
        date += datetime.timedelta(1)
    return days


def project(durations, successors, needs, capacities):
    """The text of a project file."""
    count, width = len(durations), len(capacities)
    lines = ["projects: 1", f"jobs: {count}", f"- renewable: {width}", "- nonrenewable: 0",
             "- doubly constrained: 0", "PRECEDENCE RELATIONS:", "job"]
    lines += [" ".join(map(str, [number, 1, len(row), *row]))
              for number, row in enumerate(successors, 1)]
    lines += ["REQUESTS/DURATIONS:", "job"]
    lines += [" ".join(map(str, [number, 1, duration, *row]))
              for number, (duration, row) in enumerate(zip(durations, needs), 1)]
    lines += ["RESOURCEAVAILABILITIES:", "R", " ".join(map(str, capacities)), ""]
    return "\n".join(lines).encode()


# ---- project files


def read_sm(text):
    """The durations, successors, needs, capacities and names of a project file."""
    lines = [line.strip() for line in text.split("\n")]
    lines = [line for line in lines if line.strip("*-")]
    titles = ("PROJECT INFORMATION", "PRECEDENCE RELATIONS", "REQUESTS/DURATIONS",
              "RESOURCEAVAILABILITIES")
    sections, title = {}, None
    for line in lines:
        found = [name for name in titles if line.startswith(name)]
        if found:
            title = found[0]
            sections.setdefault(title, []).append([])
        elif title:
            sections[title][-1].append(line)
    rows = [list(map(int, line.split())) for line in sections["PRECEDENCE RELATIONS"][0][1:]]
    requests = [list(map(int, line.split())) for line in sections["REQUESTS/DURATIONS"][0][1:]]
    capacities = list(map(int, sections["RESOURCEAVAILABILITIES"][0][1].split()))
    names = [line for section in sections.get("PROJECT INFORMATION", []) for line in section]
    return ([row[2] for row in requests], [row[3:] for row in rows], [row[3:] for row in requests],
            capacities, [line for line in names if line.startswith(("name ", "resource "))])


# ---- slack and verdicts


def drawn_project(draw):
    count = draw.randrange(3, 7)
    durations = [draw.choice([0, 1, 2, 3]) for _ in range(count)]
    capacities = [draw.randrange(1, 4) for _ in range(draw.randrange(1, 3))]
    needs = [[draw.randrange(capacity + 1) for capacity in capacities] for _ in durations]
    arcs = [[to for to in range(at + 2, count + 1) if draw.random() < 0.35] for at in range(count)]
    return durations, arcs, needs, capacities


def as_model(durations, successors, needs, capacities, lags=None):
    arcs = [{"from": at, "to": to - 1, "lag": (lags or {}).get((at, to - 1), 0)}
            for at, row in enumerate(successors) for to in row]
    return {"durations": durations, "arcs": arcs, "needs": needs, "capacities": capacities}


def is_feasible(model, starts):
    """Whether no arc is broken and no resource overused, instant by instant."""
    d = model["durations"]
    for arc in model["arcs"]:
        if starts[arc["to"]] < starts[arc["from"]] + d[arc["from"]] + arc["lag"]:
            return False
    for time in range(max(s + x for s, x in zip(starts, d)) + 1):
        for resource, capacity in enumerate(model["capacities"]):
            used = sum(need[resource] for need, s, x in zip(model["needs"], starts, d)
                       if s <= time < s + x)
            if used > capacity:
                return False
    return True


def brute_slack(model, starts, places=None):
    """The slack of each activity, or of those at some places: the greatest x such that each delay up to
    x leaves the schedule feasible and no longer, by trying all delays."""
    d = model["durations"]
    whole = max(s + x for s, x in zip(starts, d))
    slack = []
    for at, start in enumerate(starts):
        if places is not None and at not in places:
            continue
        fits = lambda x: is_feasible(model, [*starts[:at], start + x, *starts[at + 1:]])
        delays = range(whole - d[at] - start + 1)
        slack.append(max(x for x in delays if all(map(fits, range(x + 1)))))
    return slack


def starts_by(rule, text):
    status, out, _ = plan("schedule", rule, "-", given=text)
    same("plan schedule", status, 0)
    return [int(line.split()[2]) for line in out.decode().split("\n")[1:-2]]


# Schedules with slacks worked out by hand: what they try, the model, the starts, the slacks
SLACKS = [
    # later than B is free again, but each delay up to that meets B on the one crew
    ("a hole at once", as_model([1, 2, 6], [[], [], []], [[1], [1], [0]], [1]), [0, 1, 0], [0, 3, 0]),
    # A may start at 0, 1 and 2, not at 3, and again at 4 and 5
    ("a hole behind a slack", as_model([1, 1, 6], [[], [], []], [[1], [1], [0]], [1]), [0, 3, 0],
     [2, 2, 0]),
    # A meets B if it slips by 1; of C one is left beside B, so C meets nobody
    ("two resources", as_model([2, 2, 1, 5], [[], [], [], []], [[1, 0], [1, 1], [0, 1], [0, 0]],
                               [1, 2]), [0, 2, 0, 0], [0, 1, 4, 0]),
    # the milestone 2 may slip until its successor at 3 less the lag of 2, while 1 works
    ("a milestone that needs the crew", as_model([2, 0, 1], [[], [3], []], [[1], [1], [1]], [1],
                                                 {(1, 2): 2}), [0, 0, 3], [1, 1, 0]),
    # a wait for the last end alone, and an arc that is tight
    ("no resource", as_model([1, 2, 4], [[2], [], []], [[0], [0], [0]], [1]), [0, 1, 0], [0, 1, 0]),
]
# Stairs (8) would meet Roof and Garden from 21 to 26: 2 + 3 + 2 and 2 + 2 + 2 of a crew of 5
HOUSE_SLACK = [0, 0, 0, 3, 0, 0, 0, 0, 0, 1, 0, 18, 0, 0]


def given_files(room, files):
    """Files in a folder, and their paths."""
    paths = [os.path.join(room, name) for name in files]
    for path, text in zip(paths, files.values()):
        with open(path, "w", encoding="utf-8") as file:
            file.write(text)
    return paths


def slack_by_page(modules, cases):
    """What `plan slack` prints for the files and start times that the page makes of models."""
    texts = modules.values([["subject", "projectText", [model]] for model, _ in cases])
    starts = modules.values([["subject", "lateStarts", list(case)] for case in cases])
    found = []
    for (model, _), text, given in zip(cases, texts, starts):
        paths = given_files(modules.room, {"given.sm": text, "given.txt": given})
        status, out, err = plan("slack", *paths)
        same("plan slack", (status, err), (0, b""))
        rows = [line.split() for line in out.decode().split("\n")[1:] if line.split()[:1] != ["chain"]]
        found.append([int(row[4]) for row in rows[:len(model["durations"])]])
    return found


def try_slack(modules, draw):
    """The files that the page makes for the program have the slacks worked out by hand, and those that
    a brute force finds, also with lags and in schedules that aren't active."""
    house = file_of("examples/house.sm")
    cases = [*SLACKS, ("the house", as_model(*read_sm(house.decode())[:4]), starts_by("lft", house),
                       HOUSE_SLACK)]
    found = slack_by_page(modules, [case[1:3] for case in cases])
    for slack, (name, model, starts, wanted) in zip(found, cases):
        same(f"the slack of {name}", slack, wanted)
        same(f"the brute force on {name}", brute_slack(model, starts), wanted)
    drawn, models = [], []
    for _ in range(250):
        durations, arcs, needs, capacities = drawn_project(draw)
        starts = starts_by(draw.choice(["lft", "num", "spt"]), project(durations, arcs, needs, capacities))
        lags = {(at, to - 1): 1 for at, row in enumerate(arcs) for to in row if draw.random() < 0.2}
        model = as_model(durations, arcs, needs, capacities, lags)
        if lags or draw.random() < 0.5:
            starts = [start * 2 + draw.randrange(2) for start in starts]
        if is_feasible(model, starts):
            drawn.append((model, starts))
            models.append(brute_slack(model, starts))
    same("enough feasible schedules", len(models) > 120, True)
    for found, model, case in zip(slack_by_page(modules, drawn), models, drawn):
        same(f"the slack of {case}", found, model)


def try_kept(modules, draw):
    """The links of a kept schedule give it by each rule, also in projects with lags. A schedule that is later
    than it must be has none."""
    models, starts = [], []
    for _ in range(50):
        durations, arcs, needs, capacities = drawn_project(draw)
        lags = {(at, to - 1): draw.randrange(1, 4) for at, row in enumerate(arcs) for to in row if draw.random() < 0.3}
        models.append(as_model(durations, arcs, needs, capacities, lags))
    count = [len(model["durations"]) for model in models]
    texts = modules.values([["subject", "projectText", [model]] for model in models])
    for text, size in zip(texts, count):
        starts.append(starts_by(draw.choice(["lft", "num", "spt"]), text.encode())[:size])
    found = modules.values([["keep", "linksFor", list(case)] for case in zip(models, starts)])
    same("schedules that can't be kept", [answer for answer in found if "late" in answer], [])
    for model, answer in zip(models, found):
        model["arcs"] = [*model["arcs"], *answer["links"]]
    kept = modules.values([["subject", "projectText", [model]] for model in models])
    for text, wanted, size in zip(kept, starts, count):
        for rule in ("lft", "slk", "spt", "mts", "num"):
            same(f"{rule} of a kept schedule", starts_by(rule, text.encode())[:size], wanted)
    same("some links", sum(len(answer["links"]) for answer in found) > 20, True)
    late = modules.values([["keep", "linksFor", [model, [start + 1 for start in times]]]
                           for model, times in zip(models, starts)])
    same("links of late schedules", ["late" in answer for answer in late], [True] * len(late))


# ids of the row of the capacities
CAPACITY_WORDS = ("capacity", "Kapazit\u00e4t", "capacidad")


def drawn_week(draw):
    """A list with dates of some activities, an instant from which on it is planned, and the absences as their
    begins and lengths."""
    count, now = draw.randrange(3, 9), draw.randrange(4)
    lines = ["id,name,duration,predecessors,crew,digger,earliest,begun,remaining,done,due"]
    for at in range(count):
        before = [f"A{draw.randrange(at)}" + draw.choice(["", "", "+2"])] if at and draw.random() < 0.6 else []
        begun = now and draw.random() < 0.15
        dates = ["", draw.randrange(now), draw.randrange(1, 4), ""] if begun else ["", "", "", draw.randrange(1, now + 1)] \
            if now and draw.random() < 0.15 else [draw.choice(["", "", 7]), "", "", ""]
        lines.append(",".join(map(str, [f"A{at}", f"work {at}", draw.randrange(5), *(before or [""]),
                                        draw.randrange(2), draw.randrange(2), *dates, draw.choice(["", 9])])))
    absences = [(draw.choice(["", draw.randrange(8)]), draw.randrange(1, 5)) for _ in range(draw.randrange(3))]
    lines += [f"absence,away,{length},,1,,{begin},,,," for begin, length in absences]
    return "\n".join([*lines, f"{draw.choice(CAPACITY_WORDS)},,,,2,1,,,,,", ""]), now, absences


def try_week(modules, draw):
    """The plan that the page makes of a list with dates has what is left from now on, and its absences up to the
    end, at the times of `plan solve` by each rule."""
    cases = []
    while len(cases) < 60:
        text, now, absences = drawn_week(draw)
        status, out, _ = plan("solve", "--now", str(now), "--format", "json", "-", given=text.encode())
        if status == 0:
            cases.append((text, now, absences, json.loads(out)))
    plain = modules.values([["week", "withoutDates", [text, {"map": []}]] for text, *_ in cases])
    lists = [plan("import", "-", given=list_["text"].encode())[1].decode() for list_ in plain]
    same("the begins of absences", [list_["begins"] for list_ in plain],
         [[str(begin) for begin, _ in absences] for _, _, absences, _ in cases])
    waiting = modules.values([["week", "waitingProject", [text, found, [now, *(begin or 0 for begin, _ in absences)]]]
                              for text, (_, now, absences, found) in zip(lists, cases)])
    sizes = set()
    for own, (text, now, absences, found) in zip(waiting, cases):
        wanted = [[max(row["start"], now), row["end"]] for row in found["rows"] if row["start"] is not None]
        away = [[max(begin or 0, now), min((begin or 0) + length, found["makespan"])] for begin, length in absences]
        wanted += [[first, end] for first, end in away if first < end]
        for rule in ("lft", "slk", "spt", "mts", "num"):
            rows = [line.split() for line in plan("schedule", rule, "--names", "-", given=own["text"].encode())[1].decode().splitlines()]
            same(f"{rule} of {text} at {now}", [list(map(int, row[2:4])) for row in rows[1:-1]], wanted)
        sizes.add((len(wanted) < len(found["rows"]), bool(absences)))
    same("kinds of lists", len(sizes), 4)
    # the lag, and the link, keep A from slipping; a column with a capacity has no dates
    for text, found, link in (("A,2,,1,9\nB,3,A+2,1,\nKAPAZIT\u00e4T,,,1,\n", [[0, 2], [4, 7]], "A+2"),
                              ("A,2,,,9\nB,3,A,,\ncapacity,,,1,\n", [[0, 2], [2, 5]], "A")):
        text = f"id,duration,predecessors,crew,due\n{text}"
        rows = [{"id": name, "start": start, "end": end} for name, (start, end) in zip("AB", found)]
        plain = modules.values([["week", "withoutDates", [text, {"map": []}]]])[0]["text"]
        given = plan("import", "-", given=plain.encode())[1].decode()
        own = modules.values([["week", "waitingProject", [given, {"rows": rows, "makespan": found[1][1]}, [0]]]])[0]
        files = given_files(modules.room, {"given.sm": own["text"], "given.txt": " ".join(map(str, starts_by("num", own["text"].encode())))})
        heads, _, row, *_ = [line.split() for line in plan("slack", *files)[1].decode().splitlines()]
        same("the slack of A", row[heads.index("slack")], "0")
        printed = plan("schedule", "num", "--format", "csv", "-", given=own["text"].encode())[1].decode()
        same("the predecessor of B", printed.splitlines()[2].split(",")[-1], link)
    # a list without ids; a schedule of another list
    given = plan("import", "-", given=b"name,duration\nx,3\ny,2\n")[1].decode()
    found = json.loads(plan("solve", "--format", "json", "-", given=b"name,duration,due\nx,3,5\ny,2,4\n")[1])
    own = modules.values([["week", "waitingProject", [given, found, [0]]]])[0]
    same("ids of numbers", [own["labels"][kind] for kind in ("ids", "names")], [{"2": "1", "3": "2"}, {"2": "x", "3": "y"}])
    found["rows"].pop()
    try:
        modules.values([["week", "waitingProject", [given, found, [0]]]])
        raise Wrong("the schedule of another list is drawn")
    except Wrong as fault:
        same("the schedule of another list", "the page can't draw it" in str(fault), True)
    same("lists without dates", modules.values([["week", "withoutDates", [f"id,duration,due\nA,2,1\n{row}", {"map": given}]]
                                                for row, given in (("capacity,,3\n", []), ("", [["due", 3]]))]), [None, None])


def moved_earlier(model, starts):
    """The first activity that can start earlier, all others fixed, counted from 1; 0 for none."""
    for at, start in enumerate(starts):
        for time in range(start):
            if is_feasible(model, [*starts[:at], time, *starts[at + 1:]]):
                return at + 1
    return 0


def try_verdicts(modules, draw):
    """The verdict of the program on the files that the page makes of plans with lags is that of a plain
    model: feasible or not, and the activity that can start earlier."""
    cases, kinds = [], set()
    while len(cases) < 200:
        durations, arcs, needs, capacities = drawn_project(draw)
        starts = [2 * start for start in starts_by("lft", project(durations, arcs, needs, capacities))]
        for _ in range(draw.randrange(3)):
            place = draw.randrange(len(starts))
            starts[place] = max(0, starts[place] + draw.choice([-2, -1, 1, 2]))
        lags = {(at, to - 1): draw.randrange(1, 3) for at, row in enumerate(arcs) for to in row
                if draw.random() < 0.3}
        cases.append((as_model(durations, arcs, needs, capacities, lags), starts))
    texts = modules.values([["subject", "projectText", [model]] for model, _ in cases])
    given = modules.values([["subject", "earlyStarts", list(case)] for case in cases])
    lines = []
    for text, begins in zip(texts, given):
        status, out, err = plan("check", *given_files(modules.room, {"given.sm": text, "given.txt": begins}))
        same("plan check", (status, err), (0, b""))
        lines.append(out.decode().rstrip("\n"))
    lines = modules.values([["subject", "plainLine", [line, model]] for line, (model, _) in zip(lines, cases)])
    for line, (model, starts) in zip(lines, cases):
        isFeasible = is_feasible(model, starts)
        found = line == "active" or line.endswith("can start earlier")
        same(f"whether {starts} of {model} is feasible", found, isFeasible)
        if isFeasible:
            first = moved_earlier(model, starts)
            same(f"the verdict on {starts} of {model}", line,
                 f"activity {first} can start earlier" if first else "active")
        if " starts before " in line:
            words = line.split()
            after, before = int(words[1]) - 1, int(words[4]) - 1
            same("an arc that is broken", [arc["from"] for arc in model["arcs"] if arc["to"] == after
                 and starts[after] < starts[arc["from"]] + model["durations"][arc["from"]] + arc["lag"]]
                 .count(before) > 0, True)
        kinds.add(line.split()[-1])
    same("kinds of verdicts", len(kinds) > 3, True)


def shop_model(rows):
    """The model of a job shop whose rows were printed: machines are resources of 1."""
    machines = max(int(row[2]) for row in rows) + 1
    needs = [[int(machine == int(row[2])) for machine in range(machines)] for row in rows]
    arcs = [{"from": at - 1, "to": at, "lag": 0} for at in range(1, len(rows))
            if rows[at - 1][0] == rows[at][0]]
    return {"durations": [int(row[3]) for row in rows], "needs": needs, "arcs": arcs,
            "capacities": [1] * machines}


def try_shops(modules, draw):
    """A job shop file that the page makes of the rows of a schedule gives that schedule again."""
    shops = os.path.join(TOP, "examples", "shops.txt")
    for instance in ("printing", "ft06"):
        for rule in ("mwkr", "spt", "fcfs"):
            wanted = plan("shop", rule, shops, instance)[1].decode()
            rows = [dict(zip(("job", "step", "mach", "d", "start", "end"), map(int, line.split())))
                    for line in wanted.split("\n")[1:-2]]
            names = [{"1": "order 7"}, {"0": "saw"}]
            text, model = modules.values([["subject", "shopText", [rows, *names]],
                                          ["subject", "shopModel", [rows]]])
            status, out, _ = plan("shop", rule, "-", "shop", given=text.encode())
            same(f"{instance} by {rule}", (status, out.decode()), (0, wanted))
            named = plan("shop", rule, "--names", "-", "shop", given=text.encode())[1].decode()
            same("its names", ("order 7" in named, "+ machine 0 saw" in text), (True, True))
            same("its model", model, shop_model([list(row.values()) for row in rows]))
            found = slack_by_page(modules, [(model, [row["start"] for row in rows])])[0]
            same("its slack", found, brute_slack(model, [row["start"] for row in rows]))


# ---- the best schedule


def try_search(modules, draw):
    """After a search the shortest schedule is drawn, and the words say which is shorter."""
    by_rule = {"project": {"lft": 60, "slk": 59, "spt": 61, "mts": 57, "num": 57},
               "shop": {"mwkr": 9, "spt": 8, "fcfs": 10}}
    cases = [
        ("project", "between", 58, "mts", "between 58: the shortest that was found; no schedule is shorter than 50. "
         'The schedule by the rule "most successors first" is 1 shorter, so it is drawn.'),
        ("project", "between", 57, "best", "between 57: the shortest that was found; no schedule is shorter than 50. "
         'The rule "most successors first" is as good.'),
        ("project", "optimal", 50, "best", "optimal 50: no schedule of this plan is shorter. "
         "It is 7 shorter than the shortest by a rule (most successors first)."),
        ("shop", "between", 11, "spt", "between 11: the shortest that was found; no schedule is shorter than 50. "
         'The schedule by the rule "shortest first" is 3 shorter, so it is drawn.'),
    ]
    slices = modules.values([["subject", "slicesOf", [seconds]] for seconds in (1, 2, 3, 10, 60, 600, 86400)])
    same("slices", slices[:5], [[1], [2], [1, 2], [1, 2, 7], [1, 2, 4, 8, 45]])
    same("their sums", list(map(sum, slices)), [1, 2, 3, 10, 60, 600, 86400])
    same("the last ones", [part[-1] * 2 >= sum(part) - 1 for part in slices], [True] * 7)
    plans = []
    for kind, verdict, total, *_ in cases:
        tables = [[rule, {"verdict": "", "total": makespan}] for rule, makespan in by_rule[kind].items()]
        tables += [["own", {"verdict": "", "total": 1}], ["best", {"verdict": verdict, "total": total, "lower": 50}]]
        plans.append({"kind": kind, "schedules": {"map": tables}})
    chosen = modules.values([["search", "shorterOf", [plan_of]] for plan_of in plans])
    words = modules.values([["search", "searchWords", [plan_of]] for plan_of in plans])
    for name, told, (kind, verdict, total, *wanted) in zip(chosen, words, cases):
        same(f"what is drawn and said of a {kind}, {verdict} {total}", [name, told], wanted)


# ---- files and lists of starts


def try_hand_in(modules, draw):
    """JSON is one line with its members in order, and null for each empty cell; a step has the name of
    its order."""
    both = {"d": 2, "start": 0, "end": 2, "slack": 0, "isCritical": False}
    milestone = {**both, "d": 0, "end": 0}
    project_rows = [{**milestone, "number": 1, "name": "", "first": "", "last": ""},
                    {**both, "number": 2, "name": "Walls", "first": "2024-03-01", "last": "2024-03-04"}]
    steps = [{**both, "job": 1, "step": 1, "machine": 0, "name": "order 7, saw", "jobName": "order 7",
              "machineName": "saw", "first": "", "last": ""},
             {**both, "job": 2, "step": 1, "machine": 1, "name": "", "jobName": "", "machineName": "",
              "first": "", "last": ""}]
    no_orders = [{**step, "name": "saw", "jobName": ""} for step in steps]
    view = lambda rows, drawn, verdict, dates: {
        "plan": {"n": 3, "drawn": drawn, "schedules": {"map": [[drawn, {"verdict": verdict}]]}},
        "rows": rows, "isNamed": True, "dates": dates, "total": 2}
    texts = modules.values([["handin", "jsonText", [shown]] for shown in (
        view(project_rows, "lft", "", [1]), view(steps, "best", "optimal", None),
        view(no_orders, "best", "budget", None), view(project_rows[1:], "own", " (not feasible)", None))])
    # without an open desk its name is empty
    same("the JSON of a project", texts[0], '{"desk":null,"makespan":2,"plan":3,"rows":['
         '{"act":1,"activity":1,"d":0,"duration":0,"end":0,"first":null,"first_day":null,"last":null,'
         '"last_day":null,"name":null,"start":0},{"act":2,"activity":2,"d":2,"duration":2,"end":2,'
         '"first":"2024-03-01","first_day":"2024-03-01","last":"2024-03-04","last_day":"2024-03-04",'
         '"name":"Walls","start":0}],"schedule":"lft",'
         '"title":null}\n')
    same("the JSON of a job shop", texts[1], '{"desk":null,"lower_bound":2,"makespan":2,"plan":3,"rows":['
         '{"d":2,"duration":2,"end":2,"job":1,"mach":0,"machine":0,"name":"order 7","start":0,"step":1},'
         '{"d":2,"duration":2,"end":2,"job":2,"mach":1,"machine":1,"name":null,"start":0,"step":1}],'
         '"schedule":"best",'
         '"status":"optimal","title":null,"upper_bound":2}\n')
    without = json.loads(texts[2])
    same("a step without an order's name", sorted(without["rows"][0]),
         ["d", "duration", "end", "job", "mach", "machine", "start", "step"])
    same("a budget's bounds", [without.get(key) for key in ("status", "lower_bound", "upper_bound")],
         ["budget", None, 2])
    same("starts of one's own", sorted(json.loads(texts[3])),
         ["desk", "makespan", "plan", "rows", "schedule", "title"])
    given = [{"act": 1, "name": 'Walls, "north"', "start": 0}, {"act": 2, "name": "=1+1", "start": 4},
             {"act": 3, "name": "-x", "start": 5}, {"act": 4, "name": "-1+cmd|'x'!A1", "start": -3},
             {"act": 5, "name": "+4,5", "start": 6}, {"act": 6, "name": "@SUM(1)", "start": 7},
             {"act": 7, "name": "+-1", "start": 8}]
    text = modules.values([["handin", "csvText", [given]]])[0]
    same("CSV that is written", list(csv.reader(io.StringIO(text))), [
        ["act", "name", "start"], ["1", 'Walls, "north"', "0"], ["2", "'=1+1", "4"],
        ["3", "'-x", "5"], ["4", "'-1+cmd|'x'!A1", "-3"], ["5", "+4,5", "6"], ["6", "'@SUM(1)", "7"],
        ["7", "'+-1", "8"]])
    for text in texts[:1]:
        paths = given_files(modules.room, {"two.sm": project([0, 2], [[2], []], [[0], [0]], [1]).decode(),
                                           "starts": text})
        same("plan check on a hand-in", plan("check", *paths)[:2], (0, b"active\n"))


def try_projects(modules, draw):
    """Files are read as Python reads them; names and titles are those in the file."""
    for name, title in (("house.sm", "house"), ("six.sm", None), ("five.sm", None), ("kitchen.sm",
                        "A kitchen: activity 2 is demolition, 3 plumbing, 4 wiring; 1 and 5 are the"
                        " start and the end.")):
        text = file_of(f"examples/{name}").decode()
        found = modules.values([["project", "readProject", [text]]])[0]
        durations, successors, needs, capacities, _ = read_sm(text)
        same(f"the model of {name}", {key: found[key] for key in
                                      ("durations", "arcs", "needs", "capacities")},
             as_model(durations, successors, needs, capacities))
        if title:
            same(f"the title of {name}", found["title"], title)
    named = file_of("examples/kitchen.sm").decode() + (
        "***\nPROJECT INFORMATION:\nid 2 D\nid  3  P-1\nid 2 X\nname 2 Demolition work\nname 3 Plumbing\n"
        "resource 1 crew\n"
        "name 2 Another\nname  4   Wiring\nname 5\n***\n")
    found = modules.values([["project", "readProject", [named]]])[0]
    same("the ids and names", (found["ids"], found["names"], found["resources"]),
         ([[2, "D"], [3, "P-1"]], [[2, "Demolition work"], [3, "Plumbing"], [4, "Wiring"]], [[1, "crew"]]))
    shop = ("+ nothing\n instance a\n+ machine 0 press\n+ job 1 order 7\nfirst\n1 2\n0 1 1 2\n"
            " instance b\n+ machine 0 saw\nsecond\n1 1\n0 3\n")
    found = modules.values([["project", "readShop", [shop, name]] for name in ("a", "b")])
    same("the names of a shop", found, [
        {"names": [[1, "order 7"]], "resources": [[0, "press"]], "title": "first"},
        {"names": [], "resources": [[0, "saw"]], "title": "second"},
    ])
    cases = [([0, 0], [1, 1], 0), ([2, 1], [4, 2], 1), ([1, 1], [2, 1], 2), ([0, 3], [0, 3], 2),
             ([3, 3], [3, 3], 1), ([1, 2, 2], [4, 4, 4], 2)]
    arcs = [{"from": at, "to": to, "lag": 0} for at, to in ((0, 1), (1, 3), (3, 2), (2, 4))]
    model = {"durations": [0, 2, 1, 3, 0], "arcs": arcs, "ids": {"map": [[2, "A"], [3, "B"], [4, "wait+0"]]}}
    same("the arcs over a wait of 3", modules.values([["project", "arcsOverWaits", [model]]])[0],
         [{"from": 0, "to": 1, "lag": 0}, {"from": 1, "to": 2, "lag": 3}, {"from": 2, "to": 4, "lag": 0}])
    # a file may have such an id by itself, on an activity without a predecessor
    alone = {"durations": [0, 2, 0], "arcs": [{"from": 1, "to": 2, "lag": 0}], "ids": {"map": [[2, "wait+0"]]}}
    same("a wait behind nothing", modules.values([["project", "arcsOverWaits", [alone]]])[0],
         [{"from": 0, "to": 2, "lag": 2}])
    found = modules.values([["project", "mostNeeded", [needs, caps]] for needs, caps, _ in cases])
    same("the resources needed most", found, [place for *_, place in cases])


# ---- messages


def try_messages(modules, draw):
    """The first sentence on each error says what to do, with ids and names, and no sentence has a letter or
    a blank in the place of a number."""
    rows = {line: modules.values([["cells", "rowWords", [page_messages.LIST, line]]])[0] for line in (1, 3, 4, 9)}
    same("the rows of a list", rows, {1: "", 3: "B Walls, north (line 3)", 4: "7 (line 4)", 9: ""})
    german = {line: modules.values([["cells", "rowWords", [page_messages.GERMAN, line]]])[0] for line in (2, 3)}
    cases = [(page_messages.PROJECTS, page_messages.LABELS), (page_messages.SHOPS, page_messages.SHOP),
             (page_messages.LISTS, {"rows": rows}), (page_messages.GERMANS, {"rows": german})]
    calls = [["messages", "sentencesOf", [line, labels]] for lines, labels in cases for line, _ in lines]
    cases += [(page_messages.VERDICTS, page_messages.LABELS), (page_messages.SHOP_VERDICTS, page_messages.SHOP)]
    calls += [["messages", "verdictWords", [line, labels]] for lines, labels in cases[4:] for line, _ in lines]
    wanted = [case for lines, _ in cases for case in lines]
    for (line, first), found in zip(wanted, modules.values(calls)):
        same(f"what to do about {line}", found[0], first)
        same(f"the verb for {line}", first.split()[0] in page_messages.VERBS, True)
        text = " ".join(found)
        blanks = re.findall(r"undefined|null|NaN|  |\b[ABCRMN] \.\.|\bline N\b|[( ][.,]", text)
        same(f"what is missing in {text}", blanks, [])
        same(f"sentences on {line}", (len(found), all(words.endswith(".") for words in found)), (2, True))
    with open(os.path.join(modules.room, "messages.js"), encoding="utf-8") as file:
        codes = set(re.findall(r"^  ([A-Z]\d+)s?: ", file.read(), re.MULTILINE))
    told = {re.findall(r"\b[A-Z]\d+\b", line)[0 if line[0] in "TFGS" else -1] for line, _ in wanted
            if re.match(r"[A-Z]\d", line)}
    same("codes without a line here", codes - told, set())
    late = [["messages", "verdictWords", [f"activity {n} starts before 2 ends", page_messages.LABELS]] for n in (3, 4)]
    same("a lag that isn't over", [words[1] for words in modules.values(late)], [
        "It starts before A Excavation ends.", "It starts before the lag of 7 behind A Excavation is over."])
    for path in glob.glob(os.path.join(modules.room, "*.js")):
        with open(path, encoding="utf-8") as file:
            text = file.read()
        first = re.findall(r"new Refusal\((?:note \|\| )?[\"`]([A-Z]\w*) ", text)
        first += re.findall(r"meaning(?:: | = )\[[\"`](\w+)", text)
        same(f"verbs of {os.path.basename(path)}", [word for word in first if word not in page_messages.VERBS
             and word != "G4"], [])
    notes = [["messages", "ignoredWords", [note]] for note, _ in page_messages.IGNORED]
    for (note, wanted), found in zip(page_messages.IGNORED, modules.values(notes)):
        same(f"what to do about {note}", found, wanted)
    same("a line without a code", modules.values([["messages", "sentencesOf", ["C1 unknown code"]]]), [[]])


# ---- layout and tables


def try_layout(modules, draw):
    """Places, colours and labels."""
    call = lambda name, *words: ["layout", name, list(words)]
    labels = modules.values([call("labelFor", ["a long label", "short", "s"], width)
                             for width in (200, 60, 20, 5)])
    same("labels", labels, ["a long label", "short", "s", ""])
    try_places(modules, draw)
    try_colours(modules, draw)


def try_places(modules, draw):
    """The axis of a drawing, from 330 to 1330, is put between two edges; labels don't overlap."""
    call = lambda name, *words: ["layout", name, list(words)]
    cases = [({"left": draw.randrange(40, 250), "right": draw.randrange(260, 1600)},
              sorted(draw.sample(range(330, 1331), 6))) for _ in range(40)]
    found = modules.values([call("placed", x, edges) for edges, places in cases for x in places])
    found = [found[at:at + 6] for at in range(0, len(found), 6)]
    for own, (edges, places) in zip(found, cases):
        span = edges["right"] - edges["left"]
        wanted = [edges["left"] + (x - 330) * span / 1000 for x in places]
        same("places that differ", [(a, b) for a, b in zip(own, wanted) if abs(a - b) > 0.0051], [])
    paths = modules.values([call("placedPath", f"M{a} 19H{b}v285H{a}z", edges) for edges, (a, b, *_) in cases])
    same("the paths", paths, [f"M{a:g} 19H{b:g}v285H{a:g}z" for a, b, *_ in found])
    same("a line along the axis", modules.values([call("placedPath", "M330 28h1000", {"left": 50, "right": 90})]),
         ["M50 28H90"])
    labels = [[{"x": x, "text": "Mon 30 Mar"} for x in own] for own in found]
    roomy = modules.values([call("roomyLabels", own, edges["right"]) for own, (edges, _) in zip(labels, cases)])
    for own, is_roomy, (edges, _) in zip(found, roomy, cases):
        shown = [x for x, is_shown in zip(own, is_roomy) if is_shown]
        same("labels too close", [(x, y) for x, y in zip(shown, shown[1:]) if y - x < 66], [])
        same("the first label", own[0] in shown, own[0] + 66 <= edges["right"])


def try_colours(modules, draw):
    """Up to 16 keys have colours of their own; of more, neighbours differ."""
    for jobs, machines in ((6, 6), (15, 10), (16, 4), (30, 3), (50, 2)):
        bars = []
        for line in range(machines):
            order = draw.sample(range(jobs), jobs)
            bars += [{"key": key, "line": line, "start": at} for at, key in enumerate(order)]
        colours = dict(modules.values([["layout", "coloursOf", [bars]]])[0])
        if jobs <= 16:
            same(f"the colours of {jobs} jobs", sorted(colours.values()), list(range(jobs)))
        same("colours that exist", set(colours.values()) <= set(range(16)), True)
        for a, b in zip(bars, bars[1:]):
            if a["line"] == b["line"] and colours[a["key"]] == colours[b["key"]]:
                raise Wrong(f"of {jobs} jobs two neighbours have the same colour")


def try_sorting(modules, draw):
    """Rows are sorted by numbers as numbers, names by the alphabet, empty cells last."""
    pairs = [[2, 10], [10, 2], ["b", "a"], ["", "a"], ["a", ""], ["x", "x"]]
    found = modules.values([["table", "compare", pair] for pair in pairs])
    same("orders", [(order > 0) - (order < 0) for order in found], [-1, 1, 1, 1, -1, 0])


def try_shown(modules, draw):
    """The rows that are handed in are those that the program prints, with waits for lags or without them. An
    overuse is in the legend."""
    ids = {"2": "A", "3": "B", "4": "wait+0"}
    found = modules.values([["view", "isPrinted", [{"described": described, "labels": {"ids": ids}}, number]]
                            for described in ({"map": [[2, {}], [3, {}]]}, {"map": [[2, {}], [3, {}], [4, {}]]}, None)
                            for number in range(1, 6)])
    same("what is printed", [found[at:at + 5] for at in (0, 5, 10)], [
        [False, True, True, False, False], [False, True, True, True, False], [False, True, True, True, False]])
    drawn = modules.values([["drawing", "shownOf", [{"n": 1, "kind": "project"}, [
        {"id": "A"}, {"id": "wait+0"}, {"id": ""}, {"id": "wait+x"}]]]])[0]
    same("the rows that are drawn", [row["id"] for row in drawn], ["A", "", "wait+x"])
    view = lambda over: {"bars": [], "slack": None, "plan": {"kind": "project"}, "drawings": over}
    legends = modules.values([["view", "legendOf", [view(over)]] for over in (
        {"over": {"map": [[0, "at time 4"]]}}, {"over": {"map": []}}, {})])
    same("the legends", legends, [[["over", "more of a resource than there is"]], [], []])


# Prints which addresses the policy of program.js passes, by their names.
POLICY = """
const [isWhole, protocol] = JSON.parse(process.argv[1]);
globalThis.location = { protocol };
globalThis.document = { getElementById: (id) => (isWhole && id === "worker-text" ? { textContent: "0" } : null) };
let rules = null;
globalThis.trustedTypes = { createPolicy: (name, given) => { rules = given; return given; } };
await import("./program.js");
const passed = ["worker", "cache", "worker.js", "plan-cache.js", "constructor", ""].flatMap((name) => {
  try {
    return [[name, String(rules.createScriptURL(name)).split(":")[0]]];
  } catch {
    return [];
  }
});
console.log(JSON.stringify(passed));
"""


def try_policy(modules, draw):
    """The policy for addresses of scripts passes that of the worker, and what keeps plan.html if it is served."""
    for is_whole, protocol, wanted in (
        (False, "https:", [["worker", "worker.js"]]),
        (True, "file:", [["worker", "blob"]]),
        (True, "https:", [["worker", "blob"], ["cache", "plan-cache.js"]]),
    ):
        words = [NODE, "--input-type=module", "-e", POLICY, json.dumps([is_whole, protocol])]
        done = subprocess.run(words, cwd=modules.room, capture_output=True, timeout=120)
        same("node", (done.returncode, done.stderr), (0, b""))
        same(f"the addresses for {protocol}, plan.html {is_whole}", json.loads(done.stdout), wanted)


TRIALS = [try_slack, try_kept, try_week, try_verdicts, try_shops, try_search, try_hand_in,
          try_projects, try_messages, try_layout, try_sorting, try_shown, try_policy]


def try_units(room, web, seed=1):
    """Tries all modules in a folder."""
    if NODE is None:
        raise Unable("node isn't installed")
    modules = Modules(room, web)
    for trial in TRIALS:
        try:
            trial(modules, random.Random(seed))
        except Wrong as fault:
            raise Wrong(f"{trial.__name__}: {fault}") from None
