#!/usr/bin/env python3
"""Random projects of up to nine activities, with durations, needs and capacities of 0, and random job
shops. The optimum of `plan solve` is that of all serial schedules (least_makespans.py) and of
`plan best-project`, for a job shop that of `plan best`. With 1 to 50 conflicts it lies within the
bounds. With one conflict it is no longer than the schedule of any priority rule, and its lower bound
is at least the longest path and the work of each resource over its capacity, for a job shop the
longest job and the busiest machine: for these projects and shops and for larger ones. The schedules
are checked here: they are feasible, and no activity of a project can start earlier by itself. A shop
of the literature takes several turns of both searches.

    tests/trials/solutions.py               1,000 projects and shops; prints nothing on success
    tests/trials/solutions.py CASES SEED    CASES of each, drawn from this seed
"""

import os
import sys
import tempfile
from random import Random

sys.dont_write_bytecode = True
sys.path.insert(0, os.path.dirname(os.path.abspath(__file__)))

import least_makespans as least
import proofs
from answers import Wrong, plan, same, written

ENOUGH = "1000000"

# The priority rules of projects and of job shops.
PROJECT_RULES = ("lft", "slk", "mts", "spt", "num")
SHOP_RULES = ("spt", "mwkr", "fcfs")

# The activities of a larger project, and the jobs and machines of a larger shop.
MANY = 30
MANY_JOBS, MANY_MACHINES = 8, 5

# 10 jobs on 10 machines (Fisher and Thompson 1963).
TEN = """\
0 29 1 78 2 9 3 36 4 49 5 11 6 62 7 56 8 44 9 21
0 43 2 90 4 75 9 11 3 69 1 28 6 46 5 46 7 72 8 30
1 91 0 85 3 39 2 74 8 90 5 10 7 12 6 89 9 45 4 33
1 81 2 95 0 71 4 99 6 9 8 52 7 85 3 98 9 22 5 43
2 14 0 6 1 22 5 61 3 26 4 69 8 21 7 49 9 72 6 53
2 84 1 2 5 52 3 95 8 48 9 72 0 47 6 65 4 6 7 25
1 46 0 37 3 61 2 13 6 32 5 21 9 32 8 89 7 30 4 55
2 31 0 86 1 46 5 74 4 32 6 88 8 19 9 48 7 36 3 79
0 76 1 69 3 76 5 51 2 85 9 11 6 40 7 89 4 26 8 74
1 85 0 13 2 61 6 7 8 64 9 76 5 47 3 52 4 90 7 45
"""

# Its least makespan (Carlier and Pinson 1989).
LEAST_OF_TEN = 930


def release(parts, j, starts):
    """When the predecessors of an activity have ended."""
    durations, successors, _, _ = parts
    before = [i for i, nexts in enumerate(successors) if j + 1 in nexts]
    return max((starts[i] + durations[i] for i in before), default=0)


def judge(what, parts, table):
    """The makespan of a table that is an active schedule of a project."""
    durations, _, needs, available = parts
    same(f"{what}: the activities", [line[:2] for line in table], [[j, d] for j, d in enumerate(durations, 1)])
    starts = {j: line[2] for j, line in enumerate(table)}
    for j, line in enumerate(table):
        same(f"{what}: an end", line[3], line[2] + durations[j])
        others = {i: start for i, start in starts.items() if i != j}
        fits = [
            t
            for t in range(release(parts, j, starts), starts[j] + 1)
            if least.fits(t, j, others, durations, needs, available)
        ]
        if fits != [starts[j]]:
            raise Wrong(f"{what}: activity {j + 1} can start at {fits}: {table}")
    return max(line[3] for line in table)


def longest_path(durations, successors):
    """The greatest sum of the durations of a chain of activities; successors have greater numbers."""
    ends = list(durations)
    for j, nexts in enumerate(successors):
        for i in nexts:
            ends[i - 1] = max(ends[i - 1], ends[j] + durations[i - 1])
    return max(ends)


def simple_bound(parts):
    """The longest path of a project, or the work of a resource over its capacity if that is more."""
    durations, successors, needs, available = parts
    work = [sum(d * row[k] for d, row in zip(durations, needs)) for k in range(len(available))]
    over = [-(-units // most) for units, most in zip(work, available) if most > 0]
    return max([longest_path(durations, successors), *over])


def simple_shop_bound(rows):
    """The longest job of a shop, or its busiest machine if that takes more."""
    steps = [step for row in rows for step in row]
    machines = {machine for machine, _ in steps}
    loads = [sum(time for at, time in steps if at == machine) for machine in machines]
    return max([sum(time for _, time in row) for row in rows] + loads)


def of_rules(what, folder, command, rules, *words):
    """The makespan of the schedule of each rule."""
    found = {}
    for rule in rules:
        status, text, _ = plan(folder, command, rule, *words)
        same(f"{what}: {command} {rule}", status, 0)
        found[rule] = int(text.decode().split()[-1])
    return found


def at_once(what, folder, bound, rules, *words):
    """The makespan and the table of a search of one conflict, no worse than the rules and a bound."""
    found, table = proofs.answer_of(what, plan(folder, "solve", "--conflicts", "1", *words))
    least_one, makespan = int(found[1]), int(found[-1])
    for rule, other in rules.items():
        if makespan > other:
            raise Wrong(f"{what}: one conflict leaves {makespan}, {rule} gives {other}")
    if least_one < bound:
        raise Wrong(f"{what}: one conflict shows {least_one}, and {bound} is a lower bound")
    return makespan, table


def try_simple_project(what, parts, folder, file):
    """A project by a search of one conflict, beside its rules and its simple bound."""
    rules = of_rules(what, folder, "schedule", PROJECT_RULES, file)
    makespan, table = at_once(what, folder, simple_bound(parts), rules, file)
    same(f"{what}: one conflict", judge(what, parts, table), makespan)


def try_simple_shop(what, rows, folder, shop):
    """A shop by a search of one conflict, beside its rules and its simple bound."""
    rules = of_rules(what, folder, "shop", SHOP_RULES, shop, "-")
    makespan, table = at_once(what, folder, simple_shop_bound(rows), rules, shop, "-")
    same(f"{what}: one conflict", proofs.judge(what, rows, table), makespan)


def try_large_project(draw, folder):
    """A project of 30 activities, of which one conflict hides less."""
    parts = least.drawn(draw, MANY)
    what = least.files.project(*parts)
    try_simple_project(what, parts, folder, written(folder, "large.sm", what.encode()))


def try_large_shop(draw, folder):
    """A shop of eight jobs on five machines, of which one conflict hides less."""
    orders = [draw.sample(range(MANY_MACHINES), MANY_MACHINES) for _ in range(MANY_JOBS)]
    rows = [[(machine, draw.randint(0, 20)) for machine in order] for order in orders]
    what = proofs.text_of(rows)
    try_simple_shop(what, rows, folder, written(folder, "large.txt", what.encode()))


def try_project(draw, folder):
    """One project, by a search to its end and by one with few conflicts."""
    parts = least.drawn(draw)
    optimum = least.least_makespan(*parts)
    if optimum is None:
        return "refused"
    what = least.files.project(*parts)
    file = written(folder, "drawn.sm", what.encode())
    solved, table = proofs.answer_of(what, plan(folder, "solve", "--conflicts", ENOUGH, file))
    same(f"{what}: the optimum", solved, ["optimal", str(optimum)])
    same(f"{what}: the makespan", judge(what, parts, table), optimum)
    best, _ = proofs.answer_of(what, plan(folder, "best-project", proofs.GREATEST_BUDGET, file))
    if best[0] == "optimal":
        same(f"{what}: best-project and solve", solved, best)
    few = str(draw.choice((draw.randint(1, 4), draw.randint(1, 50))))
    found, table = proofs.answer_of(what, plan(folder, "solve", "--conflicts", few, file))
    makespan = judge(f"{what}: {few} conflicts", parts, table)
    same(f"{what}: {few} conflicts", int(found[-1]), makespan)
    if not least.is_right(" ".join(found), optimum):
        raise Wrong(f"{what}: {optimum} isn't within {found}")
    try_simple_project(what, parts, folder, file)
    return found[0]


def try_shop(draw, folder):
    """One job shop, by a search to its end and by one with few conflicts."""
    rows = proofs.drawn_shop(draw)
    what = proofs.text_of(rows)
    shop = written(folder, "shop.txt", what.encode())
    best, _ = proofs.answer_of(what, plan(folder, "best", proofs.GREATEST_BUDGET, shop, "-"))
    solved, table = proofs.answer_of(what, plan(folder, "solve", "--conflicts", ENOUGH, shop, "-"))
    same(f"{what}: best and solve", solved, best)
    same(f"{what}: the makespan", str(proofs.judge(what, rows, table)), solved[1])
    few = str(draw.choice((draw.randint(1, 4), draw.randint(1, 50))))
    found, table = proofs.answer_of(what, plan(folder, "solve", "--conflicts", few, shop, "-"))
    makespan = proofs.judge(f"{what}: {few} conflicts", rows, table)
    same(f"{what}: {few} conflicts", int(found[-1]), makespan)
    if best[0] != "optimal" or not least.is_right(" ".join(found), int(best[1])):
        raise Wrong(f"{what}: {best} isn't within {found}")
    try_simple_shop(what, rows, folder, shop)
    return found[0]


def try_turns(folder):
    """A shop that no search proves in its first turn, to the end and with fewer turns."""
    numbers = [[int(word) for word in line.split()] for line in TEN.splitlines()]
    rows = [list(zip(line[::2], line[1::2])) for line in numbers]
    shop = written(folder, "ten.txt", proofs.text_of(rows).encode())
    for conflicts in ("2001", "4001", ENOUGH):
        what = f"ten jobs, {conflicts} conflicts"
        answer = plan(folder, "solve", "--conflicts", conflicts, shop, "-")
        found, table = proofs.answer_of(what, answer)
        same(what, proofs.judge(what, rows, table), int(found[-1]))
        if not least.is_right(" ".join(found), LEAST_OF_TEN):
            raise Wrong(f"{what}: {LEAST_OF_TEN} isn't within {found}")
    same("ten jobs", found, ["optimal", str(LEAST_OF_TEN)])


def try_solutions(cases, seed, is_verbose=False):
    """So many random projects, as many job shops, and a quarter as many larger ones of each kind."""
    draw = Random(f"solutions {seed}")
    with tempfile.TemporaryDirectory() as folder:
        try_turns(folder)
        for _ in range(cases // 4 or 1):
            try_large_project(draw, folder)
            try_large_shop(draw, folder)
        for name, trial in (("projects", try_project), ("shops", try_shop)):
            kinds = [trial(draw, folder) for _ in range(cases)]
            if kinds.count("optimal") < cases // 3:
                raise Wrong(f"few conflicts proved {kinds.count('optimal')} of {cases} {name}")
            if is_verbose:
                print(f"{cases} {name}; few conflicts leave {kinds.count('between')} open")


if __name__ == "__main__":
    said = [int(word) for word in sys.argv[1:]] + [1000, 1][len(sys.argv) - 1 :]
    try_solutions(said[0], said[1], True)
