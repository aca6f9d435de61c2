#!/usr/bin/env python3
"""Random job shops of up to four jobs on four machines, with steps of time 0 and unused machines.
The optimum of `plan prove` is that of `plan best`, which searches in another way; with few nodes
it lies within the bounds. The schedules are checked here: no two steps of a job or of a machine
overlap.

    tests/trials/proofs.py               2,000 shops; prints nothing on success
    tests/trials/proofs.py CASES SEED    CASES shops, drawn from this seed
"""

import os
import sys
import tempfile
from random import Random

sys.dont_write_bytecode = True
sys.path.insert(0, os.path.dirname(os.path.abspath(__file__)))

from answers import Wrong, plan, same, written

ENOUGH = "1000000"
GREATEST_BUDGET = "200000"


def drawn_shop(draw):
    """The machine and the time of each step, job by job."""
    jobs, machines = draw.randint(1, 4), draw.randint(1, 4)
    longest = draw.choice([1, 3, 9, 99])
    closed = {machine for machine in range(machines) if draw.random() < 0.1}
    rows = []
    for _ in range(jobs):
        order = draw.sample(range(machines), machines)
        steps = [(machine, draw.randint(1, longest)) for machine in order]
        rows.append([(k, 0 if k in closed or draw.random() < 0.15 else time) for k, time in steps])
    return rows


def text_of(rows):
    """A shop as a file without names."""
    lines = [f"{len(rows)} {len(rows[0])}"]
    lines += [" ".join(f"{machine} {time}" for machine, time in row) for row in rows]
    return "\n".join(lines) + "\n"


def answer_of(what, answer):
    """The words of the first line, and the numbers of each line of the table but its last one."""
    if answer[0] != 0 or answer[2] != b"":
        raise Wrong(f"{what} gave {answer!r}")
    lines = answer[1].decode().splitlines()
    return lines[0].split(), [[int(word) for word in line.split()] for line in lines[2:-1]]


def is_apart(one, other):
    """Of two intervals the one ends before the other starts."""
    return one[1] <= other[0] or other[1] <= one[0]


def of(row):
    """The numbers of the steps of a job."""
    return range(1, len(row) + 1)


def judge(what, rows, table):
    """The makespan of a table that is a feasible schedule of a shop."""
    steps = [[job, place, *row[place - 1]] for job, row in enumerate(rows, 1) for place in of(row)]
    same(f"{what}: the steps", [line[:4] for line in table], steps)
    for number, (job, _, machine, time, start, end) in enumerate(table):
        same(f"{what}: an end", end, start + time)
        for other in table[:number]:
            if other[0] == job and other[5] > start:
                raise Wrong(f"{what}: a step of a job starts too early: {table}")
            is_shared = other[2] == machine and time > 0 and other[3] > 0
            if is_shared and not is_apart(other[4:6], (start, end)):
                raise Wrong(f"{what}: two steps on a machine at once: {table}")
    return max(line[5] for line in table)


def try_shop(draw, folder):
    """One shop, by both searches and by one with few nodes."""
    rows = drawn_shop(draw)
    shop = written(folder, "shop.txt", text_of(rows).encode())
    what = text_of(rows)
    best, _ = answer_of(what, plan(folder, "best", GREATEST_BUDGET, shop, "-"))
    proved, table = answer_of(what, plan(folder, "prove", ENOUGH, shop, "-"))
    same(f"{what}: best and prove", proved, best)
    same(f"{what}: the makespan", str(judge(what, rows, table)), proved[1])
    few = str(draw.randint(1, 6))
    found, table = answer_of(what, plan(folder, "prove", few, shop, "-"))
    makespan = judge(f"{what}: {few} nodes", rows, table)
    same(f"{what}: {few} nodes", int(found[-1]), makespan)
    lower = makespan if found[0] == "optimal" else int(found[1])
    if best[0] != "optimal" or not lower <= int(best[1]) <= makespan:
        raise Wrong(f"{what}: {best} isn't within {found}")
    return found[0]


def try_proofs(cases, seed, is_verbose=False):
    """So many random shops."""
    draw = Random(f"proofs {seed}")
    with tempfile.TemporaryDirectory() as folder:
        kinds = [try_shop(draw, folder) for _ in range(cases)]
    if cases >= 100 and kinds.count("between") == 0:
        raise Wrong("no shop was left between two numbers by few nodes")
    if is_verbose:
        print(f"{cases} shops; few nodes leave {kinds.count('between')} between two numbers")


if __name__ == "__main__":
    said = [int(word) for word in sys.argv[1:]] + [2000, 1][len(sys.argv) - 1 :]
    try_proofs(said[0], said[1], True)
