"""Job shops as models for other solvers (Gecode by MiniZinc, z3), and their answers. The variables
are the starts of the steps. The constraints: steps of a job follow each other, and of two steps on
one machine one ends before the other starts.
"""

import itertools
import os

GECODE = """include "disjunctive.mzn";
int: jobs; int: steps; int: last; int: horizon;
array[1..jobs, 1..steps] of int: machine;
array[1..jobs, 1..steps] of int: time;
array[1..jobs, 1..steps] of var 0..horizon: start;
var 0..horizon: makespan;
constraint forall(j in 1..jobs, s in 1..steps - 1)(start[j, s] + time[j, s] <= start[j, s + 1]);
constraint forall(j in 1..jobs)(start[j, steps] + time[j, steps] <= makespan);
constraint forall(m in 0..last)(disjunctive(
    [start[j, s] | j in 1..jobs, s in 1..steps where machine[j, s] == m],
    [time[j, s] | j in 1..jobs, s in 1..steps where machine[j, s] == m]));
solve minimize makespan;
output ["makespan \\(makespan)\\n"];
"""


def rows_of(shops, name):
    """The machine and the time of each step of an instance, job by job."""
    with open(shops, encoding="ascii") as file:
        lines = [line.split() for line in file]
    at = lines.index(["instance", name])
    head = next(k for k in range(at + 1, len(lines)) if is_numbers(lines[k], 2))
    count = int(lines[head][0])
    jobs = [list(map(int, line)) for line in lines[head + 1 : head + 1 + count]]
    return [list(zip(job[::2], job[1::2])) for job in jobs]


def is_numbers(words, count):
    return len(words) == count and all(word.isdigit() for word in words)


def table(rows):
    return "[|" + "|".join(", ".join(map(str, row)) for row in rows) + "|]"


def gecode(folder, rows):
    """The command by which MiniZinc hands a shop to Gecode."""
    model, data = (os.path.join(folder, name) for name in ("shop.mzn", "shop.dzn"))
    last = max(machine for row in rows for machine, _ in row)
    given = {
        "jobs": len(rows), "steps": len(rows[0]), "last": last,
        "horizon": sum(time for row in rows for _, time in row),
        "machine": table([[step[0] for step in row] for row in rows]),
        "time": table([[step[1] for step in row] for row in rows]),
    }
    with open(model, "w", encoding="ascii") as file:
        file.write(GECODE)
    with open(data, "w", encoding="ascii") as file:
        file.write("".join(f"{name} = {value};\n" for name, value in given.items()))
    return ["minizinc", "--solver", "gecode", "-i", model, data]


def said_by_gecode(printed):
    """`optimal N`, `at most N`, or nothing."""
    found = [line.split()[1] for line in printed.splitlines() if line.startswith("makespan ")]
    if not found:
        return ""
    return f"optimal {found[-1]}" if "==========" in printed else f"at most {found[-1]}"


def z3(folder, rows):
    """The command by which z3 minimizes the makespan of a shop."""
    lines = ["(declare-const makespan Int)"]
    for j, row in enumerate(rows):
        lines += [f"(declare-const s{j}_{k} Int)" for k in range(len(row))]
        lines += [f"(assert (>= s{j}_0 0))", f"(assert {before(j, len(row) - 1, row, 'makespan')})"]
        lines += [f"(assert {before(j, k, row, f's{j}_{k + 1}')})" for k in range(len(row) - 1)]
    steps = [(m, j, k) for j, row in enumerate(rows) for k, (m, _) in enumerate(row)]
    for (m, i, k), (n, j, l) in itertools.combinations(steps, 2):
        if m == n and i != j:
            one, other = before(i, k, rows[i], f"s{j}_{l}"), before(j, l, rows[j], f"s{i}_{k}")
            lines.append(f"(assert (or {one} {other}))")
    lines += ["(minimize makespan)", "(check-sat)", "(get-value (makespan))"]
    name = os.path.join(folder, "shop.smt2")
    with open(name, "w", encoding="ascii") as file:
        file.write("\n".join(lines) + "\n")
    return ["z3", name]


def before(job, step, row, what):
    """A step ends before something."""
    return f"(<= (+ s{job}_{step} {row[step][1]}) {what})"


def said_by_z3(printed):
    """`optimal N`, or nothing."""
    if not printed.startswith("sat"):
        return ""
    return "optimal " + printed.split()[-1].rstrip(")")
