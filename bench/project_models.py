"""Projects with scarce resources as models for solvers by others, and what these print: Gecode by
MiniZinc, and z3. The start of each activity is sought."""

import os

from others import said_by_gecode, said_by_z3, table

__all__ = ["gecode", "said_by_gecode", "said_by_z3", "z3"]

GECODE = """include "cumulative.mzn";
int: count; int: kinds; int: horizon;
array[1..count] of int: duration;
array[1..count, 1..kinds] of int: need;
array[1..kinds] of int: capacity;
int: arcs;
array[1..arcs, 1..2] of int: arc;
array[1..count] of var 0..horizon: start;
var 0..horizon: makespan;
constraint forall(a in 1..arcs)(start[arc[a, 1]] + duration[arc[a, 1]] <= start[arc[a, 2]]);
constraint forall(j in 1..count)(start[j] + duration[j] <= makespan);
constraint forall(k in 1..kinds)(
    cumulative(start, duration, [need[j, k] | j in 1..count], capacity[k]));
solve :: int_search(start, smallest, indomain_min, complete) minimize makespan;
output ["makespan \\(makespan)\\n"];
"""


def arcs_of(successors):
    return [(i, j) for i, nexts in enumerate(successors, 1) for j in nexts]


def gecode(folder, durations, successors, needs, available):
    """The command by which MiniZinc hands a project to Gecode."""
    model, data = (os.path.join(folder, name) for name in ("project.mzn", "project.dzn"))
    arcs = arcs_of(successors)
    given = {
        "count": len(durations), "kinds": len(available), "horizon": sum(durations),
        "duration": list(durations), "need": table(needs), "capacity": list(available),
        "arcs": len(arcs), "arc": table(arcs),
    }
    with open(model, "w", encoding="ascii") as file:
        file.write(GECODE)
    with open(data, "w", encoding="ascii") as file:
        file.write("".join(f"{name} = {value};\n" for name, value in given.items()))
    return ["minizinc", "--solver", "gecode", "-i", model, data]


def use_at(j, durations, needs, kind):
    """What is in use of a resource when activity j starts."""
    parts = []
    for i, (duration, row) in enumerate(zip(durations, needs)):
        if duration > 0 and row[kind] > 0:
            runs = f"(and (<= s{i} s{j}) (< s{j} (+ s{i} {duration})))"
            parts.append(f"(ite {runs} {row[kind]} 0)")
    return f"(+ 0 {' '.join(parts)})"


def z3(folder, durations, successors, needs, available):
    """The command by which z3 minimizes the makespan of a project. The use of a resource is greatest
    at an instant at which an activity starts."""
    count = range(len(durations))
    lines = ["(declare-const makespan Int)"]
    lines += [f"(declare-const s{j} Int)" for j in count]
    lines += [f"(assert (and (>= s{j} 0) (<= (+ s{j} {durations[j]}) makespan)))" for j in count]
    for i, j in arcs_of(successors):
        lines.append(f"(assert (<= (+ s{i - 1} {durations[i - 1]}) s{j - 1}))")
    for j in count:
        for kind, most in enumerate(available):
            if durations[j] > 0 and needs[j][kind] > 0:
                lines.append(f"(assert (<= {use_at(j, durations, needs, kind)} {most}))")
    lines += ["(minimize makespan)", "(check-sat)", "(get-value (makespan))"]
    name = os.path.join(folder, "project.smt2")
    with open(name, "w", encoding="ascii") as file:
        file.write("\n".join(lines) + "\n")
    return ["z3", name]
