#!/usr/bin/env python3
"""Compares the plans of least cost that plan_solve finds with all plans of small drawn problems:
windows, appointments, absences, tails, arcs with lags. Each problem is solved with the proposal of
`first_starts` and without one, and the answer must be the least cost up to the horizon, or that
there is no plan. By hand: it isn't a part of the gate.

    tests/trials/least_plans.py              300 problems
    tests/trials/least_plans.py COUNT SEED   more, and others

It builds PROBE by `rt try` in a copy of the repository. PLAN_PROBE names a program that was built
before. Prints one line: how many problems had a plan, how many had none. Exits with status 1 after
a difference, with the problem and both answers.
"""

import ast
import os
import random
import shutil
import subprocess
import sys
import tempfile

TOP = os.path.dirname(os.path.dirname(os.path.dirname(os.path.abspath(__file__))))
CONFLICTS = 100000

# Solves a problem in each line of its input, and prints an answer.
PROBE = r"""//! Solves problems with windows, absences and tails, each in a line of numbers.
#![tactic(auto)]

use plan_kernel::{Absence, Arc, Input, StartWindow};
use plan_solve::{PlanAnswer, SolvedPlan, first_starts, solve_plan};
use std::alloc::{AllocError, Global};
use std::io;

fn numbers(alloc: Global, line: &str) -> Result<Vec<u32>, AllocError> {
    let mut list = Vec::new(alloc);
    for word in line.split_whitespace() {
        list.push(word.parse::<u32>().unwrap_or(0))?;
    }
    Ok(list)
}

#[derive(Drop)]
struct Reader {
    list: Vec<u32>,
    place: usize,
}

impl Reader {
    fn next(&mut self) -> u32 {
        let place = self.place;
        self.place = place.saturating_add(1);
        if place < self.list.len() { self.list[place] } else { 0 }
    }
}

fn input_of(alloc: Global, r: &mut Reader) -> Result<Input, AllocError> {
    let (n, m) = (r.next(), r.next());
    let mut durations = Vec::new(alloc);
    let mut tails = Vec::new(alloc);
    let mut needs = Vec::new(alloc);
    let mut capacities = Vec::new(alloc);
    let mut arcs = Vec::new(alloc);
    let mut windows = Vec::new(alloc);
    let mut absences = Vec::new(alloc);
    for _ in 0..n {
        durations.push(r.next())?;
        tails.push(r.next())?;
        let mut row = Vec::new(alloc);
        for _ in 0..m {
            row.push(r.next())?;
        }
        needs.push(row)?;
    }
    for _ in 0..m {
        capacities.push(r.next() as u64)?;
    }
    for _ in 0..r.next() {
        arcs.push(Arc { from: r.next(), to: r.next(), lag: r.next() })?;
    }
    for _ in 0..r.next() {
        windows.push(StartWindow { activity: r.next(), earliest: r.next(), latest: r.next() })?;
    }
    for _ in 0..r.next() {
        absences.push(Absence { resource: r.next(), from: r.next(), until: r.next(), amount: r.next() })?;
    }
    Ok(Input { durations, arcs, needs, capacities, orders: Vec::new(alloc), windows, absences, tails })
}

fn text_of(alloc: Global, solved: &SolvedPlan) -> Result<String, AllocError> {
    let conflicts = solved.conflicts;
    match &solved.answer {
        PlanAnswer::Optimal { starts, cost } => format!(in alloc; "optimal {cost} {conflicts} {starts:?}"),
        PlanAnswer::Between { starts, cost, lower } => format!(in alloc; "between {cost} {lower} {conflicts} {starts:?}"),
        PlanAnswer::NoPlan => format!(in alloc; "none 0 {conflicts}"),
        PlanAnswer::Unknown { lower } => format!(in alloc; "unknown {lower} {conflicts}"),
    }
}

fn main(rt: HostRuntime) -> io::Result<()> {
    let alloc = rt.alloc();
    for line in rt.lines(alloc) {
        let line = line?;
        let mut r = Reader { list: numbers(alloc, line.as_str())?, place: 0 };
        let (horizon, conflicts, proposes) = (r.next(), r.next(), r.next());
        let input = input_of(alloc, &mut r)?;
        let first = if proposes > 0 { first_starts(alloc, &input, horizon)? } else { Vec::new(alloc) };
        match solve_plan(alloc, input, horizon, first, conflicts as u64) {
            Ok(solved) => {
                let text = text_of(alloc, &solved)?;
                println!(rt; "{text}")?;
            }
            Err(_) => println!(rt; "error")?,
        }
    }
    Ok(())
}
"""


class Problem:
    """Numbers of a problem: durations and tails, needs by activity, capacities, arcs (from, to, lag),
    windows (activity, earliest, latest), absences (resource, from, until, amount), a horizon."""

    def __init__(self, rng):
        count, kinds = rng.choice([3, 4, 5]), 2
        self.durations = [rng.choice([0, 1, 1, 2, 2, 3, 3, 4]) for _ in range(count)]
        self.tails = [rng.choice([0, 0, 1, 2, 3]) for _ in range(count)]
        self.capacities = [rng.choice([1, 2, 3]) for _ in range(kinds)]
        self.needs = [[rng.randint(0, c) for c in self.capacities] for _ in range(count)]
        pairs = [(i, j) for i in range(count) for j in range(i + 1, count)]
        self.arcs = [pair + (rng.choice([0, 0, 0, 1]),) for pair in pairs if rng.random() < 0.25]
        self.windows = [self.window(rng, i) for i in range(count) if rng.random() < 0.4]
        self.absences = [self.absence(rng, k) for k in range(kinds) for _ in range(rng.randint(0, 2))]
        self.horizon = rng.choice([10, 12, 14, 16])

    def window(self, rng, activity):
        """An appointment, an earliest start, a latest start, or both at once, which may clash."""
        kind, early, late = rng.choice("aabbcd"), rng.randint(0, 6), rng.randint(2, 9)
        if kind == "a":
            return (activity, early, early)
        return (activity, 0 if kind == "c" else early, 1000 if kind == "b" else late)

    def absence(self, rng, resource):
        """So much of a resource that is missing for a while."""
        start = rng.randint(0, 7)
        amount = rng.randint(1, max(1, self.capacities[resource] - rng.choice([0, 1])))
        return (resource, start, start + rng.randint(1, 4), amount)

    def line(self, proposes):
        """The line that PROBE reads."""
        words = [self.horizon, CONFLICTS, proposes, len(self.durations), len(self.capacities)]
        for duration, tail, needs in zip(self.durations, self.tails, self.needs):
            words += [duration, tail] + needs
        words += self.capacities
        for rows in (self.arcs, self.windows, self.absences):
            words += [len(rows)] + [number for row in rows for number in row]
        return " ".join(map(str, words))

    def cost(self, starts):
        """The greatest end with its tail."""
        return max(s + d + t for s, d, t in zip(starts, self.durations, self.tails))

    def is_plan(self, starts):
        """Whether arcs and windows are kept, and at each instant what is needed is present."""
        ends = [s + d for s, d in zip(starts, self.durations)]
        if any(ends[i] + lag > starts[j] for i, j, lag in self.arcs):
            return False
        if any(not early <= starts[i] <= late for i, early, late in self.windows):
            return False
        last = max(ends + [until for _, _, until, _ in self.absences])
        return all(self.load(starts, ends, k, t) <= self.capacities[k]
                   for k in range(len(self.capacities)) for t in range(last + 1))

    def load(self, starts, ends, resource, instant):
        """What is in use of a resource at an instant, and what is absent."""
        used = sum(self.needs[i][resource] for i, start in enumerate(starts) if start <= instant < ends[i])
        return used + sum(a for k, start, end, a in self.absences if k == resource and start <= instant < end)

    def least_cost(self):
        """The least cost of a plan up to the horizon, None if there is none: all lists of starts."""
        if not self.is_plan_without_activities():
            return None
        return self.least_from([], self.horizon + 1)

    def is_plan_without_activities(self):
        """Whether no more is absent than there is."""
        last = max([until for _, _, until, _ in self.absences] + [0])
        return all(self.load([], [], k, t) <= self.capacities[k]
                   for k in range(len(self.capacities)) for t in range(last))

    def least_from(self, starts, limit):
        """The least cost below a limit of a plan that begins with these starts."""
        place = len(starts)
        if place == len(self.durations):
            return self.cost(starts)
        best = None
        for start in range(self.horizon + 1):
            if start + self.durations[place] + self.tails[place] >= limit:
                break
            if self.fits(starts + [start]):
                found = self.least_from(starts + [start], limit)
                if found is not None:
                    best = limit = found
        return best

    def fits(self, starts):
        """Whether the last of some starts keeps its windows and arcs, and what it needs is present."""
        place = len(starts) - 1
        ends = [s + d for s, d in zip(starts, self.durations)]
        if any(i == place and not early <= starts[i] <= late for i, early, late in self.windows):
            return False
        if any(j == place and ends[i] + lag > starts[j] for i, j, lag in self.arcs):
            return False
        return all(self.load(starts, ends, k, t) <= self.capacities[k]
                   for k in range(len(self.capacities)) for t in range(starts[place], ends[place]))


def right(problem, least, answer):
    """Whether an answer of PROBE is the least cost and a plan of that cost, or that there is none."""
    words = answer.split(" ", 3)
    if words[0] == "none":
        return least is None
    if words[0] != "optimal" or least is None:
        return False
    starts = ast.literal_eval(words[3])
    return int(words[1]) == least == problem.cost(starts) and problem.is_plan(starts)


def answers(lines):
    """What PROBE answers to some lines."""
    text = "\n".join(lines) + "\n"
    if "PLAN_PROBE" in os.environ:
        run = subprocess.run([os.environ["PLAN_PROBE"]], input=text, capture_output=True, text=True, check=True)
        return run.stdout.split("\n")
    with tempfile.TemporaryDirectory() as folder:
        copy = os.path.join(folder, "copy")
        shutil.copytree(TOP, copy, ignore=shutil.ignore_patterns("out", ".git"))
        crate = os.path.join(copy, "crates", "plan_probe")
        os.makedirs(os.path.join(crate, "src"))
        with open(os.path.join(crate, "src", "main.rt"), "w", encoding="utf-8") as file:
            file.write(PROBE)
        with open(os.path.join(copy, "crates.txt"), "a", encoding="utf-8") as file:
            file.write("plan_probe: plan_solve plan_kernel\n")
        run = subprocess.run(["rt", "try"], cwd=crate, input=text, capture_output=True, text=True, check=True)
        return run.stdout.split("\n")


def main():
    count, seed = (int(word) for word in (sys.argv[1:] + ["300", "1"][len(sys.argv) - 1:])[:2])
    rng = random.Random(seed)
    problems = [Problem(rng) for _ in range(count)]
    found = answers([problem.line(proposes) for problem in problems for proposes in (1, 0)])
    tally, wrong = {True: 0, False: 0}, 0
    for place, problem in enumerate(problems):
        least = problem.least_cost()
        tally[least is not None] += 1
        for answer in found[2 * place:2 * place + 2]:
            if not right(problem, least, answer):
                print(f"{problem.line(1)}: {answer!r} instead of {least}")
                wrong += 1
    print(f"{tally[True]} with a plan, {tally[False]} without, {wrong} wrong")
    return 1 if wrong else 0


if __name__ == "__main__":
    sys.exit(main())
