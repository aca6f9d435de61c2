#!/usr/bin/env python3
"""Checks the model without the program: it answers tests/clients/conversation, keeps the rows of
tests/clients/exchanges.py, and prints the tables of examples/README.md, all of which were written
by hand. Its optima are compared with all orders of small instances.

    tests/trials/modelled.py      prints nothing on success
    tests/trials/modelled.py -v   prints what was tried
"""

import itertools
import os
import sys
from random import Random

sys.dont_write_bytecode = True
HERE = os.path.dirname(os.path.abspath(__file__))
sys.path.insert(0, HERE)
sys.path.insert(0, os.path.join(os.path.dirname(HERE), "clients"))

from exchanges import OFFICE_KEY, TOP, Tables, conversation
from model import COMMANDS, Office, run, shops
from model.projects import Project
from model.schedules import rule_starts
from model.searches import ProjectTree, ShopTree, search
from model.shops import Shop

CALL = "$ ./plan "


class Differs(Exception):
    """The model differs from what is written."""


def same(what, found, wanted):
    if found != wanted:
        raise Differs(f"{what}\n  gave    {found!r}\n  and not {wanted!r}")


def try_conversation():
    """Each exchange, with the rows after it."""
    office, tables = Office(OFFICE_KEY.encode()), Tables()
    exchanges = conversation()
    for number, exchange in enumerate(exchanges, 1):
        what = f"the model, exchange {number}: {exchange.method} {exchange.path}"
        same(what, office.answer(exchange.request()), exchange.expected())
        if exchange.is_accepted():
            tables.apply(exchange)
        same(f"the rows after {what}", office.rows(), tables.dump())
    return len(exchanges)


def is_modelled(words):
    """Whether the model knows a command: its files are there, it has no option, and it is alone."""
    if words[0] not in COMMANDS or None in words or "|" in words:
        return False
    return not any(type(word) is str and word.startswith("--") for word in words)


def calls():
    """The commands of the tour that the model knows, each with the text under it."""
    with open(os.path.join(TOP, "examples", "README.md"), encoding="utf-8") as file:
        pieces = file.read().split("\n\n")
    blocks = [[line[4:] for line in piece.split("\n") if line[:4] == "    "] for piece in pieces]
    found = [block for block in blocks if block and block[0].startswith(CALL)]
    read = [(with_files(block[0][len(CALL) :].split()), block[1:]) for block in found]
    return [(words, lines) for words, lines in read if is_modelled(words)]


def with_files(words):
    """The words of a command with the bytes of files for their names; None for one that is away.
    Standard input replaces the first hyphen."""
    if "<" in words:
        words[words.index("-")] = words[-1]
        words = words[: words.index("<")]
    return [text_of(word) if word.startswith("examples/") else word for word in words]


def text_of(name):
    path = os.path.join(TOP, name)
    if not os.path.exists(path):
        return None
    with open(path, "rb") as file:
        return file.read()


def try_tour():
    """Each command, with what it prints on either output."""
    tour = calls()
    same("the tour has commands", len(tour) > 0, True)
    for words, lines in tour:
        files = [word for word in words if type(word) is bytes]
        others = [word for word in words[1:] if word is not files[0]]
        _, out, err = run(words[0], files[0], *others)
        named = [word for word in words if type(word) is str]
        what = "the model: " + " ".join(named)
        same(what, (out + err).decode(), "".join(line + "\n" for line in lines))
    return len(tour)


def try_words():
    """The tour says that 649 words suffice to prove that 55 is least for ft06, which is the number
    of words that are visited; so with one less the budget is spent."""
    text = text_of("examples/shops.txt")
    found = [run("best", text, budget, "ft06")[1].split() for budget in ("649", "648")]
    same("the model: ft06", [found[0][:2], found[1][0]], [[b"optimal", b"55"], b"budget"])


def drawn_project(random, count):
    """A small project with lags, some of whose activities last no time."""
    pairs = itertools.combinations(range(1, count + 1), 2)
    arcs = [arc for arc in pairs if random.random() < 0.4]
    capacities = [random.randint(1, 3) for _ in range(random.randint(1, 2))]
    durations = {j: random.randint(0, 4) for j in range(1, count + 1)}
    needs = {j: [random.randint(0, capacity) for capacity in capacities] for j in durations}
    project = Project(durations, arcs, needs, capacities)
    project.lags = {arc: random.choice((0, 0, 1, 3)) for arc in arcs}
    return project


def runs_at(project, starts, t, k):
    """What is in use of a resource at an instant."""
    within = [j for j, start in starts.items() if start <= t < start + project.durations[j]]
    return sum(project.needs[j][k] for j in within)


def has_room(project, starts, j, start):
    """Whether an activity fits, instant by instant."""
    return all(
        runs_at(project, starts, t, k) + project.needs[j][k] <= capacity
        for t in range(start, start + project.durations[j])
        for k, capacity in enumerate(project.capacities)
    )


def end_by(project, order):
    """When all is done, if each activity of an order starts as soon as it can; None for one that
    stands before a predecessor."""
    starts = {}
    for j in order:
        if any(i not in starts for i in project.predecessors(j)):
            return None
        ends = [starts[i] + project.durations[i] + project.lags[i, j] for i in project.predecessors(j)]
        start = max(ends, default=0)
        while not has_room(project, starts, j, start):
            start += 1
        starts[j] = start
    return max(start + project.durations[j] for j, start in starts.items())


def end_of_turns(jobs, machines, turns):
    """When all is done, if jobs take turns and each step starts as soon as it can."""
    done, ends, free = [0] * len(jobs), [0] * len(jobs), [0] * machines
    for job in turns:
        machine, time = jobs[job][done[job]]
        start = max(ends[job], free[machine]) if time else ends[job]
        done[job], ends[job] = done[job] + 1, start + time
        if time:
            free[machine] = start + time
    return max(ends)


def try_orders():
    """Small random projects and shops, some steps of which take no time: what the model calls optimal
    is the least of all orders, in each of which all starts as soon as it can."""
    random = Random(1)
    for number in range(120):
        project = drawn_project(random, random.choice((3, 4, 5, 5, 6)))
        ends = [end_by(project, order) for order in itertools.permutations(project.durations)]
        wanted = "optimal", min(end for end in ends if end is not None)
        found = search(ProjectTree(project), rule_starts(project, "lft"), 10**6)
        same(f"the model: project {number} of all orders", (found.kind, found.least), wanted)
    for number in range(80):
        jobs, machines = random.randint(2, 3), random.randint(2, 3)
        steps = [
            [(machine, random.randint(0, 4)) for machine in random.sample(range(machines), machines)]
            for _ in range(jobs)
        ]
        letters = [job for job in range(jobs) for _ in range(machines)]
        least = min(end_of_turns(steps, machines, turns) for turns in turns_of(letters))
        shop = Shop(machines, steps)
        found = search(ShopTree(shop), shops.rule_starts(shop, "mwkr"), 10**6)
        same(f"the model: shop {number} of all orders", (found.kind, found.least), ("optimal", least))


def turns_of(letters):
    """All different orders of letters, of which some are alike."""
    if not letters:
        yield ()
    for letter in sorted({*letters}):
        rest = list(letters)
        rest.remove(letter)
        for turns in turns_of(rest):
            yield (letter, *turns)


def try_model(is_verbose=False):
    """Tries all four."""
    exchanges, commands = try_conversation(), try_tour()
    try_words()
    try_orders()
    if is_verbose:
        print(f"the model: {exchanges} exchanges and {commands} commands as they are written, and 200 searches beside all orders")


if __name__ == "__main__":
    try:
        try_model("-v" in sys.argv[1:])
    except Differs as difference:
        sys.exit(f"modelled: {difference}")
