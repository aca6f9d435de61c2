#!/usr/bin/env python3
"""Compares `plan import` of drawn lists of orders with a reader in Python: the job shop file that
docs/lists.md describes, or the error line.

    tests/trials/orders.py               2,000 lists; prints nothing on success
    tests/trials/orders.py CASES SEED    so many, drawn from this seed

The lists vary in separators, quotes, blanks, encodings, pairs of columns and order of rows; one in four
is then damaged at some byte. The program is the one that ./plan runs, or the one that PLAN_PROGRAM
names.
"""

import os
import sys
from random import Random

sys.dont_write_bytecode = True
TRIALS = os.path.dirname(os.path.abspath(__file__))
sys.path.insert(0, TRIALS)
sys.path.insert(0, os.path.join(os.path.dirname(TRIALS), "clients"))

import tables
from programs import Wrong
from tables import BLANKS, Refused

MOST_ORDERS, MOST_MACHINES = 50, 20
ORDERS = ("A", "order 4711", "Büro, süd", 'The "big" one', "名前", "b", "a")
MACHINES = ("saw", "press", "Ofen", "Säge; alt", "m1", "m2")


# ---- the model


def check_header(cells):
    """The header is `order`, one or more pairs of `machine` and `time`, and columns without a header."""
    keys = [tables.lower(cell) for cell in cells]
    wanted = ["order", "machine", "time"]
    while len(wanted) < len(keys) and any(keys[len(wanted) :]):
        wanted += ["machine", "time"]
    for place, word in enumerate(wanted):
        if place >= len(keys) or keys[place] != word:
            raise Refused(f"T3 no column {word}")


def name_of(cell, line):
    if not cell:
        raise Refused(f"T6 line {line} id")
    return tables.checked_name(cell, line)


class Orders:
    """The orders of a list: names in the order of their first appearance, and the steps of each one."""

    def __init__(self, found):
        for line, cells in found[-1:]:
            if cells is None:
                raise Refused(f"T13 line {line} cells")
        found = [(line, [cell.strip(BLANKS) for cell in cells]) for line, cells in found]
        found = [(line, cells) for line, cells in found if any(cells)]
        if not found:
            raise Refused("T3 no column order")
        check_header(found[0][1])
        self.names, self.machines, self.steps, self.total = [], [], {}, 0
        for line, cells in found[1:]:
            self.take(line, cells)
            if len(cells) > len(found[0][1]):
                raise Refused(f"T13 line {line} cells")
        if not self.names or not self.machines:
            raise Refused("T12 limit line 0")
        for name in self.names:
            if len(self.steps[name]) > len(self.machines):
                raise Refused(f"T15 steps {name}")

    def take(self, line, cells):
        order = name_of(cells[0], line)
        self.add(self.names, order, MOST_ORDERS, line)
        steps = self.steps.setdefault(order, [])
        pairs = cells[1:] + [""] * (len(cells) % 2 == 0)
        for machine, time in zip(pairs[::2], pairs[1::2]):
            if machine or time:
                name_of(machine, line)
                days = tables.amount(time, f"T5 line {line} duration", line)
                self.add(self.machines, machine, MOST_MACHINES, line)
                self.total += days
                if self.total > tables.LONGEST_SUM:
                    raise Refused(f"T12 limit line {line}")
                steps.append((self.machines.index(machine), days))

    def add(self, names, name, most, line):
        if name not in names:
            if len(names) == most:
                raise Refused(f"T12 limit line {line}")
            names.append(name)

    def text(self):
        """The job shop file. An order with fewer steps than machines gets steps of time 0."""
        lines = ["instance shop"]
        lines += [f"+ machine {k} {name}" for k, name in enumerate(self.machines)]
        lines += [f"+ job {k + 1} {name}" for k, name in enumerate(self.names)] + ["plan import"]
        lines.append(numbers([len(self.names), len(self.machines)]))
        for name in self.names:
            steps, count = self.steps[name], len(self.machines)
            unused = [k for k in range(count) if k not in [machine for machine, _ in steps]]
            padded = steps + [(k, 0) for k in unused[: count - len(steps)]]
            lines.append(numbers([number for step in padded for number in step]))
        return "".join(line + "\n" for line in lines)


def numbers(row):
    """A line of numbers: the first right in 3 places, each other one in 4, behind a blank."""
    return f"{row[0]:>3}" + "".join(f" {number:>4}" for number in row[1:])


def wanted(data):
    """What `plan import` prints for these bytes, or the line that it refuses them with."""
    try:
        text, is_guess = tables.decoded(data)
        text = text.removeprefix("\ufeff")
        found = tables.records(text, tables.delimiter_of(text))
        return 0, Orders(found).text().encode(), b"read as Windows-1252\n" * is_guess
    except Refused as fault:
        return 1, b"", str(fault).encode() + b"\n"


# ---- what is drawn


def drawn_orders(draw):
    """A list of orders, mostly a good one, as text."""
    delimiter, end = draw.choice([",", ";", "\t"]), draw.choice(["\n", "\r\n"])
    pairs, more = draw.choice((1, 1, 2, 3)), draw.choice((0, 0, 0, 1, 2))
    head = [draw.choice(("order", "Order", " ORDER "))]
    head += [draw.choice((word, word.upper())) for _ in range(pairs) for word in ("machine", "time")] + [""] * more
    if draw.random() < 0.05:
        head[draw.randrange(len(head))] = draw.choice(("", "duration", "machine", "note"))
    orders = draw.sample(ORDERS, draw.randrange(1, 5))
    machines = draw.sample(MACHINES, draw.randrange(1, 5))
    steps = [(name, draw.choice(machines)) for name in orders for _ in range(draw.randrange(len(machines) + 1))]
    if draw.random() < 0.3:
        draw.shuffle(steps)
    lines = [head]
    for place in range(0, len(steps), pairs):
        name = steps[place][0]
        own = [machine for other, machine in steps[place : place + pairs] if other == name]
        row = [name] + [cell for machine in own for cell in (machine, draw.choice("0123456789"))]
        if draw.random() < 0.2 and len(row) < 2 * pairs:
            row[1:1] = ["", ""]
        if draw.random() < 0.03:
            row[draw.randrange(len(row))] = draw.choice(("", "x", "10001", "99999", "-1", "2.5", "a\x7fb"))
        lines.append(row + [""] * draw.choice((0, len(head) - len(row), len(head) - len(row), 1)))
    for _ in range(draw.choice((0, 0, 0, 1, 2))):
        lines.insert(draw.randrange(len(lines) + 1), [draw.choice(("", " "))] * draw.randrange(1, 4))
    text = end.join(delimiter.join(tables.drawn_cell(draw, cell, delimiter) for cell in line) for line in lines)
    return text + (end if draw.random() < 0.8 else "")


def try_drawn_orders(count, seed):
    for n in range(count):
        draw = Random(f"{seed} {n}")
        data = tables.drawn_bytes(draw, drawn_orders(draw))
        if tables.kind_of(data) != "orders":
            continue
        for words in ([], ["--shop"]):
            answer = tables.imported(data, words)
            if answer != wanted(data):
                raise Wrong(f"list {n} of seed {seed}: {data!r}\n  gave {answer!r}\n  not {wanted(data)!r}")


def main():
    cases, seed = [int(word) for word in sys.argv[1:3]] + [2000, 1][len(sys.argv) - 1 :]
    try:
        try_drawn_orders(cases, seed)
    except Wrong as wrong:
        sys.exit(f"orders.py: {wrong}")


if __name__ == "__main__":
    main()
