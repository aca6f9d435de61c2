#!/usr/bin/env python3
"""Small random projects whose least makespan is found by trying all serial schedules, and a program's
answers beside it.

    tests/trials/least_makespans.py [--cases N] [--seed S] PROGRAM WORD..

runs PROGRAM WORD.. FILE for each of N projects (1000) and expects a first line `optimal V` or
`between L V`. With a word {} in place of a number of conflicts, a limit of 1 to 50 is put there.
Ends with status 1 if an answer is wrong.
"""

import argparse
import os
import random
import subprocess
import sys
import tempfile

sys.dont_write_bytecode = True
TOP = os.path.dirname(os.path.dirname(os.path.dirname(os.path.abspath(__file__))))
sys.path.append(os.path.join(TOP, "bench"))
import files

MOST_ACTIVITIES = 9


def fits(start, j, placed, durations, needs, available):
    """Whether activity j can start beside those that are placed."""
    for t in range(start, start + durations[j]):
        for k, most in enumerate(available):
            used = sum(
                needs[i][k] for i, begin in placed.items() if begin <= t < begin + durations[i]
            )
            if used + needs[j][k] > most:
                return False
    return True


class Trying:
    """All serial schedules, shortest first found; a lag is between the end of an activity and the
    start of its successor."""

    def __init__(self, durations, successors, needs, available, lags):
        self.durations, self.needs, self.available = durations, needs, available
        self.before = [
            [(i, lags.get((i, j), 0)) for i, nexts in enumerate(successors) if j + 1 in nexts]
            for j in range(len(durations))
        ]
        self.least = sum(durations) + sum(lags.values()) + 1
        self.seen = set()

    def start(self, j, placed):
        start = max(
            (placed[i] + self.durations[i] + lag for i, lag in self.before[j]), default=0
        )
        while not fits(start, j, placed, self.durations, self.needs, self.available):
            start += 1
        return start

    def place(self, placed):
        end = max((s + self.durations[i] for i, s in placed.items()), default=0)
        key = frozenset(placed.items())
        if end >= self.least or key in self.seen:
            return
        self.seen.add(key)
        if len(placed) == len(self.durations):
            self.least = end
            return
        for j in range(len(self.durations)):
            if j not in placed and all(i in placed for i, _ in self.before[j]):
                self.place(placed | {j: self.start(j, placed)})


def least_makespan(durations, successors, needs, available, lags=None):
    """The least makespan; None if an activity that lasts needs more than there is. Successors are
    numbered from 1, lags are by pairs of places from 0."""
    for duration, row in zip(durations, needs):
        if duration > 0 and any(need > most for need, most in zip(row, available)):
            return None
    trying = Trying(durations, successors, needs, available, lags or {})
    trying.place({})
    return trying.least


def drawn(draw, count=None):
    """Durations, successors, needs and capacities of a project of so many activities, by default of a
    small one: some durations and needs are 0, capacities are 0 to 3."""
    count, kinds = count or draw.randint(2, MOST_ACTIVITIES), draw.randint(1, 3)
    durations = [draw.choice((0, 1, 1, 2, 3, 4, 5)) for _ in range(count)]
    available = [draw.randint(0, 3) for _ in range(kinds)]
    needs = [
        [draw.randint(0, most) if draw.random() < 0.7 else 0 for most in available]
        for _ in range(count)
    ]
    share = draw.choice((0.1, 0.2, 0.4))
    successors = [
        [i for i in range(j + 1, count + 1) if draw.random() < share] for j in range(1, count + 1)
    ]
    if draw.random() < 0.5:
        for j in range(count - 1):
            if not successors[j]:
                successors[j].append(count)
    return durations, successors, needs, available


def is_right(line, least):
    """Whether a first line is true of a project's least makespan."""
    words = line.split()
    if words[:1] == ["optimal"]:
        return int(words[1]) == least
    return words[:1] == ["between"] and int(words[1]) <= least <= int(words[2])


def answer(words, path, draw):
    command = [word.replace("{}", str(draw.randint(1, 50))) for word in words] + [path]
    done = subprocess.run(command, stdin=subprocess.DEVNULL, capture_output=True, check=False)
    return done.stdout.decode().partition("\n")[0]


def main():
    parser = argparse.ArgumentParser(prog="tests/trials/least_makespans.py")
    parser.add_argument("--cases", type=int, default=1000)
    parser.add_argument("--seed", type=int, default=1)
    parser.add_argument("words", nargs=argparse.REMAINDER, metavar="PROGRAM")
    given = parser.parse_args()
    draw, wrong, open_ones = random.Random(given.seed), 0, 0
    with tempfile.TemporaryDirectory() as folder:
        path = os.path.join(folder, "drawn.sm")
        for number in range(given.cases):
            parts = drawn(draw)
            with open(path, "w", encoding="ascii") as file:
                file.write(files.project(*parts))
            line, least = answer(given.words, path, draw), least_makespan(*parts)
            open_ones += line.startswith("between")
            if least is not None and not is_right(line, least):
                print(f"project {number}: {line!r}, but the least makespan is {least}")
                wrong += 1
    print(f"{given.cases} projects, {wrong} wrong answers, {open_ones} left open")
    return 1 if wrong else 0


if __name__ == "__main__":
    sys.exit(main())
