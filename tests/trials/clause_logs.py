#!/usr/bin/env python3
"""Tries the checker of logs: it accepts those of a program, and refuses damaged ones.

    tests/trials/clause_logs.py [--projects N] [--damaged N] PROGRAM WORD..

runs PROGRAM WORD.. --log LOG FILE for drawn projects of 20 activities (50), and damages some logs (20).
"""

import argparse
import os
import random
import subprocess
import sys
import tempfile

sys.dont_write_bytecode = True
TOP = os.path.dirname(os.path.dirname(os.path.dirname(os.path.abspath(__file__))))
sys.path += [os.path.join(TOP, "bench"), os.path.join(TOP, "tests", "clients")]
import checker
import files
import progen
from answers import Wrong


def logged_of(words, folder, path):
    """The log of the solution of a file."""
    log = os.path.join(folder, "search.log")
    subprocess.run([*words, "--log", log, path], stdout=subprocess.DEVNULL, stderr=subprocess.PIPE, check=True)
    with open(log, encoding="ascii") as file:
        return file.read()


def logged(words, folder, seed):
    """A project of 20 activities, and the log of its solution."""
    path = os.path.join(folder, "drawn.sm")
    text = files.project(*progen.made(20, 1.5, 0.75, 0.2, seed))
    with open(path, "w", encoding="ascii") as file:
        file.write(text)
    return text, logged_of(words, folder, path)


def accepts(text, log):
    try:
        checker.shown(text, log)
    except checker.Refused:
        return False
    return True


def greater(word):
    """A literal or a number one greater."""
    head, by, tail = word.rpartition("=")
    return f"{head}{by}{int(tail) + 1}"


# Each of these makes a line say what doesn't follow.
def more_lower(lines, draw):
    return [*lines[:-1], greater(lines[-1].replace(" ", "=")).replace("=", " ")]


def without_reason(lines, draw):
    at = draw.choice([k for k, line in enumerate(lines) if line.startswith("resolve")])
    return lines[:at] + lines[at + 1 :]


def stronger_fact(lines, draw):
    at = draw.choice([k for k, line in enumerate(lines) if line.startswith("fact") and ">=" in line])
    return lines[:at] + [greater(lines[at])] + lines[at + 1 :]


def shorter_schedule(lines, draw):
    at = next(k for k, line in enumerate(lines) if line.startswith("schedule"))
    words = lines[at].split()
    words[1] = str(int(words[1]) - 1)
    return lines[:at] + [" ".join(words)] + lines[at + 1 :]


def one_member_less(lines, draw):
    at = draw.choice([k for k, line in enumerate(lines) if " energy " in line])
    return lines[:at] + [lines[at].rpartition(" ")[0]] + lines[at + 1 :]


DAMAGES = (more_lower, without_reason, stronger_fact, shorter_schedule, one_member_less)


def faults(words, projects, damaged):
    """What is wrong with the logs of drawn projects, and how many damaged logs were tried."""
    wrong, left = [], damaged
    with tempfile.TemporaryDirectory() as folder:
        for seed in range(projects):
            text, log = logged(words, folder, seed)
            if not accepts(text, log):
                wrong.append(f"project {seed}: the log is refused")
            damage = DAMAGES[left % len(DAMAGES)]
            draw, lines = random.Random(seed), log.splitlines()
            if left > 0 and "\nrefuted\n" in log and " energy " in log and "\nfact" in log:
                left -= 1
                if accepts(text, "\n".join(damage(lines, draw)) + "\n"):
                    wrong.append(f"project {seed}: accepted in spite of {damage.__name__}")
    if left:
        wrong.append(f"only {damaged - left} of {damaged} damaged logs were tried")
    return wrong, damaged - left


def differs(words):
    """What differs between the example of docs/logs.md and the log of the kitchen."""
    with open(os.path.join(TOP, "docs", "logs.md"), encoding="ascii") as page:
        rows = page.read().partition("## Example")[2].splitlines()
    shown = [row.strip() for row in rows if row.startswith("    ")]
    first, last = shown[: shown.index("..")], shown[shown.index("..") + 1 :]
    path = os.path.join(TOP, "examples", "kitchen.sm")
    with tempfile.TemporaryDirectory() as folder, open(path, encoding="ascii") as file:
        text, log = file.read(), logged_of(words, folder, path)
    lines = log.splitlines()
    if not accepts(text, log):
        return ["the log of the kitchen is refused"]
    is_same = lines[: len(first)] == first and lines[-len(last) :] == last
    return [] if is_same else ["the log of the kitchen isn't that of docs/logs.md"]


def try_logs(program, projects, damaged):
    """The checker accepts the logs of `plan solve` and refuses damaged ones; the example in the docs is
    such a log."""
    wrong, _ = faults([program, "solve"], projects, damaged)
    wrong += differs([program, "solve"])
    if wrong:
        raise Wrong("; ".join(wrong))


def main():
    parser = argparse.ArgumentParser(prog="tests/trials/clause_logs.py")
    parser.add_argument("--projects", type=int, default=50)
    parser.add_argument("--damaged", type=int, default=20)
    parser.add_argument("words", nargs=argparse.REMAINDER, metavar="PROGRAM")
    given = parser.parse_args()
    wrong, tried = faults(given.words, given.projects, given.damaged)
    print("\n".join([*wrong, f"{given.projects} logs, {tried} damaged ones"]))
    return 1 if wrong else 0


if __name__ == "__main__":
    sys.exit(main())
