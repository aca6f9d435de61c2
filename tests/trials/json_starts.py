#!/usr/bin/env python3
"""Hands JSON in as start times, over drawn projects and job shops: what `schedule` and `shop` print
with `--format json`, as the page of a plan writes it, laid out, and with a byte order mark. Each
command that reads start times answers as for the table of the same schedule. A document with one
thing changed is refused at the line of the row.

    tests/trials/json_starts.py               300 files; prints nothing on success
    tests/trials/json_starts.py CASES SEED    so many, drawn from this seed

The program is the one that ./plan runs, or the one that PLAN_PROGRAM names.
"""

import collections
import json
import os
import sys
import tempfile
from random import Random

sys.dont_write_bytecode = True
sys.path.insert(0, os.path.dirname(os.path.abspath(__file__)))

from answers import plan, same, written
from drawing import Draw
from drawing.words import rule
from holidays import MARKS, STARTS, small_file

MARK = b"\xef\xbb\xbf"


def commands_on(listed, file, instance):
    """The commands that read start times: their words."""
    own = [file, *instance]
    found = [
        ["check", file, listed, *instance],
        ["compare", file, listed, listed, *instance],
        ["chart", "--starts", listed, *own],
        ["days", "--starts", listed, STARTS[0], MARKS[0], *own],
        ["report", "--starts", listed, *own],
    ]
    return found if instance else [*found, ["slack", file, listed]]


def as_page(value):
    """A document as the page of a plan writes it: with members of the plan, names and days."""
    rows = [{**row, "name": None, "first": "2024-03-01", "last": None} for row in value["rows"]]
    return {**value, "rows": rows, "desk": "a", "plan": 1, "schedule": "lft", "title": None}


def forms_of(text):
    """The same document in several forms."""
    value = json.loads(text)
    yield "as printed", text
    yield "as on the page", json.dumps(as_page(value), sort_keys=True).encode()
    yield "laid out", json.dumps(value, indent=2).encode()
    yield "with a mark", MARK + text
    yield "behind blanks", b" \n\t" + text
    yield "with members in reverse", json.dumps(
        {key: value[key] for key in reversed(value)}, ensure_ascii=False
    ).encode()


def changed(value, k, **members):
    """A document with other members in row k, and none where None is given."""
    rows = [dict(row) for row in value["rows"]]
    rows[k].update(members)
    rows[k] = {name: cell for name, cell in rows[k].items() if cell is not None}
    return {**value, "rows": rows}


def refusals_of(draw, text):
    """Documents that aren't the schedule, each with its line. Row k is at line k + 2. Rows of a job
    shop's steps of time 0 may be missing."""
    value = json.loads(text)
    rows = value["rows"]
    k = draw.number(0, len(rows) - 1)
    start, end, line = rows[k]["start"], rows[k]["end"], k + 2
    needed = [row for row in rows if "job" not in row or row["d"]]
    if rows[-1] in needed:
        yield "F9 line %d" % len(rows), {**value, "rows": rows[:-1]}
    yield "F9 line %d" % (len(rows) + 2), {**value, "rows": [*rows, rows[-1]]}
    if needed:
        yield "F9 line 1", {**value, "rows": []}
        yield "F9 line 1", {"makespan": 7}
    # A row of a step of time 0 with another duration is one that no step has.
    is_left_over = rows[k] not in needed and not any(row["d"] for row in rows[k:])
    yield f"{'F9' if is_left_over else 'F7'} line {line}", changed(value, k, d=rows[k]["d"] + 1)
    yield f"F7 line {line}", changed(value, k, end=end + 1)
    yield f"F6 line {line}", changed(value, k, start=str(start))
    yield f"F6 line {line}", changed(value, k, start=start + 0.5)
    yield f"F6 line {line}", changed(value, k, start=-1)
    yield f"F6 line {line}", changed(value, k, start=None)
    yield f"F6 line {line}", changed(value, k, end=None)
    yield f"F10 line {line}", changed(value, k, start=10000001, end=10000001 + end - start)


def try_file(draw, folder):
    is_shop = draw.chance(0.3)
    text, instance = small_file(draw, is_shop)
    own, file = rule(draw, is_shop), written(folder, "drawn", text)
    words = ["shop" if is_shop else "schedule", own, file, *instance]
    table = plan(folder, *words)
    if table[0]:
        return "refused"
    printed = plan(folder, words[0], "--format", "json", *words[1:])[1]
    what = f"{text!r}"[:3000] + f": {words}"
    listed = written(folder, "table", table[1])
    wanted = [plan(folder, *command) for command in commands_on(listed, file, instance)]
    for form, document in forms_of(printed):
        listed = written(folder, "listed.json", document)
        for command, answer in zip(commands_on(listed, file, instance), wanted):
            same(f"{what}: {command[0]} of JSON {form}", plan(folder, *command), answer)
    for line, document in refusals_of(draw, printed):
        listed = written(folder, "listed.json", json.dumps(document).encode())
        status, output, errors = plan(folder, "check", file, listed, *instance)
        first = errors.decode().splitlines()[:1]
        same(f"{what}: check of {document}", (status, output, first), (1, b"", [f"{line} of the starts"]))
    listed = written(folder, "listed.json", printed.rstrip()[:-1])
    status, output, errors = plan(folder, "check", file, listed, *instance)
    first = errors.decode().splitlines()[:1]
    same(f"{what}: check of a cut document", (status, output, first), (1, b"", ["F3 line 1 of the starts"]))
    return "shop" if is_shop else "project"


def try_json_starts(cases=300, seed=1, is_verbose=False):
    draw, tally = Draw(Random(seed)), collections.Counter()
    with tempfile.TemporaryDirectory() as folder:
        for _ in range(cases):
            tally[try_file(draw, folder)] += 1
    if is_verbose:
        print(f"{cases} files by seed {seed}: {dict(tally)}")


if __name__ == "__main__":
    try_json_starts(*map(int, sys.argv[1:]), is_verbose=True)
