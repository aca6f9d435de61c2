#!/usr/bin/env python3
"""Draws lists, prints each with `--format list` of `plan solve` and `plan days`, and compares the
result with a model: all rows and columns stay in their lines and places, with the starts, finishes and
slacks of the schedule that the other formats show. The result is read as the same project.

    tests/trials/lists_back.py               300 lists; prints nothing on success
    tests/trials/lists_back.py CASES SEED    so many, drawn from this seed

The lists are those of tables.py, in all encodings and with all three delimiters. A refused list is
refused with the same line as without `--format list`; a file that is no list of activities is T3. The
program is the one that ./plan runs, or the one that PLAN_PROGRAM names.
"""

import csv
import io
import os
import sys
import tempfile
from random import Random

sys.dont_write_bytecode = True
sys.path.insert(0, os.path.dirname(os.path.abspath(__file__)))

from answers import Wrong, plan, same, written
from tables import BLANKS, Refused, cell_at, decoded, delimiter_of, drawn_bytes, drawn_table, header_of, kind_in, lower
from tables import is_capacities, is_note, open_columns, records, settled, without, without_groups

SOLVE = ("solve", "--conflicts", "50")
DATES = ("2024-03-01", "mon-fri")
FIELDS = ("start", "finish", "slack")
NO_LIST = b"T3 no column duration\n"
NO_COLUMN = b"T4 column start, finish or slack twice\n"


# ---- the model


def text_of(data):
    return decoded(data)[0].removeprefix("\ufeff")


def kind_of(data):
    """What a file is a list of; nothing if it can't be read."""
    try:
        return kind_in(text_of(data).encode())
    except Refused:
        return None


def rows_of(text):
    """The records with content of a list, each with its line."""
    return without(list(records(text, delimiter_of(text))), ())


def lines_of(found):
    """The lines of the rows of activities, in their order."""
    found = without_groups(found, {})
    columns, _, _ = open_columns(found, {})
    notes = [k for k, key in columns.items() if is_note(key, [cell_at(cells, k) for _, cells in found[1:]])]
    found = without(found, notes)
    kinds, keys, names = header_of(*found[0])
    kinds = settled(kinds, keys, names, [cells for _, cells in found[1:]], {})
    rows = found[1:]
    if "id" in kinds:
        rows = [(line, cells) for line, cells in rows if not is_capacities(cell_at(cells, kinds.index("id")))]
    return [line for line, _ in rows]


def place_of(field, cells):
    """The column of a field, which is behind all others if there is none."""
    return next((k for k, cell in enumerate(cells) if lower(cell.strip(BLANKS)) == field), len(cells))


def with_times(found, times):
    """The records with the texts of each line in the columns of FIELDS."""
    rows = [(line, list(cells)) for line, cells in found]
    for field, name in enumerate(FIELDS):
        k = place_of(name, rows[0][1])
        for number, (line, cells) in enumerate(rows):
            cells += [""] * (k + 1 - len(cells))
            if number > 0:
                cells[k] = times[line][field] if line in times else ""
            elif not cells[k]:
                cells[k] = name
    return rows


def shown_rows(answer):
    """The rows of activities in a table as CSV: not those of the start and the end, and no waits."""
    status, output, _ = answer
    if status != 0:
        raise Wrong(f"a table as CSV ended with {answer!r}")
    rows = list(csv.DictReader(io.StringIO(output.decode(), newline="")))
    if "act" in rows[0]:
        return rows[1:-1]
    return rows


# ---- what is tried


def compare(what, answer, data, times):
    """Compares a printed list with that of a file and its times by lines."""
    status, output, _ = answer
    if status != 0:
        raise Wrong(f"{what} ended with {answer!r}")
    text = text_of(output)
    same(f"{what}: the separator", delimiter_of(text), delimiter_of(text_of(data)))
    same(what, rows_of(text), with_times(rows_of(text_of(data)), times))


def try_project(what, folder, file, output):
    """Checks that a printed list is read as the project of its file."""
    back = written(folder, "back.csv", output)
    same(f"{what}: the project", plan(folder, "import", back)[:2], plan(folder, "import", file)[:2])
    same(f"{what}: again", plan(folder, *SOLVE, "--format", "list", back)[1], output)


def try_accepted(what, folder, file, data, starts):
    """Tries a list that is accepted, with this table of its schedule as CSV."""
    table = written(folder, "starts.csv", starts[1])
    solved, slacks = shown_rows(starts), shown_rows(plan(folder, "slack", "--format", "csv", file, table))
    days = shown_rows(plan(folder, "days", "--format", "csv", "--starts", table, *DATES, file))
    lines = lines_of(rows_of(text_of(data)))
    same(f"{what}: the rows", [len(solved), len(slacks), len(days)], [len(lines)] * 3)
    units = {line: (row["start"], row["end"], slack["slack"]) for line, row, slack in zip(lines, solved, slacks)}
    dates = {line: (row["first"], row["last"], slack["slack"]) for line, row, slack in zip(lines, days, slacks)}
    answer = plan(folder, *SOLVE, "--format", "list", file)
    compare(f"{what}: plan solve", answer, data, units)
    try_project(what, folder, file, answer[1])
    dated = plan(folder, "days", "--format", "list", "--starts", table, *DATES, file)
    compare(f"{what}: plan days", dated, data, dates)


def try_list(what, folder, data):
    file = written(folder, "list.csv", data)
    plain = plan(folder, *SOLVE, "--format", "csv", file)
    found = plan(folder, *SOLVE, "--format", "list", file)
    if kind_of(data) != "activities":
        same(what, found[:2], (1, b""))
        if plain[0] == 0 or not plain[2].startswith(b"T"):
            same(what, found[2], NO_LIST)
    elif plain[0] != 0:
        same(what, found, plain)
    elif found[2].startswith(NO_COLUMN[:4]):
        same(what, (found[0], found[2]), (1, NO_COLUMN))
        resources = [line.split(" ", 2)[2] for line in plan(folder, "import", file)[1].decode().split("\n")
                     if line.startswith("resource ")]
        if not any(lower(name) in FIELDS for name in resources):
            raise Wrong(f"{what}: {NO_COLUMN!r} without such a resource")
    else:
        try_accepted(what, folder, file, data, plain)


def try_lists(count, seed):
    draw = Random(seed)
    with tempfile.TemporaryDirectory() as folder:
        for n in range(count):
            data = drawn_bytes(draw, drawn_table(draw)[0])
            try_list(f"list {n} of seed {seed}: {data!r}", folder, data)


def main():
    words = sys.argv[1:] or ["300"]
    count, seed = int(words[0]), int(words[1]) if len(words) > 1 else 1
    try:
        try_lists(count, seed)
    except Wrong as wrong:
        sys.exit(str(wrong))


if __name__ == "__main__":
    main()
