#!/usr/bin/env python3
"""Compares `plan import` with a reader of tables in Python, over drawn tables and over the worked
ones of tests/tables.

    tests/trials/tables.py [--tables 5000] [--seed 1]

Each table is drawn with names, quotes, blanks, waits, groups, all three delimiters and encodings; one
in four is then damaged at some byte. One in five has options: new words for headers, columns to leave
out, a unit. The model reads it, and prints the `.sm` text or the error line that docs/lists.md
describes. It prints nothing on success. The program is the one that ./plan runs,
or the one that PLAN_PROGRAM names.
"""

import argparse
import csv
import io
import json
import os
import random
import re
import subprocess
import sys
import unicodedata

sys.dont_write_bytecode = True
TRIALS = os.path.dirname(os.path.abspath(__file__))
sys.path.insert(0, os.path.join(os.path.dirname(TRIALS), "clients"))
from programs import PROGRAM, Wrong

TABLES = os.path.join(os.path.dirname(TRIALS), "tables")

LONGEST_TEXT = 1048576
MOST_ROWS = 500
MOST_RESOURCES = 16
MOST_OTHERS = 100
GREATEST = 10000
LONGEST_SUM = 1000000
LONGEST_NAME = 200
LONGEST_ID = 32

BLANKS = "\t\v\f\r\x1a "
RULE = "*" * 72
# The marks of UTF-16, with the low byte of a unit first and the other way round.
MARKS = (b"\xff\xfe", b"\xfe\xff")
COLUMNS = {
    "duration": "duration",
    "id": "id",
    "name": "name",
    "task": "name",
    "predecessors": "predecessors",
    "after": "predecessors",
    "depends on": "predecessors",
}
# other words for kinds of columns
SYNONYMS = {
    "duration": "days, work days, dauer, durée, duree, duración, duracion",
    "id": "nr, nr., no, no., number, activity id, task id",
    "name": "task name, activity, name der aufgabe, vorgangsname, vorgang, bezeichnung, nom, nom de la tâche, tâche, "
    "nombre, nombre de tarea, tarea",
    "predecessors": "predecessor, depends, dependencies, vorgänger, vorgaenger, prédécesseurs, predecesseurs, "
    "predecesoras",
}
# words for columns that give the depths of rows, by levels and by numbers such as 1.2
LEVELS = ["outline level", "gliederungsebene"]
OUTLINES = ["outline number", "gliederungsnummer", "wbs", "psp-code"]
KINDS = {word: kind for kind, words in SYNONYMS.items() for word in words.split(", ")}
# words for columns that a plan doesn't use
NOTE_WORDS = (
    "note, notes, remark, remarks, comment, comments, description, details, status, priority, start, "
    "finish, start date, finish date, begin date, end date, due date, completion, % complete, cost, "
    "coordinator, responsible, owner, assignee, web link, bemerkung, bemerkungen, notiz, notizen, "
    "kommentar, kommentare, beschreibung, anfang, ende, kosten, verantwortlich, remarque, remarques, "
    "commentaire, commentaires, début, fin, coût, responsable, nota, notas, comentario, comentarios, "
    "descripción, inicio, coste"
).split(", ")
# words for a column of successors
SUCCESSORS = ["successors", "nachfolger", "successeurs", "sucesoras"]
# words for a column with names of resources
ASSIGNMENTS = ["resource names", "resources", "ressourcennamen", "noms ressources", "nombres de los recursos"]
# words for days
DAYS = ["", "d", "day", "days", "tag", "tage", "jour", "jours", "día", "días"]


class Refused(Exception):
    """The line that a table is refused with."""


# ---- the model: from bytes to records


def records(text, delimiter):
    """The records of a text, each with the line in which it begins. A record that ends between quotes
    comes as None."""
    found, cells, cell, state, line, first = [], [], "", "between", 1, 1
    for character in text:
        if state == "between" or state == "after cr":
            first = line
        if state in ("between", "after cr") and character in "\r\n":
            state = "between"
        elif state == "quoted":
            if character == '"':
                state = "after quote"
            else:
                cell += character
        elif state == "after quote" and character == '"':
            cell, state = cell + '"', "quoted"
        elif state in ("between", "after cr", "start") and character == '"':
            state = "quoted"
        elif character == delimiter:
            cells, cell, state = cells + [cell], "", "start"
        elif character in "\r\n":
            found.append((first, cells + [cell]))
            cells, cell, state = [], "", "after cr" if character == "\r" else "between"
        else:
            cell, state = cell + character, "in"
        line += character == "\n"
    if state == "quoted":
        found.append((first, None))
    elif state not in ("between", "after cr"):
        found.append((first, cells + [cell]))
    return found


def same_as_module(text, delimiter, found):
    """Whether Python's own module reads the same records, of a text that isn't damaged."""
    rows = [row for row in csv.reader(io.StringIO(text, newline=""), delimiter=delimiter) if row]
    return rows == [cells for _, cells in found]


# ---- the model: from records to a table


def number_of(word):
    """The number that a word is: 1 to 9 decimal digits."""
    return int(word) if 1 <= len(word) <= 9 and all("0" <= c <= "9" for c in word) else None


def amount(word, fault, line):
    value = number_of(word)
    if value is None:
        raise Refused(fault)
    if value > GREATEST:
        raise Refused(f"T12 limit line {line}")
    return value


def words_of(cell):
    for mark in ",;" + BLANKS + "\n":
        cell = cell.replace(mark, " ")
    return [word for word in cell.split(" ") if word]


def checked_name(name, line):
    if len(name.encode()) > LONGEST_NAME:
        raise Refused(f"T12 limit line {line}")
    if has_control(name):
        raise Refused(f"T2 not text line {line}")
    return name


def has_control(text):
    return any(unicodedata.category(c) == "Cc" for c in text)


def lower(text):
    """A text with its ASCII letters in lower case."""
    return "".join(c.lower() if c.isascii() else c for c in text)


def is_capacities(name):
    """Whether an id is that of the row of the capacities, in one of four languages."""
    return lower(name) in ("capacity", "kapazität", "kapazitaet", "capacité", "capacite", "capacidad")


def duration_of(cell, line):
    """The days in a cell: a number, perhaps with a fraction of zero, and perhaps a word for days."""
    parts = re.fullmatch(rf"([0-9]*)([.,]0)?[{BLANKS}]*(.*)", cell, re.S)
    fault = f"T5 line {line} duration"
    if lower(parts[3]) not in DAYS:
        raise Refused(fault)
    return amount(parts[1], fault, line)


def header_of(line, cells):
    """The kinds of the columns by their headers, and the headers in lower case and as they are."""
    kinds, keys, names = [], [], []
    for cell in cells:
        name = cell.strip(BLANKS)
        key = lower(name)
        kind = COLUMNS.get(key, "resource") if key else "nothing"
        if key and (key in keys if kind == "resource" else kind in kinds):
            raise Refused(f"T4 column {name} twice")
        keys.append(key)
        kinds.append(kind)
        if kinds.count("resource") > MOST_OTHERS:
            raise Refused(f"T12 limit line {line}")
        names.append(checked_name(name, line))
    return kinds, keys, names


def settled(kinds, keys, names, rows, given):
    """The kinds of the columns by their headers, their cells and the given capacities."""
    given = [lower(name) for name in given]
    open_columns = {k for k, kind in enumerate(kinds) if kind == "resource" and lower(names[k]) not in given}
    columns = [[cells[k].strip(BLANKS) if k < len(cells) else "" for cells in rows] for k in range(len(kinds))]
    ids = [k for k, kind in enumerate(kinds) if kind == "id"]
    ids += [k for k in sorted(open_columns) if KINDS.get(keys[k]) == "id"]
    for n, name in enumerate(columns[ids[0]] if ids else []):
        if is_capacities(name):
            open_columns -= {k for k in open_columns if columns[k][n] and k != ids[0]}
    found = list(kinds)
    for k in sorted(open_columns):
        kind = KINDS.get(keys[k])
        if kind and kind not in found:
            found[k] = kind
        elif keys[k] in NOTE_WORDS:
            found[k] = "note"
    return found


def refuse_successors(kinds, keys, names, found, rows, given):
    """Refuses a column of successors that has no capacity."""
    given = [lower(name) for name in given]
    place = next((k for k, kind in enumerate(kinds) if kind == "id"), None)
    if place is None:
        place = next((k for k, key in enumerate(keys) if KINDS.get(key) == "id" and lower(names[k]) not in given), None)
    cells = [[cell.strip(BLANKS) for cell in row] for row in rows]
    limits = [row for row in cells if place is not None and place < len(row) and is_capacities(row[place])]
    for k, key in enumerate(keys):
        has_one = lower(names[k]) in given or any(k < len(row) and row[k] for row in limits)
        if found[k] == "resource" and key in SUCCESSORS and not has_one:
            raise Refused(f"T16 column {names[k]}")


def is_id(word):
    return 1 <= len(word) <= LONGEST_ID and not any(c in word for c in BLANKS + "\n,;") and not has_control(word)


class Table:
    """What the records of a table say."""

    def __init__(self, found, given):
        for line, cells in found[-1:]:
            if cells is None:
                raise Refused(f"T13 line {line} cells")
        while found and not any(x.strip(BLANKS) for x in found[0][1]):
            found = found[1:]
        line, cells = found[0] if found else (1, [])
        kinds, keys, names = header_of(line, cells)
        self.kinds = settled(kinds, keys, names, [cells for _, cells in found[1:]], given)
        self.resources = [name for name, kind in zip(names, self.kinds) if kind == "resource"]
        if len(self.resources) > MOST_RESOURCES:
            raise Refused(f"T12 limit line {line}")
        if "duration" not in self.kinds:
            raise Refused("T3 no column duration")
        refuse_successors(kinds, keys, names, self.kinds, [cells for _, cells in found[1:]], given)
        self.id_at = self.kinds.index("id") if "id" in self.kinds else None
        rows = [(n, c) for n, c in found[1:] if any(x.strip(BLANKS) for x in c)]
        ids = [self.id_of(k, c) for k, (_, c) in enumerate(rows)]
        activities = [(n, name) for (n, _), name in zip(rows, ids) if not self.is_capacity(name)]
        if len(activities) > MOST_ROWS:
            raise Refused(f"T12 limit line {activities[MOST_ROWS][0]}")
        at = self.kinds.index("name") if "name" in self.kinds else None
        called = [c[at].strip(BLANKS) if at is not None and at < len(c) else "" for (_, c), name in zip(rows, ids)
                  if not self.is_capacity(name)]
        self.labels = Labels([name for _, name in activities], called)
        self.rows, self.capacities, self.seen, self.total = [], None, [], 0
        for (n, c), name in zip(rows, ids):
            self.take(n, c, name)
        if not self.rows:
            raise Refused("T12 limit line 0")
        self.amounts = self.all_capacities(given)
        self.refuse_cycles()
        self.refuse_needs()

    def id_of(self, k, cells):
        if self.id_at is None:
            return str(k + 1)
        return cells[self.id_at].strip(BLANKS) if self.id_at < len(cells) else ""

    def is_capacity(self, name):
        return self.id_at is not None and is_capacities(name)

    def take(self, line, cells, name):
        if self.is_capacity(name):
            return self.take_capacities(line, cells)
        row = {"line": line, "name": "", "duration": 0, "before": [], "needs": []}
        resource = 0
        for k, kind in enumerate(self.kinds):
            cell = cells[k].strip(BLANKS) if k < len(cells) else ""
            if kind == "duration":
                row["duration"] = duration_of(cell, line)
            elif kind == "id":
                if not is_id(cell):
                    raise Refused(f"T6 line {line} id")
                if cell in self.seen:
                    raise Refused(f"T7 line {line} id {cell} twice")
            elif kind == "name":
                row["name"] = checked_name(cell, line)
            elif kind == "predecessors":
                for word in words_of(cell):
                    if has_control(word):
                        raise Refused(f"T2 not text line {line}")
                    if self.labels.number_of(word) is None:
                        raise Refused(f"T8 line {line} predecessor {word}")
                    row["before"].append(self.labels.number_of(word))
            elif kind == "resource":
                fault = f"T9 line {line} need {self.resources[resource]}"
                row["needs"].append(amount(cell, fault, line) if cell else 0)
                resource += 1
        if len(cells) > len(self.kinds):
            raise Refused(f"T13 line {line} cells")
        self.total += row["duration"]
        if self.total > LONGEST_SUM:
            raise Refused(f"T12 limit line {line}")
        self.seen.append(name)
        self.rows.append(row)

    def take_capacities(self, line, cells):
        if self.capacities is not None:
            raise Refused(f"T7 line {line} id capacity twice")
        self.capacities = []
        for k, kind in enumerate(self.kinds):
            if kind == "resource":
                cell = cells[k].strip(BLANKS) if k < len(cells) else ""
                fault = f"T9 line {line} need {self.resources[len(self.capacities)]}"
                self.capacities.append(amount(cell, fault, line) if cell else None)
        if len(cells) > len(self.kinds):
            raise Refused(f"T13 line {line} cells")

    def all_capacities(self, given):
        for name in given:
            if lower(name) not in map(lower, self.resources):
                raise Refused(f"T14 no resource {name}")
        given = {lower(name): amount for name, amount in given.items()}
        amounts = []
        for k, name in enumerate(self.resources):
            own = self.capacities[k] if self.capacities is not None else None
            found = given.get(lower(name), own)
            if found is None:
                raise Refused(f"T10 no capacity {name}")
            amounts.append(found)
        return amounts

    def refuse_needs(self):
        """Refuses the first need above its capacity, unless the activity takes no time."""
        for row in self.rows:
            for name, need, amount in zip(self.resources, row["needs"], self.amounts):
                if row["duration"] and need > amount:
                    raise Refused(f"T19 line {row['line']} need {name} above {amount}")

    def refuse_cycles(self):
        """Names the cycle that starts at the least activity of the largest set in which each member
        has a predecessor in the set, and goes to the least such predecessor again and again."""
        before = {j + 2: sorted(set(row["before"])) for j, row in enumerate(self.rows)}
        caught = set(before)
        while True:
            free = {j for j in caught if not any(i in caught for i in before[j])}
            if not free:
                break
            caught -= free
        if not caught:
            return
        path, j = [], min(caught)
        while j not in path:
            path.append(j)
            j = min(i for i in before[j] if i in caught)
        cycle = path[path.index(j):][::-1]
        least = cycle.index(min(cycle))
        names = [self.seen[j - 2] for j in cycle[least:] + cycle[:least]]
        raise Refused("T11 cycle " + " ".join(names))


class Project:
    """A project with names, as its file shows it: the rows, the resources and their amounts, and the ids of
    the rows if they are in a column."""

    def __init__(self, rows, resources, amounts, ids=()):
        self.rows, self.resources, self.amounts, self.ids = rows, resources, amounts, ids

    def jobs(self):
        count = len(self.rows)
        zeros = [0] * max(1, len(self.resources))
        first = [j + 2 for j, row in enumerate(self.rows) if not row["before"]]
        jobs = [(0, first, zeros)]
        for j, row in enumerate(self.rows):
            after = [k + 2 for k, other in enumerate(self.rows) if j + 2 in other["before"]]
            jobs.append((row["duration"], after or [count + 2], row["needs"] or [0]))
        return jobs + [(0, [], zeros)]

    def text(self):
        jobs, amounts, horizon = self.jobs(), self.amounts or [0], sum(r["duration"] for r in self.rows)
        heads = "".join(f"  R {i + 1}" for i in range(len(amounts)))
        lines = [RULE, "file with basedata            : plan import", "initial value random generator: 1", RULE]
        lines += ["projects                      :  1", f"jobs (incl. supersource/sink ):  {len(jobs)}"]
        lines += [f"horizon                       :  {horizon}", "RESOURCES"]
        lines += [f"  - renewable                 :  {len(amounts)}   R"]
        lines += ["  - nonrenewable              :  0   N", "  - doubly constrained        :  0   D", RULE]
        lines += ["PROJECT INFORMATION:", "pronr.  #jobs rel.date duedate tardcost  MPM-Time"]
        lines += [f"    1{spaced(6, len(self.rows))}      0{spaced(8, horizon)}        0{spaced(8, horizon)}", RULE]
        lines += ["PRECEDENCE RELATIONS:", "jobnr.    #modes  #successors   successors"]
        for j, (_, after, _) in enumerate(jobs):
            lines.append(f"{j + 1:>4}{spaced(8, 1)}{spaced(10, len(after))}{columns(11, 3, after)}")
        lines += [RULE, "REQUESTS/DURATIONS:", "jobnr. mode duration" + heads, "-" * 72]
        for j, (duration, _, needs) in enumerate(jobs):
            lines.append(f"{j + 1:>3}{spaced(6, 1)}{spaced(5, duration)}{columns(7, 4, needs)}")
        lines += [RULE, "RESOURCEAVAILABILITIES:", heads, columns(4, 4, amounts), RULE, "PROJECT INFORMATION:"]
        lines += [f"id {j + 2} {name}" for j, name in enumerate(self.ids)]
        lines += [f"name {j + 2} {row['name']}" for j, row in enumerate(self.rows) if row["name"]]
        lines += [f"resource {k + 1} {name}" for k, name in enumerate(self.resources)]
        return "\n".join(lines + [RULE]) + "\n"


def spaced(places, n):
    return f" {n:>{places}}"


def columns(first, further, numbers):
    return "".join(spaced(first if k == 0 else further, n) for k, n in enumerate(numbers))


# ---- plain lists


def delimiter_of(text):
    """The delimiter of a text: the first of tab, semicolon and comma in its first line with content."""
    for line in text.split("\n"):
        if line.strip(BLANKS):
            return next((mark for mark in "\t;" if mark in line), ",")
    return ","


def windows_1252(data):
    """The text of bytes in Windows-1252; the bytes that it lacks are controls (WHATWG)."""
    return "".join(bytes([byte]).decode("cp1252", "ignore") or chr(byte) for byte in data)


def is_utf8(data):
    try:
        return bool(data.decode()) or True
    except UnicodeDecodeError:
        return False


def closed_records(text, delimiter):
    """The records of a text. A quote that isn't closed ends with the text."""
    found = records(text, delimiter)
    return records(text + '"', delimiter) if found and found[-1][1] is None else found


def kind_in(data):
    """The kind of list that a text is by its header: `activities`, `orders` or none."""
    text = data.removeprefix(b"\xef\xbb\xbf").decode("latin-1")
    for _, cells in closed_records(text, delimiter_of(text)):
        keys = [lower(cell.strip(BLANKS).encode("latin-1").decode("utf-8", "replace")) for cell in cells]
        if any(keys):
            if "duration" in [COLUMNS.get(key, KINDS.get(key)) for key in keys]:
                return "activities"
            return "orders" if {"order", "machine"} <= set(keys) else "none"
    return "none"


def kind_of(data):
    """The kind of list that a file is by its header, in UTF-8 or in UTF-16, or else perhaps in Windows-1252."""
    if data[:2] in MARKS:
        return kind_in(data.decode("utf-16").encode())
    found = "none" if is_utf8(data) else kind_in(windows_1252(data).encode())
    return kind_in(data) if found == "none" else found


def decoded(data):
    """The text of a file, and whether its encoding is a guess: another one than UTF-8 is UTF-16 if it
    has a mark, and else Windows-1252, if the file is a list then."""
    if is_utf8(data):
        return data.decode(), False
    is_guess = data[:2] not in MARKS
    text = windows_1252(data) if is_guess else data.decode("utf-16")
    if kind_in(text.encode()) == "none":
        raise Refused(f"T2 not text line {bad_line(data)}")
    return text, is_guess


def bad_line(data):
    """The line of the first byte that isn't UTF-8."""
    try:
        data.decode()
    except UnicodeDecodeError as error:
        return data[: error.start].count(b"\n") + 1


def capacities_of(keys, names, kinds, rows, given):
    """The columns that have a capacity, in the row of the capacities or given, and the column of ids."""
    given = [lower(name) for name in given]
    place = next((k for k, kind in enumerate(kinds) if kind == "id"), None)
    if place is None:
        place = next((k for k, key in enumerate(keys) if KINDS.get(key) == "id" and lower(names[k]) not in given), None)
    found = {k for k, name in enumerate(names) if lower(name) in given}
    for cells in rows:
        if place is not None and is_capacities(cell_at(cells, place)):
            found |= {k for k in range(len(keys)) if cell_at(cells, k) and k != place}
    return found, place


def cell_at(cells, k):
    return cells[k].strip(BLANKS) if k < len(cells) else ""


def open_columns(found, given):
    """The columns that would be resources by their headers and have no capacity, each with its header in
    lower case; all headers; and the column of ids."""
    line, cells = found[0]
    kinds, keys, names = header_of(line, cells)
    rows = [cells for _, cells in found[1:]]
    limited, place = capacities_of(keys, names, kinds, rows, given)
    kinds = settled(kinds, keys, names, rows, given)
    return {k: key for k, key in enumerate(keys) if kinds[k] == "resource" and k not in limited}, names, place


def without(found, places):
    """The records with empty cells in some columns, without those that have no content then."""
    emptied = [(line, ["" if k in places else cell for k, cell in enumerate(cells)]) for line, cells in found]
    return [(line, cells) for line, cells in emptied if any(cell.strip(BLANKS) for cell in cells)]


def depth_of(cell, is_level):
    return number_of(cell) if is_level else cell.count(".") if cell else None


def without_groups(found, given):
    """The records without groups, and without the columns that give the depths of rows."""
    columns, _, place = open_columns(found, given)
    outlines = [k for k, key in columns.items() if key in LEVELS + OUTLINES]
    kept = found
    if place is not None and outlines:
        is_level = columns[outlines[0]] in LEVELS
        depths = [depth_of(cell_at(cells, outlines[0]), is_level) for _, cells in found[1:]] + [None]
        pairs = zip(found[1:], depths, depths[1:])
        kept = found[:1] + [row for row, own, after in pairs if own is None or after is None or own >= after]
    return [(line, ["" if k in outlines else cell for k, cell in enumerate(cells)]) for line, cells in kept]


class Labels:
    """The ids and names of activities, by which the words of a list name them."""

    def __init__(self, ids, names):
        self.numbers, self.names = {}, names
        for k, name in enumerate(ids):
            self.numbers.setdefault(name, k + 2)
        self.named = {name: k + 2 for k, name in enumerate(names) if names.count(name) == 1}

    def number_of(self, word):
        """The number of the activity with this id, or of the only one with this name; if there is none, that
        for the word without FS at its end."""
        found = self.numbers.get(word, self.named.get(word))
        if found is None and word.endswith("FS"):
            found = self.numbers.get(word[:-2], self.named.get(word[:-2]))
        return found


def wait_in(word, labels):
    """The predecessor and the lag of a word such as `A+2d`, or None."""
    before, plus, lag = word.partition("+")
    digits = re.match("[0-9]*", lag)[0]
    is_lag = number_of(digits) is not None and number_of(digits) <= GREATEST and lower(lag[len(digits):]) in DAYS
    return (before, lag) if plus and before and labels.number_of(before) is not None and is_lag else None


def linked(cell, labels, waits):
    """A cell of predecessors in which the ids of waiting rows stand for waits, which are added to others."""
    words = []
    for part in re.split("[,;]", cell):
        is_behind = False
        for word in words_of(part):
            wait = wait_in(word, labels) if labels.number_of(word) is None else None
            if labels.number_of(word) is None and is_behind and lower(word) in DAYS:
                is_behind = False
                continue
            is_behind = wait is not None
            words.append(f"wait+{len(waits)}" if wait else word)
            waits += [wait] if wait else []
    return " ".join(words)


def with_waits(found, given):
    """The records with a waiting row for each wait, at their end."""
    kinds, keys, names = header_of(*found[0])
    kinds = settled(kinds, keys, names, [cells for _, cells in found[1:]], given)
    if "id" not in kinds or "predecessors" not in kinds:
        return found
    ids, at = kinds.index("id"), kinds.index("predecessors")
    rows = [cells for _, cells in found[1:] if not is_capacities(cell_at(cells, ids))]
    called = [cell_at(cells, kinds.index("name")) if "name" in kinds else "" for cells in rows]
    labels = Labels([cell_at(cells, ids) for cells in rows], called)
    if len(rows) > MOST_ROWS or any(name.startswith("wait+") for name in [*labels.numbers, *called]):
        return found
    waits, kept = [], found[:1]
    for line, cells in found[1:]:
        count = len(waits)
        if not is_capacities(cell_at(cells, ids)):
            cell = linked(cell_at(cells, at), labels, waits)
        kept.append((line, [*cells[:at], cell, *cells[at + 1 :]] if len(waits) > count else cells))
    last = found[-1][0] + sum(cell.count("\n") for cell in found[-1][1])
    for k, (before, lag) in enumerate(waits):
        cells = {"id": f"wait+{k}", "duration": lag, "predecessors": before}
        kept.append((last, [cells.get(kind, "") for kind in kinds]))
    return kept


def entries_of(cell):
    """The resources that a cell names, each with its amount as a text."""
    parts = [part.strip(BLANKS) for part in re.split("[,;\n]", cell)]
    return [entry_of(part) for part in parts if part]


def entry_of(part):
    name, _, amount = part.partition("[")
    if name and amount.endswith("]") and amount[:-1].strip(BLANKS):
        return name.strip(BLANKS), amount[:-1]
    return part, "1"


def with_assignments(found, given):
    """The records with a column for each resource in place of that with their names, if one of them has
    a capacity."""
    line, cells = found[0]
    kinds, keys, names = header_of(line, cells)
    rows = [cells for _, cells in found[1:]]
    _, ids = capacities_of(keys, names, kinds, rows, given)
    kinds = settled(kinds, keys, names, rows, given)
    limits = [row for row in rows if ids is not None and is_capacities(cell_at(row, ids))]
    given = [lower(name) for name in given]
    for k, key in enumerate(keys):
        numbers = [row for row in limits if number_of(cell_at(row, k)) is not None]
        if kinds[k] == "resource" and key in ASSIGNMENTS and key not in given and not numbers:
            return assigned(found, k, limits, [name for name in given if name not in map(lower, names)])
    return found


def assigned(found, k, limits, given):
    """The records with a column for each resource that column k names."""
    entries = [entries_of(cell_at(cells, k)) for _, cells in found[1:]]
    names = {}
    for name, _ in [entry for row in entries for entry in row]:
        names.setdefault(lower(name), name)
    if not any(cell_at(row, k) for row in limits) and not names.keys() & set(given):
        return found
    amounts = [["".join(n + " " for name, n in row if lower(name) == key) for key in names] for row in entries]
    rows = [cells[:k] + new + cells[k + 1 :] if k < len(cells) else cells
            for (_, cells), new in zip(found, [list(names.values())] + amounts)]
    return [(line, cells) for (line, _), cells in zip(found, rows)]


def plain_rows(found, given):
    """The records of the plain list, and the headers of its notes."""
    try:
        found = with_assignments(without_groups(without(found, ()), given), given)
        columns, names, _ = open_columns(found, given)
    except Refused:
        return found, []
    notes = [k for k, key in columns.items() if is_note(key, [cell_at(cells, k) for _, cells in found[1:]])]
    return with_waits(without(found, notes), given), [names[k] for k in notes]


def is_note(key, cells):
    """Whether a column that has no capacity is a note."""
    if key in ASSIGNMENTS and not any(cells) or key == "slack":
        return True
    return key not in SUCCESSORS and any(cell and number_of(cell) is None for cell in cells)


def plain_list(found, is_list, given):
    """The records as a list, or those of its plain list if it is refused, and the headers of its notes."""
    try:
        Table(found, given)
    except Refused as fault:
        if not str(fault).startswith("T11") and is_list and all(cells is not None for _, cells in found):
            return plain_rows(found, given)
    return found, []


# ---- options


class Options:
    """New words for headers, headers of columns that are left out, and a unit in thousandths of a day."""

    def __init__(self, renames=(), ignored=(), unit=None):
        self.renames, self.ignored, self.unit = renames, ignored, unit

    def words(self):
        """The options as words of the command line."""
        found = [f"--map={header}={word}" for header, word in self.renames]
        found += [f"--ignore={header}" for header in self.ignored]
        return found + ([f"--unit={self.unit / 1000:g}"] if self.unit else [])

    def refuse_missing(self, cells):
        """Refuses the first header of an option that no column has."""
        for header in [header for header, _ in self.renames] + self.ignored:
            if not any(is_header(header, cell) for cell in cells):
                raise Refused(f"T3 no column {header}")

    def header(self, cell):
        """A header as it is read."""
        if any(is_header(header, cell) for header in self.ignored):
            return ""
        return next((word for header, word in self.renames if is_header(header, cell)), cell)

    def applied(self, found, given):
        """The records as the options say."""
        if not found:
            return found
        found = [(found[0][0], [self.header(cell) for cell in found[0][1]]), *found[1:]]
        return in_unit(found, given, self.unit) if self.unit else found


def is_header(header, cell):
    return lower(header) == lower(cell.strip(BLANKS))


def decimal_in(cell):
    """The thousandths in a cell: a number up to 1,000,000 with at most two digits behind its point or comma,
    and perhaps a word for days."""
    parts = re.fullmatch(rf"([0-9]*)([.,]([0-9]*))?(?![0-9.,])[{BLANKS}]*(.*)", cell, re.S)
    if parts is None or lower(parts[4].strip(BLANKS)) not in DAYS or number_of(parts[1]) is None:
        return None
    if number_of(parts[1]) > LONGEST_SUM or parts[2] and not 1 <= len(parts[3]) <= 2:
        return None
    return 1000 * number_of(parts[1]) + (int(parts[3].ljust(3, "0")) if parts[2] else 0)


def counted(cell, unit):
    """A cell in units; one that isn't a whole number of them can't be read."""
    value = decimal_in(cell)
    if value is None:
        return cell
    return cell + "/unit" if value % unit else str(value // unit)


def scaled_link(word, labels, unit):
    """A word of predecessors with its lag in units."""
    before, plus, lag = word.partition("+")
    if labels.number_of(word) is None and plus and before and labels.number_of(before) is not None:
        return before + "+" + counted(lag, unit)
    return word


def in_unit(found, given, unit):
    """The records with durations and lags in units. Without ids, or in a list that is too long, lags stay."""
    rows = [cells for _, cells in found[1:]]
    try:
        kinds, keys, names = header_of(*found[0])
    except Refused:
        return found
    kinds = settled(kinds, keys, names, rows, given)
    ids, called = [], []
    for cells in rows if "id" in kinds else []:
        if not is_capacities(cell_at(cells, kinds.index("id"))):
            ids.append(cell_at(cells, kinds.index("id")))
            called.append(cell_at(cells, kinds.index("name")) if "name" in kinds else "")
    labels = Labels(ids, called) if len(ids) <= MOST_ROWS else Labels([], [])

    def scaled(kind, cell):
        if kind == "duration":
            return counted(cell.strip(BLANKS), unit)
        if kind == "predecessors":
            parts = [words_of(part) for part in re.split("[,;]", cell)]
            return ",".join(" ".join(scaled_link(word, labels, unit) for word in part) for part in parts)
        return cell

    return found[:1] + [(line, [scaled(kinds[k] if k < len(kinds) else "", cell) for k, cell in enumerate(cells)])
                        for line, cells in found[1:]]


def prepared(data, given, options):
    """The records that the options make of a file, and whether its encoding is a guess; nothing if a quote
    isn't closed."""
    is_guess = not is_utf8(data) and data[:2] not in MARKS
    text = data.decode() if is_utf8(data) else windows_1252(data) if is_guess else data.decode("utf-16")
    text = text.removeprefix("\ufeff")
    found = list(records(text, delimiter_of(text)))
    if any(cells is None for _, cells in found):
        return None, is_guess
    found = without(found, ())
    options.refuse_missing(found[0][1] if found else [])
    return options.applied(found, given), is_guess


def is_activities(found):
    """Whether records are a list of activities by their header."""
    return bool(found) and any(COLUMNS.get(key, KINDS.get(key)) == "duration"
                               for key in [lower(cell.strip(BLANKS)) for cell in found[0][1]])


# ---- what is printed


def list_of(data, given, options):
    """The records that are read of a file, the headers of its notes, and whether its encoding is a guess."""
    found = None
    if options:
        found, is_guess = prepared(data, given, options)
    if found is not None:
        found, ignored = plain_list(found, is_activities(found), given)
        return plain_list(found, is_activities(found), given)[0], ignored, is_guess
    text, is_guess = decoded(data)
    text = text.removeprefix("\ufeff")
    found = list(records(text, delimiter_of(text)))
    return *plain_list(found, kind_in(text.encode()) == "activities", given), is_guess


def wanted(data, given, options=None):
    """What `plan import` prints for these bytes, or the line that it refuses them with."""
    try:
        if len(data) > LONGEST_TEXT:
            raise Refused("T1 too long")
        found, ignored, is_guess = list_of(data, given, options)
        table = Table(found, given)
        ids = table.seen if table.id_at is not None else ()
        notes = ["read as Windows-1252"] * is_guess + ["ignored columns: " + ", ".join(ignored)] * bool(ignored)
        line = ("; ".join(notes) + "\n").encode() if notes else b""
        return 0, Project(table.rows, table.resources, table.amounts, ids).text().encode(), line
    except Refused as fault:
        return 1, b"", str(fault).encode() + b"\n"


# ---- drawn tables


def drawn_cell(draw, cell, delimiter):
    """A cell as a spreadsheet writes it."""
    if draw.random() < 0.2:
        cell = " " * draw.randrange(3) + cell + " " * draw.randrange(3)
    if delimiter in cell or '"' in cell or "\n" in cell or draw.random() < 0.2:
        return '"' + cell.replace('"', '""') + '"'
    return cell


NAMES = ["Roof", "Walls, north", "Fundament Süd", "Drains; old", 'The "big" one', "", "名前", "Garden"]
HEADS = {
    "duration": ["duration", "Duration", " DURATION "],
    "id": ["id", "ID"],
    "name": ["name", "task", "Task"],
    "predecessors": ["predecessors", "after", "depends on", "Depends On"],
}
NOTES = ["Notes", "Start", "Cost", "Bemerkung", "coût", "% Complete", "FIN", "descripción", "Nr", "Tâche", "Days", "Depends", "Weight", "Slack"]
CAPACITY = ["capacity", "capacity", "Capacity", "CAPACITY", "Kapazität", "KAPAZITAET", "capacité", "Capacite", "capacidad"]


def drawn_header(draw, kind, words):
    """A header of a kind, perhaps another word for it."""
    if words and draw.random() < 0.6:
        word = draw.choice(SYNONYMS[kind].split(", "))
        return word.capitalize() if draw.random() < 0.5 else word
    return draw.choice(HEADS[kind])


def drawn_case(draw, word):
    return draw.choice([word, word.upper(), word.capitalize()])


def drawn_depths(draw, count):
    """How deep the rows of a list are: each one at most 1 deeper than the one before it."""
    depths = []
    for _ in range(count):
        depths.append(draw.randrange(1, min(4, depths[-1] + 2)) if depths else 1)
    return depths


def drawn_link(draw, name):
    """A word for a predecessor, at times with a wait, and rarely one that is none."""
    if draw.random() < 0.1:
        lag = draw.choice(["0", "1", "2", "10"]) + draw.choice(["", "d", " d", "d", " days", "Tage", " JOURS"])
        return name + draw.choice(["", "FS"]) + "+" + lag
    if draw.random() < 0.02:
        return draw.choice(["Garden", "名前FS", "FS", name + "SS", name + "FS-2d", name + "+2,5d", name + "+", "+2", "d",
                            name + "+0.5", name + "+1.5d"])
    return name + ("FS" if draw.random() < 0.1 else "")


def drawn_assignments(draw):
    """A cell with names of resources."""
    words = [draw.choice(["crew0", "CREW0", "Ann", "Kran"]) + draw.choice(["", "", "[2]", " [ 1 ]", "[3]"])
             for _ in range(draw.choice([0, 1, 1, 2, 2]))]
    if draw.random() < 0.03:
        words.append(draw.choice(["[2]", "Ann[]", "Ann[ ]", "Ann[200%]", "Ann]", "Ann[1", "Ann[1]x"]))
    return draw.choice([",", "; ", "\n"]).join(words)


def drawn_table(draw):
    """A table that is mostly good, as text."""
    delimiter = draw.choice([",", ";", "\t"])
    end = draw.choice(["\n", "\r\n"])
    count = draw.choice([0, 1, 2, 3, 5, 8, 14, 40])
    resources = [draw.choice(["crew", "digger", "Kran", "bücher"]) + str(k) for k in range(draw.randrange(4))]
    kinds = ["duration"] + [k for k in ("id", "name", "predecessors") if draw.random() < 0.8] + resources
    notes = draw.sample(NOTES, draw.choice([0, 0, 1, 2, 4]))
    if draw.random() < 0.05:
        notes.append(draw.choice(["Successors", "NACHFOLGER", " successeurs", "sucesoras"]))
    outlines = [drawn_case(draw, draw.choice(LEVELS + OUTLINES))] if draw.random() < 0.15 else []
    kinds += notes + outlines
    names = draw.choice(ASSIGNMENTS).title() if draw.random() < 0.15 else None
    kinds += [names] if names else []
    draw.shuffle(kinds)
    ids = [chr(65 + k) if count <= 26 else f"a{k}" for k in range(count)]
    if "id" not in kinds:
        ids = [str(k + 1) for k in range(count)]
    depths = drawn_depths(draw, count) if outlines else [1] * count
    groups = [k for k in range(count - 1) if depths[k + 1] > depths[k] and "id" in kinds]
    words = draw.random() < 0.3
    lines = [[drawn_header(draw, k, words) if k in HEADS else k for k in kinds]]
    order = list(range(count))
    if draw.random() < 0.3 and not outlines:
        draw.shuffle(order)
    for place, k in enumerate(order):
        earlier = [i for i in order[:place] if i not in groups or draw.random() < 0.02]
        before = draw.sample(earlier, min(len(earlier), draw.randrange(4)))
        row = {"duration": str(draw.randrange(30)), "id": ids[k], "name": draw.choice(NAMES)}
        if draw.random() < 0.1:
            row["duration"] += draw.choice([",0", ".0", ""]) + draw.choice(["", " ", "  "]) + draw.choice(DAYS + ["Days"])
        if draw.random() < 0.01:
            row["duration"] += draw.choice([".5", ",00", " hrs", ",0 0", ".25 d", ",5", "."])
        kept = draw.choice([" ", ",", "; "])
        row["predecessors"] = kept.join(drawn_link(draw, ids[i]) for i in before)
        row.update({name: draw.choice(["", "0", "1", "3"]) for name in resources})
        row.update({name: draw.choice(["", "1", "2024-05-01", "see plan"]) for name in notes})
        for name in outlines:
            row[name] = str(depths[k]) if lower(name) in LEVELS else ".".join(["1"] * depths[k])
        row[names] = drawn_assignments(draw)
        if draw.random() < 0.02:
            row[draw.choice(kinds)] = draw.choice(["x", "-1", "99999", "A B", "1000000000"])
        lines.append([row[kind] for kind in kinds])
    if "id" in kinds and draw.random() < 0.9:
        row = {"id": draw.choice(CAPACITY), **{name: str(draw.randrange(3 - (draw.random() < 0.2), 9)) for name in resources}}
        row.update({name: "2" for name in notes if draw.random() < 0.1})
        row[names] = draw.choice(["", "2", "crew0[4],Ann[2]; Kran", "crew0[5], ann[1] ,Kran[2],"])
        lines.insert(draw.randrange(1, len(lines) + 1), [row.get(kind, "") for kind in kinds])
    if draw.random() < 0.2:
        lines.insert(draw.randrange(1, len(lines) + 1), [""] * len(kinds))
    for _ in range(draw.choice([0, 0, 0, 0, 1, 2])):
        lines.insert(0, [draw.choice(["", "", " ", "\t "])])
    mark = "\ufeff" if draw.random() < 0.2 else ""
    text = end.join(delimiter.join(drawn_cell(draw, cell, delimiter) for cell in line) for line in lines)
    return mark + text + (end if draw.random() < 0.8 else ""), delimiter


def drawn_options(draw, headers):
    """Options for a list with these headers, which are renamed back or left out, and a unit."""
    shown = [header.strip(BLANKS) for header in headers]
    shown = [header for header in shown if header and "=" not in header and not has_control(header)]
    renames, words = [], ["duration", "id", "after", "name", "crew0", "Note", "DURATION"]
    for header in draw.sample(shown, min(len(shown), draw.choice([0, 0, 1, 1, 2]))):
        word = draw.choice(words) if draw.random() < 0.3 else header
        renames.append((draw.choice([header, header.upper()]), word))
    ignored = draw.sample(shown, min(len(shown), draw.choice([0, 0, 0, 1])))
    if draw.random() < 0.1:
        draw.choice([ignored, [], ignored]).append(draw.choice(["Missing", "duration", "Größe"]))
    unit = draw.choice([None, None, 500, 500, 250, 1000, 2000, 100, 50, 10])
    return Options(renames, ignored, unit) if renames or ignored or unit else None


def drawn_bytes(draw, text):
    """A table in an encoding; one in UTF-8 is damaged at times."""
    way = draw.randrange(12)
    bare = text.removeprefix("\ufeff")
    if way == 0:
        return MARKS[0] + bare.encode("utf-16-le")
    if way == 1:
        return MARKS[1] + bare.encode("utf-16-be")
    if way == 2:
        return bare.encode("cp1252", "replace")
    return damaged(draw, text.encode()) if way < 6 else text.encode()


def damaged(draw, data):
    """The same bytes with one of them changed, removed or repeated."""
    if not data:
        return data
    k = draw.randrange(len(data))
    return draw.choice([
        data[:k] + bytes([draw.choice(b'",;\t\n\r A0\x00\x7f\xff')]) + data[k + 1 :],
        data[:k] + data[k + 1 :],
        data[:k] + data[k : k + 1] * 2 + data[k + 1 :],
        data[:k],
    ])


def imported(data, options=()):
    """What `plan import` prints for these bytes: the status, the output and the error line."""
    done = subprocess.run([PROGRAM, "import", *options, "-"], input=data, capture_output=True, timeout=60)
    return done.returncode, done.stdout, done.stderr


def project_of(told):
    """The project that a file of tests/tables describes."""
    rows = [{"name": a["name"], "duration": a["duration"], "before": a["predecessors"], "needs": a["needs"]}
            for a in told["activities"]]
    names, amounts = [r["name"] for r in told["resources"]], [r["capacity"] for r in told["resources"]]
    return Project(rows, names, amounts, [a["id"] for a in told["activities"] if "id" in a])


def answer_of(stem):
    """What `plan import` prints for a table of tests/tables."""
    if os.path.exists(stem + ".error"):
        with open(stem + ".error", "rb") as file:
            return 1, b"", file.read().rstrip(b"\n") + b"\n"
    with open(stem + ".json", encoding="utf-8") as file:
        return 0, project_of(json.load(file)).text().encode(), b""


def options_of(stem):
    """The options for a table of tests/tables, one in a line."""
    if not os.path.exists(stem + ".options"):
        return []
    with open(stem + ".options", encoding="utf-8") as file:
        return file.read().split("\n")[:-1]


def try_worked_tables():
    """Compares the tables of tests/tables with the projects and the error lines beside them."""
    names = [folder + name for folder in ("", "options/") for name in os.listdir(os.path.join(TABLES, folder))]
    for name in sorted(name[:-4] for name in names if name.endswith(".csv")):
        stem = os.path.join(TABLES, name)
        with open(stem + ".csv", "rb") as file:
            answer = imported(file.read(), options_of(stem))
        if answer != answer_of(stem):
            raise Wrong(f"tests/tables/{name}.csv gave {answer!r}\n  not {answer_of(stem)!r}")


def try_drawn_tables(count, seed):
    draw = random.Random(seed)
    for n in range(count):
        text, delimiter = drawn_table(draw)
        found = records(text.removeprefix("\ufeff"), delimiter)
        if not same_as_module(text.removeprefix("\ufeff"), delimiter, found):
            raise Wrong(f"table {n}: the model's records differ from those of Python's module csv")
        data = drawn_bytes(draw, text)
        given = {draw.choice(["crew0", "CREW0"]): draw.randrange(9)} if draw.random() < 0.2 else {}
        headers = next((cells for _, cells in found if cells and any(cell.strip(BLANKS) for cell in cells)), [])
        options = drawn_options(draw, headers) if draw.random() < 0.2 else None
        words = [f"--capacity={name}={amount}" for name, amount in given.items()] + (options.words() if options else [])
        answer, right = imported(data, words), wanted(data, given, options)
        if answer != right:
            raise Wrong(f"table {n} of seed {seed}, {words}: {data!r}\n  gave {answer!r}\n  not {right!r}")


def main():
    parser = argparse.ArgumentParser(prog="tests/trials/tables.py")
    parser.add_argument("--tables", type=int, default=5000, help="how many tables")
    parser.add_argument("--seed", type=int, default=1, help="where the tables begin")
    words = parser.parse_args()
    try:
        try_worked_tables()
        try_drawn_tables(words.tables, words.seed)
    except Wrong as wrong:
        sys.exit(str(wrong))


if __name__ == "__main__":
    main()
