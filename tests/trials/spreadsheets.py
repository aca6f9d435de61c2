"""Compares the spreadsheets of tests/trials/spreadsheets with what their README.md expects: by a
reader in Python, and by `plan import`.

The reader knows the rules of docs/lists.md, and shares nothing with the program.
"""

import csv
import io
import itertools
import os
import re
import subprocess

import tables
from programs import PROGRAM, Wrong

FOLDER = os.path.join(os.path.dirname(os.path.abspath(__file__)), "spreadsheets")

KINDS = {
    "duration": "duration|days|work days|dauer|durée|duree|duración|duracion",
    "id": "id|nr|nr.|no|no.|number|activity id|task id",
    "name": "name|task|task name|activity|name der aufgabe|vorgangsname|vorgang|bezeichnung|nom"
    "|nom de la tâche|tâche|nombre|nombre de tarea|tarea",
    "predecessors": "predecessors|after|depends on|predecessor|depends|dependencies|vorgänger"
    "|vorgaenger|prédécesseurs|predecesseurs|predecesoras",
}
# Headers of columns that are ignored without a note on them.
NOTES = set(
    "note|notes|remark|remarks|comment|comments|description|details|status|priority|start|finish"
    "|start date|finish date|begin date|end date|due date|completion|% complete|cost|coordinator"
    "|responsible|owner|assignee|web link|bemerkung|bemerkungen|notiz|notizen|kommentar|kommentare"
    "|beschreibung|anfang|ende|kosten|verantwortlich|remarque|remarques|commentaire|commentaires"
    "|début|fin|coût|responsable|nota|notas|comentario|comentarios|descripción|inicio|coste".split("|")
)
OUTLINES = {"outline level", "gliederungsebene", "outline number", "gliederungsnummer", "wbs", "psp-code"}
DAYS = re.compile(r"(\d{1,9})(?:[.,]0)?\s*(?:d|days?|tage?|jours?|días?)?", re.IGNORECASE)
WAIT = re.compile(r"([^+]*)\+(\d{1,9})(?:d|days?|tage?|jours?|días?)?", re.IGNORECASE)
UNIT = re.compile(r"d|days?|tage?|jours?|días?", re.IGNORECASE)


class Line(Exception):
    """The error line of a list."""


# ---- the expected results


def expected():
    """What README.md says of each file: a pair of a kind and its content."""
    with open(os.path.join(FOLDER, "README.md"), encoding="utf-8") as file:
        sections = re.split(r"(?m)^## ", file.read())[1:]
    return {name: said(body) for head, body in map(parts, sections) for name in head.split(", ")}


def parts(section):
    head, _, body = section.partition("\n")
    return head, body


def said(body):
    """What a section says of its files."""
    for kind in ("Line", "Workbook"):
        found = re.search(rf"(?m)^{kind}: (.*)$", body)
        if found:
            return kind, found[1]
    lines = [line for line in body.split("\n") if line.startswith("|")]
    head, _, *rows = [[cell.strip() for cell in line[1:-1].split("|")] for line in lines]
    resources = [re.fullmatch(r"(.*) \((\d+)\)", name).groups() for name in head[4:]]
    activities = [
        (int(number), name, int(days), [int(j) for j in before.split()], [int(n) for n in needs])
        for number, name, days, before, *needs in rows
    ]
    shortest = int(re.search(r"(?m)^Shortest: (\d+)$", body)[1])
    return "Project", (activities, [(name, int(most)) for name, most in resources], shortest)


# ---- the reader


def workbook_of(data):
    """The kind of a workbook, by its first bytes and the names in it."""
    if data.startswith(b"PK\x03\x04"):
        if data[30:].startswith(b"mimetypeapplication/vnd.oasis.opendocument"):
            return "OpenDocument"
        if data[30:].startswith(b"xl/") or b"[Content_Types].xml" in data:
            return "Excel"
    if data.startswith(bytes.fromhex("D0CF11E0A1B11AE1")):
        return "Project" if b"MSProject." in data else "OldExcel"
    return None


def decoded(data):
    """The text of a file in any of the encodings, and whether its encoding is a guess."""
    if data[:2] in (b"\xff\xfe", b"\xfe\xff"):
        return data.decode("utf-16", "replace"), False
    try:
        return data.decode("utf-8-sig"), False
    except UnicodeDecodeError:
        return data.decode("cp1252", "replace"), True


def text_of(data):
    return decoded(data)[0]


def records(text):
    """The records that have a cell with content, each with the line in which it begins."""
    head = text.lstrip().partition("\n")[0]
    separator = next((mark for mark in "\t;" if mark in head), ",")
    reader = csv.reader(io.StringIO(text, newline=""), delimiter=separator)
    first = 1
    for cells in reader:
        cells = [cell.strip() for cell in cells]
        if any(cells):
            yield first, cells
        first = reader.line_num + 1


def kind_of(name):
    found = [kind for kind, words in KINDS.items() if name.lower() in words.split("|")]
    return found[0] if found else None


def columns_of(head, rows):
    """The columns: the place of each kind, and the resources with their places and capacities."""
    places = {}
    for place, name in enumerate(head):
        places.setdefault(kind_of(name), place)
    places.pop(None, None)
    others = others_of(head, rows, places.get("id"))
    return places, [(place, name, most) for place, name, most, has_text in others if most or not has_text]


def others_of(head, rows, ids):
    """The columns of no kind: the place, the header, the capacity, and whether a cell has a text.
    Words for notes and depths of rows are columns of their own if they have no capacity."""
    given = [cells for _, cells in rows if ids is not None and tables.is_capacities(cells[ids])]
    for place, name in enumerate(head):
        most = given[0][place] if given and place < len(given[0]) else ""
        if name and kind_of(name) is None and (most or name.lower() not in NOTES | OUTLINES):
            cells = [cells[place] for _, cells in rows if place < len(cells)]
            yield place, name, most, any(not cell.isdecimal() for cell in cells if cell)


def notes_of(data):
    """The line of notes on a list: a guess of its encoding, and the headers of its ignored columns."""
    text, is_guess = decoded(data)
    (_, head), *rows = records(text)
    ids = columns_of(head, rows)[0].get("id")
    ignored = [name for _, name, most, has_text in others_of(head, rows, ids) if has_text and not most]
    found = ["read as Windows-1252"] * is_guess + ["ignored columns: " + ", ".join(ignored)] * bool(ignored)
    return ("; ".join(found) + "\n").encode() if found else b""


def days_of(cell, line):
    found = DAYS.fullmatch(cell)
    if not found:
        raise Line(f"T5 line {line} duration")
    return int(found[1])


def project_of(text):
    """The project of a list, or the error line."""
    (_, head), *rows = records(text)
    places, resources = columns_of(head, rows)
    if "duration" not in places:
        raise Line("T3 no column duration")
    ids = places.get("id")
    named = [cells[ids] if ids is not None else str(k + 1) for k, (_, cells) in enumerate(rows)]
    activities = [(name, row) for name, row in zip(named, rows) if not tables.is_capacities(name)]
    numbers = {name: k + 2 for k, (name, _) in enumerate(activities)}
    waits = []
    found = [activity_of(numbers, name, *row, places, resources, waits) for name, row in activities]
    for number, days in waits:
        found.append((len(found) + 2, "", days, [number], [0] * len(resources)))
    for _, name, most in resources:
        if not most:
            raise Line(f"T10 no capacity {name}")
    return found, [(name, int(most)) for _, name, most in resources]


def ids_of(text, count):
    """The ids of so many activities, if the list has a column of them. Those that it lacks are
    waits, which follow the rows."""
    (_, head), *rows = records(text)
    place = columns_of(head, rows)[0].get("id")
    if place is None:
        return []
    found = [cells[place] for _, cells in rows if not tables.is_capacities(cells[place])]
    return found + [f"wait+{k}" for k in range(count - len(found))]


def numbers_in(cell, line, numbers, waits):
    """The numbers of the predecessors in a cell. A wait is an activity behind all others."""
    found = []
    for part in re.split(r"[,;\n]", cell):
        behind = False
        for word in part.split():
            if named(word, numbers):
                found.append(named(word, numbers))
            elif not (behind and UNIT.fullmatch(word)):
                found.append(wait_number(word, line, numbers, waits))
                behind = True
                continue
            behind = False
    return found


def wait_number(word, line, numbers, waits):
    """The number of the activity that stands for a wait."""
    wait = WAIT.fullmatch(word)
    if not wait or not named(wait[1], numbers):
        raise Line(f"T8 line {line} predecessor {word}")
    waits.append((named(wait[1], numbers), int(wait[2])))
    return len(numbers) + 1 + len(waits)


def named(word, numbers):
    """The number of the activity that a word names, perhaps with FS behind it."""
    return numbers.get(word) or numbers.get(word.removesuffix("FS"))


def activity_of(numbers, own, line, cells, places, resources, waits):
    def cell(place):
        return cells[place] if place is not None and place < len(cells) else ""

    name = cell(places.get("name"))
    if "\n" in name:
        raise Line(f"T2 not text line {line}")
    days = days_of(cell(places["duration"]), line)
    before = numbers_in(cell(places.get("predecessors")), line, numbers, waits)
    needs = [int(cell(place) or 0) for place, _, _ in resources]
    return numbers[own], name, days, before, needs


def shortest(activities, resources):
    """The least makespan: the least one of all orders of the activities, each placed as early as it
    fits."""
    return min(makespan(order, resources) for order in itertools.permutations(activities))


def makespan(order, resources):
    spans, ends = [], {}
    for number, _, days, before, needs in order:
        if any(j not in ends for j in before):
            return float("inf")
        start = max((ends[j] for j in before), default=0)
        while not fits(spans, start, days, needs, resources):
            start += 1
        spans.append((start, start + days, needs))
        ends[number] = start + days
    return max(ends.values())


def fits(spans, start, days, needs, resources):
    for t in range(start, start + days):
        for k, (_, most) in enumerate(resources):
            if needs[k] + sum(other[k] for a, b, other in spans if a <= t < b) > most:
                return False
    return True


def read(data):
    """What the reader makes of a file, in the form of the expected results."""
    kind = workbook_of(data)
    if kind:
        return "Workbook", kind
    try:
        activities, resources = project_of(text_of(data))
    except Line as line:
        return "Line", str(line)
    return "Project", (activities, resources, shortest(activities, resources))


# ---- the program


def ran(*arguments, data=b""):
    """What the program does: its status, output and error line."""
    done = subprocess.run([PROGRAM, *arguments], input=data, capture_output=True, timeout=60)
    return done.returncode, done.stdout, done.stderr


def is_imported(path, activities, resources, least):
    """Whether a file becomes this project, with its line of notes, and the least makespan of the
    project is found and proved."""
    rows = [dict(zip(("name", "duration", "before", "needs"), row[1:])) for row in activities]
    names, amounts = [name for name, _ in resources], [most for _, most in resources]
    with open(path, "rb") as file:
        data = file.read()
    ids = ids_of(text_of(data), len(rows))
    text = tables.Project(rows, names, amounts, ids).text().encode()
    if ran("import", path) != (0, text, notes_of(data)):
        return False
    status, output, _ = ran("solve", "-", data=text)
    return status == 0 and output.startswith(b"optimal %d\n" % least)


def compare(path, want):
    """Compares the program with what is expected of a file."""
    kind, content = want
    if kind == "Project":
        good = is_imported(path, *content)
    else:
        status, output, line = ran("import", path)
        start = content.encode() if kind == "Line" else b""
        good = status == 1 and not output and line.startswith(start)
    if not good:
        raise Wrong(f"{path}: expected {want}, got {ran('import', path)}")


def try_spreadsheets(room):
    """Reads each spreadsheet, and has the program import it."""
    wanted = expected()
    files = {name for name in os.listdir(FOLDER) if not name.endswith((".md", ".py"))}
    if files != wanted.keys():
        raise Wrong(f"README.md and the files differ: {files ^ wanted.keys()}")
    for name, want in wanted.items():
        path = os.path.join(FOLDER, name)
        with open(path, "rb") as file:
            found = read(file.read())
        if found != want:
            raise Wrong(f"{name}: expected {want}, read {found}")
        compare(path, want)
