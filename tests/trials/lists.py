#!/usr/bin/env python3
"""Hands lists in where commands take a project or a job shop file. Each command answers for a list as
for the file that `plan import` makes of it, with the names; a list that `plan import` refuses is
refused with the same line. Commands that read no lists refuse them as before. `plan import` needs no
`--shop` for a list of orders.

    tests/trials/lists.py               200 lists; prints nothing on success
    tests/trials/lists.py CASES SEED    so many, drawn from this seed

A list is drawn with names, quotes, blanks and all three delimiters; one in four is damaged at some
byte, and is then often read as Windows-1252. A list means the same in each encoding. For a list of orders the
tables lack the steps of time 0, which the trial takes from the job shop file, and such a table is read
as all starts. Notes on a list
follow the output of each command. The verdict of `plan check` on a list is that on its file, with ids
and names in the place of the numbers. The program is the one that ./plan runs, or the one that
PLAN_PROGRAM names.
"""

import collections
import csv
import io
import json
import os
import re
import sys
import tempfile
from random import Random

sys.dont_write_bytecode = True
sys.path.insert(0, os.path.dirname(os.path.abspath(__file__)))

from answers import plan, same, written
from drawing import Draw
from drawing.words import PROJECT_RULES, SHOP_RULES
from holidays import MARKS, STARTS
from tables import damaged, drawn_table, is_utf8, kind_in, kind_of

# The commands that need the file of a project or of a job shop.
PLAIN = (["cpm"], ["schedule", "lft"], ["best-project", "100"])
SHOP_PLAIN = (["shop", "mwkr"], ["best", "100"], ["prove", "100"])


# Lists that every command refuses, each with its line.
LINES = {
    b"duration\n3 hrs\n": b"T5 line 2 duration\n",
    b"name,duration\nDig,2\nWall,1.5\n": b"T5 line 3 duration\n",
    b"Dauer;Vorgang\n4,000;Aushub\n": b"T5 line 2 duration\n",
    b"duration\n2\n\n4 Std.\n": b"T5 line 4 duration\n",
    b"id;duration;Nachfolger\nA;2;B\nB;1;\n": b"T16 column Nachfolger\n",
    b"duration,successors\n2,2\n1,\n": b"T16 column successors\n",
    b"id,duration,crew\nA,2,2\nB,1,3\ncapacity,,2\n": b"T19 line 3 need crew above 2\n",
}


# Lists with notes, each with its line of notes.
NOTED = {
    "duration,Boss\n2,Ann\n1,\n": b"ignored columns: Boss\n",
    "id;Dauer;Zust\u00e4ndig\nA;2;Bj\u00f6rn\n": "ignored columns: Zust\u00e4ndig\n".encode(),
    "duration\tSite, old\tcrew\n1\tnorth\t\n2\t\ttwo\n": b"ignored columns: Site, old, crew\n",
}

# Files that aren't texts, each with its line.
WORKBOOKS = {
    b"PK\x03\x04" + bytes(26) + b"[Content_Types].xml": b"T18 an Excel workbook: save it as CSV UTF-8\n",
    b"PK\x03\x04" + bytes(26) + b"mimetypeapplication/vnd.oasis.opendocument.spreadsheet":
        b"T18 an OpenDocument spreadsheet: save it as CSV UTF-8\n",
    bytes.fromhex("D0CF11E0A1B11AE1") + bytes(600): b"T18 an Excel 97-2003 workbook: save it as CSV UTF-8\n",
}

GUESS = b"read as Windows-1252"


# ---- what is drawn


def orders_text(draw):
    """A list of orders, mostly a good one."""
    lines = [draw.pick(("order,machine,time", "Order, Machine ,TIME", "order,machine,time,machine,time"))]
    for order in draw.pick((("A",), ("A", "B"), ("Büro", "Lager, süd", "C"), ("a b",))):
        shown = f'"{order}"' if "," in order else order
        for machine in draw.random.sample(("saw", "press", "Ofen"), draw.number(1, 3)):
            lines.append(f"{shown},{machine},{draw.pick(('1', '2', '3', '5', '0', '4', '10001', 'x'))}")
    for _ in range(draw.pick((0, 0, 1, 2))):
        lines.insert(0, draw.pick(("", ",,", " , ,")))
    return "\n".join(lines) + "\n"


def drawn_list(draw, is_shop):
    """A list, and whether it was damaged."""
    data = (orders_text(draw) if is_shop else drawn_table(draw.random)[0]).encode()
    return damaged(draw.random, data) if draw.chance(0.25) else data


# ---- commands


def rows_of(draw):
    """Options of the rows for a list, and those with which its project file gives the same."""
    return draw.pick((
        ([], ["--names"]),
        (["--names"], ["--names"]),
        (["--format", "csv"], ["--format", "csv"]),
        (["--format", "json"], ["--format", "json"]),
    ))


def named_commands(draw, is_shop, starts):
    """The commands that print rows with names: their words up to FILE, and those behind INSTANCE."""
    rule = draw.pick(SHOP_RULES if is_shop else PROJECT_RULES)
    found = [
        (["solve", "--conflicts", "50"], []),
        (["chart", rule], []),
        (["chart", "--solve", "--seconds", "10"], []),
        (["days", rule, STARTS[0], MARKS[0]], []),
        (["compare"], [starts, starts]),
    ]
    return found if is_shop else [*found, (["slack"], [starts])]


def plain_commands(draw, is_shop, starts):
    """The commands whose output has names without an option, or none."""
    rule = draw.pick(SHOP_RULES if is_shop else PROJECT_RULES)
    return [
        (["days", "--format", "ics", rule, STARTS[0], MARKS[0]], []),
        (["report", "--title", "list"], []),
        (["report", "--title", "list", "--start", "2024-03-01", "--days", MARKS[0]], []),
        (["report", "--title", "list", "--solve"], []),
        (["chart", "--svg", rule], []),
    ]


def words_on(command, file, instance, options=()):
    """The words of a command on a file."""
    front, behind = command
    return [front[0], *options, *front[1:], file, *behind, *instance]


def is_quick(command, made):
    """That a command doesn't search a large file: a search that its limit ends may print another
    schedule each time."""
    return "--solve" not in command[0] or len(made) < 2600


def starts_table(folder, is_shop, made):
    """A file of starts: those of a schedule by a rule, if there is one."""
    words = ["shop", "mwkr", made, "shop"] if is_shop else ["schedule", "lft", made]
    return written(folder, "starts", plan(folder, *words)[1] or b"0\n")


def without_idle_steps(page):
    """A report of a job shop without the rows of steps that take no time."""
    def is_idle(row):
        return re.findall(rb"<td[^>]*>([^<]*)</td>", row)[2:3] == [b"0"]

    return b"".join(line for line in page.splitlines(keepends=True) if not (line.startswith(b"<tr><th scope=\"row\"") and is_idle(line)))


class Steps:
    """The steps of the job shop file that is made of a list of orders: by the numbers of the job and
    the step, the time and the name of the machine."""

    def __init__(self, made):
        lines = [line for line in made.decode().split("\n") if line]
        machines = dict(line.split(" ", 3)[2:] for line in lines if line.startswith("+ machine "))
        at = lines.index("plan import")
        jobs = [[int(word) for word in line.split()] for line in lines[at + 2:]]
        self.times, self.machines = {}, {}
        for job, cells in enumerate(jobs, 1):
            for step, (machine, time) in enumerate(zip(cells[::2], cells[1::2]), 1):
                self.times[job, step] = time
                self.machines[job, step] = machines[str(machine)]

    def in_text(self, text):
        """A table as text, without the rows of steps that take no time."""
        def is_idle(line):
            words = line.split()[:2]
            return len(words) == 2 and all(map(bytes.isdigit, words)) and not self.times[tuple(map(int, words))]

        return b"".join(line for line in text.splitlines(keepends=True) if not is_idle(line))

    def in_csv(self, text):
        """The records of a table as CSV, with the machines."""
        head, *rows = csv.reader(io.StringIO(text.decode(), newline=""))
        keys = [(int(row[0]), int(row[1])) for row in rows]
        return [[*head, "resources"], *([*row, self.machines[key]] for key, row in zip(keys, rows) if self.times[key])]

    def in_json(self, text):
        """The value of a table as JSON, with the machines."""
        value = json.loads(text)
        for row in value["rows"]:
            row["resources"] = self.machines[row["job"], row["step"]]
        value["rows"] = [row for row in value["rows"] if self.times[row["job"], row["step"]]]
        return value

    def shown(self, options, output):
        """The output for a job shop file as that for the list."""
        if not output or "--format" not in options:
            return self.in_text(output)
        return self.in_csv(output) if "csv" in options else self.in_json(output)

    def drawn(self, options, output):
        """The chart of a job shop file as that of the list: CSV and JSON have no bars of steps that
        take no time."""
        if not output or "--format" not in options:
            return output
        if "csv" in options:
            head, *rows = csv.reader(io.StringIO(output.decode(), newline=""))
            return [head, *(row for row in rows if self.times[int(row[1]), int(row[2])])]
        value = json.loads(output)
        for row in value["rows"]:
            row["bars"] = [bar for bar in row["bars"] if self.times[bar["job"], bar["step"]]]
        return value

    def read(self, options, output):
        """The output for the list, in the form of the one above."""
        if not output or "--format" not in options:
            return output
        text = output.decode()
        return list(csv.reader(io.StringIO(text, newline=""))) if "csv" in options else json.loads(text)

    def starts(self, rows):
        """All starts in flat order, by those of the steps that take time."""
        found, end = [], 0
        for job, step in sorted(self.times):
            end = 0 if step == 1 else end
            start = rows[job, step] if self.times[job, step] else end
            end = start + self.times[job, step]
            found.append(start)
        return found


# The commands on a list of orders whose tables have a row for each step.
STEP_TABLES = ("solve", "days", "compare")


# The commands on a list whose tables as text have columns that those on its file lack.
LINKED = ("solve", "days", "compare", "slack")
TAIL = re.compile(r"(?:makespan|chain|moved|added|removed) ")
LINK_HEADS = re.compile(r" +resources(?: +predecessors)?(?= |$)")


def without_links(text):
    """A table as text without the columns of the resources and the predecessors. Marks of critical
    activities stand before these columns, and the head of a table without names has no place for them."""
    lines = text.decode().split("\n")
    heads = [LINK_HEADS.search(line) for line in lines]
    at = next((at for at, found in enumerate(heads) if found), None)
    if at is not None:
        first, last = heads[at].span()
        first += 2 if " slack " in lines[at][:first + 1] else 0
        lines[at:] = [line if TAIL.match(line) or len(line) <= first else (line[:first] + line[last:]).rstrip() for line in lines[at:]]
    return re.sub(" slack +name", " slack name", "\n".join(lines)).encode()


def compare_command(what, folder, command, instances, options, made_folder, notes, steps=None):
    """That a command answers for a list as for the file that is made of it, with the notes on the list
    behind an output. Tables, charts and the report of a list of orders have no steps that take no time."""
    named, plainly = options
    own, other = instances
    found = plan(folder, *words_on(command, "list.csv", own, named))
    status, output, errors = plan(made_folder, *words_on(command, "list.csv", other, plainly))
    if command[0][0] == "report" and other:
        output = without_idle_steps(output)
    notes = errors + notes if output else errors
    if command[0][0] in LINKED and "--format" not in [*named, *command[0]]:
        found, output = (found[0], without_links(found[1]), found[2]), without_links(output)
    if steps and command[0][0] in STEP_TABLES and "ics" not in command[0]:
        found = (found[0], steps.read(named, found[1]), found[2])
        output = steps.shown(plainly, output)
    if steps and command[0][0] == "chart" and "--svg" not in command[0]:
        found = (found[0], steps.read(named, found[1]), found[2])
        output = steps.drawn(plainly, output)
    same(f"{what}: {command}", found, (status, output, notes))


def try_short_starts(what, folder, steps):
    """That a table of a list of orders, which lacks the steps that take no time, is read as all starts
    of its schedule."""
    output = plan(folder, "solve", "--format", "json", "list.csv")[1]
    rows = {(row["job"], row["step"]): row["start"] for row in json.loads(output)["rows"]}
    numbers = " ".join(map(str, steps.starts(rows))).encode() + b"\n"
    written(folder, "numbers", numbers)
    for form in ([], ["--format", "csv"], ["--format", "json"]):
        written(folder, "short", plan(folder, "solve", *form, "list.csv")[1])
        for front, behind in (
            (["check", "list.csv"], []),
            (["chart", "--starts"], ["list.csv"]),
            (["days", "--starts"], [STARTS[0], MARKS[0], "list.csv"]),
            (["report", "--title", "list", "--starts"], ["list.csv"]),
        ):
            wanted = plan(folder, *front, "numbers", *behind)
            same(f"{what}: {front} of a short table", plan(folder, *front, "short", *behind), wanted)
            same(f"{what}: {front} of numbers", wanted[0], 0)
        same(f"{what}: compare", plan(folder, "compare", "list.csv", "short", "numbers"),
             plan(folder, "compare", "list.csv", "numbers", "numbers"))


def named_in(made, key):
    """The names behind a key in the file that is made of a list, by their numbers."""
    lines = (line.removeprefix(key).split(" ", 1) for line in made.split("\n") if line.startswith(key))
    return {int(words[0]): words[1] for words in lines}


def named_verdict(made, line):
    """The verdict of `plan check` on the file that is made of a list as that on the list: with the ids
    and the names in the file."""
    ids, names, resources, jobs, machines = (
        named_in(made, key) for key in ("id ", "name ", "resource ", "+ job ", "+ machine "))

    def activity(word):
        own = [known[int(word)] for known in (ids, names) if int(word) in known]
        return " ".join(own) or f"activity {word}"

    numbers = re.findall(r"\d+", line)
    if re.fullmatch(r"activity \d+ starts before \d+ ends", line):
        has_label = any(int(word) in known for word in numbers for known in (ids, names))
        return f"{activity(numbers[0])} starts before {activity(numbers[1])} ends" if has_label else line
    if re.fullmatch(r"activity \d+ can start earlier", line):
        return f"{activity(numbers[0])} can start earlier"
    for word, known in (("resource", resources), ("job", jobs), ("machine", machines)):
        line = re.sub(rf"\b{word} (\d+)", lambda found: known.get(int(found[1]), found[0]), line)
    return line


def moved(draw, starts):
    """Starts of which some are others."""
    starts = list(starts)
    for _ in range(draw.pick((0, 1, 1, 2))):
        place = draw.number(0, len(starts) - 1)
        starts[place] = max(0, starts[place] + draw.number(-3, 4))
    return starts


def rule_starts(made_folder, is_shop, made):
    """All starts of a schedule by a rule, in the order of the file that is made of a list."""
    words = ["shop", "--format", "json", "mwkr", "list.csv", "shop"] if is_shop else ["schedule", "lft", "list.csv"]
    status, output, _ = plan(made_folder, *words)
    if status:
        return []
    if is_shop:
        return [row["start"] for row in json.loads(output)["rows"]]
    rows = [line.split() for line in output.decode().split("\n")[1:]]
    return [int(words[2]) for words in rows if words and words[0].isdigit()]


def try_checks(draw, what, folder, is_shop, made_folder, made, notes):
    """That `plan check` calls the verdict on a list by its ids and names, and that it has the status of
    the verdict on the file that is made of the list."""
    instance, starts = ["shop"] if is_shop else [], rule_starts(made_folder, is_shop, made)
    for _ in range(3 if starts else 0):
        numbers = " ".join(map(str, moved(draw, starts))).encode() + b"\n"
        for place in (folder, made_folder):
            written(place, "numbers", numbers)
        status, output, _ = plan(made_folder, "check", "--status", "list.csv", "numbers", *instance)
        line = named_verdict(made.decode(), output.decode().removesuffix("\n"))
        form, asked = draw.pick(([], ["--format", "csv"], ["--format", "json"])), draw.pick(([], ["--status"]))
        words = ["check", *asked, *form, "list.csv", "numbers"]
        found = plan(folder, *words)
        same(f"{what}: {words}", (found[0], verdict_in(form, found[1]), found[2]), (status if asked else 0, line, notes))


def verdict_in(form, output):
    """The verdict in an output."""
    text = output.decode()
    if "csv" in form:
        (head,), (line,) = csv.reader(io.StringIO(text, newline=""))
        same("the column of a verdict", head, "verdict")
        return line
    return json.loads(text)["rows"][0]["verdict"] if form else text.removesuffix("\n")


def capacities_of(draw, is_shop):
    """Options with capacities by name, at times of a resource that the list lacks."""
    if is_shop or draw.chance(0.7):
        return []
    return [f"--capacity={draw.pick(('crew0', 'digger1', 'R1', 'none'))}={draw.number(0, 9)}"]


def try_made(draw, what, folder, is_shop, made, notes):
    """Compares the commands on a list of which a file can be made, with its notes."""
    made_folder = os.path.join(folder, "made")
    os.makedirs(made_folder, exist_ok=True)
    written(made_folder, "list.csv", made)
    starts = starts_table(made_folder, is_shop, "list.csv")
    with open(os.path.join(made_folder, starts), "rb") as file:
        written(folder, starts, file.read())
    steps = Steps(made) if is_shop else None
    if steps and len(made) < 2600:
        try_short_starts(what, folder, steps)
    own = draw.pick(([], ["-"], ["shop"])) if is_shop else []
    other = ["shop"] if is_shop else []
    commands = named_commands(draw, is_shop, starts)
    for command in filter(lambda command: is_quick(command, made), commands):
        named, plainly = rows_of(draw)
        given = [] if command[0][0] == "compare" else capacities_of(draw, is_shop)
        given = (named + given, plainly + given)
        compare_command(what, folder, command, (own, other), given, made_folder, notes, steps)
    commands = plain_commands(draw, is_shop, starts)
    for command in filter(lambda command: is_quick(command, made), commands):
        if command[0][:2] == ["chart", "--svg"] and is_shop:
            own = ["shop"]
        compare_command(what, folder, command, (own, other), ([], []), made_folder, notes)
    try_checks(draw, what, folder, is_shop, made_folder, made, notes)


def try_refused(what, folder, is_shop, answer):
    """That the commands refuse a list with the line of `plan import`."""
    starts = written(folder, "starts", b"0\n")
    rule = "mwkr" if is_shop else "lft"
    commands = [(["solve"], []), (["chart", rule], []), (["days", rule, STARTS[0], MARKS[0]], []), (["report"], [])]
    for command in [*commands, (["check"], [starts]), (["check", "--status"], [starts]), (["slack"], [starts])]:
        same(f"{what}: {command}", plan(folder, *words_on(command, "list.csv", [])), answer)


def try_plain(what, folder, is_shop):
    """That the commands that read no lists refuse a list with an error of its file."""
    for words in SHOP_PLAIN if is_shop else PLAIN:
        instance = ["shop"] if is_shop else []
        status, output, errors = plan(folder, *words, "list.csv", *instance)
        same(f"{what}: {words}", (status, output, errors[:1]), (1, b"", b"F"))


def try_list(draw, folder):
    is_shop = draw.chance(0.4)
    data = drawn_list(draw, is_shop)
    what, kind = f"{data!r}"[:3000], kind_of(data)
    written(folder, "list.csv", data)
    try_plain(what, folder, is_shop)
    if kind == "none":
        status, output, errors = plan(folder, "solve", "list.csv")
        same(f"{what}: solve", (status, output, errors[:1]), (1, b"", b"F"))
        return kind
    is_shop = kind == "orders"
    answer = plan(folder, "import", "list.csv")
    if is_shop:
        same(f"{what}: import --shop", plan(folder, "import", "--shop", "list.csv"), answer)
    if answer[0]:
        try_refused(what, folder, is_shop, answer)
        return f"refused {kind}"
    try_made(draw, what, folder, is_shop, answer[1], answer[2])
    return f"{kind} with notes" if answer[2] else kind


def try_encodings(draw, folder):
    """That a list has the same answer in UTF-8, in UTF-16 and in Windows-1252."""
    text = drawn_table(draw.random)[0].removeprefix("\ufeff")
    if kind_in(text.encode()) != "activities":
        return
    written(folder, "list.csv", text.encode())
    wanted = plan(folder, "import", "list.csv")
    for encoding in ("utf-16", "utf-16-be", "cp1252"):
        mark = b"\xfe\xff" if encoding == "utf-16-be" else b""
        try:
            data = mark + text.encode(encoding)
        except UnicodeEncodeError:
            continue
        written(folder, "list.csv", data)
        status, output, errors = plan(folder, "import", "list.csv")
        notes = b"" if is_utf8(data) or encoding != "cp1252" else GUESS + b"\n"
        errors = errors.replace(GUESS + b"; ", b"").replace(notes, b"") if notes and not status else errors
        same(f"{data!r}"[:3000], (status, output, errors), wanted)


def try_capacity_of_orders():
    """That a capacity for a list of orders is refused, since a job shop has no resources."""
    with tempfile.TemporaryDirectory() as folder:
        written(folder, "list.csv", b"order,machine,time\nA,saw,2\n")
        found = plan(folder, "solve", "--capacity", "saw=2", "list.csv")
        same("a capacity for orders", found, (1, b"", b"S8 no resource saw\n"))
        found = plan(folder, "import", "--capacity", "saw=2", "--capacity", "press=1", "list.csv")
        same("a capacity for an import of orders", found, (1, b"", b"T14 no resource saw\n"))


def try_lines():
    """That lists with an error are refused with its line."""
    with tempfile.TemporaryDirectory() as folder:
        for data, line in LINES.items():
            written(folder, "list.csv", data)
            same(f"import of {data!r}", plan(folder, "import", "list.csv"), (1, b"", line))
            try_refused(f"{data!r}", folder, False, (1, b"", line))
        for data, line in WORKBOOKS.items():
            written(folder, "list.csv", data)
            try_refused(f"{data!r}", folder, False, (1, b"", line))


def try_notes():
    """That the notes on a list are printed behind the output of each command."""
    with tempfile.TemporaryDirectory() as folder:
        for text, line in NOTED.items():
            for encoding in ("utf-8", "cp1252"):
                data = text.encode(encoding)
                written(folder, "list.csv", data)
                notes = line if is_utf8(data) else GUESS + b"; " + line
                for words in (["import"], ["solve"], ["chart", "lft"], ["report"]):
                    status, _, errors = plan(folder, *words, "list.csv")
                    same(f"{words} of {data!r}", (status, errors), (0, notes))


def try_lists(cases=200, seed=1, is_verbose=False):
    draw, tally = Draw(Random(seed)), collections.Counter()
    try_capacity_of_orders()
    try_lines()
    try_notes()
    with tempfile.TemporaryDirectory() as folder:
        for case in range(cases):
            tally[try_list(draw, folder)] += 1
            if case % 4 == 0:
                try_encodings(draw, folder)
    if is_verbose:
        print(f"{cases} lists by seed {seed}: {dict(tally)}")


if __name__ == "__main__":
    try_lists(*map(int, sys.argv[1:]), is_verbose=True)
