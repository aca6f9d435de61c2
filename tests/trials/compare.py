#!/usr/bin/env python3
"""Compares two programs over drawn commands on files: the same status, and the same bytes on both
outputs and in a log. JSON may have more keys than before. Hints may differ in their cause for the
codes of OTHER_HINTS, and for a list on standard input; they are counted.

    tests/trials/compare.py OLD NEW               4,000 commands; prints one line per difference
    tests/trials/compare.py OLD NEW CASES SEED    so many, drawn from this seed

Both files must have the name `plan`, since usage errors contain it. It exits with status 1 if there
is a difference. A command that only OLD calls misused, and --format of NEW_FORMATS, is a new
option; it is counted. The files of a difference stay in a folder that its line names.
"""

import collections
import json
import os
import shlex
import subprocess
import sys
import tempfile
from random import Random

sys.dont_write_bytecode = True
sys.path.insert(0, os.path.dirname(os.path.abspath(__file__)))
os.environ.setdefault("PLAN_PROGRAM", os.path.abspath(sys.argv[1]) if len(sys.argv) > 2 else "")

from drawing import Draw
from drawing.texts import project_text, shop_text, spoiled_at_times
from drawing.words import BUDGETS, NO_BUDGETS, NO_RULES, PROJECT_RULES, SHOP_RULES, instance
from events import with_names
from holidays import BAD_MARKS, MARKS, NO_STARTS, STARTS, holiday_text
from tables import damaged, drawn_table

PATIENCE = 120
# The codes whose causes have the names in the file, or the choices that there are.
OTHER_HINTS = ("S1", "S3", "S8")
# The commands that have --format since 0.5.2.
NEW_FORMATS = ("chart", "slack")
CODES = ("F1", "F9 line 31", "f12 line 3 cycle 1 2", "S1 activity 2 resource 1", "T5 line 3 duration", "G3", "I1 file")
CODES += ("E10 F9 line 31", "e91", "K2", "V1 line 4", "C1", "x", "F99", "S10 activity 3 starts before 2 ends", "")
# The options of each format of tables but text.
FORMATS = (["--format", "csv"], ["--format", "json"])
NODES = ("1", "7", "60", "500", "0", "x", "1000000001")


# ---- what is drawn


def orders_text(draw):
    """A list of orders, mostly a good one."""
    lines = ["order,machine,time"]
    for order in draw.pick((("A",), ("A", "B"), ("Büro", "Lager, süd", "C"), ("a b",))):
        shown = f'"{order}"' if "," in order else order
        for machine in draw.random.sample(("saw", "press", "Ofen"), draw.number(1, 3)):
            lines.append(f"{shown},{machine},{draw.pick(('1', '2', '3', '5', '0', '4', '10001', 'x'))}")
    return damaged_at_times(draw, ("\n".join(lines) + "\n").encode(), 0.2)


def damaged_at_times(draw, data, part):
    return damaged(draw.random, data) if draw.chance(part) else data


class Case:
    """A command in a folder, with its files and its environment."""

    def __init__(self, draw, folder, old):
        self.draw, self.folder, self.old = draw, folder, old
        self.is_shop = draw.chance(0.4)
        self.file = self.write("shop.txt" if self.is_shop else "plan.sm", self.text())
        self.name = instance(draw, self.read(self.file)) if self.is_shop else None
        self.words, self.given = [], b""

    def write(self, name, text):
        with open(os.path.join(self.folder, name), "wb") as file:
            file.write(text)
        return name

    def read(self, name):
        with open(os.path.join(self.folder, name), "rb") as file:
            return file.read()

    def made(self, *words):
        """Standard output of the old program."""
        return run(self.old, words, self.folder, b"", False)[1]

    def text(self):
        """A file of a project or a job shop, half of them imported, at times a list."""
        draw = self.draw
        if draw.chance(0.03):
            return draw.pick((drawn_table(draw.random)[0].encode(), orders_text(draw)))
        if draw.chance(0.5):
            text = shop_text(draw) if self.is_shop else project_text(draw)
            return with_names(draw, text, [instance(draw, text)] if self.is_shop else [])[0]
        if self.is_shop:
            return self.made("import", "--shop", self.write("list.csv", orders_text(draw)))
        given = [f"--capacity={name}={draw.number(1, 8)}" for name in ("crew0", "Kran1") if draw.chance(0.2)]
        made = self.made("import", *given, self.write("list.csv", drawn_table(draw.random)[0].encode()))
        return made if made else project_text(draw)

    def subject(self):
        return [self.file, self.name] if self.is_shop else [self.file]

    def rule(self):
        draw = self.draw
        if draw.slips(0.06):
            return draw.pick(PROJECT_RULES + SHOP_RULES + NO_RULES)
        return draw.pick(SHOP_RULES if self.is_shop else PROJECT_RULES)

    def capacities(self, part=0.15):
        """Options with capacities; a shop refuses them."""
        draw = self.draw
        if not draw.chance(part / 6 if self.is_shop else part):
            return []
        return [f"--capacity=R{draw.number(1, 3)}={draw.number(0, 6)}" for _ in range(draw.number(1, 2))]

    def rows(self, *more):
        """Options of the rows."""
        forms = ([], [], ["--names"], *FORMATS, ["--format=json", "--names"], *more)
        return list(self.draw.pick(forms))

    def starts(self, name):
        """A file of starts by a rule, as a table, CSV or JSON, at times changed or too short."""
        draw = self.draw
        command = ["shop", self.rule()] if self.is_shop else ["schedule", self.rule()]
        form = draw.pick(([], [], ["--names"], *FORMATS))
        text = self.made(*command, *form, *self.subject())
        if draw.chance(0.3):
            text = b"0 0 2 3" if draw.chance(0.1) else draw.other_byte(text)
        return self.write(name, spoiled_at_times(draw, text.decode("latin-1"), 0.1) if draw.chance(0.1) else text)

    def origin(self):
        """The words of a schedule, and its options."""
        draw = self.draw
        way = draw.number(0, 9)
        if way == 0 and len(self.read(self.file)) < (400 if self.is_shop else 900):
            return [], ["--solve"] if draw.chance(0.5) else ["--solve", "--seconds", "20"]
        if way < 4:
            return [], ["--starts", self.starts("starts.txt") if draw.chance(0.95) else "nowhere.txt"]
        return [self.rule()], []

    def dates(self):
        draw = self.draw
        start = draw.pick(NO_STARTS if draw.slips(0.05) else STARTS)
        return [start, draw.pick(BAD_MARKS if draw.slips(0.05) else MARKS)]

    def holidays(self):
        if not self.draw.chance(0.3):
            return []
        name = self.write("days.txt", holiday_text(self.draw)) if self.draw.chance(0.95) else "nowhere.days"
        return ["--holidays", name]


# ---- the commands, each a list of words behind `plan`


def cpm(case):
    return ["cpm", *case.rows(), case.file]


def schedule(case):
    name = "shop" if case.is_shop else "schedule"
    given = [] if case.is_shop else case.capacities()
    return [name, *case.rows(), *given, case.rule(), *case.subject()]


def best(case):
    name = "best" if case.is_shop else "best-project"
    given = [] if case.is_shop else case.capacities()
    budget = case.draw.pick(NO_BUDGETS if case.draw.slips(0.08) else BUDGETS)
    return [name, *case.rows(), *given, budget, *case.subject()]


def prove(case):
    if not case.is_shop:
        return cpm(case)
    return ["prove", *case.rows(), case.draw.pick(NODES), *case.subject()]


def solve(case):
    given = [] if case.is_shop else case.capacities()
    limit = ["--conflicts", case.draw.pick(("1", "2", "10", "100"))]
    log = ["--log", "solve.log"] if case.draw.chance(0.2) else []
    return ["solve", *limit, *case.rows(), *given, *log, *case.subject()]


def chart(case):
    words, options = case.origin()
    return ["chart", *options, *case.rows(["--svg"], ["--svg"]), *case.capacities(0.1), *words, *case.subject()]


def days(case):
    words, options = case.origin()
    form = case.rows(["--format", "ics"])
    return ["days", *options, *form, *case.holidays(), *case.capacities(0.1), *words, *case.dates(), *case.subject()]


def report(case):
    draw, (words, options) = case.draw, case.origin()
    rule = ["--rule", words[0]] if words else []
    dates = case.dates()
    dated = ["--start", dates[0], "--days", dates[1], *case.holidays()] if draw.chance(0.5) else []
    more = draw.pick(([], ["--by", "job"], ["--title", "A <b> & \"c\""]))
    return ["report", *rule, *options, *dated, *more, *case.capacities(0.1), *case.subject()]


def check(case):
    status = ["--status"] if case.draw.chance(0.5) else []
    form = case.draw.pick(([], [], *FORMATS))
    return ["check", *status, *form, *case.subject(), case.starts("starts.txt")]


def slack(case):
    return ["slack", *case.rows(), *case.capacities(), case.file, case.starts("starts.txt")]


def compare(case):
    given = [] if case.is_shop else case.capacities()
    files = [case.starts("a.txt"), case.starts("b.txt")]
    return ["compare", *case.rows(), *given, *case.subject(), *files]


def names(case):
    return ["names", *case.draw.pick(([], *FORMATS)), case.file]


def imported(case):
    draw = case.draw
    if draw.chance(0.3):
        return ["import", "--shop", case.write("list.csv", orders_text(draw))]
    given = [f"--capacity={draw.pick(('crew0', 'KRAN1', 'x'))}={draw.number(0, 9)}"] if draw.chance(0.2) else []
    data = damaged_at_times(draw, drawn_table(draw.random)[0].encode(), 0.4)
    return ["import", *given, case.write("list.csv", data)]


def explain(case):
    form = case.draw.pick(([], *FORMATS))
    return ["explain", *form, *shlex.split(case.draw.pick(CODES))]


def misused(case):
    """A command with a word too many, an unknown option, two standard inputs, or a bad value."""
    words = case.draw.pick(COMMANDS)(case)
    way = case.draw.number(0, 4)
    if way == 0:
        return [*words, "more", "words"]
    if way == 1:
        return [*words, "--nams"]
    if way == 2:
        return [word if not word.endswith((".txt", ".sm", ".csv")) else "-" for word in words]
    if way == 3:
        return [*words, "--capacity=R1=x"]
    return words[:-1]


COMMANDS = [cpm, schedule, schedule, best, prove, solve, chart, chart, days, days, report, check, slack, compare]
COMMANDS += [names, imported, imported, explain]


# ---- the comparison


def run(program, words, folder, given, has_hints):
    """The status and both outputs of a command."""
    env = {**os.environ, "PLAN_HINTS": "1" if has_hints else "0"}
    more = {"input": given, "capture_output": True, "timeout": PATIENCE, "cwd": folder, "env": env}
    done = subprocess.run([program, *words], **more)
    return done.returncode, done.stdout, done.stderr


def covers(old, new):
    """Whether a JSON value has all of another one, and perhaps more keys."""
    if isinstance(old, dict):
        return isinstance(new, dict) and all(key in new and covers(old[key], new[key]) for key in old)
    if isinstance(old, list):
        return isinstance(new, list) and len(old) == len(new) and all(map(covers, old, new))
    return type(old) is type(new) and old == new


def is_same(old, new):
    """Whether two outputs are the same bytes, or JSON that has all of the old one."""
    if old == new:
        return True
    try:
        return covers(json.loads(old), json.loads(new))
    except ValueError:
        return False


def without_hint(text):
    """The line of an error and its hint, if there is one."""
    line, _, hint = text.partition(b"\nhint: ")
    return line.rstrip(b"\n"), hint.rstrip(b"\n")


def errors_kind(old, new):
    """How two texts on standard error differ: `same`, `hint`, `other`."""
    if old == new:
        return "same"
    if old.startswith(b"{") and is_same(old, new):
        return "same"
    (line, hint), (new_line, new_hint) = without_hint(old), without_hint(new)
    is_known = line.split(b" ")[0].decode("latin-1") in OTHER_HINTS
    is_list = hint.startswith(b"standard input: ") and b": this is a list of " in new_hint
    return "hint" if line == new_line and hint and new_hint and (is_known or is_list) else "other"


def kind_of(words, old, new):
    """How the results of two programs differ: `same`, `hint`, `new option`, `other`."""
    if old[0] == 2 and new[0] != 2 or words[0] in NEW_FORMATS and any(w.startswith("--format") for w in words):
        return "new option"
    if old[0] != new[0] or old[3] != new[3] or not is_same(old[1], new[1]):
        return "other"
    return errors_kind(old[2], new[2])


def shown(text):
    return repr(text if len(text) < 600 else text[:300] + b" .. " + text[-300:])


def written(folder, name, text):
    with open(os.path.join(folder, name), "wb") as file:
        file.write(text)


def told(number, words, old, new, kept):
    """The lines of a difference."""
    lines = [f"case {number}: plan {shlex.join(words)}    (files: {kept})"]
    for what, first, second in zip(("status", "stdout", "stderr", "log"), old, new):
        if first != second:
            pair = (first, second) if what == "status" else (shown(first), shown(second))
            lines += [f"  old {what} {pair[0]}", f"  new {what} {pair[1]}"]
    return "\n".join(lines)


def log_of(folder):
    """The log that a command has written, if there is one; it is removed."""
    path = os.path.join(folder, "solve.log")
    try:
        with open(path, "rb") as file:
            text = file.read()
    except OSError:
        return b""
    os.remove(path)
    return text


def compared(number, seed, programs, kept, tally):
    """Draws a command, runs both programs, and returns the text of a difference or None."""
    draw = Draw(Random(f"{seed} {number}"))
    with tempfile.TemporaryDirectory(dir="/dev/shm" if os.path.isdir("/dev/shm") else None) as folder:
        case = Case(draw, folder, programs[0])
        command = misused if draw.chance(0.04) else draw.pick(COMMANDS)
        words, has_hints = command(case), draw.chance(0.6)
        if draw.chance(0.05) and case.file in words and "-" not in words:
            words[words.index(case.file)] = "-"
            case.given = case.read(case.file)
        results = []
        for program in programs:
            results.append((*run(program, words, folder, case.given, has_hints), log_of(folder)))
        kind = kind_of(words, *results)
        tally[f"{command.__name__}: {kind}"] += 1
        tally[f"status {results[0][0]}"] += 1
        if kind in ("same", "new option"):
            return None
        place = os.path.join(kept, f"{seed}-{number}")
        os.makedirs(place, exist_ok=True)
        for name in os.listdir(folder):
            written(place, name, case.read(name))
        return kind, told(number, words, *results, place)


def main():
    if len(sys.argv) < 3 or any(os.path.basename(name) != "plan" for name in sys.argv[1:3]):
        sys.exit(__doc__.split("\n\n")[1])
    programs = [os.path.abspath(name) for name in sys.argv[1:3]]
    cases, seed = (int(word) for word in (sys.argv[3:] + ["4000", "1"][len(sys.argv[3:]) :])[:2])
    tally, differing = collections.Counter(), 0
    kept = tempfile.mkdtemp(prefix="plan-compare-")
    for number in range(cases):
        found = compared(number, seed, programs, kept, tally)
        if found:
            differing += found[0] == "other"
            print(f"{found[0]}: {found[1]}", flush=True)
    print("\n".join(f"{count:6} {what}" for what, count in sorted(tally.items())), file=sys.stderr)
    return 1 if differing else 0


if __name__ == "__main__":
    sys.exit(main())
