"""The three journeys of examples/README.md, "A desk in the browser", step by step, at the desks of
share/web/try; and a class that hands in schedules.
"""

import csv
import datetime
import importlib.machinery
import importlib.util
import io
import os
import subprocess

from exchanges import OFFICE_KEY, TOP, file_of
from front import WEB
from page_units import worked_days
from pages import (
    drop, example, makespan_of, open_plan, open_tab, plan_by_dates, printed, rows_of, seen, seen_table, set_date,
    submit, texts, wait_idle, wait_plan, wait_text,
)
from programs import plan, same
from visits import column, downloaded, sign_in


def fill_desks(port):
    """Opens the desks of share/web/try."""
    loader = importlib.machinery.SourceFileLoader("shown", os.path.join(WEB, "try"))
    shown = importlib.util.module_from_spec(importlib.util.spec_from_loader("shown", loader))
    loader.exec_module(shown)
    shown.fill(port)


def enter(browser, desk):
    """Signs in from the first page."""
    sign_in(browser, desk, f"{desk}-key-1")
    browser.wait("its plans", "return document.querySelector('#plans button')")


def drop_example(browser, name):
    drop(browser, name, file_of(f"examples/{name}").decode())


def journey_planner(browser):
    """A list becomes a plan with names, days and weeks, and is printed."""
    enter(browser, "north")
    drop_example(browser, "house.csv")
    wait_text(browser, "#preview", "house.csv becomes a project of 12 activities")
    submit(browser, "import")
    wait_plan(browser, 4)
    names = list(csv.DictReader(io.StringIO(file_of("examples/house.csv").decode())))
    same("the names", column(browser, "name"), [row["name"] for row in names[:-1]])
    same("the ids", [cell.rstrip("*") for cell in column(browser, "id")], [row["id"] for row in names[:-1]])
    lines = printed("schedule", "lft", example("house.sm"))
    rows = rows_of(lines)[1:-1]
    same("the starts", column(browser, "start"), [row[2] for row in rows])
    set_date(browser, "#calendar [name=start]", "2024-03-01")
    submit(browser, "calendar")
    open_tab(browser, "table")
    days = worked_days(datetime.date(2024, 3, 1), "1111100", int(makespan_of(lines)))
    wanted = ["" if row[2] == row[3] else str(days[int(row[3]) - 1]) for row in rows]
    same("the last days", column(browser, "last day"), wanted)
    same("weeks", "weeks begin on Monday" in seen(browser, "#caption"), True)
    same("the sheets", browser.sheets(), 2)
    browser.click("#leave")


def journey_student(browser, office):
    """The best schedule is saved, and start times from elsewhere get a verdict."""
    enter(browser, "north")
    drop_example(browser, "five.sm")
    wait_plan(browser, 5)
    submit(browser, "best")
    lines = printed("solve", example("five.sm"))
    same("it is proved", lines[0].split()[0], "optimal")
    wait_text(browser, "#best-answer", f"{lines[0]}: no schedule of this plan is shorter.")
    name, text = downloaded(browser, office, "starts")
    same("the name of the file", name, "north-plan-5-best.starts.txt")
    same("the start times", text.split(), [row[2] for row in rows_of(lines)])
    drop_example(browser, "six.sm")
    wait_plan(browser, 6)
    drop_example(browser, "late.txt")
    wait_text(browser, "#check-answer code", "activity 6 can start earlier")
    browser.click("#leave")


def journey_foreman(browser, office):
    """A list of orders becomes a job shop, whose best schedule is saved as CSV."""
    enter(browser, "south")
    drop_example(browser, "shop.csv")
    wait_text(browser, "#preview", "shop.csv becomes a job shop of 3 orders on 3 machines.")
    submit(browser, "import")
    wait_plan(browser, 4)
    same("the machines", [words[len(words) // 2 + 2:] for words in texts(browser, "#drawing .name")],
         ["saw", "press", "paint"])
    browser.run("document.querySelector('#drawing').scrollIntoView({ block: 'center' })")
    browser.point("#drawing .bar[data-line='0'] rect")
    wait_text(browser, "#told", "Job ")
    submit(browser, "best")
    given = "\n".join(printed("import", "--shop", example("shop.csv"))).encode()
    lines = printed("solve", "-", "shop", given=given)
    wait_text(browser, "#best-answer", f"{lines[0]}: ")
    same("the rules beside it", len(seen_table(browser, "#rules")[0]), 4 + 3 + 1)
    name, text = downloaded(browser, office, "csv")
    heads, *rows = csv.reader(io.StringIO(text))
    at = [heads.index(head) for head in ("job", "step", "mach", "d", "start", "end")]
    same("the CSV", [[row[place] for place in at] for row in rows], [row[:6] for row in rows_of(lines)])
    drop(browser, name, text)
    wait_text(browser, "#check-answer code", "active")
    browser.click("#leave")


def new_class(office, count):
    """Opens the desks of a class by plan-office: their names and keys."""
    room = os.path.dirname(office.database)
    for name, text in (("servers", f"127.0.0.1:{office.server.port}\n"), ("office.key", f"{OFFICE_KEY}\n")):
        with open(os.path.join(room, name), "w", encoding="ascii") as file:
            file.write(text)
    words = ["--new-keys", str(count), "--desks", "class.csv", "servers", "office.key"]
    done = subprocess.run([os.path.join(TOP, "plan-office"), *words], cwd=room, capture_output=True, timeout=300, encoding="ascii")
    same("a new class", (done.returncode, done.stderr, done.stdout.count("opened ")), (0, "", count))
    with open(os.path.join(room, "class.csv"), encoding="ascii") as file:
        return [line.strip().split(",") for line in file][1:]


def hand_in(browser, office, desk, key, rule):
    """A student signs in, imports the exercise, and saves a schedule as three files: their texts."""
    sign_in(browser, desk, key)
    wait_text(browser, "#plans", "No plans yet.")
    drop_example(browser, "five.sm")
    wait_plan(browser, 1)
    if rule == "best":
        submit(browser, "best")
    browser.click(f"#drawn [value={rule}]")
    texts_of = [downloaded(browser, office, form) for form in ("starts", "json", "all")]
    same("the names of the files", [name for name, _ in texts_of],
         [f"{desk}-plan-1-{rule}.{form}" for form in ("starts.txt", "json", "all.json")])
    browser.click("#leave")
    return [text for _, text in texts_of]


def journey_class(browser, office):
    """Three students of a class hand in schedules of one exercise. The teacher drops the files on her own
    plan of it, and gets the verdict of `plan check` on each; everything about a plan becomes a plan."""
    rules = ("lft", "spt", "best")
    handed = [hand_in(browser, office, desk, key, rule) for (desk, key), rule in zip(new_class(office, 3), rules)]
    # at her desk she has the exercise as plan 5
    sign_in(browser, "north", "north-key-1")
    wait_text(browser, "#plans button", "Plan 5")
    open_plan(browser, 5)
    for (starts, as_json, _), rule in zip(handed, rules):
        verdict = plan("check", example("five.sm"), "-", given=starts.encode())[1].decode().strip()
        words = ["solve"] if rule == "best" else ["schedule", rule]
        makespan = makespan_of(printed(*words, example("five.sm")))
        for text in (starts, as_json):
            drop(browser, f"{rule}.txt", text)
            wait_text(browser, "#check-answer code", verdict)
            wait_text(browser, "#check-answer", f"makespan {makespan}.")
            wait_idle(browser)
    drop(browser, "all.json", handed[2][2])
    wait_text(browser, "#news", "five is plan 7.")
    wait_plan(browser, 7)
    wait_text(browser, "#check-answer code", "active")
    browser.click("#leave")


def journey_absence(browser):
    """At a desk a list with absences and dates is planned from an instant on, with its working days."""
    enter(browser, "north")
    drop_example(browser, "week.csv")
    wait_text(browser, "#preview", "week.csv becomes a project of 13 activities")
    fields = {"now": "8", "start": "2027-05-03"}
    plan_by_dates(browser, fields, "It ends at 48, and none is shorter. Done: A.")
    wait_plan(browser, 8)
    rows = [line.split() for line in printed("solve", "--now", "8", example("week.csv"))[2:-1]]
    wanted = [[row[0], str(max(8, int(row[2]))), row[3]] for row in rows if row[2] != "-"]
    found = zip(*(column(browser, head) for head in ("id", "start", "end")))
    same("what is left", [[row[0].rstrip("*"), *row[1:]] for row in found], [*wanted, ["absence", "8", "11"]])
    days = worked_days(datetime.date(2027, 5, 3), "1111100", 48)
    same("the last days", column(browser, "last day"), [str(days[int(row[2]) - 1]) for row in [*wanted, ["", "", "11"]]])
    browser.click("#leave")


JOURNEYS = [journey_planner, journey_student, journey_foreman, journey_class, journey_absence]
