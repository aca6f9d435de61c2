"""Journeys on the browser page with keys alone: no mouse, and no script that changes the page. At each stop
of the Tab key the focus is marked and on the screen. A file is given to its field when the field has the focus:
the dialog that opens there is the browser's."""

import csv
import datetime
import io
import os

from exchanges import OFFICE_KEY
from front import sent
from page_units import worked_days
from pages import RULE_NAMES, RULES, example, makespan_of, printed, rows_of, wait_idle, wait_plan, wait_text
from programs import Wrong, plan, same
from visits import column, downloaded_by

TAB, SHIFT, CONTROL, ENTER, SPACE, ESCAPE = "\ue004", "\ue008", "\ue009", "\ue007", " ", "\ue00c"
LEFT, RIGHT, DOWN = "\ue012", "\ue014", "\ue015"
MOST_STOPS = 150
DESKS = ("keys-a", "keys-b", "keys-c", "keys-d", "keys-e", "keys-f")

# what is wrong with the place of the focus; null at the start of the page
STOP = """
    const node = document.activeElement;
    if (!node || node === document.body) return null;
    const box = node.getBoundingClientRect(), style = getComputedStyle(node), wrong = [];
    const name = `${node.tagName}#${node.id} ${node.name ?? ""} ${node.textContent.slice(0, 20)}`;
    const isHead = /^H\\d$/.test(node.tagName);
    if (!isHead && (style.outlineStyle === "none" || parseFloat(style.outlineWidth) < 2)) wrong.push("no mark");
    if (!node.checkVisibility()) wrong.push("not visible");
    if (box.bottom <= 0 || box.top >= innerHeight || box.right <= 0 || box.left >= innerWidth)
        wrong.push(`off the screen, at ${[box.left, box.top, box.right, box.bottom].map(Math.round)}`);
    return [node.matches(arguments[0]), wrong.length ? `${name}: ${wrong.join(", ")}` : ""];
"""


def chord(browser, held, key):
    """Presses a key while another is held."""
    strokes = [("keyDown", held), ("keyDown", key), ("keyUp", key), ("keyUp", held)]
    actions = [{"type": kind, "value": value} for kind, value in strokes]
    browser.call("POST", "/actions", {"actions": [{"type": "key", "id": "k", "actions": actions}]})


def reach(browser, css, back=False):
    """Goes on with the Tab key, or back, up to an element that a selector names."""
    for _ in range(MOST_STOPS):
        if back:
            chord(browser, SHIFT, TAB)
        else:
            browser.press(TAB)
        found = browser.run(STOP, css)
        if found and found[1]:
            raise Wrong(f"on the way to {css}: {found[1]}")
        if found and found[0]:
            return
    raise Wrong(f"{css} isn't reached by {MOST_STOPS} Tabs")


def write(browser, text):
    """Types a text in the place of what a field has."""
    chord(browser, CONTROL, "a")
    browser.press(*text)


def take(browser, css, path):
    """Chooses a file in a field that the Tab key reaches."""
    reach(browser, css)
    browser.choose(css, path)


def open_desks(port):
    """Opens the desks of the journeys, and publishes a crew."""
    sent(port, "POST", "/office/capacities", OFFICE_KEY, b'{"code":"crew-4","kind":"crew","capacity":4}')
    for desk in DESKS:
        body = b'{"desk":"%s","key":"%s-key-1"}' % (desk.encode(), desk.encode())
        sent(port, "POST", "/office/desks", OFFICE_KEY, body)


def enter(browser, desk):
    """Signs in from the top of the page."""
    reach(browser, "#enter [name=desk]")
    browser.press(*desk)
    reach(browser, "#enter [name=key]")
    browser.press(*f"{desk}-key-1", ENTER)
    wait_text(browser, "#plans", "No plans yet.")
    same("the focus at a desk", browser.run("return document.activeElement.id"), "plans-head")


def leave(browser):
    reach(browser, "#leave", back=True)
    browser.press(ENTER)
    browser.wait("the first page", "return document.getElementById('door').checkVisibility()")
    # from the top again
    browser.run("document.activeElement.blur()")


def listed(browser):
    """The list that the page shows, as its text."""
    return browser.run("return edit.elements.list.value")


def starts_of(text):
    """The start times that `plan schedule` gives to the rows of a list."""
    given = "\n".join(printed("import", "-", given=text.encode())).encode()
    return [row[2] for row in rows_of(printed("schedule", "lft", "-", given=given))[1:-1]], given


def plan_by_keys(browser, desk):
    """The example becomes a plan at a desk."""
    enter(browser, desk)
    reach(browser, "#starters [value=example]")
    browser.press(ENTER)
    plan_example(browser)


def date_by_keys(browser):
    """Sets the calendar under Changes."""
    reach(browser, "#calendar [name=start]")
    browser.press(*"03012024")
    reach(browser, "#calendar button")
    browser.press(ENTER)
    wait_text(browser, "#calendar .answer", "From 2024-03-01 on; working days Mo, Tu, We, Th, Fr.")
    same("the first day", browser.run("return calendar.elements.start.value"), "2024-03-01")


def plan_example(browser):
    """The example list is changed and imported, solved and dated, in the table and on the bars."""
    wait_text(browser, "#preview", "example.csv becomes a project of 8 activities")
    wait_idle(browser)
    same("the focus on a list", browser.run("return document.activeElement.textContent"), "Make the plan")
    reach(browser, "#grid [data-row='4'][data-column='2']")
    write(browser, "6")
    browser.press(TAB)
    wait_text(browser, "#undo", "Undo")
    text = listed(browser)
    same("the list", "D,Floor,6,B C,2" in text, True)
    reach(browser, "#import button.main", back=True)
    browser.press(ENTER)
    wait_plan(browser, 1)
    starts, given = starts_of(text)
    same("the starts", column(browser, "start"), starts)
    same("the focus on a plan", browser.run("return document.activeElement.id"), "plan-head")
    reach(browser, "#best button.main")
    browser.press(ENTER)
    wait_text(browser, "#best-answer", printed("solve", "-", given=given)[0])
    wait_idle(browser)
    reach(browser, "#drawing [role=application]")
    browser.press(RIGHT, RIGHT, RIGHT)
    wait_text(browser, "#told", "Activity C Take down: ")
    reach(browser, "#tab-table")
    browser.press(RIGHT)
    date_by_keys(browser)
    reach(browser, "#tab-changes", back=True)
    browser.press(LEFT)
    ends = [int(row[3]) for row in rows_of(printed("schedule", "lft", "-", given=given))[1:-1]]
    days = worked_days(datetime.date(2024, 3, 1), "1111100", max(ends))
    same("the last days", column(browser, "last day"), [str(days[end - 1]) for end in ends])


def change_by_keys(browser, desk):
    """One of the crew is away: the list is changed, and start times of the old plan get a verdict."""
    reach(browser, "#edit-list")
    browser.press(ENTER)
    wait_text(browser, "#preview", "becomes a project of 8 activities")
    wait_idle(browser)
    reach(browser, "#grid [data-row='9'][data-column='4']")
    write(browser, "3")
    browser.press(TAB)
    wait_text(browser, "#undo", "Undo")
    text = listed(browser)
    same("the capacity", text.splitlines()[-1], "capacity,,,,3")
    reach(browser, "#import button.main", back=True)
    browser.press(ENTER)
    wait_plan(browser, 2)
    starts, _ = starts_of(text)
    same("the starts with three", column(browser, "start"), starts)
    reach(browser, "#tab-table")
    browser.press(RIGHT, RIGHT)
    reach(browser, "#check [name=starts]")
    # as if all started at once: the second row is the first that begins before its predecessor ends
    browser.press(*"0 0 0 0 0 0 0 0 0 0")
    reach(browser, "#check button")
    browser.press(ENTER)
    wait_text(browser, "#check-answer strong", "Start B Order timber later.")
    wait_text(browser, "#check-answer p", "It starts before A Measure ends.")
    reach(browser, "#help-button", back=True)
    browser.press(ENTER)
    wait_text(browser, "#help h2", "Words of this page")
    browser.press(ESCAPE)
    browser.wait("no panel", "return !document.getElementById('help').open")
    same("the focus behind the panel", browser.run("return document.activeElement.id"), "help-button")


def bind_by_keys(browser, desk):
    """A list with a crew of 5 is imported, bound to the published crew of 4 by its name, dated, and drawn by
    another rule."""
    enter(browser, desk)
    take(browser, "#file", example("house.csv"))
    wait_text(browser, "#preview", "house.csv becomes a project of 12 activities")
    wait_idle(browser)
    browser.press(ENTER)
    wait_plan(browser, 1)
    reach(browser, "#tab-table")
    browser.press(RIGHT)
    reach(browser, "#bind [name=place]")
    browser.press(*"crew")
    reach(browser, "#bind [name=code]")
    browser.press(*"crew-4")
    reach(browser, "#bind button")
    browser.press(ENTER)
    wait_text(browser, "#bind .answer", "The capacity of crew is now that of crew-4.")
    wait_plan(browser, 1)
    date_by_keys(browser)
    reach(browser, "#drawn [name=drawn]:checked", back=True)
    browser.press(DOWN)
    rule = RULES[1]
    same("the rule that is drawn", browser.run("return document.activeElement.value"), rule)
    with open(example("house.csv"), encoding="utf-8") as file:
        given = "\n".join(printed("import", "--capacity", "crew=4", "-", given=file.read().encode())).encode()
    lines = printed("schedule", rule, "-", given=given)
    wait_text(browser, "#drawn label", f"{RULE_NAMES[rule]} {makespan_of(lines)}")
    same("the starts with the bound crew", column(browser, "start"), [row[2] for row in rows_of(lines)[1:-1]])


def hand_in_by_keys(browser, desk, office):
    """A student imports the exercise, searches, and saves the start times: the path of their file."""
    enter(browser, desk)
    take(browser, "#file", example("five.sm"))
    wait_plan(browser, 1)
    reach(browser, "#best button.main")
    browser.press(ENTER)
    wait_text(browser, "#best-answer", printed("solve", example("five.sm"))[0])
    wait_idle(browser)
    reach(browser, "#tab-table")
    browser.press(RIGHT, RIGHT)
    reach(browser, "#saves [value='starts.txt']")
    name, text = downloaded_by(browser, office, "hand-in", lambda: browser.press(ENTER))
    path = os.path.join(os.path.dirname(office.database), name)
    with open(path, "w", encoding="ascii") as file:
        file.write(text)
    return path


def mark_by_keys(browser, desk, path):
    """A teacher checks them on her own plan of the exercise: the verdict of `plan check`."""
    enter(browser, desk)
    take(browser, "#file", example("five.sm"))
    wait_plan(browser, 1)
    reach(browser, "#tab-table")
    browser.press(RIGHT, RIGHT)
    take(browser, "#check-file", path)
    wait_text(browser, "#check-answer code", plan("check", example("five.sm"), path)[1].decode().strip())
    wait_text(browser, "#check-answer", f"makespan {makespan_of(printed('solve', example('five.sm')))}.")


def shop_by_keys(browser, desk, office):
    """A template of orders becomes a job shop, whose best schedule is saved; then the plan is deleted."""
    enter(browser, desk)
    reach(browser, "#starters [value=shop]")
    browser.press(ENTER)
    wait_text(browser, "#preview", "becomes a job shop of")
    wait_idle(browser)
    same("the focus on a list of orders", browser.run("return document.activeElement.textContent"), "Make the plan")
    browser.press(ENTER)
    wait_plan(browser, 1)
    reach(browser, "#best button.main")
    browser.press(ENTER)
    template = "\n".join([*printed("new", "shop"), ""])
    given = "\n".join(printed("import", "--shop", "-", given=template.encode())).encode()
    lines = printed("solve", "-", "shop", given=given)
    wait_text(browser, "#best-answer", f"{lines[0]}: ")
    wait_idle(browser)
    reach(browser, "#lines")
    browser.press(DOWN)
    browser.wait("lines of jobs", "return document.querySelector('#drawing .name').textContent.startsWith('1 ')")
    reach(browser, "#drawn [name=drawn]:checked", back=True)
    same("the schedule that is drawn", browser.run("return document.activeElement.value"), "best")
    reach(browser, "#tab-table")
    browser.press(RIGHT, RIGHT)
    reach(browser, "#saves [value=csv]")
    name, text = downloaded_by(browser, office, "keys", lambda: browser.press(ENTER))
    rows = list(csv.DictReader(io.StringIO(text)))
    same("the file", (name, [row["start"] for row in rows]),
         (f"{desk}-plan-1-best.csv", [row[4] for row in rows_of(lines)]))
    reach(browser, "#tab-handin", back=True)
    browser.press(LEFT)
    reach(browser, "#delete button")
    browser.press(ENTER)
    browser.wait("the question", "return question.open")
    same("the first button", browser.run("return document.activeElement.value"), "no")
    browser.press(TAB, ENTER)
    wait_text(browser, "#news", "Plan 1 is deleted.")
    same("the focus then", browser.run("return document.activeElement.id"), "plans-head")


def try_keys(browser, office):
    """The journeys; the first one also at 1,280 by 1,024 pixels with a zoom of 400 %, where the page has 320
    by 256."""
    open_desks(office.server.port)
    plan_by_keys(browser, DESKS[0])
    change_by_keys(browser, DESKS[0])
    leave(browser)
    shop_by_keys(browser, DESKS[1], office)
    leave(browser)
    bind_by_keys(browser, DESKS[3])
    leave(browser)
    path = hand_in_by_keys(browser, DESKS[4], office)
    leave(browser)
    mark_by_keys(browser, DESKS[5], path)
    leave(browser)
    browser.resize(320, 256)
    plan_by_keys(browser, DESKS[2])
    wide = browser.run("return [document.documentElement.scrollWidth, innerWidth]")
    same("the width at 400 %", wide, [320, 320])
    browser.resize(1280, 900)
    leave(browser)
