"""Uses the browser page from the first sign-in to the last plan, in the order of VISIT."""

import csv
import datetime
import io
import json
import os
import shutil
import subprocess
import sys

from exchanges import OFFICE_KEY, TOP, Exchange, file_of
from front import sent
from page_units import as_model, brute_slack, read_sm, shop_model, worked_days
from pages import (
    RULE_NAMES, RULES, drop, example, focus_window, id_rows, makespan_of, open_plan, open_tab, pick,
    printed, rows_of,
    same_bars, same_dates, same_project, same_table, same_tails, seen, seen_axis, seen_bands, seen_bars,
    seen_plans, seen_table, seen_uses, set_date, submit, texts, wait_idle, wait_plan, wait_text,
)
from pictures import smaller
from programs import Wrong, plan, same, talk
from senses import same_fingers, same_order, same_senses

DESK, KEY, FIRST_KEY = "trial", "trial-key-2", "trial-key-1"
SHOP_RULES = ["mwkr", "spt", "fcfs"]
TAB, ENTER, ESCAPE, LEFT, RIGHT = "\ue004", "\ue007", "\ue00c", "\ue012", "\ue014"
PICTURES = os.path.join(TOP, "docs", "pictures")
LARGEST_PICTURE = 60000
HOUSE = "tests/clients/files/house.sm"
KEY_WORDS = "Check the name and the key, letter by letter."


def listed(server):
    """The numbers of the desk's plans, as the office has them."""
    answer = talk(server.port, Exchange("GET", f"/desks/{DESK}/plans", KEY).request())
    return [entry["n"] for entry in json.loads(answer.split(b"\r\n\r\n")[1])["plans"]]


def sign_in(browser, desk=DESK, key=KEY):
    browser.type("#enter [name=desk]", desk)
    browser.type("#enter [name=key]", key)
    submit(browser, "enter")


def model_of(text):
    """The model of a project file, as page_units has it."""
    durations, successors, needs, capacities, _ = read_sm(text)
    return as_model(durations, successors, needs, capacities)


def slack_in(text, lines):
    """The slack of each activity in a schedule that was printed, by trying all later starts."""
    return brute_slack(model_of(text), [int(row[2]) for row in rows_of(lines)])


def kept(browser):
    """What the browser keeps of plans: the keys of its records, and all of them as a text."""
    return browser.run("""
        return new Promise((tell) => {
            const request = indexedDB.open("plan", 1);
            request.onupgradeneeded = () => request.result.createObjectStore("plans");
            request.onsuccess = () => {
                const store = request.result.transaction("plans").objectStore("plans");
                const keys = store.getAllKeys(), values = store.getAll();
                const text = (_, value) => value instanceof Uint8Array ? new TextDecoder().decode(value) : value;
                store.transaction.oncomplete = () => {
                    request.result.close();
                    tell([keys.result, JSON.stringify(values.result, text)]);
                };
            };
        });
    """)


def column(browser, head, css="#table"):
    """The cells of a column of a table."""
    heads, *rows = seen_table(browser, css)
    if head not in heads:
        raise Wrong(f"there is no column {head} in {heads}")
    return [row[heads.index(head)] for row in rows]


# ---- signing in


def visit_door(browser):
    """The first lines say what the page is. A wrong key is refused with what to do first, then with
    what is wrong and the office's error; so is an unknown desk."""
    same("what the page is", "keeps your projects" in seen(browser, "#door .what"), True)
    for desk, key in ((DESK, "no-such-key"), ("nobody", KEY)):
        sign_in(browser, desk, key)
        wait_text(browser, "#enter .refusal code", "E01 key")
        said = browser.run("return [...document.querySelector('#enter .refusal').children].map("
                           "(node) => node.textContent)")
        same("what the page says of E01", said, [KEY_WORDS, "This desk and key don't match.", "E01 key"])
    browser.type("#enter-office [name=key]", "no-such-key")
    submit(browser, "enter-office")
    wait_text(browser, "#enter-office .refusal", "E01 key")
    same("what the page says of the office's key", texts(browser, "#enter-office .refusal > *"),
         [KEY_WORDS, "This isn't the office's key.", "E01 key"])
    same_senses("signing in", browser)


def visit_help(browser):
    """The help panel explains each rule and each column of the date table."""
    browser.click("#help-button")
    terms = texts(browser, "#terms dt")
    rules = [f"{RULE_NAMES[rule]} ({rule})" for rule in {*RULES, *SHOP_RULES}]
    for term in (*rules, "ES", "LF", "TF", "FF", "Slack", "Makespan"):
        same(f"the term {term}", terms.count(term), 1)
    words = dict(zip(terms, texts(browser, "#terms dd")))
    same("lft", words["latest finish first (lft)"], "the activity that must end first")
    same("the top of the panel", browser.run("return document.getElementById('help').scrollTop"), 0)
    browser.press(ESCAPE)
    browser.wait("no panel", "return !document.getElementById('help').open")


def visit_office(browser):
    """The office publishes codes, opens a desk and gives it another key."""
    browser.type("#enter-office [name=key]", OFFICE_KEY)
    submit(browser, "enter-office")
    for code, kind, capacity in (("crew-a", "crew", "4"), ("press-1", "machine", "1")):
        browser.type("#publish [name=code]", code)
        browser.click(f"#publish option:nth-child({1 + (kind == 'machine')})")
        browser.type("#publish [name=capacity]", capacity)
        submit(browser, "publish")
        wait_text(browser, "#publish .answer", f"{code} is a {kind} of {capacity}.")
    wanted = [["Code", "Kind", "Capacity"], ["crew-a", "crew", "4"], ["press-1", "machine", "1"]]
    same("what was published", seen_table(browser, "#published"), wanted)
    for form, key, told in (("open", FIRST_KEY, "is open"), ("rekey", KEY, "has another key")):
        browser.type(f"#{form} [name=desk]", DESK)
        browser.type(f"#{form} [name=key]", key)
        submit(browser, form)
        wait_text(browser, f"#{form} .answer", f"Desk {DESK} {told}.")
    browser.type("#open [name=desk]", DESK)
    browser.type("#open [name=key]", KEY)
    submit(browser, "open")
    wait_text(browser, "#open .refusal", "E04 desk exists")
    same_senses("the office", browser)
    browser.click("#leave")


def visit_upgrade(browser, office):
    """Records that the page of an earlier release kept in localStorage are moved when the page starts.
    They replace none that is there. The switch clears both places, and nothing is moved while it is off."""
    for path, key, body in (("/office/desks", OFFICE_KEY, b'{"desk":"earlier","key":"earlier-key-1"}'),
                            ("/desks/earlier/projects", "earlier-key-1", file_of(HOUSE))):
        sent(office.server.port, "POST", path, key, body)

    def plant(text):
        browser.run("localStorage.setItem('plan/of/earlier/1', arguments[0])", text)

    def start_again():
        browser.open(browser.run("return location.href"))
        browser.wait("the first page", "return document.querySelector('#door fieldset:enabled')")
        browser.wait("no records in localStorage",
                     "return !Object.keys(localStorage).some((key) => key.startsWith('plan/of/'))")

    record = {"title": "Old house", "names": {"2": "Clearing"}}
    for text in ("damaged", "null", json.dumps(record), json.dumps(record | {"title": "Another house"})):
        plant(text)
        start_again()
    keys, text = kept(browser)
    same("what was moved", (keys, json.loads(text)), ([["earlier", 1]], [{"n": 1, "record": record}]))
    sign_in(browser, "earlier", "earlier-key-1")
    wait_text(browser, "#plans", "Old house")
    plant(json.dumps(record))
    browser.click("#remember")
    cleared = (["plan/forget"], [[], "[]"])
    same("what the switch leaves", (browser.run("return Object.keys(localStorage)"), kept(browser)), cleared)
    plant(json.dumps(record))
    start_again()
    same("what is moved without the switch",
         (browser.run("return Object.keys(localStorage)"), kept(browser)), cleared)
    browser.run("localStorage.clear()")


def visit_desk(browser):
    """A desk is opened by its key; it has no plans yet, and offers an example."""
    browser.type("#enter [name=desk]", DESK)
    browser.type("#enter [name=key]", KEY)
    browser.press(ENTER)
    wait_text(browser, "#plans", "No plans yet.")
    wanted = [["Code", "Kind", "Capacity"], ["crew-a", "crew", "4"], ["press-1", "machine", "1"]]
    same("the published capacities", seen_table(browser, "#codes"), wanted)
    found = browser.run("return [localStorage.length, sessionStorage.length, document.cookie,"
                        " location.href.split('/').pop(),"
                        " document.querySelector('#enter [name=key]').value]")
    same("what the browser keeps of the key", found, [0, 0, "", "", ""])
    same("what it keeps of plans", kept(browser), [[], "[]"])
    browser.click("#starters [value=example]")
    wait_text(browser, "#preview", "example.csv becomes a project of 8 activities")
    browser.run("document.getElementById('to-plans').click()")
    same("the list again", browser.run("return preview.checkVisibility()"), False)


def visit_left(browser):
    """Signing out leaves no key in the page, and the window's focus sends nothing."""
    load = "const done = arguments[0]; import('/state.js').then(({ page }) => done(page));"
    state = lambda: browser.call("POST", "/execute/async", {"script": load, "args": []})
    same("the key of a desk that is open", state()["key"], KEY)
    browser.run("const done = arguments[0]; import('/state.js').then((m) => { window.old = m.page; })")
    browser.wait("the state", "return window.old")
    browser.click("#leave")
    same("the key afterwards", (state()["key"], browser.run("return window.old.key")), ("", ""))
    browser.run("""
        window.sent = 0;
        const real = window.fetch;
        window.fetch = (...words) => { window.sent += 1; return real(...words); };
    """)
    focus_window(browser)
    same("requests without a desk", browser.run("return window.sent"), 0)
    sign_in(browser)
    wait_text(browser, "#plans", "No plans yet.")


# ---- a project


def visit_import(browser):
    """A file is chosen: the plan has the dates, schedules and bars that `plan` prints."""
    browser.choose("#file", os.path.join(TOP, HOUSE))
    wait_plan(browser, 1)
    wait_text(browser, "#import-answer", "house.sm is plan 1.")
    wanted = [["Number", "Title", "Kind", "Makespan"], ["Plan 1", "house", "project", "45"]]
    same("the plans", seen_table(browser, "#plans"), wanted)
    same_project(browser, file_of(HOUSE))
    wait_text(browser, "#days", "Set a calendar under Changes to see dates")
    lines = printed("schedule", "lft", os.path.join(TOP, HOUSE))
    same_table(browser, lines, file_of(HOUSE), slack=slack_in(file_of(HOUSE).decode(), lines))


def visit_bars(browser):
    """A bar tells its activity, start and end, under the mouse and by keys; its arcs are drawn."""
    row = rows_of(printed("schedule", "lft", os.path.join(TOP, HOUSE)))[4]
    browser.run("document.querySelector('#drawing').scrollIntoView({ block: 'center' })")
    browser.point("#drawing .bar[data-line='5'] rect")
    words = (f"Activity {row[0]}: {row[2]} to {row[3]}; needs 4 of resource 1; critical by dates alone"
             " (crews not counted); no slack in this schedule")
    browser.wait("the bar under the mouse", "return told.textContent === arguments[0]", words)
    arcs = browser.run("return [...document.querySelectorAll('.arc')].map("
                       "(arc) => [arc.dataset.from, arc.dataset.to])")
    same("its arcs", sorted(arcs), [["3", "5"], ["5", "6"], ["5", "8"]])
    browser.run("document.querySelector('#drawing [role=application]').focus({ preventScroll: true })")
    browser.press(RIGHT, RIGHT, LEFT)
    browser.wait("the bar of the keys", "return told.textContent.startsWith('Activity 6: ')")
    browser.click("#colours option[value=resource]")
    colours = bar_classes(browser)
    digger = [2, 4, 12]
    wanted = ["cnone" if n in (1, 14) else "c1" if n in digger else "c0" for n in range(1, 15)]
    same("the colours of the resources", colours, wanted)
    browser.click("#colours option[value=slack]")
    legend = " ".join(texts(browser, "#legend li"))
    same("the legend", "may not slip" in legend, False)
    same("the star", "* critical by dates alone (crews not counted)" in legend, True)
    same("where slack is from", "slack by the plan's file and the changes set here" in legend, True)


# what the page of a desk gets in the place of the program, and how it says so
NO_PROGRAM = {
    "new Response('', { status: 404 })": "the server answers 404 for plan.wasm",
    "Promise.reject(new TypeError('cut off'))": "plan.wasm can't be fetched",
    "new Response('other')": "plan.wasm is another module than this page expects",
}


def visit_unloaded(browser):
    """Without the program one sentence in the place of the chart says why there is none and what to do, and
    the tables stay. With the program the chart is there again."""
    browser.open(browser.run("return location.href"))
    browser.wait("the first page", "return document.querySelector('#door fieldset:enabled')")
    sign_in(browser)
    wait_text(browser, "#plans", "house")
    house = os.path.join(TOP, HOUSE)
    lines = printed("schedule", "lft", house)
    rows = rows_of(lines)
    browser.run("window.real = window.fetch")
    for answer, why in NO_PROGRAM.items():
        browser.run("window.fetch = async (path, ...more) =>"
                    f" path === 'plan.wasm' ? {answer} : window.real(path, ...more)")
        open_plan(browser, 1)
        same("what is said in the place of a chart", texts(browser, "#chart .refusal > *"), [
            f"Reload the page, or tell the office: the program can't be loaded, because {why}; until then"
            " there is no chart."])
        same("whether it is said twice", browser.run("return note.checkVisibility()"), False)
        same("what else there is of the chart", texts(browser, "#drawing svg, #use > *, #legend li"), [])
        same("the starts", column(browser, "start"), [row[2] for row in rows])
        same_dates(browser, printed("cpm", house))
        same("the makespan", seen(browser, "#drawn label").strip(), f"{RULE_NAMES['lft']} {makespan_of(lines)}")
    same_senses("a plan without a chart", browser)
    browser.run("window.fetch = window.real")
    open_plan(browser, 1)
    same_bars("the chart with the program", browser, [[row[0], row[2], row[3]] for row in rows], makespan_of(lines))


def bar_classes(browser):
    """The first class of each bar behind `bar`, in the order of the chart."""
    return browser.run("return [...document.querySelectorAll('#drawing .bar')].map("
                       "(bar) => bar.classList[1])")


def two_sites():
    """A project on two sites whose crew binds: the dates alone mislabel its activities."""
    durations = [0, 4, 3, 2, 4, 3, 2, 5, 0]
    successors = [[2, 5], [3], [4], [9], [6], [7], [8], [9], []]
    needs = [0, 2, 2, 1, 2, 2, 1, 1, 0]
    rows = [f"{n} 1 {len(after)} {' '.join(map(str, after))}" for n, after in enumerate(successors, 1)]
    asked = [f"{n} 1 {d} {need}" for n, (d, need) in enumerate(zip(durations, needs), 1)]
    return "\n".join(["Two sites", "projects: 1", "jobs: 9", "- renewable: 1", "- nonrenewable: 0",
                      "- doubly constrained: 0", "PRECEDENCE RELATIONS:", "n", *rows,
                      "REQUESTS/DURATIONS:", "n", *asked, "RESOURCEAVAILABILITIES:", "R", "2", ""])


def visit_slack(browser):
    """Where crews bind, the colours are those of the slack that all delays leave, by each rule; stars are
    those of the dates. An activity that can start later, but not at once, has no slack."""
    stairs = browser.run("const bar = document.querySelector('#drawing .bar[data-line=\"8\"]');"
                         " return [bar.classList[1], bar.querySelector('title').textContent]")
    same("the stairs of the house", stairs, ["tight", "Activity 8: 20 to 23; needs 2 of resource 1; no slack"
                                             " in this schedule"])
    text = two_sites()
    drop(browser, "sites.sm", text)
    wait_plan(browser, 2)
    wait_text(browser, "#plan-head", "Plan 2, a project: Two sites")
    differ = 0
    for rule in RULES:
        browser.click(f"#drawn [value={rule}]")
        lines = printed("schedule", rule, "-", given=text.encode())
        slack = slack_in(text, lines)
        same_table(browser, lines, text.encode(), slack=slack)
        same(f"the colours by {rule}", bar_classes(browser), ["loose" if s else "tight" for s in slack])
        rows = rows_of(lines)
        same_bars(f"two sites by {rule}", browser, [[row[0], row[2], row[3]] for row in rows], makespan_of(lines))
        same_tails(browser, [[row[0], int(row[3]), s] for row, s in zip(rows, slack)], int(makespan_of(lines)))
        stars = [row[-1] == "*" for row in rows_of(printed("cpm", "-", given=text.encode()))]
        differ += sum(star != (s == 0) for star, s in zip(stars, slack))
    same("a star is another thing than no slack", differ > 3, True)
    browser.click("#drawn [value=lft]")


def visit_use(browser):
    """The area below the chart is the use of the resource, and a line is its capacity."""
    lines = printed("schedule", "lft", "-", given=two_sites().encode())
    model = model_of(two_sites())
    starts = [int(row[2]) for row in rows_of(lines)]
    found = browser.run("""
        const { x1, x2 } = document.querySelector("#drawing .thread");
        const left = x1.baseVal.value, width = x2.baseVal.value - left;
        const path = document.querySelector("#use .use").getAttribute("d");
        return [...path.matchAll(/H([0-9.]+)V([0-9]+)/g)].map(([, x, y]) => [(x - left) / width, (108 - y) / 80]);
    """)
    last = int(makespan_of(lines))
    use = lambda time: sum(need[0] for need, s, d in zip(model["needs"], starts, model["durations"])
                           if s <= time < s + d)
    wanted = [[time, use(time)] for time in range(last) if use(time) != (use(time - 1) if time else 0)]
    same("the use", [[round(part * last), round(amount * 2)] for part, amount in found], [*wanted, [last, 0]])
    same("the capacity", "capacity 2" in browser.run(
        "return document.querySelector('#use svg').getAttribute('aria-label')"), True)


def visit_sort(browser):
    """A head of the table sorts its rows, up and down, numbers as numbers; another plan isn't sorted."""
    starts = [int(cell) for cell in column(browser, "start")]
    for order in ("ascending", "descending"):
        browser.click("#table [data-head=start] button")
        heads = [head.split()[0] for head in texts(browser, "#table thead th")]
        found = [int(row[heads.index("start")]) for row in seen_table(browser, "#table")[1:]]
        same(f"the starts, {order}", found, sorted(starts, reverse=order == "descending"))
        told = browser.run("return document.querySelector('#table [data-head=start]').ariaSort")
        same("the order that is told", told, order)
    browser.click("#table [data-head=number] button")
    rows = seen_table(browser, "#table")[1:]
    mark = "return getComputedStyle(document.querySelector('#table [data-head=number] button'), '::after').content"
    same("the mark", browser.run(mark), '" ▲"')
    same("the numbers", [int(row[0].rstrip("*")) for row in rows], list(range(1, 10)))


# ---- the calendar


def days_by(rule, start, marks, path, instance=(), given=b""):
    """The first and the last day of each activity or step, as `plan days` prints them."""
    rows = rows_of(printed("days", rule, start, marks, path, *instance, given=given))
    return [["", ""] if row[-1] == "-" else row[-2:] for row in rows]


def places_in(start, marks, last):
    """The edges of intervals on an axis of days, by datetime."""
    days = worked_days(datetime.date.fromisoformat(start), marks, last + 1)
    ahead = lambda time: (days[time] - days[0]).days
    end = lambda time: ahead(time - 1) + 1 if time else 0
    return lambda a, b: ((ahead(a) if a < b else end(a)), end(b), end(last))


def visit_calendar(browser):
    """Working days are those of `plan days` by each rule; the axis has weeks, and free days are
    shaded."""
    open_plan(browser, 1)
    start, marks = "2024-03-01", "1111100"
    house = os.path.join(TOP, HOUSE)
    open_tab(browser, "changes")
    same("no calendar yet", "Not set on this computer" in seen(browser, "#calendar-set"), True)
    set_date(browser, "#calendar [name=start]", start)
    submit(browser, "calendar")
    wait_text(browser, "#calendar .answer", "From 2024-03-01 on; working days Mo, Tu, We, Th, Fr.")
    same("set here", f"Set here on {datetime.date.today()}. The page can't see what is set elsewhere."
         in seen(browser, "#calendar-set"), True)
    for rule in RULES:
        browser.click(f"#drawn [value={rule}]")
        lines = printed("schedule", rule, house)
        slack = slack_in(file_of(HOUSE).decode(), lines)
        same_table(browser, lines, file_of(HOUSE), days_by(rule, start, marks, house), slack)
        caption = seen(browser, "#table caption")
        same("the caption", caption, f"Schedule by {RULE_NAMES[rule]} {makespan_of(lines)}")
        last = int(makespan_of(lines))
        same_bars(f"a calendar by {rule}", browser, [[row[0], row[2], row[3]] for row in rows_of(lines)],
                  last, places_in(start, marks, last))
    browser.click("#drawn [value=lft]")
    span = places_in(start, marks, 45)(0, 45)[2]
    axis = seen_axis(browser)
    same("the first date of the axis", axis[0], ["Fri 1 Mar", 0])
    for words, part in axis[1:]:
        day = datetime.datetime.strptime(f"{words} 2024", "%a %d %b %Y").date()
        same(f"the day {words}", (day.weekday(), round(part * span)),
             (0, (day - datetime.date(2024, 3, 1)).days))
    same("weeks with a date", len(axis) > 4, True)
    bands = seen_bands(browser)
    weekends = [at for at in range(span) if (datetime.date(2024, 3, 1)
                                             + datetime.timedelta(at)).weekday() == 5]
    same("the shaded days", [[round(a * span), round(b * span)] for a, b in bands],
         [[at, 2] for at in weekends])


def visit_today(browser):
    """A calendar that begins two weeks ago has a line of today; this week's Monday is its place."""
    today = datetime.date.fromisoformat(browser.run("return new Date().toLocaleDateString('en-CA')"))
    set_date(browser, "#calendar [name=start]", str(today - datetime.timedelta(14)))
    for box in (6, 7):
        browser.run("document.querySelectorAll('#marks input')[arguments[0]].click()", box - 1)
    submit(browser, "calendar")
    part = browser.run("""
        const thread = document.querySelector(".thread"), line = document.querySelector("#drawing .today");
        const width = thread.x2.baseVal.value - thread.x1.baseVal.value;
        return (line.x1.baseVal.value - thread.x1.baseVal.value) / width;
    """)
    same("the place of today", round(part * 45, 1), 14)
    for box in range(1, 8):
        browser.run("const box = document.querySelectorAll('#marks input')[arguments[0]];"
                    " if (box.checked) box.click();", box - 1)
    submit(browser, "calendar")
    wait_text(browser, "#calendar .refusal", "E12 G2 days")
    same("what the page says of G2", texts(browser, "#calendar .refusal > *"),
         ["Mark a working day.", "None is marked.", "E12 G2 days"])
    set_date(browser, "#calendar [name=start]", "2024-03-01")
    for box in range(1, 6):
        browser.run("document.querySelectorAll('#marks input')[arguments[0]].click()", box - 1)
    submit(browser, "calendar")
    wait_text(browser, "#calendar .answer", "From 2024-03-01 on; working days Mo, Tu, We, Th, Fr.")


def house_of_four():
    """The house with a crew of four in the place of five."""
    house = file_of(HOUSE)
    same("availabilities in house.sm", house.count(b"\n    5    1\n"), 1)
    return house.replace(b"\n    5    1\n", b"\n    4    1\n")


def visit_bind(browser):
    """A bound resource has the code's capacity, not the file's, also in the slack; a place beyond the
    plan's resources isn't sent."""
    pick(browser, "#bind [name=place]", "1")
    submit(browser, "bind")
    wait_text(browser, "#bind .answer", "The capacity of resource 1 is now that of crew-a.")
    lines = printed("schedule", "lft", "-", given=house_of_four())
    slack = slack_in(house_of_four().decode(), lines)
    same("the makespan", seen(browser, "#drawn label").strip(),
         f"{RULE_NAMES['lft']} {makespan_of(lines)}")
    same("the slack", column(browser, "slack"), [str(number) for number in slack])
    same("set here", "resource 1 is crew-a (set here on" in seen(browser, "#bind-set"), True)
    same("the places of a project of two resources", places_offered(browser),
         ["resource 1", "resource 2"])


def places_offered(browser):
    """The resources or machines that can be bound."""
    return browser.run("return [...bind.elements.place.options].map(({ textContent }) => textContent)")


def visit_lag(browser):
    """A lag delays its successor, and 0 removes it; only an arc has one. Slack counts it."""
    arc = {"from": "2", "to": "3", "lag": "5"}
    for name, value in arc.items():
        pick(browser, f"#lag [name={name}]", value)
    submit(browser, "lag")
    wait_text(browser, "#lag .answer", "At least 5 between 2 and 3.")
    wait_text(browser, "#lag-set", "2 to 3: 5 (set here on")
    same("the whole", "the whole takes 50" in seen(browser, "#dates caption"), True)
    model = model_of(house_of_four().decode())
    for link in model["arcs"]:
        link["lag"] = 5 if (link["from"], link["to"]) == (1, 2) else 0
    starts = [int(cell) for cell in column(browser, "start")]
    slack = brute_slack(model, starts)
    same("the slack with a lag", column(browser, "slack"), [str(s) for s in slack])
    late = [start + 2 * (at > 1) for at, start in enumerate(starts)]
    browser.run("check.elements.starts.value = arguments[0]", " ".join(map(str, late)))
    submit(browser, "check")
    slack = brute_slack(model, late)
    same("the slack before a lag", slack[1], 2)
    ends = [int(cell) for cell in column(browser, "end")]
    same_tails(browser, [[str(at + 1), end, s] for at, (end, s) in enumerate(zip(ends, slack))], 52,
               places_in("2024-03-01", "1111100", 52))
    open_tab(browser, "changes")
    browser.type("#lag [name=lag]", "0")
    submit(browser, "lag")
    wait_text(browser, "#lag-set", "2 to 3: 0 (set here on")
    same("the whole", "the whole takes 45" in seen(browser, "#dates caption"), True)
    offered = "return [...lag.elements[arguments[0]].options].map(({ textContent }) => textContent)"
    same("activities", browser.run(offered, "from"), [str(n) for n in range(1, 15)])
    same("the successors of activity 2", browser.run(offered, "to"), ["3", "4"])
    browser.run("lag.elements.to.add(new Option('14', '14'))")
    pick(browser, "#lag [name=to]", "14")
    submit(browser, "lag")
    wait_text(browser, "#lag .refusal", "E03 body")
    same("what the page says of it", texts(browser, "#lag .refusal > *"),
         ["Choose a direct successor of 2.", "The plan has no arc from it to 14.", "E03 body"])
    # a plan with a lag alone, without a bind
    open_plan(browser, 2)
    open_tab(browser, "changes")
    for name, value in arc.items():
        pick(browser, f"#lag [name={name}]", value)
    submit(browser, "lag")
    wait_text(browser, "#lag-set", "2 to 3: 5 (set here on")
    same("a column of slack with a lag alone", "slack" in seen_table(browser, "#table")[0], True)
    browser.type("#lag [name=lag]", "0")
    submit(browser, "lag")
    wait_text(browser, "#lag-set", "2 to 3: 0 (set here on")


def visit_elsewhere(browser, office):
    """A lag or a bind that was set elsewhere is noticed: the page then claims no slack."""
    path = f"/desks/{DESK}/plans/2/"
    sent(office.server.port, "POST", path + "lag", KEY, b'{"from":2,"to":3,"lag":3}')
    open_plan(browser, 2)
    wait_text(browser, "#note", "Bind or set the lag here too to see slack: the office's plan differs from the file")
    same("a column of slack", "slack" in seen_table(browser, "#table")[0], False)
    same("the colours", set(bar_classes(browser)), {"plain"})
    same("thin lines", texts(browser, "#drawing .tail"), [])
    sent(office.server.port, "POST", path + "lag", KEY, b'{"from":2,"to":3,"lag":0}')
    sent(office.server.port, "POST", path + "bind", KEY, b'{"place":1,"code":"crew-a"}')
    open_plan(browser, 2)
    wait_text(browser, "#note", "Bind or set the lag here too to see slack")
    open_tab(browser, "changes")
    pick(browser, "#bind [name=place]", "1")
    submit(browser, "bind")
    same("a note of what was set here", browser.run("return note.checkVisibility()"), False)
    same("a column of slack then", "slack" in seen_table(browser, "#table")[0], True)


# ---- the best schedule, hand in and check


def visit_best(browser):
    """A file is dropped; the best schedule and its words are those of `plan solve`; it is drawn, dated
    and compared with the rules."""
    drop(browser, "five.sm", file_of("examples/five.sm").decode())
    wait_plan(browser, 3)
    same("the seconds at first", browser.run("return best.elements.seconds.value"), "10")
    set_date(browser, "#calendar [name=start]", "2024-03-01")
    submit(browser, "calendar")
    submit(browser, "best")
    lines = printed("solve", example("five.sm"))
    wait_text(browser, "#best-answer", f"{lines[0]}: no schedule of this plan is shorter.")
    wait_text(browser, "#drawn label:last-child", f"shortest, proved {makespan_of(lines)}")
    last = int(makespan_of(lines))
    same_choice(browser, last)
    bars = [[row[0], row[2], row[3]] for row in rows_of(lines)]
    same_bars("a best schedule", browser, bars, last, places_in("2024-03-01", "1111100", last))
    same("its column", seen_table(browser, "#rules")[0][-1], "search (optimal)")
    ends = [row[-1] for row in seen_table(browser, "#rules")[1:-1]]
    same("its ends", ends, [f"{row[2]}–{row[3]}" for row in rows_of(lines)])
    days = [str(day) for day in worked_days(datetime.date(2024, 3, 1), "1111100", last)]
    dates = [["", ""] if row[2] == row[3] else [days[int(row[2])], days[int(row[3]) - 1]]
             for row in rows_of(lines)]
    found = list(map(list, zip(column(browser, "first day"), column(browser, "last day"))))
    same("its dates", found, dates)
    slack = slack_in(file_of("examples/five.sm").decode(), lines)
    same("its slack", column(browser, "slack"), [str(number) for number in slack])


def same_choice(browser, found):
    """After a search on five.sm the shorter schedule is drawn: its, or that of the first of the best rules."""
    ends = {rule: int(makespan_of(printed("schedule", rule, example("five.sm")))) for rule in RULES}
    rule = min(RULES, key=ends.get)
    drawn = browser.run("return document.querySelector('#drawn :checked').value")
    same("what is drawn", drawn, "best" if found <= ends[rule] else rule)
    if found > ends[rule]:
        told = f'The schedule by the rule "{RULE_NAMES[rule]}" is {found - ends[rule]} shorter, so it is drawn.'
    elif found == ends[rule]:
        told = f'The rule "{RULE_NAMES[rule]}" is as good.'
    else:
        told = f"It is {ends[rule] - found} shorter than the shortest by a rule ({RULE_NAMES[rule]})."
    wait_text(browser, "#best-answer", told)
    lines = printed("schedule", rule, example("five.sm"))
    if drawn == rule:
        same_bars("the schedule of the rule", browser, [[row[0], row[2], row[3]] for row in rows_of(lines)],
                  ends[rule], places_in("2024-03-01", "1111100", ends[rule]))


def chain(count, width=1):
    """A project of so many activities, each behind the one before it; with names."""
    head = f"projects : 1\njobs : {count}\n - renewable : {width} R\n - nonrenewable : 0 N\n"
    head += " - doubly constrained : 0 D\nPRECEDENCE RELATIONS:\njobnr. #modes #successors\n"
    arcs = "".join(f"{n} 1 1 {n + 1}\n" for n in range(1, count)) + f"{count} 1 0\n"
    needs = "".join(f"{n} 1 {n % 4} {' '.join([str(n % 3)] * width)}\n" for n in range(1, count + 1))
    middle = "REQUESTS/DURATIONS:\njobnr. mode duration R 1\n---\n"
    names = "".join(f"name {n} Work number {n} of the chain\n" for n in range(1, count + 1))
    return (head + arcs + middle + needs + "RESOURCEAVAILABILITIES:\nR 1\n" + " ".join(["2"] * width)
            + "\n***\nPROJECT INFORMATION:\n" + names)


def visit_large(browser):
    """A plan that is too large for the office's search: the page searches, and takes what `plan solve`
    prints."""
    text = chain(41, 2)
    drop(browser, "large.sm", text)
    wait_plan(browser, 4)
    wait_text(browser, "#plan-head", "Plan 4, a project: large")
    browser.type("#best [name=seconds]", "10")
    submit(browser, "best")
    output = "\n".join([*printed("solve", "-", given=text.encode()), ""])
    wait_text(browser, "#best-answer", f"{output.splitlines()[0]}: no schedule of this plan is shorter.")
    browser.click("#colours option[value=resource]")
    colours = set(bar_classes(browser))
    same("the first of two that are needed alike", colours, {"cnone", "c0"})
    browser.click("#colours option[value=slack]")
    lines = printed("schedule", "num", "-", given=text.encode())
    drop(browser, "solved.txt", output)
    wait_text(browser, "#check-answer code", "active")
    wait_text(browser, "#check-answer", f"makespan {makespan_of(lines)}.")
    same("the schedule that is drawn", browser.run("return document.querySelector("
         "'#drawn :checked').value"), "own")
    same_bars("what was solved", browser, [[row[0], row[2], row[3]] for row in rows_of(lines)],
              makespan_of(lines))
def values_set(browser):
    """The values in the forms of changes."""
    return browser.run("return [bind.elements.place, lag.elements.from, lag.elements.to,"
                       " lag.elements.lag, calendar.elements.start].map((field) => field.value)")


def overuse_words(name, time):
    return f"Start an activity that needs {name} at time {time} later. More of it is needed then than there is."


def same_uses(browser, model, starts, names):
    """The use of each resource has the colour of errors where more is used than there is, and nowhere else.
    A sentence above it names the resource and the first of these instants."""
    work = list(zip(starts, model["durations"], model["needs"]))
    last = max(start + d for start, d, _ in work)
    used = lambda time, place: sum(need[place] for start, d, need in work if start <= time < start + d)
    over = [[time for time in range(last) if used(time, place) > capacity]
            for place, capacity in enumerate(model["capacities"])]
    wanted = [[overuse_words(name, times[0]) if times else "", times, bool(times)] for name, times in zip(names, over)]
    same(f"the overuse by {starts}", seen_uses(browser, last), wanted)
    same(f"the overuse by {starts} in the legend", "more of a resource than there is" in " ".join(
        texts(browser, "#legend li")), any(over))


def visit_check(browser):
    """Start times get the verdicts of `plan check`, with the makespan, and their place is shown."""
    drop(browser, "six.sm", file_of("examples/six.sm").decode())
    wait_plan(browser, 5)
    same("values of a plan that wasn't changed here", values_set(browser), [""] * 5)
    cases = ["0 0 0 3 2 7", "0 0 0 3 2 8", "0 0 0 2 2 7", "0 0 0 3 3 7", "0 0 1 3 3 7", "0 0 0 3 0 7"]
    for starts in cases:
        line = plan("check", example("six.sm"), "-", given=starts.encode())[1].decode().rstrip("\n")
        browser.run("check.elements.starts.value = arguments[0]", starts)
        submit(browser, "check")
        same(f"the verdict on {starts}", seen(browser, "#check-answer code"), line)
        ends = [int(s) + d for s, d in zip(starts.split(), [0, 3, 2, 4, 3, 0])]
        wait_text(browser, "#check-answer", f"makespan {max(ends)}.")
        found = "refusal" if "start" in line and "before" in line or "needed" in line else "verdict"
        same("its colour", browser.run("return document.querySelector('#check-answer > div')"
                                       ".className"), found)
        named = f"own {max(ends)}" + (" (not feasible)" if found == "refusal" else "")
        same("its name", seen(browser, "#drawn label:last-child").strip(), named)
        same("its caption", named in seen(browser, "#caption"), True)
        rows = [[str(at + 1), start, str(end)] for at, (start, end) in enumerate(zip(starts.split(), ends))]
        same_bars(f"the start times {starts}", browser, rows, max(ends))
        same_uses(browser, model_of(file_of("examples/six.sm").decode()), list(map(int, starts.split())), ["resource 1"])
        if line.startswith("activity"):
            wait_text(browser, "#told", f"Activity {line.split()[1]}: ")
    browser.choose("#check-file", example("late.txt"))
    wait_text(browser, "#check-answer code", "activity 6 can start earlier")
    for starts in ("0 0 0", "0 0 0 3 2 x"):
        browser.run("check.elements.starts.value = arguments[0]", starts)
        submit(browser, "check")
        line = plan("check", example("six.sm"), "-", given=starts.encode())[2].decode().rstrip("\n")
        wait_text(browser, "#check-answer code", line)
        same(f"the error of {starts}", seen(browser, "#check-answer code"), line)


def downloaded(browser, office, button):
    """The name and the text of a file that the page saves by a button."""
    open_tab(browser, "handin")
    return downloaded_by(browser, office, button, lambda: browser.click(f"#saves [value^={button}]"))


def downloaded_by(browser, office, kind, act):
    """The name and the text of a file that the page saves after an action."""
    room = os.path.join(os.path.dirname(office.database), "saved-" + kind)
    os.makedirs(room, exist_ok=True)
    browser.devtools("Browser.setDownloadBehavior", behavior="allow", downloadPath=room)
    act()
    for _ in range(300):
        names = [name for name in os.listdir(room) if not name.endswith(".crdownload")]
        if names:
            with open(os.path.join(room, names[0]), encoding="utf-8", newline="") as file:
                text = file.read()
            if text:
                os.remove(os.path.join(room, names[0]))
                return names[0], text
        browser.wait("a moment", "return true")
    raise Wrong(f"nothing was saved by {kind}")


def one_line(value):
    """JSON in the form of `plan`: one line, the members in order."""
    return json.dumps(value, sort_keys=True, separators=(",", ":"), ensure_ascii=False) + "\n"


def as_printed(commands, given, instance=()):
    """The members of the JSON of several commands on a file, and those of their rows together."""
    options = ["--names", "--format", "json"]
    values = [json.loads("\n".join(printed(*words, *options, "-", *instance, given=given)))
              for words in commands]
    rows = zip(*(value["rows"] for value in values))
    together = [{key: cell for row in parts for key, cell in row.items()} for parts in rows]
    return {key: member for value in values for key, member in value.items()} | {"rows": together}


def visit_save(browser, office):
    """The schedule that is drawn is saved as CSV, JSON and start times."""
    open_plan(browser, 1)
    lines = printed("schedule", "spt", "-", given=house_of_four())
    rows = rows_of(lines)
    same("the values set here last", values_set(browser), ["1", "2", "3", "0", "2024-03-01"])
    browser.click("#drawn [value=spt]")
    name, text = downloaded(browser, office, "csv")
    same("the name of the file", name, f"{DESK}-plan-1-spt.csv")
    table = list(csv.reader(io.StringIO(text)))
    last = int(makespan_of(lines))
    days = [str(day) for day in worked_days(datetime.date(2024, 3, 1), "1111100", last)]
    wanted = [["act", "d", "start", "end", "first", "last"]]
    wanted += [[*row[:4], *(["", ""] if row[2] == row[3] else [days[int(row[2])], days[int(row[3]) - 1]])]
               for row in rows]
    same("the CSV", table, wanted)
    given = house_of_four()
    wanted = as_printed([("schedule", "spt"), ("days", "spt", "2024-03-01", "1111100")], given)
    wanted |= {"desk": DESK, "plan": 1, "schedule": "spt", "title": "house"}
    same("the JSON", downloaded(browser, office, "json")[1], one_line(wanted))
    starts = downloaded(browser, office, "starts")[1]
    same("the start times", starts.split(), [row[2] for row in rows])
    with open(os.path.join(os.path.dirname(office.database), "four.sm"), "wb") as file:
        file.write(house_of_four())
    verdict = plan("check", file.name, "-", given=starts.encode())
    same("plan check on them", verdict[:2], (0, b"active\n"))
    browser.click("#drawn [value=lft]")
    open_plan(browser, 3)
    browser.click("#drawn [value=mts]")
    five = example("five.sm")
    with open(os.path.join(os.path.dirname(office.database), "five.starts"), "w", encoding="ascii") as file:
        file.write("\n".join(row[2] for row in rows_of(printed("schedule", "mts", five))))
    calendar = ["2024-03-01", "1111100"]
    for form, words in (
        ("html", ["report", "--title=five", "--start", calendar[0], "--days", calendar[1],
                  "--starts", file.name, five]),
        ("ics", ["days", "--format", "ics", "--starts", file.name, *calendar, five]),
        ("svg", ["chart", "--svg", "--starts", file.name, five]),
    ):
        status, out, _ = plan(*words)
        same(f"plan {words[0]}", status, 0)
        text = downloaded(browser, office, form)[1]
        same(f"what is saved as {form}", text.replace("plan.sm", "five.sm"), out.decode())
    open_plan(browser, 1)


# ---- tables of spreadsheets


def visit_table(browser):
    """A table is shown with the project that it becomes; an error is shown at its cell."""
    text = file_of("tests/tables/list.csv").decode()
    drop(browser, "list.csv", text.replace("B C", "B X"))
    wait_text(browser, "#preview code", "T8 line 5 predecessor X")
    same("the line", texts(browser, "#preview .marked td"), [text.replace("B C", "B X").split("\n")[4]])
    same_senses("a table with an error", browser)
    same("a button", browser.run("return document.querySelector('#chosen button').checkVisibility()"),
         False)
    drop(browser, "list.csv", text)
    wait_text(browser, "#preview", "a project of 4 activities, with 4 links between them and 2 resources")
    wanted = [["id", "name", "duration", "predecessors", "crew", "digger"],
              ["A", "Excavation", "4", "", "3", "1"], ["B", "Foundation", "6", "A", "5", "0"],
              ["C", "Drains", "3", "A", "2", "1"], ["D", "Walls, north", "10", "B C", "4", "0"]]
    same("the project", seen_table(browser, "#preview"), wanted)
    same("the plans so far", seen_plans(browser), [1, 2, 3, 4, 5])
    browser.run("edit.elements.list.value = arguments[0]", text.replace("Drains,3", "Drains,x"))
    submit(browser, "edit")
    wait_text(browser, "#preview code", "T5 line 4 duration")
    browser.click("#undo")
    wait_text(browser, "#preview", "becomes a project of 4 activities")
    same("the list again", browser.run("return edit.elements.list.value"), text)


def visit_capacity(browser, office):
    """A capacity that the table lacks is entered on the page."""
    text = file_of("tests/tables/list.csv").decode().replace("capacity,,,,5,1\n", "")
    drop(browser, "list.csv", text)
    wait_text(browser, "#preview code", "T10 no capacity crew")
    browser.type("#capacities [data-resource=crew]", "5")
    browser.press(TAB)
    wait_text(browser, "#preview code", "T10 no capacity digger")
    browser.type("#capacities [data-resource=digger]", "1")
    browser.press(TAB)
    wait_text(browser, "#preview", "becomes a project of 4 activities")
    submit(browser, "import")
    wait_plan(browser, 6)
    wait_text(browser, "#import-answer", "list.csv is plan 6.")
    same("the ids", [cell.rstrip("*") for cell in column(browser, "id")], ["A", "B", "C", "D"])
    same("the names", column(browser, "name"), ["Excavation", "Foundation", "Drains", "Walls, north"])
    # the foundation needs the whole crew, so the drains wait: 4 + 6 + 3 + 10
    same("its schedule", column(browser, "start"), ["0", "4", "10", "13"])
    same_ids(browser)
    given = "\n".join(printed("import", "tests/tables/list.csv")).encode()
    wanted = as_printed([("schedule", "lft")], given)
    wanted |= {"desk": DESK, "plan": 6, "schedule": "lft", "title": "list"}
    same("the JSON with ids and names", downloaded(browser, office, "json")[1], one_line(wanted))
    csv_lines = printed("schedule", "lft", "--names", "--format", "csv", "-", given=given)
    name, text = downloaded(browser, office, "csv")
    same("the CSV with ids and names", text.splitlines(), csv_lines)
    same("the start times of all, also of the start and the end",
         downloaded(browser, office, "starts")[1].split(), ["0", "0", "4", "10", "13", "23"])
    drop(browser, name, text)
    wait_text(browser, "#check-answer code", "active")
    check_early(browser)
    browser.click("#tab-table")
    browser.click("#drawn [value=lft]")
    labels = texts(browser, "#drawing .name")
    same("the names of the lines", [label.split("…")[0] for label in labels][:2],
         ["A ExcavationA Excavation", "B FoundationB Foundation"])
    same("the use of the crew", "Use of crew, capacity 5" in browser.run(
        "return document.querySelector('#use svg').getAttribute('aria-label')"), True)


def same_ids(browser):
    """The ids are in the tables of dates and rules, on the bars, and in the choices of a lag."""
    lines = printed("cpm", "--names", "-", given="\n".join(printed("import", "tests/tables/list.csv")).encode())
    dates = [line.split()[:8] for line in lines[1:-1]]
    same("the dates by ids", [row[:8] for row in seen_table(browser, "#dates")[1:]], dates)
    same("the rules by ids", [row[0] for row in seen_table(browser, "#rules")],
         ["id", "A", "B", "C", "D", "makespan"])
    bars = browser.run("return [...document.querySelectorAll('#drawing .bar')].map((bar) => ["
                       "bar.lastChild.textContent.replace('*', ''), bar.querySelector('title').textContent])")
    same("the labels of the bars", [bar[0] for bar in bars], ["A", "B", "C", "D"])
    same("the words of a bar", bars[2][1].startswith("Activity C Drains: 10 to 13; needs 2 of crew"), True)
    offered = "return [...lag.elements[arguments[0]].options].map(({ textContent }) => textContent)"
    same("the activities of a lag", browser.run(offered, "from"),
         ["the start", "A Excavation", "B Foundation", "C Drains", "D Walls, north", "the end"])
    pick(browser, "#lag [name=from]", "2")
    same("their successors", browser.run(offered, "to"), ["B Foundation", "C Drains"])
    same("the resources", places_offered(browser), ["crew", "digger"])


def check_early(browser):
    """Verdicts are told with ids and names, and with what to do first."""
    starts_are(browser, "0 0 3 10 13 23", "activity 3 starts before 2 ends")
    same("the words", texts(browser, "#check-answer .refusal > *"),
         ["Start B Foundation later.", "It starts before A Excavation ends. Not feasible, makespan 23.",
          "activity 3 starts before 2 ends"])
    starts_are(browser, "0 0 4 4 13 23", "at time 4 more of resource 1 is needed than there is")
    wait_text(browser, "#check-answer strong", "Start an activity that needs crew at time 4 later.")
    check_overuse(browser)
    same_senses("start times that aren't feasible", browser)
    starts_are(browser, "0 0 4 10 14 24", "activity 5 can start earlier")
    wait_text(browser, "#check-answer strong", "Start D Walls, north earlier, if you like.")
    starts_are(browser, "0 0 4 10 13 24", "activity 6 can start earlier")
    wait_text(browser, "#check-answer strong", "Start the end earlier, if you like.")


def check_overuse(browser):
    """More use than there is has the colour of errors, with its resource and its instant, also on paper. What
    else is wrong is said too."""
    later = "Start B Foundation later. It starts before A Excavation ends."
    model = model_of("\n".join(printed("import", "tests/tables/list.csv")))
    for starts, line, told in (
        ("0 0 4 4 13 23", "at time 4 more of resource 1 is needed than there is", [overuse_words("crew", 4)]),
        # of the crew 8, 10 and then 11; two diggers
        ("0 0 0 2 4 30", "activity 3 starts before 2 ends",
         [later, overuse_words("crew", 0), overuse_words("digger", 2)]),
        ("0 0 3 10 13 23", "activity 3 starts before 2 ends", [later, overuse_words("crew", 3)]),
    ):
        starts_are(browser, starts, line)
        same(f"what is wrong with {starts}", texts(browser, "#use .fault"), told)
        same_uses(browser, model, list(map(int, starts.split())), ["crew", "digger"])
        same("the names of the uses", texts(browser, "#use .name title"), ["crew", "digger"])
        browser.run("dispatchEvent(new Event('beforeprint'))")
        same(f"what is wrong with {starts} on paper", texts(browser, "#paper .fault"), told)
        red = browser.run("return [...document.querySelectorAll('#paper [role=img]')].map((image) => ["
                          "image.previousElementSibling.matches('.fault'), Boolean(image.querySelector('.over'))])")
        same(f"the uses on paper by {starts}", red, [["needs crew" in " ".join(told)] * 2, ["digger" in " ".join(told)] * 2])
        browser.run("dispatchEvent(new Event('afterprint'))")


def visit_need(browser, office):
    """A need above its capacity is told with the names and numbers of the plan's file."""
    def publish(capacity):
        body = b'{"code":"crew-c","kind":"crew","capacity":%d}' % capacity
        sent(office.server.port, "POST", "/office/capacities", OFFICE_KEY, body)
        focus_window(browser)
        wait_text(browser, "#codes tbody tr:nth-child(2)", "crew-c")
        wait_text(browser, "#codes tbody tr:nth-child(2) td:last-child", str(capacity))
        browser.wait("the plan", "return !document.getElementById('plan').hasAttribute('aria-busy')")
    publish(4)
    open_tab(browser, "changes")
    pick(browser, "#bind [name=place]", "1")
    browser.click("#bind option[value=crew-c]")
    submit(browser, "bind")
    wait_text(browser, "#plan-answer code", "E11 S1 activity 3 resource 1")
    same("the need in names", texts(browser, "#plan-answer .refusal > *"),
         ["Raise the capacity of crew, or lower what B Foundation needs.",
          "Activity B Foundation needs 5 of crew, which has 4, so it can never start.",
          "E11 S1 activity 3 resource 1"])
    publish(5)
    same("the error then", texts(browser, "#plan-answer code"), [])
    same("its schedule", column(browser, "start"), ["0", "4", "10", "13"])
    # a file that the page makes of the plan and its bind has the ids too
    publish(6)
    drop(browser, *downloaded(browser, office, "csv"))
    wait_text(browser, "#check-answer code", "active")
    publish(5)
    browser.click("#tab-table")


def visit_names(browser):
    """Files and names outlast a sign-in on this computer, without any key, and can be switched off; the
    plan's file gives them back."""
    keys, text = kept(browser)
    same("a name and a file that are kept", ("Foundation" in text, "REQUESTS/DURATIONS" in text), (True, True))
    stored = text + browser.run("return JSON.stringify(localStorage)")
    same("keys that are kept", [key for key in (KEY, OFFICE_KEY, FIRST_KEY) if key in stored], [])
    browser.click("#leave")
    sign_in(browser)
    wait_text(browser, "#plans", "Two sites")
    makespans = [row[3] for row in seen_table(browser, "#plans")[1:]]
    same("makespans in the list", all(cell.isdigit() for cell in makespans), True)
    open_plan(browser, 6)
    same("the names then", column(browser, "name")[0], "Excavation")
    same("the ids then", column(browser, "id")[0], "A*")
    same("the slack by the file", "slack" in seen_table(browser, "#table")[0], True)
    same("its list", browser.run("return document.getElementById('edit-list').checkVisibility()"), True)
    browser.click("#remember")
    browser.click("#leave")
    same("what is kept without the switch", (browser.run("return Object.keys(localStorage)"), kept(browser)),
         (["plan/forget"], [[], "[]"]))
    sign_in(browser)
    open_plan(browser, 6)
    same("a column of names or ids", [head for head in seen_table(browser, "#table")[0]
                                      if head in ("id", "name")], [])
    wait_text(browser, "#note", "Add the file of this plan below to see slack: this page hasn't read it.")
    same("the colours", set(bar_classes(browser)), {"plain"})
    same("the use without a file", texts(browser, "#use svg"), [])
    # the calendar of this plan isn't known here any more
    open_plan(browser, 1)
    rows = [[cell.strip("*") for cell in row] for row in zip(*(column(browser, head)
                                                               for head in ("number", "start", "end")))]
    last = max(int(row[2]) for row in rows)
    same_bars("a calendar that was set elsewhere", browser, rows, last, places_in("2024-03-01", "1111100", last))
    open_plan(browser, 4)
    submit(browser, "best")
    wait_text(browser, "#best-answer .refusal", "E11 S5 too large")
    wait_text(browser, "#best-answer strong", "Add the file of this plan below")
    open_plan(browser, 6)
    open_tab(browser, "changes")
    pick(browser, "#bind [name=place]", "3")
    submit(browser, "bind")
    wait_text(browser, "#bind .refusal", "E03 body")
    same("what the page says of it", texts(browser, "#bind .refusal > *"),
         ["Choose a resource of this plan.", "It has no resource 3.", "E03 body"])
    browser.choose("#names-file", os.path.join(TOP, HOUSE))
    wait_text(browser, "#names-answer .refusal", "Choose the file of plan 6: the durations of house.sm are others.")
    browser.choose("#names-file", os.path.join(TOP, "tests", "tables", "list.csv"))
    wait_text(browser, "#names-answer", "list.csv is the file of plan 6.")
    same("the names again", column(browser, "name")[0], "Excavation")
    same("what is kept then", kept(browser), [[], "[]"])
    browser.click("#remember")
    browser.wait("the records", "return !localStorage.getItem('plan/forget')")
    same("what is kept with the switch", [DESK, 6] in kept(browser)[0], True)


def keep_record(browser, desk, n, record):
    """Puts a record of a plan into the browser's memory."""
    browser.run("""
        const [desk, n, record] = arguments;
        return new Promise((tell) => {
            const request = indexedDB.open("plan", 1);
            request.onsuccess = () => {
                const transaction = request.result.transaction("plans", "readwrite");
                transaction.objectStore("plans").put({ n, record }, [desk, n]);
                transaction.oncomplete = () => {
                    request.result.close();
                    tell(true);
                };
            };
        });
    """, desk, n, record)


def visit_other(browser, office):
    """A plan of another desk with the same number and the same file has no names of this desk."""
    keep_record(browser, DESK, 1, {"title": "of this desk"})
    for path, key, body in (("/office/desks", OFFICE_KEY, b'{"desk":"other","key":"other-key-1"}'),
                            ("/desks/other/projects", "other-key-1", file_of(HOUSE))):
        sent(office.server.port, "POST", path, key, body)
    browser.click("#leave")
    sign_in(browser, "other", "other-key-1")
    browser.wait("its makespan", "return document.querySelector('#plans td:last-child')?.textContent")
    same("its list", seen_table(browser, "#plans")[1:], [["Plan 1", "", "project", "45"]])
    open_plan(browser, 1)
    same("its head", seen(browser, "#plan-head"), "Plan 1, a project")
    keep_record(browser, DESK, 1, {})
    browser.click("#leave")
    sign_in(browser)
    wait_text(browser, "#plans", "list")


# ---- job shops


def same_printing(browser):
    """The tables, and the bars on the lines of jobs and of machines, are those of the shop "printing"."""
    for rule in SHOP_RULES:
        browser.click(f"#drawn [value={rule}]")
        lines = printed("shop", rule, example("shops.txt"), "printing")
        rows = rows_of(lines)
        slack = brute_slack(shop_model(rows), [int(row[4]) for row in rows])
        same("the table", seen_table(browser, "#table")[1:],
             [[row[0], row[1], row[2], row[4], row[5], str(s)] for row, s in zip(rows, slack)])
        for by, place, names in (("job", 0, ["job 1", "job 2"]), ("machine", 2, ["machine 0", "machine 1"])):
            browser.click(f"#lines option[value={by}]")
            same_bars(f"{by} by {rule}", browser, [[row[place], row[4], row[5]] for row in rows], makespan_of(lines))
            same(f"the names of each {by}", texts(browser, "#drawing .name title"), names)


def visit_shop(browser):
    """A job shop is imported by the name of its instance; a line is a machine, or a job."""
    browser.choose("#file", example("shops.txt"))
    browser.wait("the instances", "return document.activeElement.name === 'instance'")
    offered = browser.run("return [...instances.options].map((option) => option.value)")
    same("the instances that are offered", offered, ["printing", "ft06"])
    for name in ("a/b", "a b", "..", "a%41"):
        browser.type("#import [name=instance]", name)
        before = browser.run("return performance.getEntriesByType('resource').length")
        submit(browser, "import")
        wait_text(browser, "#import-answer .refusal", "Rename the instance in the file")
        after = browser.run("return performance.getEntriesByType('resource').length")
        same(f"requests for {name}", after, before)
    browser.type("#import [name=instance]", "printing")
    submit(browser, "import")
    wait_plan(browser, 7)
    wait_text(browser, "#plans", "job shop")
    same_printing(browser)
    submit(browser, "best")
    wait_text(browser, "#best-answer", "optimal 6:")
    open_tab(browser, "changes")
    pick(browser, "#bind [name=place]", "0")
    submit(browser, "bind")
    same("machine 0", "machine 0 is press-1 (set here on" in seen(browser, "#bind-set"), True)
    same("the places of two machines", places_offered(browser), ["machine 0", "machine 1"])


def large_shop():
    """A shop of 15 jobs on 10 machines, with names."""
    rows = [" ".join(f"{(job + step) % 10} {1 + (job * 7 + step * 3) % 9}" for step in range(10))
            for job in range(15)]
    names = "".join(f"+ job {job} order {4700 + job}\n" for job in range(1, 16))
    return f"instance big\n+ machine 0 press\n{names}fifteen orders\n15 10\n" + "\n".join(rows) + "\n"


def visit_colours(browser):
    """On the lines of machines each job has its colour, on the lines of jobs each machine; lines are in
    the order of their numbers; names are in labels and tooltips."""
    drop(browser, "big.txt", large_shop())
    wait_plan(browser, 8)
    rows = rows_of(printed("shop", "mwkr", "-", "big", given=large_shop().encode()))
    places = range(0, len(rows), 11)
    slack = brute_slack(shop_model(rows), [int(row[4]) for row in rows], places)
    found = column(browser, "slack")
    same("the slack of the steps", [found[at] for at in places], [str(number) for number in slack])
    same("some slack", any(slack), True)
    for lines, count, other in (("machine", 10, 15), ("job", 15, 10)):
        browser.click(f"#lines option[value={lines}]")
        bars = browser.run("""
            return [...document.querySelectorAll("#drawing .bar")].map((bar) => [Number(bar.dataset.line),
                Number(bar.dataset.start), bar.classList[1], bar.querySelector("title").textContent]);
        """)
        order = [bar[0] for bar in bars]
        same(f"the lines of {lines}", (order, len(set(order))), (sorted(order), count))
        starts = [bar[:2] for bar in bars]
        same("the bars of each line", starts, sorted(starts))
        same("the bars by keys", browser.run("""
            const chart = document.querySelector("#drawing [role=application]");
            return [...document.querySelectorAll("#drawing .bar")].map(() => {
                chart.dispatchEvent(new KeyboardEvent("keydown", { key: "ArrowRight" }));
                const { line, start } = document.querySelector("#drawing .told").dataset;
                return [Number(line), Number(start)];
            });
        """), starts)
        same("the colours", len({bar[2] for bar in bars}), other)
        key = 1 if lines == "machine" else 2
        words = [bar[3].replace(",", "").replace(":", "").split() for bar in bars]
        by = {}
        for bar, word in zip(bars, words):
            name = word[1] if key == 1 else word[word.index("machine") + 1]
            same(f"the colour of {lines} {name}", by.setdefault(name, bar[2]), bar[2])
        same("orders in tooltips", all(" order 47" in bar[3] for bar in bars), True)
    browser.click("#lines option[value=machine]")
    same("the press", "0 press" in texts(browser, "#drawing .name")[0], True)


def visit_links(browser):
    """The selected step is linked with the steps before and behind it, of its job and its machine."""
    open_plan(browser, 7)
    browser.click("#drawn [value=mwkr]")
    browser.run("document.querySelector('#drawing').scrollIntoView({ block: 'center' })")
    browser.point("#drawing .bar[data-index='2'] rect")
    arcs = browser.run("return [...document.querySelectorAll('.arc')].map("
                       "(arc) => [arc.dataset.from, arc.dataset.to])")
    same("the links of step 1 of job 2", sorted(arcs), [["1", "3"], ["3", "4"]])


def visit_focus(browser, office):
    """The window's focus asks for the lists, which stay if nothing has changed; a plan that was
    deleted elsewhere is closed."""
    mark = "return document.querySelector('#plans button')"
    browser.run(f"window.kept = ({mark[7:]}); window.asked = 0; const real = window.fetch;"
                "window.fetch = (...words) => { window.asked += 1; return real(...words); };")
    focus_window(browser)
    browser.wait("the lists", "return window.asked >= 2")
    wait_idle(browser)
    browser.wait("the capacities", "return document.querySelectorAll('#codes tr').length > 2")
    same("the same button", browser.run(f"return window.kept === ({mark[7:]})"), True)
    drop(browser, "six.sm", file_of("examples/six.sm").decode())
    wait_plan(browser, 9)
    wait_idle(browser)
    talk(office.server.port, Exchange("DELETE", f"/desks/{DESK}/plans/9", KEY).request())
    focus_window(browser)
    browser.wait("no plan", "return plan.hidden")
    same("the plans", seen_plans(browser), list(range(1, 9)))
    open_plan(browser, 7)


def visit_closed(browser, office):
    """A machine whose code is published with 0 is closed, and the plan says so in the place of a
    chart; with 1 it is open again. The window's focus asks for it."""
    open_tab(browser, "changes")
    pick(browser, "#bind [name=place]", "1")
    submit(browser, "bind")
    wait_text(browser, "#bind .answer", "The capacity of machine 1 is now that of press-1.")
    for capacity, is_open in ((0, False), (1, True)):
        body = b'{"code":"press-1","kind":"machine","capacity":%d}' % capacity
        sent(office.server.port, "POST", "/office/capacities", OFFICE_KEY, body)
        focus_window(browser)
        wait_text(browser, "#codes tr:last-child td:last-child", str(capacity))
        browser.wait(f"a chart: {is_open}", """
            return !document.getElementById("plan").hasAttribute("aria-busy")
                && chart.checkVisibility() === arguments[0];
        """, is_open)
        told = texts(browser, "#plan-answer code")
        same("the error", told, [] if is_open else ["E11 S4 machine 0 closed"])
        same("what to do", texts(browser, "#plan-answer strong"), [] if is_open else
             ["Bind machine 0 to another code under Changes, or ask the office to open it."])


def visit_refused(browser):
    """A wrong file is refused in the office's words, and its line is marked. The notice goes when a
    plan is opened."""
    for name, line, to_do in (
        ("wrong_count.sm", "F7 line 21", "Number the jobs 1, 2, 3 and so on, and name only such jobs as successors."),
        ("cycle.sm", "F12 line 17 cycle 3 4", "Delete one arc of the cycle 3, 4."),
    ):
        status, out, err = plan("cpm", example(name))
        same(f"plan cpm {name}", (status, out, err.decode()), (1, b"", line + "\n"))
        browser.choose("#file", example(name))
        wait_text(browser, "#import-answer code", "E10 " + line)
        wait_idle(browser)
        number = int(line.split()[2])
        same(f"what the page says of {line}", texts(browser, "#import-answer strong"), [to_do])
        marked = browser.run("return [...document.querySelectorAll('.marked > *')].map("
                             "(cell) => cell.innerText)")
        lines = file_of(f"examples/{name}").decode().split("\n")
        same("the marked line", marked, [str(number), lines[number - 1]])
    same("the plans", seen_plans(browser), list(range(1, 9)))
    open_plan(browser, 3)
    same("the notice then", seen(browser, "#import-answer"), "")


def visit_keys(browser):
    """Keys choose the plan and the schedule that is drawn; Escape deletes nothing."""
    browser.run("document.querySelector('#plans-head').focus()")
    browser.press(TAB, TAB)
    same("the focus", browser.run("return document.activeElement.textContent"), "Plan 1")
    browser.press(ENTER)
    wait_plan(browser, 1)
    wait_idle(browser)
    same("the focus then", browser.run("return document.activeElement.id"), "plan-head")
    browser.run("document.querySelector('#drawn :checked').focus()")
    browser.press(RIGHT)
    makespan = makespan_of(printed("schedule", "slk", "-", given=house_of_four()))
    wait_text(browser, "#caption", f"Activities by {RULE_NAMES['slk']} {makespan}")
    browser.run("document.querySelector('#tab-table').focus()")
    browser.press(RIGHT)
    same("the tab", browser.run("return [changes.hidden, document.activeElement.id]"),
         [False, "tab-changes"])
    browser.run("document.querySelector('#delete button').focus()")
    browser.press(ENTER)
    browser.wait("the question", "return question.open")
    browser.press(ESCAPE)
    browser.wait("no question", "return !question.open")
    wait_idle(browser)
    same("the plans", seen_plans(browser), list(range(1, 9)))


def visit_back(browser):
    """Back goes from a plan to the one before it, and to the list, and never signs out. The title has
    the plan and the desk."""
    title = lambda: browser.run("return document.title")
    browser.run("document.querySelector('#to-plans').click()")
    same("the title of the list", title(), f"Plans - {DESK}")
    for n in (3, 6):
        open_plan(browser, n)
    same("the title of a plan", title(), f"list - {DESK}")
    browser.run("history.back()")
    wait_plan(browser, 3)
    wait_idle(browser)
    browser.run("history.back()")
    browser.wait("the list", "return plan.hidden")
    same("the title of the list again", title(), f"Plans - {DESK}")
    # as if the desk had been opened at this plan
    browser.run("history.replaceState(null, '')")
    open_plan(browser, 3)
    browser.run("history.back()")
    wait_text(browser, "#news", "You are still signed in. Sign out to leave.")
    same("the plan stays", browser.run("return plan.checkVisibility()"), True)
    browser.run("document.querySelector('#to-plans').click()")
    open_plan(browser, 1)


def visit_delete(browser):
    """A plan is deleted after a question alone, and its names are forgotten."""
    open_plan(browser, 2)
    open_tab(browser, "changes")
    for answer, told in (("no", "Plan 2, a project"), ("yes", "Plan 2 is deleted.")):
        browser.click("#delete button")
        wait_text(browser, "#question p", f"Delete plan 2 of desk {DESK} for good?")
        browser.click(f"#question [value={answer}]")
        browser.wait("no question", "return !question.open")
        wait_text(browser, "#plan-head, #news", told)
        wait_idle(browser)
    same("the plans", seen_plans(browser), [1, 3, 4, 5, 6, 7, 8])
    same("its record", [n for n in (2, 6) if [DESK, n] in kept(browser)[0]], [6])


# ---- a lost connection


def visit_lost(browser, office):
    """While no office is there nothing is told as done; then the list is asked, and nothing is sent
    before it was."""
    before = seen_plans(browser)
    office.stop()
    browser.choose("#file", example("six.sm"))
    wait_text(browser, "#lost", "it isn't known whether it was carried out")
    wait_idle(browser)
    same("the plans that are shown", seen_plans(browser), before)
    office.start()
    submit(browser, "import")
    wait_text(browser, "#import-answer", "nothing was sent")
    wait_text(browser, "#news", "The list has the same plans as before.")
    same("the office's plans", listed(office.server), before)
    same("the warning", browser.run("return lost.checkVisibility()"), False)
    submit(browser, "import")
    wait_plan(browser, 10)
    same("the office's plans then", listed(office.server), [*before, 10])


def visit_found(browser, office):
    """A command whose answer is cut off is found in the list, and isn't sent again by itself."""
    before = seen_plans(browser)
    browser.run("""
        const real = window.fetch;
        window.fetch = async (...words) => {
            window.fetch = real;
            await real(...words);
            throw new TypeError("cut off");
        };
    """)
    browser.choose("#file", example("six.sm"))
    wait_text(browser, "#lost", "it isn't known whether it was carried out")
    wait_idle(browser)
    focus_window(browser)
    browser.click("#again")
    wait_text(browser, "#news", "Plan 11 is new in the list.")
    wait_idle(browser)
    same("the plans", seen_plans(browser), [*before, 11])
    same("the office's plans", listed(office.server), [*before, 11])


def visit_waiting(browser):
    """While an answer is awaited the button says so."""
    open_plan(browser, 10)
    browser.run("""
        const real = window.fetch;
        window.fetch = async (...words) => {
            await new Promise((go) => { window.letGo = go; });
            window.fetch = real;
            return real(...words);
        };
    """)
    open_tab(browser, "changes")
    set_date(browser, "#calendar [name=start]", "2024-03-01")
    browser.click("#calendar button")
    browser.wait("a button that awaits", "return document.querySelector('#calendar button').textContent"
                 " === 'Set the calendar …'")
    browser.wait("the request", "return Boolean(window.letGo)")
    browser.run("window.letGo()")
    wait_idle(browser)
    same("the button then", seen(browser, "#calendar button"), "Set the calendar")


# ---- sizes, the dark, people with other senses, and paper


def fits(browser, width):
    """Nothing is beyond the right edge, and the chart is as wide as its place."""
    browser.wait(f"a page {width} pixels wide", """
        const svg = document.querySelector("#drawing [role=application]");
        const room = Math.round(document.getElementById("drawing").clientWidth);
        return innerWidth === arguments[0] && document.documentElement.scrollWidth <= innerWidth
            && Math.abs(svg.viewBox.baseVal.width - room) <= 1;
    """, width)


def visit_sizes(browser):
    """It fits narrow and wide windows, in the light and in the dark; a plan of 120 activities takes
    three screens."""
    for n in (1, 8):
        open_plan(browser, n)
        for width, height in ((320, 640), (360, 740), (800, 600), (1600, 900)):
            browser.resize(width, height)
            fits(browser, width)
            browser.run("scrollTo(0, 0)")
            listed, top = browser.run("return [document.getElementById('plans').checkVisibility(),"
                                      " document.getElementById('chart').getBoundingClientRect().top]")
            same(f"the list beside the plan, at {width}", listed, width == 1600)
            same(f"the chart begins above the fold, at {width}", top < height, True)
            if width < 640:
                same_fingers(f"plan {n} at {width}", browser)
    paper = "return getComputedStyle(document.body).backgroundColor.match(/[0-9]+/g).map(Number)"
    for scheme, is_dark in (("dark", True), ("light", False)):
        browser.darken(scheme)
        same(f"a {scheme} page", sum(browser.run(paper)) < 200, is_dark)
    drop(browser, "chain.sm", chain(120))
    wait_plan(browser, 12)
    wait_idle(browser)
    screens = browser.run("return document.documentElement.scrollHeight / innerHeight")
    same("screens of 120 activities", screens <= 3, True)


def visit_senses(browser):
    """Texts have a contrast of 4.5, in the light and in the dark; fields, buttons, regions and
    pictures have names; the accessibility tree is read in the order of reading_order.txt."""
    for n, tab in ((1, "table"), (6, "changes"), (8, "handin")):
        open_plan(browser, n)
        open_tab(browser, tab)
        same_senses(f"plan {n}", browser)
    open_plan(browser, 6)
    open_tab(browser, "table")
    same_order("a plan", browser, "The order of a plan, at 960 pixels and more:")
    browser.resize(360, 740)
    same_order("a plan on a phone", browser, "The order of a plan below 960 pixels:")
    browser.resize(1120, 720)
    browser.click("#help-button")
    same_senses("the help panel", browser)
    browser.press(ESCAPE)


def same_paper(browser):
    """Nothing on paper is a button or a field, whatever the width of a sheet."""
    for width in (900, 1120):
        browser.resize(width, 720)
        same(f"what can't be pressed on paper, at {width}", browser.run("return [...document.querySelectorAll("
             "'button, input, select')].filter((node) => node.checkVisibility()).map(({ id }) => id)"), [])


def printed_texts(browser):
    """The number of sheets, and for each chart and table on paper its width and whether each of its
    texts is on the sheet."""
    browser.devtools("Emulation.setEmulatedMedia", media="print", features=[])
    browser.run("dispatchEvent(new Event('beforeprint'))")
    same_paper(browser)
    value = browser.run("""
        return [...document.querySelectorAll("#paper .sheet")].map((sheet) => [
            sheet.querySelectorAll(".bar[data-line]").length, sheet.querySelectorAll("tbody tr").length,
            sheet.getBoundingClientRect().height,
            [...sheet.querySelectorAll("svg text")].filter((text) => {
                const box = text.getBoundingClientRect(), own = text.ownerSVGElement.getBoundingClientRect();
                return box.left < own.left - 1 || box.right > own.right + 1;
            }).map((text) => text.textContent),
        ]);
    """)
    browser.run("dispatchEvent(new Event('afterprint'))")
    browser.devtools("Emulation.setEmulatedMedia", media="", features=[])
    return value


def visit_paper(browser):
    """A plan is printed on A4 on its side: charts of 40 lines, each on a sheet, then the table with all
    rows; nothing is cut off."""
    browser.resize(1120, 720)
    for n, count in ((1, 14), (12, 120)):
        open_plan(browser, n)
        wait_idle(browser)
        *charts, table = printed_texts(browser)
        uses = [chart for chart in charts if not chart[0]]
        same("sheets of uses alone", len(uses), count > 24)
        charts = charts[:len(charts) - len(uses)]
        same("bars of the charts", [chart[0] for chart in charts],
             [min(40, count - at) for at in range(0, count, 40)])
        same("rows of the table", table[1], count)
        same("texts that are cut off", sum((sheet[3] for sheet in charts), []), [])
        # 190 mm of A4, at 96 pixels an inch, whose width is that of the window here
        same("a chart higher than a sheet", [c[2] for c in charts if c[2] > 718 * 1120 / 1047], [])
        sheets = browser.printed()
        pages = sheets.count(b"/Type /Page\n")
        same("their size", b"/MediaBox [0 0 84" in sheets, True)
        same(f"the sheets of plan {n}", pages, {14: 2, 120: 7}[count])
    same("the head", "desk trial, plan 12" in browser.run("dispatchEvent(new Event('beforeprint'));"
         " return document.querySelector('#paper header').textContent"), True)
    browser.run("dispatchEvent(new Event('afterprint'))")
    same("the page afterwards", browser.run("return paper.childElementCount"), 0)


def starts_are(browser, starts, line):
    """The page's verdict on start times, and the makespan."""
    browser.run("check.elements.starts.value = arguments[0]", starts)
    submit(browser, "check")
    same(f"the verdict on {starts}", seen(browser, "#check-answer code"), line)


def visit_orders(browser, office):
    """A list of orders is shown with the job shop that it becomes. The table of its schedule has the
    names of orders and machines and the working days; start times get a verdict in steps."""
    text = file_of("examples/shop.csv").decode()
    drop(browser, "orders.csv", text.replace("press,4", "press,four", 1))
    wait_text(browser, "#preview code", "T5 line 7 duration")
    same("the line", texts(browser, "#preview .marked td"),
         [text.replace("press,4", "press,four", 1).split("\n")[6]])
    drop(browser, "orders.csv", text)
    wait_text(browser, "#preview", "orders.csv becomes a job shop of 3 orders on 3 machines.")
    wanted = [["job", "order", "steps"], ["1", "order 4711", "saw 3, press 2, paint 2"],
              ["2", "order 4712", "saw 2, paint 1, press 4"], ["3", "order 4713", "press 4, paint 3, saw 0"]]
    same("the job shop", seen_table(browser, "#preview"), wanted)
    same_senses("a list of orders", browser)
    submit(browser, "import")
    wait_plan(browser, 13)
    wait_text(browser, "#plan-head", "Plan 13, a job shop: orders")
    same("the names' zone", browser.run("return document.getElementById('names-zone').hidden"), True)
    set_date(browser, "#calendar [name=start]", "2024-03-01")
    submit(browser, "calendar")
    given = "\n".join(printed("import", "--shop", example("shop.csv"))).encode()
    machines = ["saw", "press", "paint"]
    for rule in SHOP_RULES:
        browser.click(f"#drawn [value={rule}]")
        rows = rows_of(printed("shop", rule, "-", "shop", given=given))
        days = days_by(rule, "2024-03-01", "1111100", "-", ["shop"], given)
        slack = brute_slack(shop_model(rows), [int(row[4]) for row in rows])
        wanted = [["job", "step", "machine", "start", "end", "first day", "last day", "slack"]]
        # without the steps of time 0, as the commands print a list
        wanted += [[f"{row[0]} order {4710 + int(row[0])}", row[1], f"{row[2]} {machines[int(row[2])]}",
                    *row[4:6], *dates, str(s)] for row, dates, s in zip(rows, days, slack) if row[3] != "0"]
        same(f"the table by {rule}", seen_table(browser, "#table"), wanted)
        same(f"the bars by {rule}", len(seen_bars(browser)), len(wanted) - 1)
    submit(browser, "best")
    wanted = as_printed([("solve",)], given, ["shop"])
    days = [str(day) for day in worked_days(datetime.date(2024, 3, 1), "1111100", wanted["makespan"])]
    for row in wanted["rows"]:
        works = row["start"] < row["end"]
        row |= {"first": days[row["start"]] if works else None, "last": days[row["end"] - 1] if works else None}
        row |= {"first_day": row["first"], "last_day": row["last"]}
    wanted |= {"desk": DESK, "plan": 13, "schedule": "best", "title": "orders"}
    name, text = downloaded(browser, office, "json")
    same("the JSON of the best", (name, text), (f"{DESK}-plan-13-best.json", one_line(wanted)))
    drop(browser, name, text)
    wait_text(browser, "#check-answer code", "active")
    for rule in SHOP_RULES:
        rows = rows_of(printed("shop", rule, "-", "shop", given=given))
        starts_are(browser, " ".join(row[4] for row in rows), "active")
    # worked out by hand: a step too early, the saw twice, a feasible schedule, and the press later
    starts_are(browser, "0 0 0 0 0 0 0 0 0", "step 2 of job 1 starts before step 1 ends")
    starts_are(browser, "0 3 5 1 7 8 12 16 19", "at time 1 more than one step is on machine 0")
    same("what is wrong", texts(browser, "#use .fault"),
         ["Start a step on saw at time 1 later. More than one is on it then."])
    starts_are(browser, "0 3 5 3 7 8 12 16 19", "active")
    same("what is wrong with an active one", texts(browser, "#use .fault"), [])
    starts_are(browser, "0 3 5 3 7 8 13 17 20", "step 1 of job 3 can start earlier")
    wait_text(browser, "#told", "Job 3 order 4713, step 1, machine 1 press: 13 to 17")
    wait_text(browser, "#check-answer", "makespan 20.")
    lines = printed("solve", "-", "shop", given=given)
    drop(browser, "solved.txt", "\n".join([*lines, ""]))
    wait_text(browser, "#check-answer", f"makespan {makespan_of(lines)}.")
    wait_text(browser, "#check-answer p", "Feasible")


def hard_project():
    """A project that no search solves in a minute."""
    sys.path.insert(1, os.path.join(TOP, "bench"))
    from files import project
    from progen import made
    return project(*made(60, 1.8, 0.75, 0.2, 1))


def visit_cancel(browser):
    """A search shows its progress. Cancelled, it keeps the best schedule of the slices that had ended.
    One that ends by its time limit has a bound."""
    drop(browser, "hard.sm", hard_project())
    wait_plan(browser, 14)
    browser.type("#best [name=seconds]", "600")
    browser.click("#best button:not([type])")
    browser.wait("its progress", "return /^best \\d+, lower bound \\d+, /.test("
                 "document.getElementById('best-answer').textContent)")
    browser.click("#cancel")
    wait_text(browser, "#best-answer", "The search was cancelled, and the best schedule so far is kept.")
    wait_idle(browser)
    same("its button", browser.run("return document.getElementById('cancel').hidden"), True)
    same("the schedules", len(texts(browser, "#drawn label")), len(RULES) + 1)
    words = seen(browser, "#best-answer").split("kept. ")[1].split(":")[0].split()
    same("the schedule that is kept", (words[0], f"shortest found {words[1]}" in " ".join(
        texts(browser, "#drawn label"))), ("between", True))
    browser.type("#best [name=seconds]", "2")
    began = browser.run("return performance.now()")
    submit(browser, "best")
    wait_text(browser, "#best-answer", "the shortest that was found; no schedule is shorter than")
    same("two seconds", browser.run("return performance.now()") - began >= 2000, True)
    told, total = seen(browser, "#best-answer").split(":")[0].split()
    bound = int(seen(browser, "#best-answer").split("shorter than ")[1].split(".")[0])
    same("the search", (told, bound < int(total)), ("between", True))


def visit_whole(browser, office):
    """Holidays at a desk are kept in the browser. Everything about a plan is saved as one file; dropped,
    it is a new plan with the same file, bind, lag, calendar and schedule."""
    n = max(seen_plans(browser), default=0) + 1
    drop(browser, "house.sm", file_of(HOUSE).decode())
    wait_plan(browser, n)
    open_tab(browser, "changes")
    pick(browser, "#bind [name=place]", "1")
    submit(browser, "bind")
    set_date(browser, "#calendar [name=start]", "2024-03-01")
    holidays = "2024-03-08\n2024-03-29..2024-04-01\n"
    for text, told in (("2024-13-01", "line 1"), (holidays, "From 2024-03-01 on")):
        browser.run("calendar.elements.holidays.value = arguments[0]", text)
        submit(browser, "calendar")
        wait_text(browser, "#calendar .answer", told)
    with open(os.path.join(os.path.dirname(office.database), "holidays"), "w", encoding="ascii") as file:
        file.write(holidays)
    rows = rows_of(printed("days", "--holidays", file.name, "lft", "2024-03-01", "1111100", "-",
                           given=house_of_four()))
    same("the last days", column(browser, "last day"), ["" if row[-1] == "-" else row[-1] for row in rows])
    for name, value in {"from": "2", "to": "3", "lag": "5"}.items():
        pick(browser, f"#lag [name={name}]", value)
    submit(browser, "lag")
    wait_text(browser, "#lag-set", "2 to 3: 5 (set here on")
    submit(browser, "best")
    wait_text(browser, "#drawn label:last-child", "shortest, proved ")
    browser.click("#drawn [value=best]")
    before = seen_table(browser, "#table")
    name, text = downloaded(browser, office, "all")
    same("the name of the file", name, f"{DESK}-plan-{n}-best.all.json")
    same("keys in it", [key for key in (KEY, OFFICE_KEY) if key in text], [])
    drop(browser, name, text)
    wait_plan(browser, n + 1)
    wait_text(browser, "#news", f"house is plan {n + 1}, with 3 changes.")
    wait_text(browser, "#check-answer code", "active")
    same("the schedule", seen_table(browser, "#table"), before)
    same("the values set", values_set(browser), ["1", "2", "3", "5", "2024-03-01"])
    same("what the office has", listed(office.server)[-2:], [n, n + 1])
    drop(browser, "damaged.json", text[:200])
    wait_text(browser, "#import-answer .refusal", "Drop another saved file: this one is damaged.")


def visit_keep(browser, office):
    """The schedule that a search found becomes a new plan of the desk, with the bind, the lag and the
    calendar: all its schedules by rules are that one. Another capacity is tried without a change."""
    n = max(seen_plans(browser))
    wait_plan(browser, n)
    submit(browser, "best")
    browser.click("#drawn [value=best]")
    table = seen_table(browser, "#table")
    starts = column(browser, "start")
    open_tab(browser, "changes")
    browser.type("#whatif [name=capacity]", "9")
    submit(browser, "whatif")
    wait_text(browser, "#whatif-answer", "With 9 of ")
    same("the office after what-if", listed(office.server)[-1], n)
    browser.click("#keep")
    wait_text(browser, "#news", f"house (kept) is plan {n + 1}, with 3 changes.")
    wait_plan(browser, n + 1)
    wait_idle(browser)
    same("the values set", values_set(browser), ["1", "2", "3", "5", "2024-03-01"])
    heads = ("start", "end", "first day", "last day")
    same("the days that were kept", [column(browser, head) for head in heads],
         [[row[table[0].index(head)] for row in table[1:]] for head in heads])
    for rule in RULES:
        path = f"/desks/{DESK}/plans/{n + 1}/schedule/{rule}"
        answer = talk(office.server.port, Exchange("GET", path, KEY).request()).decode()
        rows = rows_of(answer.partition("\r\n\r\n")[2].splitlines())
        same(f"the office's schedule {rule}", [row[2] for row in rows], starts)


def visit_lags(browser, office):
    """The rows and the bars of a list with lags are those that `plan` prints, also for start times that aren't
    feasible."""
    n = max(listed(office.server)) + 1
    text = "id,name,duration,predecessors,crew\nA,Dig,2,,1\nB,Pour,3,A+2,1\nC,Paint,1,A B+1,1\ncapacity,,,,1\n"
    given = "\n".join([*printed("import", "-", given=text.encode()), ""]).encode()
    drop(browser, "lags.csv", text)
    wait_text(browser, "#preview", "lags.csv becomes a project")
    submit(browser, "import")
    wait_plan(browser, n)
    # waits aren't shown, also if this release of the program prints them
    rows = [[row[0], row[2]] for row in id_rows(printed("schedule", "lft", "--names", "-", given=given))
            if not row[0].startswith("wait+")]
    bars = "return [...document.querySelectorAll('#drawing .bar')].map(({ dataset }) => dataset.start)"
    ids = [cell.strip("*") for cell in column(browser, "id")]
    same("the rows", list(map(list, zip(ids, column(browser, "start")))), rows)
    same("the bars", browser.run(bars), [row[1] for row in rows])
    same("the dates", [row[0] for row in seen_table(browser, "#dates")[1:]], ids)
    drop(browser, *downloaded(browser, office, "csv"))
    wait_text(browser, "#check-answer code", "active")
    count = len(rows_of(printed("schedule", "lft", "-", given=given)))
    browser.run("check.elements.starts.value = arguments[0]", " ".join(["0"] * count))
    submit(browser, "check")
    wait_text(browser, "#check-answer", "Not feasible")
    same("the bars at 0", browser.run(bars), ["0"] * len(rows))
    open_tab(browser, "table")


def visit_most(browser, office):
    """A schedule of 520 steps is drawn; one that isn't feasible isn't, and a sentence says why."""
    n = max(listed(office.server)) + 1
    rows = [" ".join(f"{(job + step) % 20} 1" for step in range(20)) for job in range(26)]
    drop(browser, "most.txt", "instance most\nmany steps\n26 20\n" + "\n".join(rows) + "\n")
    wait_plan(browser, n)
    same("the bars", len(bar_classes(browser)), 520)
    browser.run("check.elements.starts.value = arguments[0]", " ".join(["0"] * 520))
    submit(browser, "check")
    wait_text(browser, "#check-answer", "Not feasible")
    same("what is said in the place of a chart", texts(browser, "#chart .refusal > *"), [
        "Correct the start times: a schedule of more than 502 steps is drawn if it is feasible; until then there"
        " is no chart."])
    same("the table", column(browser, "start"), ["0"] * 520)
    open_tab(browser, "table")


def visit_module(browser):
    """A module of another digest is refused; the page goes on without slack."""
    state = lambda script: browser.call("POST", "/execute/async", {"script": script, "args": []})
    found = state("""
        const done = arguments[0];
        (async () => {
            const { load } = await import("/engine/runtime.js");
            const { DIGEST } = await import("/digest.js");
            const bytes = new Uint8Array(await (await fetch("plan.wasm")).arrayBuffer());
            bytes[bytes.length - 1] ^= 1;
            return load(bytes, DIGEST);
        })().then(() => done("loaded"), (fault) => done(fault.message));
    """)
    same("another module", "is another module" in found, True)
    found = state("""
        const done = arguments[0];
        try {
            new Worker("plan.js");
            done("made");
        } catch (fault) {
            done(fault.name);
        }
    """)
    same("another worker", found, "TypeError")


def visit_policy(browser):
    """At a desk the policy for addresses of scripts passes the worker's alone."""
    browser.devtools("Page.addScriptToEvaluateOnNewDocument", source="""
        const { trustedTypes: types } = window, create = types.createPolicy.bind(types);
        types.createPolicy = (name, rules) => (window.policy = create(name, rules));
    """)
    browser.open(browser.run("return location.href"))
    browser.wait("the first page", "return document.querySelector('#door fieldset:enabled')")
    passed = browser.run("""
        return ["worker", "cache", "plan-cache.js"].map((name) => {
            try {
                return String(window.policy.createScriptURL(name));
            } catch (fault) {
                return fault.name;
            }
        });
    """)
    same("the addresses of scripts", passed, ["worker.js", "TypeError", "TypeError"])


def visit_quiet(browser):
    """The browser complains of nothing but the refusals that were asked for."""
    asked_for = ("the server responded with a status of", "net::ERR")
    told = [line for line in browser.complaints() if not any(word in line for word in asked_for)]
    same("complaints of the browser", told, [])


# ---- pictures


def shot(browser, name):
    """A picture for the docs."""
    keep(name, browser.picture())


def keep(name, png):
    picture = smaller(png)
    if len(picture) > LARGEST_PICTURE:
        picture = smaller(png, 32)
    with open(os.path.join(PICTURES, name), "wb") as file:
        file.write(picture)
    if len(picture) > LARGEST_PICTURE:
        raise Wrong(f"{name} has {len(picture)} bytes")


def sheet(browser, name, number):
    """A picture of one printed sheet, if pdftoppm is there."""
    tool = shutil.which("pdftoppm")
    if tool:
        words = [tool, "-r", "72", "-png", "-f", str(number), "-l", str(number), "-"]
        keep(name, subprocess.run(words, input=browser.printed(), capture_output=True, check=True).stdout)


def open_north(browser, office):
    """Signs in as a desk with a project and a job shop."""
    for method, path, key, body in [
        ("POST", "/office/desks", OFFICE_KEY, b'{"desk":"north","key":"north-key-1"}'),
        ("POST", "/desks/north/shops/ft06", "north-key-1", file_of("examples/shops.txt")),
    ]:
        sent(office.server.port, method, path, key, body)
    browser.click("#leave")
    sign_in(browser, "north", "north-key-1")


def visit_pictures(browser, office):
    """A project and a job shop from lists, a job shop in the dark, and a list with an error, if pictures
    are wanted."""
    if "--pictures" not in sys.argv:
        return
    browser.resize(1120, 760)
    open_north(browser, office)
    table = named_house()
    drop(browser, "house.csv", table)
    wait_text(browser, "#preview", "becomes a project")
    submit(browser, "import")
    wait_plan(browser, 2)
    set_date(browser, "#calendar [name=start]", "2024-03-01")
    submit(browser, "calendar")
    open_tab(browser, "table")
    browser.run("scrollTo(0, 0)")
    browser.point("#drawing .bar[data-line='5'] rect")
    shot(browser, "desk.png")
    sheet(browser, "sheet.png", 1)
    browser.resize(360, 740)
    browser.run("document.querySelector('#caption').scrollIntoView()")
    shot(browser, "narrow.png")
    drop(browser, "big.txt", large_shop())
    wait_plan(browser, 3)
    browser.resize(1600, 900)
    fits(browser, 1600)
    browser.run("scrollTo(0, 0)")
    shot(browser, "wide.png")
    browser.resize(1120, 760)
    open_plan(browser, 1)
    submit(browser, "best")
    wait_text(browser, "#best-answer", "optimal 55:")
    browser.darken("dark")
    browser.run("scrollTo(0, 0)")
    shot(browser, "shop.png")
    browser.darken("light")
    drop(browser, "shop.csv", file_of("examples/shop.csv").decode())
    wait_text(browser, "#preview", "becomes a job shop")
    submit(browser, "import")
    wait_plan(browser, 4)
    set_date(browser, "#calendar [name=start]", "2024-03-01")
    submit(browser, "calendar")
    open_tab(browser, "table")
    browser.run("document.querySelector('#plan').scrollIntoView()")
    browser.point("#drawing .bar[data-line='0'] rect")
    shot(browser, "orders.png")
    drop(browser, "house.csv", table.replace("G H", "G X"))
    wait_text(browser, "#preview code", "T8")
    browser.run("scrollTo(0, 0)")
    shot(browser, "refused.png")


def named_house():
    """The house of examples/house.sm as a table with names."""
    names = ["Excavation", "Foundation", "Drains", "Walls", "Roof", "Windows", "Stairs", "Plumbing",
             "Wiring", "Plaster", "Garden", "Painting"]
    durations, successors, needs, capacities, _ = read_sm(file_of(HOUSE).decode())
    letter = lambda number: chr(ord("A") + number - 2)
    lines = ["id,name,duration,predecessors,crew,digger"]
    for number, name in enumerate(names, 2):
        before = [at for at, row in enumerate(successors, 1) if number in row and at > 1]
        lines.append(",".join([letter(number), name, str(durations[number - 1]),
                               " ".join(map(letter, before)), *map(str, needs[number - 1])]))
    return "\n".join([*lines, "capacity,,,," + ",".join(map(str, capacities)), ""])


VISIT = [
    visit_door, visit_help, visit_office, visit_upgrade, visit_desk, visit_left, visit_import, visit_bars,
    visit_unloaded, visit_slack, visit_use, visit_sort, visit_calendar, visit_today, visit_bind, visit_lag, visit_elsewhere,
    visit_best, visit_large, visit_check, visit_save, visit_table, visit_capacity, visit_need,
    visit_names, visit_other,
    visit_shop, visit_colours, visit_links, visit_focus, visit_closed, visit_refused, visit_keys, visit_back, visit_delete,
    visit_lost, visit_found, visit_waiting, visit_sizes, visit_senses, visit_paper, visit_orders,
    visit_cancel, visit_whole, visit_keep, visit_lags, visit_most, visit_quiet, visit_module, visit_pictures, visit_policy,
]
