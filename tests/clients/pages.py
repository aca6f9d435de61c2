"""Compares the browser page, read by WebDriver, with the output of `plan` for the same files."""

import os
import re
import time

from exchanges import TOP
from programs import Wrong, plan, same

RULES = ["lft", "slk", "spt", "mts", "num"]
# the rules in the words of the page
RULE_NAMES = {
    "lft": "latest finish first", "slk": "least slack first", "spt": "shortest first",
    "mts": "most successors first", "num": "in the order of numbers", "mwkr": "most work left first",
    "fcfs": "first come, first served",
}


# ---- what `plan` prints

# seconds before a plan is opened
PAUSE = 2


def example(name):
    return os.path.join(TOP, "examples", name)


def printed(*words, given=b""):
    """The lines that a command prints."""
    status, out, err = plan(*words, given=given)
    same("plan " + " ".join(words), (status, err), (0, b""))
    return out.decode().splitlines()


def rows_of(lines):
    """The rows of a table as words, without its heading and the lines below it."""
    return [line.split() for line in lines if line.split()[0].isdigit()]


def id_rows(lines):
    """The rows of a table whose first column has ids, as words."""
    return [line.split() for line in lines[1:-1]]


def makespan_of(lines):
    return lines[-1].split()[1]


# ---- what the page shows


def seen_table(browser, css):
    """The rows of a table on the page, each as its texts."""
    return browser.run("""
        return [...document.querySelectorAll(arguments[0] + " tr")].map(
            (row) => [...row.cells].map((cell) => cell.textContent));
    """, css)


def seen(browser, css):
    """The text of an element."""
    return browser.run("return document.querySelector(arguments[0]).textContent", css)


def texts(browser, css):
    """The texts of all elements that a selector names."""
    return browser.run("return [...document.querySelectorAll(arguments[0])].map("
                       "(node) => node.textContent)", css)


def seen_bands(browser):
    """The days of the chart without work: the places and widths of their bands as parts of the axis."""
    return browser.run("""
        const { x1, x2 } = document.querySelector("#drawing .thread");
        const left = x1.baseVal.value, width = x2.baseVal.value - left;
        const path = document.querySelector("#drawing .off")?.getAttribute("d") ?? "";
        return [...path.matchAll(/M([0-9.]+) [0-9]+H([0-9.]+)/g)].map(([, from, to]) =>
            [(from - left) / width, (to - from) / width]);
    """)


def seen_plans(browser):
    """The numbers of the plans that the page lists."""
    return [int(row[0].split()[1]) for row in seen_table(browser, "#plans")[1:]]


def seen_bars(browser):
    """The line, the start and the end of each bar, its left and right edge on the axis, and the width
    of the axis."""
    return browser.run("""
        const thread = document.querySelector(".thread").getBoundingClientRect();
        return [...document.querySelectorAll("#drawing .bar")].map((bar) => {
            const box = bar.querySelector("rect, path").getBoundingClientRect();
            const { line, start, end } = bar.dataset;
            const edges = [box.left - thread.left, box.right - thread.left];
            return [line, start, end, ...edges, thread.width];
        });
    """)


def seen_axis(browser):
    """The labels of the axis, each with its place as a part of the axis."""
    return browser.run("""
        const thread = document.querySelector(".thread");
        const [left, right] = ["x1", "x2"].map((name) => Number(thread.getAttribute(name)));
        return [...document.querySelectorAll("#drawing .time")].map((words) => [
            words.textContent, (words.getAttribute("x") - left) / (right - left),
        ]);
    """)


def seen_uses(browser, last):
    """For each resource the sentence above its use, the instants at which the use above its capacity has
    the colour of errors, and whether its image has any of it; that there is none of it below."""
    return browser.run("""
        const last = arguments[0];
        document.getElementById("use").scrollIntoView({ block: "center" });
        const axis = document.querySelector("#drawing .thread").getBoundingClientRect();
        const red = getComputedStyle(document.querySelector("#delete .danger")).color;
        const isRed = (x, y) => {
            const node = document.elementFromPoint(x, y);
            return node?.matches(".over") && getComputedStyle(node).fill === red;
        };
        return [...document.querySelectorAll("#use > svg")].map((image) => {
            const above = image.previousElementSibling?.matches(".fault") && image.previousElementSibling;
            const { top } = image.querySelector(".most").getBoundingClientRect();
            const times = [...Array(last).keys()], x = (time) => axis.left + axis.width * (time + 0.5) / last;
            if (times.some((time) => isRed(x(time), top + 3))) return ["red below the capacity"];
            return [above ? above.textContent : "", times.filter((time) => isRed(x(time), top - 3)),
                    Boolean(image.querySelector(".over"))];
        });
    """, last)


def wait_text(browser, css, text):
    """Waits until an element has a text in it."""
    browser.wait(f"{text!r} in {css}", """
        return [...document.querySelectorAll(arguments[0])].some(
            (node) => node.checkVisibility() && node.textContent.includes(arguments[1]));
    """, css, text)


def wait_plan(browser, n):
    """Waits until all pages of a plan are shown."""
    browser.wait(f"plan {n}", """
        const plan = document.getElementById("plan");
        return !plan.hidden && !plan.hasAttribute("aria-busy")
            && document.getElementById("plan-head").textContent.startsWith(arguments[0]);
    """, f"Plan {n},")


def wait_idle(browser):
    """Waits until no button says that an answer is awaited."""
    browser.wait("no answer awaited", "return !document.querySelector('[aria-disabled]')")


def same_bars(what, browser, rows, last, places=None):
    """The bars are those of rows of a line, a start and an end, to the pixel. `places` gives the
    left and right edge of an interval and the end of the axis; a unit is a unit of time without it."""
    bars = seen_bars(browser)
    same(f"the bars of {what}", sorted(bar[:3] for bar in bars), sorted(rows))
    places = places or (lambda start, end: (start, end, max(1, int(last))))
    for line, start, end, left, right, width in bars:
        first, behind, whole = places(int(start), int(end))
        wanted = [first * width / whole, behind * width / whole]
        edges = [left, right] if start != end else [(left + right) / 2] * 2
        if any(abs(a - b) > 2 for a, b in zip(edges, wanted)):
            raise Wrong(f"a bar of line {line} of {what} is at {edges} and not {wanted}")


def same_tails(browser, rows, last, places=None):
    """Behind the bars of rows of a line, an end and a slack there is a thin line up to where a bar could
    end, if it has slack."""
    found = browser.run("""
        const { x1, x2 } = document.querySelector("#drawing .thread");
        const left = x1.baseVal.value, width = x2.baseVal.value - left;
        return [...document.querySelectorAll("#drawing .tail")].map((tail) => [
            tail.closest(".bar").dataset.line, (tail.getAttribute("d").split("H")[1] - left) / width]);
    """)
    places = places or (lambda start, end: (start, end, last))
    wanted = [[line, places(0, end + slack)[1] / places(0, last)[2]] for line, end, slack in rows if slack]
    same("the bars with a thin line", [line for line, _ in found], [line for line, _ in wanted])
    same("thin lines of another length", [(a, b) for a, b in zip(found, wanted) if abs(a[1] - b[1]) > 0.0015], [])


def same_dates(browser, lines):
    """The date table is that of `plan cpm`, the critical rows marked."""
    wanted = [[*line.split(), "", ""][:9] for line in lines[:-1]]
    same("the date table", seen_table(browser, "#dates"), wanted)
    bold = texts(browser, "#dates .critical th")
    same("the rows in bold", bold, [line.split()[0] for line in lines if line.endswith("*")])
    same("the whole", f"takes {makespan_of(lines)}" in seen(browser, "#dates caption"), True)


def same_project(browser, given):
    """The dates, the schedules by all rules and the chart are those of a file."""
    same_dates(browser, printed("cpm", "-", given=given))
    tables = {rule: printed("schedule", rule, "-", given=given) for rule in RULES}
    columns = [[f"{row[2]}–{row[3]}" for row in rows_of(lines)] for lines in tables.values()]
    fixed = [row[:2] for row in rows_of(tables["lft"])]
    wanted = [["act", "d", *(RULE_NAMES[rule] for rule in RULES)]]
    wanted += [[*row, *cells] for row, cells in zip(fixed, zip(*columns))]
    wanted += [["makespan", "", *map(makespan_of, tables.values())]]
    same("the schedules by rule", seen_table(browser, "#rules"), wanted)
    bars = [[row[0], row[2], row[3]] for row in rows_of(tables["lft"])]
    same_bars("a project", browser, bars, makespan_of(tables["lft"]))
    stars = [row[0] + "*" for row in rows_of(printed("cpm", "-", given=given)) if row[-1] == "*"]
    marked = browser.run("return [...document.querySelectorAll('#drawing .critical')].map("
                         "(bar) => bar.dataset.line + '*')")
    same("the bars with a star", marked, stars)
    same_table(browser, tables["lft"], given)


def same_table(browser, lines, given, dates=None, slack=None):
    """The table of the schedule has the rows of `plan schedule`, the floats of `plan cpm`, the dates
    and the slack, as far as they are told, whatever names there are."""
    floats = [row[6] for row in rows_of(printed("cpm", "-", given=given))]
    stars = ["*" if row[-1] == "*" else "" for row in rows_of(printed("cpm", "-", given=given))]
    columns = ["number", "start", "end", *(["first day", "last day"] if dates else []), "float"]
    wanted = [columns + (["slack"] if slack else [])]
    for at, row in enumerate(rows_of(lines)):
        cells = [row[0] + stars[at], row[2], row[3], *(dates[at] if dates else []), floats[at]]
        wanted.append(cells + ([str(slack[at])] if slack else []))
    found = seen_table(browser, "#table")
    name = found[0].index("name") if "name" in found[0] else None
    if name is not None:
        found = [row[:name] + row[name + 1:] for row in found]
    if not slack and found[0][-1] == "slack":
        found = [row[:-1] for row in found]
    same("the table of the schedule", found, wanted)


# ---- what a person does


TABS = {"bind": "changes", "calendar": "changes", "lag": "changes", "delete": "changes",
        "check": "handin"}


def open_tab(browser, name):
    """Opens one of the tabs of a plan."""
    browser.run("document.getElementById('tab-' + arguments[0]).click()", name)


def submit(browser, form):
    """Presses the button of a form, and waits for the answer."""
    if form in TABS:
        open_tab(browser, TABS[form])
    if form == "edit":
        browser.run("document.getElementById('list-text').open = true")
    browser.click(f"#{form} button:not([type=button])")
    wait_idle(browser)


def focus_window(browser):
    """Lets the window get the focus, more than a second after the last time."""
    browser.wait("a second", """
        window.focused ??= performance.now();
        return performance.now() - window.focused > 1050;
    """)
    browser.run("window.focused = performance.now(); dispatchEvent(new Event('focus'))")


def pick(browser, css, value):
    """Chooses a value of a list, or sets it in a field."""
    browser.run("""
        const node = document.querySelector(arguments[0]);
        node.value = arguments[1];
        node.dispatchEvent(new Event("change"));
    """, css, value)


def set_date(browser, css, date):
    """Sets a field of a date, whose keys differ from country to country."""
    browser.run("document.querySelector(arguments[0]).value = arguments[1]", css, date)


def drop(browser, name, text):
    """Lets a file fall on the page."""
    browser.run("""
        const data = new DataTransfer();
        data.items.add(new File([arguments[1]], arguments[0]));
        const words = { dataTransfer: data, bubbles: true, cancelable: true };
        document.querySelector("main").dispatchEvent(new DragEvent("drop", words));
    """, name, text)


def open_plan(browser, n):
    """Opens a plan of the list by its button, after a pause: nginx accepts 20 requests a second."""
    time.sleep(PAUSE)
    browser.run("""
        [...document.querySelectorAll("#plans button")].find(
            (button) => button.textContent === arguments[0]).click();
    """, f"Plan {n}")
    wait_plan(browser, n)
    wait_idle(browser)


def plan_by_dates(browser, fields, words):
    """Fills the fields that a list with dates has, makes its plan, and waits for words on it."""
    for name, value in fields.items():
        browser.run("""
            const field = document.querySelector(`#capacities [name=${arguments[0]}]`);
            field.value = arguments[1];
            field.dispatchEvent(new Event("change"));
        """, name, value)
    submit(browser, "import")
    wait_text(browser, "#import-answer", words)
    wait_idle(browser)
