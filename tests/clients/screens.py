"""Pictures of each screen of the browser page, at four widths, in the light and in the dark, for
docs/pictures/screens. `tests/clients/browser --pictures` takes them. At each width nothing is wider than
the window; on the two small ones buttons and fields have room for a finger."""

import concurrent.futures
import os
import subprocess
import time

from exchanges import OFFICE_KEY, TOP, file_of
from front import sent
from pages import drop, open_tab, set_date, submit, wait_idle, wait_plan, wait_text
from pictures import smaller
from programs import Wrong, same
from senses import same_fingers
from visits import large_shop, named_house, sign_in

FOLDER = os.path.join(TOP, "docs", "pictures", "screens")
SIZES = [(320, 640), (360, 740), (800, 600), (1600, 900)]
# of pictures of texts, of a chart and of fifteen orders
COLOURS, CHART, ORDERS = 8, 12, 20
LARGEST_OF_ALL = 1950000
BUNDLE = os.path.join(TOP, "share", "web", "engine", "bundle")
OPEN_LIST = "scrollTo(0, 0); document.querySelectorAll('#preview details').forEach((part) => { part.open = true; })"

def same_room(browser, name, width):
    """Nothing sticks out of the window; a finger has room."""
    wide = browser.run("return document.documentElement.scrollWidth")
    same(f"the width of {name} at {width}", wide <= width, True)
    if width < 640:
        same_fingers(f"{name} at {width}", browser)


class Folder:
    """The pictures of screens, which two processes reduce meanwhile."""

    def __init__(self):
        self.pool = concurrent.futures.ProcessPoolExecutor(2)
        self.waiting = []

    def keep(self, name, picture, colours):
        self.waiting.append((name, self.pool.submit(smaller, picture, colours)))

    def end(self):
        """Writes all of them, in the place of those that were there."""
        with self.pool:
            pictures = {name: later.result() for name, later in self.waiting}
        if sum(map(len, pictures.values())) > LARGEST_OF_ALL:
            raise Wrong(f"the pictures have {sum(map(len, pictures.values()))} bytes")
        for name in os.listdir(FOLDER):
            os.remove(os.path.join(FOLDER, name))
        for name, picture in pictures.items():
            with open(os.path.join(FOLDER, name), "wb") as file:
                file.write(picture)


taken = None


def screen(browser, name, prepare="scrollTo(0, 0)", colours=COLOURS):
    """The pictures of a screen."""
    for width, height in SIZES:
        browser.resize(width, height)
        for scheme in ("light", "dark"):
            browser.darken(scheme)
            browser.run("document.activeElement.blur()")
            # the chart follows the width
            time.sleep(0.3)
            browser.run(prepare)
            same_room(browser, name, width)
            taken.keep(f"{name}-{width}-{scheme}.png", browser.picture(), colours)
    browser.darken("light")
    browser.resize(1120, 760)


def take_office(browser, office):
    screen(browser, "signin")
    browser.type("#enter-office [name=key]", OFFICE_KEY)
    submit(browser, "enter-office")
    for code, kind, capacity in (("crew-a", "crew", "4"), ("press-1", "machine", "1")):
        browser.type("#publish [name=code]", code)
        browser.click(f"#publish option:nth-child({1 + (kind == 'machine')})")
        browser.type("#publish [name=capacity]", capacity)
        submit(browser, "publish")
    screen(browser, "office")
    browser.click("#leave")
    sent(office.server.port, "POST", "/office/desks", OFFICE_KEY, b'{"desk":"empty","key":"empty-key-1"}')
    sign_in(browser, "empty", "empty-key-1")
    wait_text(browser, "#plans", "No plans yet")
    screen(browser, "empty")
    browser.click("#leave")


def take_project(browser):
    sign_in(browser, "north", "north-key-1")
    wait_text(browser, "#plans", "Plan 3")
    screen(browser, "plans")
    table = named_house()
    drop(browser, "house.csv", table.replace("G H", "G X"))
    wait_text(browser, "#preview code", "T8")
    screen(browser, "error")
    drop(browser, "house.csv", table)
    wait_text(browser, "#preview", "becomes a project")
    screen(browser, "list")
    submit(browser, "import")
    wait_plan(browser, 4)
    set_date(browser, "#calendar [name=start]", "2024-03-01")
    submit(browser, "calendar")
    open_tab(browser, "table")
    submit(browser, "best")
    wait_text(browser, "#drawn label:last-child", "shortest")
    screen(browser, "project", colours=CHART)
    for tab in ("table", "changes", "handin"):
        screen(browser, tab, f"document.getElementById('tab-{tab}').click();"
                             " document.getElementById('tabs').scrollIntoView()", CHART)
    browser.run("check.elements.starts.value = arguments[0]", "0 " * 14)
    submit(browser, "check")
    wait_text(browser, "#check-answer strong", "Start B Foundation later.")
    screen(browser, "check", "document.getElementById('check').scrollIntoView()", CHART)
    browser.click("#help-button")
    screen(browser, "help")
    browser.press("\ue00c")
    browser.click("#leave")


def take_shop(browser):
    sign_in(browser, "south", "south-key-1")
    wait_text(browser, "#plans", "Plan 3")
    drop(browser, "big.txt", large_shop())
    wait_plan(browser, 4)
    submit(browser, "best")
    wait_text(browser, "#drawn label:last-child", "shortest")
    screen(browser, "shop", colours=ORDERS)
    browser.click("#leave")


def take_alone(browser, office):
    """plan.html as it is opened; a list with dates; the plan of a list with an absence; and a changed list."""
    path = os.path.join(os.path.dirname(office.database), "plan.html")
    subprocess.run([BUNDLE, path], check=True)
    browser.open("file://" + path)
    wait_text(browser, "#preview", "becomes a project")
    screen(browser, "alone")
    drop(browser, "site.csv", file_of("examples/site.csv").decode())
    wait_text(browser, "#preview", "site.csv becomes a project")
    screen(browser, "dates")
    drop(browser, "absence.csv", named_house().replace("capacity,", "absence,Jo is away,5,,1,0\ncapacity,"))
    wait_text(browser, "#preview", "absence.csv becomes a project")
    submit(browser, "import")
    wait_plan(browser, 1)
    wait_text(browser, "#import-answer", "It ends at")
    screen(browser, "absence", colours=CHART)
    drop(browser, "house.csv", named_house())
    wait_text(browser, "#preview", "becomes a project of 12 activities")
    submit(browser, "import")
    wait_plan(browser, 2)
    submit(browser, "best")
    wait_text(browser, "#drawn label:last-child", "shortest")
    browser.click("#edit-list")
    wait_text(browser, "#preview", "With this list, by the search")
    browser.type("#grid [data-row='2'][data-column='2']", "8")
    browser.press("\ue004")
    wait_text(browser, "#undo", "Undo")
    wait_text(browser, "#preview", "With this list, by the search: 47")
    wait_idle(browser)
    screen(browser, "replace", OPEN_LIST)


def take_screens(browser, office):
    """All of them; they are small."""
    global taken
    os.makedirs(FOLDER, exist_ok=True)
    taken = Folder()
    take_office(browser, office)
    take_project(browser)
    take_shop(browser)
    take_alone(browser, office)
    taken.end()
