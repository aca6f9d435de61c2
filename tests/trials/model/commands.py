"""The commands on files: what each prints, and with which status it ends (docs/definitions.md,
"Runs", and docs/errors.md)."""

from .pages import ProjectPages, ShopPages
from .projects import read_project
from .shops import read_names, read_shop
from .texts import check_calendar, date_text, page
from .verdicts import read_starts, verdict
from .words import Fault


def pages_of(text, name):
    """The pages of a file: of its project, or of a shop where there is a name."""
    if name:
        return ShopPages(read_shop(text, name[0].encode()))
    return ProjectPages(read_project(text))


def run_cpm(text):
    return date_text(read_project(text))


def run_schedule(text, rule):
    return pages_of(text, ()).schedule(rule)


def run_shop(text, rule, name):
    return pages_of(text, (name,)).schedule(rule)


def run_chart(text, rule, *name):
    return pages_of(text, name).chart(rule)


def run_days(text, rule, start, marks, *name):
    pages = pages_of(text, name)
    starts = pages.starts(rule)
    check_calendar(start, marks)
    return pages.days(starts, (start, marks))


def run_best_project(text, budget):
    return pages_of(text, ()).best(budget)


def run_best(text, budget, name):
    return pages_of(text, (name,)).best(budget)


def run_names(text):
    return page(*(name.decode("latin-1") for name in read_names(text)))


def run_check(text, listed):
    project = read_project(text)
    ProjectPages(project).check()
    return page(verdict(project, read_starts(listed, len(project.durations))))


COMMANDS = {
    "cpm": run_cpm, "schedule": run_schedule, "shop": run_shop, "chart": run_chart,
    "days": run_days, "best-project": run_best_project, "best": run_best, "names": run_names,
    "check": run_check,
}


def run(command, text, *words):
    """The status, standard output and standard error of a command."""
    try:
        return 0, COMMANDS[command](text, *words).encode("latin-1"), b""
    except Fault as fault:
        return 1, b"", fault.line.encode() + b"\n"
