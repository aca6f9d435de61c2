"""Calendars, and the texts of tables and charts (docs/definitions.md, "Texts")."""

import datetime
import re

from .schedules import all_dates, makespan
from .words import Fault

LAST_DAY = datetime.date(9999, 12, 31).toordinal()
START = re.compile(r"[0-9]{4}-[0-9]{2}-[0-9]{2}")


def check_calendar(start, marks):
    """Two texts are a first date and the marks of a week."""
    try:
        is_date = START.fullmatch(start) and 1900 <= datetime.date.fromisoformat(start).year <= 2199
    except ValueError:
        is_date = False
    if not is_date:
        raise Fault("G1 date")
    if not re.fullmatch("[01]{7}", marks) or "1" not in marks:
        raise Fault("G2 days")


def working_day(calendar, t):
    """The working day of an instant. Calendars are pairs of a start and marks, or have a call of
    their own."""
    if hasattr(calendar, "working_day"):
        return calendar.working_day(t)
    return marked_day(*calendar, t)


def marked_day(start, marks, t):
    """The marked date from a start on with exactly t before it. A week has as many as marks."""
    weeks, t = divmod(t, marks.count("1"))
    day = datetime.date.fromisoformat(start).toordinal() + 7 * weeks
    while t or marks[(day - 1) % 7] == "0":
        t -= marks[(day - 1) % 7] == "1"
        day += 1
    if day > LAST_DAY:
        raise Fault("G3 beyond calendar")
    return datetime.date.fromordinal(day).isoformat()


def row(first, *others):
    """A line of columns: the first right in 4 places, each other one in 8."""
    return f"{first:>4}" + "".join(f"{other:>8}" for other in others)


def page(*lines):
    return "".join(line + "\n" for line in lines)


def date_text(project):
    """The date table."""
    dates = all_dates(project)
    lines = [row("act", "d", "ES", "EF", "LS", "LF", "TF", "FF")]
    lines += [row(j, *dates[j].row()) + (" *" if not dates[j].total_float else "") for j in dates]
    return page(*lines, f"T {max(each.early_finish for each in dates.values())}")


def project_lines(project, starts):
    """The schedule table, as lines."""
    lines = [row("act", "d", "start", "end")]
    for j, duration in project.durations.items():
        lines.append(row(j, duration, starts[j], starts[j] + duration))
    return [*lines, f"makespan {makespan(project, starts)}"]


def shop_steps(shop, starts):
    """Each step: its job and its number in it, its machine, its time, start and end."""
    return [
        (job, step, machine, time, begin, begin + time)
        for job, steps in enumerate(shop.jobs, 1)
        for step, ((machine, time), begin) in enumerate(zip(steps, starts[job - 1]), 1)
    ]


def shop_lines(shop, starts):
    """The table of a shop, as lines."""
    steps = shop_steps(shop, starts)
    lines = [row("job", "step", "mach", "d", "start", "end")]
    return [*lines, *(row(*step) for step in steps), f"makespan {max(step[-1] for step in steps)}"]


def rounded_up(number, divisor):
    return -(-number // divisor)


def cells_of(unit, cells, intervals):
    """A mark for each cell in which an instant is occupied, a point for each other one."""
    marked = set()
    for start, end in intervals:
        if start < end:
            marked.update(range(start // unit, (end - 1) // unit + 1))
    return "".join("#" if cell in marked else "." for cell in range(cells))


def chart_text(whole, lines):
    """A chart of lines by number, each of which has intervals."""
    unit = 1 if whole <= 60 else rounded_up(whole, 60)
    cells = rounded_up(whole, unit)
    texts = [f"{number:>4} |{cells_of(unit, cells, own)}|" for number, own in lines.items()]
    return page(f"unit {unit}", *texts)


def project_chart(project, starts):
    lines = {j: [(starts[j], starts[j] + project.durations[j])] for j in project.durations}
    return chart_text(makespan(project, starts), lines)


def shop_chart(shop, starts):
    steps = shop_steps(shop, starts)
    lines = {
        machine: [(start, end) for _, _, own, _, start, end in steps if own == machine]
        for machine in range(shop.machines)
    }
    return chart_text(max(step[-1] for step in steps), lines)


def days_of(calendar, start, end):
    """The days of the first and the last occupied instant, each in 12 places."""
    if start == end:
        return f"{'-':>12}{'-':>12}"
    return "".join(f"{working_day(calendar, t):>12}" for t in (start, end - 1))


def project_days(project, starts, calendar):
    lines = [row("act") + f"{'first':>12}{'last':>12}"]
    for j, duration in project.durations.items():
        lines.append(row(j) + days_of(calendar, starts[j], starts[j] + duration))
    return page(*lines)


def shop_days(shop, starts, calendar):
    lines = [row("job", "step") + f"{'first':>12}{'last':>12}"]
    for job, step, _, _, start, end in shop_steps(shop, starts):
        lines.append(row(job, step) + days_of(calendar, start, end))
    return page(*lines)


def best_text(found, lines):
    """What a search found, with the table of its schedule."""
    return page(f"{found.kind} {found.least}", *lines)
