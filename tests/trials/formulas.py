"""Commands on files that are made by formulas: texts at their limits, a walk from day to day, days
in the far future. Expected answers come from formulas of this file.

Each function gets an empty folder, and returns the number of commands that it tried.
"""

import datetime

from answers import plan, printed, refused, same, written

DATES = " act       d      ES      EF      LS      LF      TF      FF\n"
SCHEDULE = " act       d   start     end\n"
SHOP = " job    step    mach       d   start     end\n"
DAYS = " act       first        last\n"
MOST_BYTES = 1048576


def row(first, *others):
    """A line of a table: four places for the first number, eight for each other one."""
    return f"{first:4}" + "".join(f"{number:8}" for number in others)


def project(durations, successors, need=0, available=0):
    """The text of a project: each activity lasts so long, comes before these and needs so much."""
    lines = ["projects: 1", f"jobs: {len(durations)}", "- renewable: 1", "- nonrenewable: 0"]
    lines += ["- doubly constrained: 0", "PRECEDENCE RELATIONS", "heads"]
    for job, others in enumerate(successors, 1):
        lines.append(" ".join(str(number) for number in (job, 1, len(others), *others)))
    lines += ["REQUESTS/DURATIONS", "heads"]
    lines += [f"{job} 1 {duration} {need}" for job, duration in enumerate(durations, 1)]
    lines += ["RESOURCEAVAILABILITIES", "heads", str(available)]
    return "\n".join(lines + [""]).encode()


def chain(durations):
    """The text of activities one behind the other, of which each needs all there is."""
    count = len(durations)
    successors = [[job + 1] for job in range(1, count)] + [[]]
    return project(durations, successors, 1, 1)


# ---- limits

LONGEST = [
    (["cpm"], b" ", MOST_BYTES, [], "F3 line 1"),
    (["cpm"], b" ", MOST_BYTES + 1, [], "F1 line 0"),
    (["cpm"], b" ", MOST_BYTES + 3, [], "F1 line 0"),
    (["cpm"], b"\0", MOST_BYTES + 1, [], "F1 line 0"),
    (["shop", "spt"], b" ", MOST_BYTES, ["-"], "F13 line 1"),
    (["shop", "spt"], b"\0", MOST_BYTES + 1, ["-"], "F1 line 0"),
    (["names"], b"\0", MOST_BYTES + 1, [], "F1 line 0"),
]


def try_bytes(folder):
    """The longest texts and longer ones, by name and by standard input."""
    for words, byte, count, behind, line in LONGEST:
        name, text = "long", byte * count
        written(folder, name, text)
        what = f"plan {words[0]} of {count} bytes {byte!r}"
        same(what, plan(folder, *words, name, *behind), refused(line))
        same(f"{what}, -", plan(folder, *words, "-", *behind, given=text), refused(line))
    return 2 * len(LONGEST)


def try_durations(folder):
    """Activities without arcs that last 10,000 each: 100 of them, and one more, in line 211."""
    durations = [10000] * 100
    written(folder, "hundred.sm", project(durations, [[]] * 100))
    rows = [row(job, 10000, 0, 10000, 0, 10000, 0, 0) + " *\n" for job in range(1, 101)]
    wanted = printed(DATES + "".join(rows) + "T 10000\n")
    same("100 times 10,000", plan(folder, "cpm", "hundred.sm"), wanted)
    written(folder, "more.sm", project(durations + [10000], [[]] * 101))
    same("101 times 10,000", plan(folder, "cpm", "more.sm"), refused("F10 line 211"))
    return 2


def try_arcs(folder):
    """Two activities, the fewest; and 502, the most, with an arc from each to all behind it: 125,751."""
    written(folder, "two.sm", project([0, 0], [[2], []]))
    rows = [row(job, 0, 0, 0, 0, 0, 0, 0) + " *\n" for job in (1, 2)]
    same("2 activities", plan(folder, "cpm", "two.sm"), printed(DATES + "".join(rows) + "T 0\n"))
    durations = [0] + [1] * 500 + [0]
    successors = [list(range(job + 1, 503)) for job in range(1, 503)]
    written(folder, "arcs.sm", project(durations, successors))
    starts = [0, *range(500), 500]
    ends = [start + duration for start, duration in zip(starts, durations)]
    lines = list(zip(range(1, 503), durations, starts, ends))
    dates = [row(*line, *line[2:], 0, 0) + " *\n" for line in lines]
    same("all arcs", plan(folder, "cpm", "arcs.sm"), printed(DATES + "".join(dates) + "T 500\n"))
    table = SCHEDULE + "".join(row(*line) + "\n" for line in lines) + "makespan 500\n"
    for rule in ("lft", "mts", "num"):
        same(f"all arcs, {rule}", plan(folder, "schedule", rule, "arcs.sm"), printed(table))
    return 5


def even_shop(jobs, machines, time):
    """A shop in the bare form whose steps take the same time; job j is in line 1 + j."""
    steps = " ".join(f"{machine} {time}" for machine in range(machines))
    return f"{jobs} {machines}\n".encode() + f"{steps}\n".encode() * jobs


def even_table(jobs, machines, time):
    """Its schedule: on each machine the jobs by their numbers, each step as early as may be."""
    lines = [
        row(job, step, step - 1, time, (job + step - 2) * time, (job + step - 1) * time) + "\n"
        for job in range(1, jobs + 1)
        for step in range(1, machines + 1)
    ]
    return SHOP + "".join(lines) + f"makespan {(jobs + machines - 1) * time}\n"


EVEN_SHOPS = [
    (50, 20, 1000, None),
    (5, 20, 10000, None),
    (6, 17, 10000, "F10 line 7"),
    (51, 1, 0, "F10 line 1"),
    (1, 21, 0, "F10 line 1"),
]


def try_sizes(folder):
    """Shops of as many jobs and machines, and of as long steps, as there may be, and of more."""
    for jobs, machines, time, line in EVEN_SHOPS:
        written(folder, "even.txt", even_shop(jobs, machines, time))
        wanted = refused(line) if line else printed(even_table(jobs, machines, time))
        found = plan(folder, "shop", "spt", "even.txt", "-")
        same(f"{jobs} jobs on {machines} machines", found, wanted)
    return len(EVEN_SHOPS)


def chain_table(count):
    """The schedule of a chain of activities that last 1."""
    rows = [row(job, 1, job - 1, job) + "\n" for job in range(1, count + 1)]
    return SCHEDULE + "".join(rows) + f"makespan {count}\n"


def try_searches(folder):
    """Chains of 40 and 41 activities, shops of 100, 102 and 110 steps: the size comes before the budget."""
    large = refused("S5 too large")
    written(folder, "most.sm", chain([1] * 40))
    written(folder, "more.sm", chain([1] * 41))
    written(folder, "more.txt", even_shop(11, 10, 1))
    written(folder, "slightly_more.txt", even_shop(34, 3, 1))
    written(folder, "most.txt", even_shop(50, 2, 1))
    for budget in ("1", "0", "six"):
        same("41 activities", plan(folder, "best-project", budget, "more.sm"), large)
        same("110 steps", plan(folder, "best", budget, "more.txt", "-"), large)
        same("102 steps", plan(folder, "best", budget, "slightly_more.txt", "-"), large)
    wanted = printed("optimal 40\n" + chain_table(40))
    same("40 activities", plan(folder, "best-project", "1", "most.sm"), wanted)
    same("no budget", plan(folder, "best-project", "0", "most.sm"), refused("S6 budget"))
    same("no budget for 100 steps", plan(folder, "best", "0", "most.txt", "-"), refused("S6 budget"))
    return 12


# ---- days


def day_row(activity, first, last):
    """A line of a table of working days."""
    return f"{activity:4}{first!s:>12}{last!s:>12}\n"


def working_days(date, marks, count):
    """So many days from a date on whose marks are 1, found by a walk from day to day."""
    days = []
    while len(days) < count:
        if marks[date.weekday()] == "1":
            days.append(date)
        date += datetime.timedelta(days=1)
    return days


def try_walk(folder):
    """Forty activities of a day one behind the other, for all marks and from seven weekdays on."""
    written(folder, "forty.sm", chain([1] * 40))
    cases = [(bits, first) for bits in range(1, 128) for first in range(1, 8)]
    for bits, first in cases:
        marks = "".join(str(bits >> place & 1) for place in range(7))
        date = datetime.date(2024, 2, first)
        days = working_days(date, marks, 40)
        rows = [day_row(activity, day, day) for activity, day in enumerate(days, 1)]
        found = plan(folder, "days", "num", str(date), marks, "forty.sm")
        same(f"the days of {marks} from {date} on", found, printed(DAYS + "".join(rows)))
    return len(cases)


def sunday(instant):
    """The Sunday that a working day is from 2000-01-01 on, which is a Saturday."""
    return datetime.date(2000, 1, 2) + datetime.timedelta(weeks=instant)


def sundays_of(durations):
    """The table of a chain on these Sundays."""
    text, start = DAYS, 0
    for activity, duration in enumerate(durations, 1):
        days = (sunday(start), sunday(start + duration - 1)) if duration else ("-", "-")
        text += day_row(activity, *days)
        start += duration
    return text


# The last Sunday of the calendar, 9999-12-26, is instant 417,419. A first start, a duration, and
# whether there are days for it.
FAR = [(417419, 1, True), (417420, 1, False), (417418, 2, True), (417419, 2, False)]


def try_far_days(folder):
    """Activities about the last Sunday there is, behind others that last at most 10,000, and before
    one that takes no time and so has no day."""
    same("the last Sunday", str(sunday(417419)), "9999-12-26")
    for start, duration, has_days in FAR:
        durations = [10000] * (start // 10000) + [start % 10000, duration, 0]
        written(folder, "far.sm", chain(durations))
        found = plan(folder, "days", "num", "2000-01-01", "0000001", "far.sm")
        wanted = printed(sundays_of(durations)) if has_days else refused("G3 beyond calendar")
        same(f"{duration} Sundays from the one of {start} on", found, wanted)
    return len(FAR)


FORMULAS = {
    "bytes": try_bytes,
    "durations": try_durations,
    "arcs": try_arcs,
    "sizes": try_sizes,
    "searches": try_searches,
    "walk": try_walk,
    "far_days": try_far_days,
}
