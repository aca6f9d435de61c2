"""The six activities of examples/six.sm, cut off after each line and written in other ways: the
line of the error, and the same project however it is written.
"""

from answers import EXAMPLES, content_of, plan, printed, refused, same, written
from formulas import DATES, MOST_BYTES, SCHEDULE


def six_lines():
    """The lines of examples/six.sm."""
    return content_of(EXAMPLES, "six.sm").decode().splitlines()


def joined(lines, end="\n"):
    """A text of these lines."""
    return "".join(line + end for line in lines).encode()


def other(lines, number, line):
    """The same lines with another one in the place of one."""
    return lines[: number - 1] + [line] + lines[number:]


LENGTHS = [0, 3, 2, 4, 3, 0]
ARCS = [(1, 2), (1, 3), (2, 4), (3, 4), (3, 5), (4, 6), (5, 6)]

SIX_DATES = DATES + """\
   1       0       0       0       0       0       0       0 *
   2       3       0       3       0       3       0       0 *
   3       2       0       2       1       3       1       0
   4       4       3       7       3       7       0       0 *
   5       3       2       5       4       7       2       2
   6       0       7       7       7       7       0       0 *
T 7
"""

SIX_BY_TWO = SCHEDULE + """\
   1       0       0       0
   2       3       0       3
   3       2       0       2
   4       4       3       7
   5       3       2       5
   6       0       7       7
makespan 7
"""


def missing_behind(count):
    """The line for the first lines of six.sm, so many of them; none where they are the project."""
    if count <= 10:
        return f"F3 line {count}"
    if count <= 16 or count in (24, 25, 34, 35):
        return f"F5 line {count}"
    for title, last in ((17, 18), (26, 28), (36, 37)):
        if title <= count <= last:
            return f"F9 line {title}"
    return f"F9 line {count}" if count <= 33 else None


def try_cuts(folder):
    """The six activities, cut off after each line, and inside a row."""
    lines = six_lines()
    for count in range(len(lines) + 1):
        written(folder, "cut.sm", joined(lines[:count]))
        line = missing_behind(count)
        wanted = refused(line) if line else printed(SIX_DATES)
        same(f"six.sm cut after line {count}", plan(folder, "cpm", "cut.sm"), wanted)
    written(folder, "cut.sm", joined(lines[:30]) + b"  3      1")
    same("six.sm cut in line 31", plan(folder, "cpm", "cut.sm"), refused("F9 line 31"))
    return len(lines) + 2


def try_longest(folder):
    """The six activities with blanks behind them up to the longest text, and one more."""
    six = joined(six_lines())
    for beyond, wanted in ((0, printed(SIX_DATES)), (1, refused("F1 line 0"))):
        text = six + b" " * (MOST_BYTES - len(six) + beyond)
        same(f"six.sm, {beyond} too long", plan(folder, "cpm", "-", given=text), wanted)
    return 2


# ---- spelled otherwise

OTHER_LINES = [
    (6, "jobs:6"),
    (6, "jobs : 6 x"),
    (6, "  jobs : 000000006"),
    (2, "projects:1\nprojects : 7"),
    (17, "PRECEDENCE RELATIONSHIPS"),
    (19, "   1        1          2           2\n   3"),
    (19, "1 1\n\n2 2\n---\n3"),
    (19, "1\t1\x1a2\x0b2 \x0c3\r"),
    (24, "6 1 0\nPRECEDENCE RELATIONS:\nx\ny z"),
    (39, "PRECEDENCE RELATIONS:\nheads\n1 1 1 1"),
]


def spellings(lines):
    """The lines of six.sm spelled otherwise: what is other, and the text."""
    yield "nothing", joined(lines)
    for number, line in OTHER_LINES:
        yield f"line {number}, {line!r}", joined(other(lines, number, line))
    yield "carriage returns", joined(lines, "\r\n")
    yield "sections in another order", joined(lines[:16] + lines[35:] + lines[25:35] + lines[16:25])


def verdict_on_arc(first, second):
    """Starts ten instants apart, but the second activity starts just before the first one ends; and
    what is said: the first arc into it that is broken, or, with none, that the first can start
    earlier."""
    starts = [10 * job for job in range(1, 7)]
    starts[second - 1] = 10 * first + LENGTHS[first - 1] - 1
    broken = [job for job in range(first, second) if (job, second) in ARCS]
    if broken:
        return starts, f"activity {second} starts before {broken[0]} ends\n"
    return starts, "activity 1 can start earlier\n"


# Two activities at once: what is said where two may go on at a time, and where one may.
AT_ONCE = [
    ([0, 0, 0, 10, 20, 30], 0, "activity 4 can start earlier\n"),
    ([0, 0, 10, 20, 20, 30], 20, "activity 3 can start earlier\n"),
]


def judged(folder, starts, name):
    """What `plan check` says of starts."""
    given = " ".join(str(start) for start in starts).encode()
    return plan(folder, "check", name, "-", given=given)


def try_arcs(folder, what):
    """That a file has the arcs of the six activities, and no others."""
    pairs = [(first, second) for second in range(1, 7) for first in range(1, second)]
    for first, second in pairs:
        starts, wanted = verdict_on_arc(first, second)
        found = judged(folder, starts, "six.sm")
        same(f"{what}: starts {starts}", found, printed(wanted))
    return len(pairs)


def try_needs(folder, what):
    """That activities 2 to 5 of the files need 1 each: of 2 in six.sm, of 1 in one.sm."""
    for starts, instant, wanted in AT_ONCE:
        over = f"at time {instant} more of resource 1 is needed than there is\n"
        same(f"{what}: two", judged(folder, starts, "six.sm"), printed(wanted))
        same(f"{what}: one", judged(folder, starts, "one.sm"), printed(over))
    return 2 * len(AT_ONCE)


def try_spelling(folder, what):
    """That six.sm has the six activities, one.sm less of the resource, three.sm more needs."""
    dates = plan(folder, "cpm", "six.sm")
    same(f"{what}: the dates", dates, printed(SIX_DATES))
    schedule = plan(folder, "schedule", "lft", "six.sm")
    same(f"{what}: the schedule", schedule, printed(SIX_BY_TWO))
    beyond = plan(folder, "schedule", "lft", "three.sm")
    same(f"{what}: 3 of 2", beyond, refused("S1 activity 2 resource 1"))
    return 3 + try_arcs(folder, what) + try_needs(folder, what)


def try_texts(folder, texts):
    """Puts the three texts of a spelling into files, and tries them."""
    for name, (what, text) in zip(("six.sm", "one.sm", "three.sm"), texts):
        written(folder, name, text)
    return try_spelling(folder, f"six.sm with {what}")


def try_spellings(folder):
    """Texts of the six activities that are spelled otherwise."""
    six = six_lines()
    one, three = other(six, 38, "   1"), other(six, 30, "  2      1     3       3")
    spelled = zip(spellings(six), spellings(one), spellings(three))
    return sum(try_texts(folder, texts) for texts in spelled)


FORMULAS = {"cuts": try_cuts, "longest": try_longest, "spellings": try_spellings}
