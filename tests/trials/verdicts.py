"""Logs of `plan solve --log`, as `plan verify` and share/plan-check-log judge them: what they show of
drawn projects and job shops, and damaged logs, whose verdicts have to be true. certificates.py tries
named instances, and damages that make a line false.

    tests/trials/run verdicts          logs that are whole
    tests/trials/run damaged_logs      damaged ones
    tests/trials/run check_log_lines   the errors of share/plan-check-log, each one line
"""

import collections
import os
import random
import re
import resource
import signal
import subprocess
import sys
import time

sys.path.append(os.path.join(os.path.dirname(os.path.abspath(__file__)), "..", "..", "bench"))
import checker
import files
import progen
from exchanges import file_of
from programs import Wrong, plan, same

PROJECTS, SHOPS, DAMAGED = 12, 6, 25
# For how many seconds a search or a check may last.
PATIENCE = 120
# The processor time of the searches and of both checkers, in seconds.
SPENT = collections.Counter()
REFUSAL, VERDICT = re.compile(rb"V[12] line (\d+)\n"), re.compile(rb"verified (at least )?\d+\n")


class TooLong(Exception):
    """A search that the limit of the length of files has ended."""


def time_of_children():
    """The processor time of the programs that have run, in seconds."""
    used = resource.getrusage(resource.RUSAGE_CHILDREN)
    return used.ru_utime + used.ru_stime


def timed_plan(command, *words):
    """What a command gives; its processor time is added to SPENT."""
    before = time_of_children()
    told = plan(command, *words, patience=PATIENCE)
    SPENT[command] += time_of_children() - before
    return told


def drawn_project(seed):
    """A project of 14 activities."""
    return files.project(*progen.made(12, 1.8, 0.75, 0.2, seed)), []


def drawn_shop(seed):
    """A job shop of three or four jobs and machines, in a file without a name."""
    draw = random.Random(seed)
    jobs, machines = draw.randint(2, 4), draw.randint(2, 4)
    lines = ["instance drawn", "+", "drawn", f"{jobs} {machines}"]
    for _ in range(jobs):
        order = draw.sample(range(machines), machines)
        lines.append(" ".join(f"{k} {draw.randint(0, 9)}" for k in order))
    return "\n".join(lines) + "\n", ["drawn"]


def put(room, name, content):
    """The path of a new file."""
    path = os.path.join(room, name)
    with open(path, "wb") as file:
        file.write(content)
    return path


def solved(room, text, instance, *limits):
    """The path of a file, what `plan solve` prints first, and its log."""
    path, log = put(room, "drawn", text.encode()), os.path.join(room, "log")
    status, out, err = timed_plan("solve", "--log", log, *limits, path, *instance)
    if status == -signal.SIGXFSZ:
        raise TooLong
    same("a search with a log", (status, err), (0, b""))
    with open(log, "rb") as file:
        return path, out.decode().split("\n")[0].split(), file.read()


def line_of(words):
    """What a log shows if the search prints these words: `optimal 7`, `between 6 7`."""
    return f"verified {words[1]}" if words[0] == "optimal" else f"verified at least {words[1]}"


def judge_whole(room, text, instance, *limits):
    """Both checkers confirm what the search prints. The search of a job shop by nodes has no log, so
    its log may show less."""
    path, words, log = solved(room, text, instance, *limits)
    told = plan("verify", path, os.path.join(room, "log"), *instance)
    if instance:
        line = checker.shown_of_shop(text, *instance, log.decode())
    else:
        line = checker.shown(text, log.decode())
        same("what the log shows", line, line_of(words))
    same("plan verify", told, (0, line.encode() + b"\n", b""))
    return line


def judge_list(room, name):
    """`plan verify` judges a log on a list as on the file that `plan import` makes of the list. The log
    of a shorter list shows something else."""
    path, log = put(room, "list", file_of(name)), os.path.join(room, "log")
    status, _, err = plan("solve", "--log", log, path)
    same("a search of a list with a log", (status, err), (0, b""))
    status, made, err = plan("import", path)
    same("the file of a list", (status, err), (0, b""))
    instance = ["shop"] if name.endswith("shop.csv") else []
    told = plan("verify", put(room, "made", made), log, *instance)
    same("a log on the file of a list", (told[0], told[2]), (0, b""))
    same("a log on a list", plan("verify", path, log), told)
    longer = put(room, "longer", file_of(name).replace(b",4", b",40", 1))
    if plan("verify", longer, log) == told:
        raise Wrong(f"plan verify shows {told[1]} of another list than that of the log")


def try_verdicts(room):
    """The logs of searches that end, and of searches that are stopped early."""
    for seed in range(PROJECTS):
        for limits in ([], ["--conflicts", "1"], ["--conflicts", "10"]):
            judge_whole(room, *drawn_project(seed), *limits)
    for seed in range(SHOPS):
        text, instance = drawn_shop(seed)
        judge_whole(room, text, instance)
    judge_whole(room, file_of("examples/shops.txt").decode(), ["ft06"])
    judge_whole(room, file_of("examples/house.sm").decode(), [])
    judge_list(room, "examples/house.csv")
    judge_list(room, "examples/shop.csv")


# ---- damaged logs


def other_number(lines, draw):
    """A number of a line is another one."""
    at = draw.randrange(len(lines))
    numbers = list(re.finditer(rb"\d+", lines[at]))
    if numbers:
        found = draw.choice(numbers)
        near = max(0, int(found[0]) + draw.choice((-2, -1, 1, 2)))
        new = draw.choice((near, draw.randrange(60), 2**30, 2**32, 10**12))
        lines[at] = lines[at][: found.start()] + b"%d" % new + lines[at][found.end() :]


def without_line(lines, draw):
    del lines[draw.randrange(len(lines))]


def line_twice(lines, draw):
    lines.insert(draw.randrange(len(lines)), draw.choice(lines))


def lines_swapped(lines, draw):
    one, other = draw.randrange(len(lines)), draw.randrange(len(lines))
    lines[one], lines[other] = lines[other], lines[one]


def cut(lines, draw):
    del lines[draw.randrange(len(lines)) :]
    lines.append(b"lower %d" % draw.randrange(100))


def torn(lines, draw):
    at = draw.randrange(len(lines))
    lines[at] = lines[at][: draw.randrange(len(lines[at]) + 1)]
    del lines[at + 1 :]


def other_word(lines, draw):
    at = draw.randrange(len(lines))
    words = lines[at].split(b" ")
    words[draw.randrange(len(words))] = draw.choice(draw.choice(lines).split(b" ") or [b""])
    lines[at] = b" ".join(words)


def other_bytes(lines, draw):
    at = draw.randrange(len(lines))
    place = draw.randrange(len(lines[at]) + 1)
    lines[at] = lines[at][:place] + draw.randbytes(draw.randrange(4)) + lines[at][place:]


def greater_bound(lines, draw):
    bounds = [int(line.split(b" ")[1]) for line in lines if re.fullmatch(rb"lower \d+", line)]
    lines.append(b"lower %d" % (max(bounds, default=0) + 1))


def refuted_at_once(lines, draw):
    lines.insert(draw.randrange(len(lines)), b"refuted")


DAMAGES = (other_number, without_line, line_twice, lines_swapped, cut, torn, other_word, other_bytes)
DAMAGES += (greater_bound, refuted_at_once)


def by_checker(text, instance, log):
    """What share/plan-check-log shows: a line, or None if it refuses the log."""
    before = time.process_time()
    try:
        if instance:
            return checker.shown_of_shop(text, *instance, log.decode("latin-1"))
        return checker.shown(text, log.decode("latin-1"))
    except checker.Refused:
        return None
    finally:
        SPENT["plan-check-log"] += time.process_time() - before


def by_program(room, path, instance, log):
    """What `plan verify` shows: a line, or None and the code of its refusal."""
    status, out, err = timed_plan("verify", path, put(room, "judged", log), *instance)
    if status == 1 and out == b"" and REFUSAL.fullmatch(err):
        return None, err[:2]
    if status or err or not VERDICT.fullmatch(out):
        raise Wrong(f"plan verify gave {status} {out!r} {err!r}")
    return out.decode().strip(), None


def judged(room, path, text, instance, log):
    """What both show. A line that only the program can't read (V2) may say nothing to the other."""
    told, code = by_program(room, path, instance, log)
    other = by_checker(text, instance, log)
    if told != other and code != b"V2":
        raise Wrong(f"plan verify shows {told}, plan-check-log {other}")
    return told, other


def is_true(line, least):
    """Whether `verified L` names the least makespan, or `verified at least L` a lower bound."""
    bound = int(line.split()[-1])
    return bound <= least if "least" in line else bound == least


def judge_damaged(room, path, text, instance, least, log, draw):
    """A damaged log is refused, or its verdict is true: the least makespan, or at most that. Both
    checkers agree."""
    lines = log.split(b"\n")[:-1]
    names = [damage.__name__ for damage in draw.sample(DAMAGES, draw.randint(1, 2))]
    for name in names:
        globals()[name](lines, draw)
    damaged = b"\n".join(lines) + draw.choice((b"\n", b"\n", b"\n", b"", b"\n\n"))
    for line in judged(room, path, text, instance, damaged):
        if line and not is_true(line, least):
            raise Wrong(f"the verdict of a log with {' and '.join(names)}: {line}, but {least} is the least")


def try_damaged_logs(room):
    """Damaged logs of projects and job shops, and logs of other ones."""
    cases = [drawn_project(seed) for seed in range(PROJECTS)] + [drawn_shop(seed) for seed in range(SHOPS)]
    other = b"lower 0\n"
    for seed, (text, instance) in enumerate(cases):
        path, words, log = solved(room, text, instance)
        same("a small problem", words[0], "optimal")
        draw = random.Random(seed)
        for _ in range(DAMAGED):
            judge_damaged(room, path, text, instance, int(words[1]), log, draw)
        judge_damaged(room, path, text, instance, int(words[1]), other, draw)
        other = log


# ---- the errors of share/plan-check-log

UNREAD = "{}: no project (.sm) and no job shop of this name; for a list, run plan import first"
# What it prints about these files, instances and logs of examples/.
UNREADABLE = [
    ("house.csv log", UNREAD.format("house.csv")),
    ("shop.csv shop log", UNREAD.format("shop.csv")),
    ("shops.txt la99 log", UNREAD.format("shops.txt")),
    ("shops.txt log", UNREAD.format("shops.txt")),
    ("kitchen.sm ft06 log", UNREAD.format("kitchen.sm")),
    ("missing.sm log", "missing.sm: No such file or directory"),
    ("kitchen.sm missing.log", "missing.log: No such file or directory"),
    (". log", ".: Is a directory"),
]
NO_SENSE = "a word is wrong or missing, or names nothing that is there"
# Logs of the kitchen, whose longest activity takes 3, and what it prints of them.
WRONG_LOGS = [
    (b"lower 3\nlower 4\n", "line 2: the lower bound is more than what is known"),
    (b"schedule 5 0 0 2 2 5\n", "line 1: the schedule isn't feasible"),
    (b"schedule 7 0 0 2 5 8\n", "line 1: the makespan is another"),
    (b"lower three\n", f"line 1: {NO_SENSE}"),
    (b"lower\n", f"line 1: {NO_SENSE}"),
    (b"lower 3 3\n", f"line 1: {NO_SENSE}"),
    (b"drop 1\n", f"line 1: {NO_SENSE}"),
    (b"resolve 1>= arc 1 2 0\n", f"line 1: {NO_SENSE}"),
    (b"begin kept 1\n", f"line 1: {NO_SENSE}"),
    (b"begin arc 1 5 0\n", "line 1: there is no such arc"),
    (b"lower 3\norder 3 4\n", "line 2: an order comes late"),
    (b"lower 3", "line 1: there is no such line"),
    (b"\xff\x00\n", "line 1: there is no such line"),
    (b"\n", "line 1: there is no such line"),
]


def told_by_script(folder, *words):
    """What the script gives, run in a folder: its status and both outputs."""
    command = [sys.executable, checker.CHECKER, *words]
    done = subprocess.run(command, cwd=folder, capture_output=True, text=True, timeout=120)
    return done.returncode, done.stdout, done.stderr


def try_check_log_lines(room):
    """The script prints one line about a list, a file that can't be read, and a wrong log."""
    for name in ("house.csv", "shop.csv", "shops.txt", "kitchen.sm"):
        put(room, name, file_of(f"examples/{name}"))
    put(room, "log", b"lower 3\n")
    same("a true log", told_by_script(room, "kitchen.sm", "log"), (0, "verified at least 3\n", ""))
    put(room, "log", b"lower\t3\x1a\n")
    same("other blanks", told_by_script(room, "kitchen.sm", "log"), (0, "verified at least 3\n", ""))
    same("other blanks", plan("verify", "kitchen.sm", "log", cwd=room), (0, b"verified at least 3\n", b""))
    for words, line in UNREADABLE:
        same(f"plan-check-log {words}", told_by_script(room, *words.split()), (1, "", line + "\n"))
    for log, line in WRONG_LOGS:
        put(room, "log", log)
        same(f"the log {log}", told_by_script(room, "kitchen.sm", "log"), (1, "", line + "\n"))
