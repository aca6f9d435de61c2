"""The progress line of `plan prove` and `plan solve` on standard error: at most once a second, only on
a terminal, and its numbers for a shop that takes long. The time limit of `plan solve`.

    tests/trials/run terminal    prove with few nodes, at once
    tests/trials/run limited     solve, within ten seconds
    tests/trials/run processor_time    solve on a large project, with its processor time
    tests/trials/run watched     prove, within half a minute; only in whole runs
"""

import os
import pty
import random
import re
import resource
import shutil
import subprocess
import time

from answers import TOP
from programs import PROGRAM, Wrong, same

EXAMPLES = os.path.join(TOP, "examples", "shops.txt")
SHOPS = os.path.join(TOP, "bench", "shops.txt")
# a shop that isn't solved within so many nodes, and the makespan that is published as its least
NAME, NODES, LEAST = "orb01", 600_000, 1059
LINE = rb"\rbest (\d+), lower bound (\d+), (\d+) (?:nodes|conflicts), (\d+) s\x1b\[K"
CLEARED = b"\r\x1b[K"
# The time limit of `plan solve`, and how much longer it may take on a busy machine.
LIMIT, GRACE = 3, 5
# A large project: its activities, the longest duration, its resources and their capacity.
COUNT, LONGEST, KINDS, CAPACITY = 500, 100, 4, 20
# The processor time, in seconds, that a search may use after its time limit of a second.
LATE = 0.6


def tree(room, name, program):
    """A copy of ./plan in a folder of its own, with this as the released program."""
    folder = os.path.join(room, name)
    os.makedirs(os.path.join(folder, "bin"))
    texts = {"release": "#!/bin/sh\necho digest\n", "bin/plan.sources": "digest\n"}
    texts["bin/plan"] = f'#!/bin/sh\nexec {program} "$@"\n'
    for path, text in texts.items():
        with open(os.path.join(folder, path), "w", encoding="ascii") as file:
            file.write(text)
        os.chmod(os.path.join(folder, path), 0o755)
    return shutil.copy(os.path.join(TOP, "plan"), folder)


def piped(*command):
    """The status and both outputs of a command without a terminal."""
    done = subprocess.run(command, stdin=subprocess.DEVNULL, capture_output=True, timeout=600)
    return done.returncode, done.stdout, done.stderr


def begun(*command):
    """A command whose standard error is a terminal, and the other end of the terminal."""
    here, there = pty.openpty()
    outputs = {"stdout": subprocess.PIPE, "stderr": there}
    process = subprocess.Popen(command, stdin=subprocess.DEVNULL, **outputs)
    os.close(there)
    return process, here


def ended(process, here):
    """Its status, its output, and what the terminal got."""
    pieces = []
    try:
        while piece := os.read(here, 65536):
            pieces.append(piece)
    except OSError:
        # nobody has the terminal any more
        os.close(here)
    output, _ = process.communicate(timeout=60)
    return process.returncode, output, b"".join(pieces)


def try_terminal(room):
    """./plan passes the words on, and few nodes write at most one line. `--progress` changes nothing."""
    script = tree(room, "words", "printf '%s\\n'")
    shown = lambda words: (0, "".join(word + "\n" for word in words).encode(), b"")
    words = ["prove", "5", "shops.txt", "ft 06"]
    for given in (words, words[:3], ["prove", "--help"], ["best", *words[1:]], ["names", "shops.txt"]):
        same(f"./plan {given} on a terminal", ended(*begun(script, *given)), shown(given))
        same(f"./plan {given} without one", piped(script, *given), shown(given))
    plain = piped(PROGRAM, "prove", "1000", EXAMPLES, "ft06")
    same("standard error of few nodes", plain[2], b"")
    same("--progress", piped(PROGRAM, "prove", "--progress", "1000", EXAMPLES, "ft06"), plain)
    status, output, terminal = ended(*begun(PROGRAM, "prove", "1000", EXAMPLES, "ft06"))
    same("few nodes on a terminal", (status, output), plain[:2])
    if terminal and len(told(terminal)) > 1:
        raise Wrong(f"the terminal got {terminal[:1000]!r}")


def told(terminal):
    """The numbers of the lines on a terminal: the best makespan, the lower bound, the nodes or
    conflicts and the seconds of each."""
    if not re.fullmatch(b"((%b)+%b)+" % (LINE, re.escape(CLEARED)), terminal):
        raise Wrong(f"the terminal got {terminal[:1000]!r}")
    return [tuple(map(int, numbers)) for numbers in re.findall(LINE, terminal)]


def judge_seconds(rows):
    """Fails if there is more than one line in a second."""
    same("the seconds", [row[3] for row in rows], sorted({row[3] for row in rows}))


def judge_bounds(rows):
    """Fails if bounds, in order, can't be true of the shop."""
    for best, lower, *_ in rows:
        if not lower <= LEAST <= best:
            raise Wrong(f"the least makespan, {LEAST}, isn't between {lower} and {best}")
    for before, behind in zip(rows, rows[1:]):
        if behind[0] > before[0] or behind[1] < before[1]:
            raise Wrong(f"{behind} comes behind {before}")


def watch(room):
    """A long proof by ./plan on a terminal, and without the line beside it."""
    words = ["prove", str(NODES), SHOPS, NAME]
    watched = begun(tree(room, "program", PROGRAM), *words)
    plain = piped(PROGRAM, *words)
    status, output, terminal = ended(*watched)
    same("standard error without a terminal", plain[2], b"")
    same("the status and the output on a terminal", (status, output), plain[:2])
    if not output.startswith(b"between "):
        raise Wrong(f"{NAME} isn't left between two numbers: {output[:100]!r}")
    rows = told(terminal)
    judge_seconds(rows)
    same("the nodes", [row[2] for row in rows], sorted(row[2] for row in rows))
    judge_bounds([*rows, bounds_of(output)])


def bounds_of(output):
    """The makespan and the lower bound of an output."""
    found = re.match(rb"(?:between (\d+)|optimal) (\d+)\n", output)
    if found is None:
        raise Wrong(f"{NAME} has no bounds: {output[:100]!r}")
    return int(found[2]), int(found[1] or found[2])


def try_limited(_):
    """`plan solve` with a time limit on a terminal: at most one line a second, and the end in time.
    With a conflict limit the output is the same without a terminal."""
    start = time.monotonic()
    limited = ended(*begun(PROGRAM, "solve", "--seconds", str(LIMIT), SHOPS, NAME))
    passed = time.monotonic() - start
    rows = told(limited[2])
    if limited[0] != 0 or len(rows) > LIMIT + 1 or passed > LIMIT + GRACE:
        raise Wrong(f"status {limited[0]}, {len(rows)} lines, {passed:.1f} s")
    judge_seconds(rows)
    judge_bounds([*rows, bounds_of(limited[1])])
    few = [PROGRAM, "solve", "--conflicts", "300", SHOPS, NAME]
    status, output, terminal = ended(*begun(*few))
    same("a conflict limit without a terminal", piped(*few), (status, output, b""))
    judge_bounds([*told(terminal), bounds_of(output)])


def large_project():
    """A project file, drawn: each activity has two predecessors among the 40 in front of it."""
    draw = random.Random(1)
    inner = range(2, COUNT)
    before = {j: draw.sample(range(max(1, j - 40), j), min(2, j - 1)) for j in inner}
    behind = {i: [j for j in inner if i in before[j]] or [COUNT] for i in range(1, COUNT)}
    behind[COUNT] = []
    arcs = [" ".join(map(str, [i, 1, len(behind[i]), *behind[i]])) for i in range(1, COUNT + 1)]
    drawn = {j: [draw.randint(0, CAPACITY // 2) for _ in range(KINDS)] for j in inner}
    times = {j: draw.randint(LONGEST // 20, LONGEST) for j in inner}
    rows = [(j, 1, times.get(j, 0), *drawn.get(j, [0] * KINDS)) for j in range(1, COUNT + 1)]
    names = " ".join(f"R {k}" for k in range(1, KINDS + 1))
    head = ["projects: 1", f"jobs: {COUNT}", f"- renewable: {KINDS}", "- nonrenewable: 0"]
    head += ["- doubly constrained: 0", "PRECEDENCE RELATIONS:"]
    head += ["jobnr. modes successors", *arcs, "REQUESTS/DURATIONS:"]
    head += [f"jobnr. mode duration {names}", "-" * 20, *(" ".join(map(str, row)) for row in rows)]
    capacities = " ".join([str(CAPACITY)] * KINDS)
    return "\n".join([*head, "RESOURCEAVAILABILITIES:", names, capacities, ""])


def times_of(*command):
    """The output of a command, the seconds of the clock that it took, and those of a processor."""
    before, start = resource.getrusage(resource.RUSAGE_CHILDREN), time.monotonic()
    done = piped(*command)
    passed, behind = time.monotonic() - start, resource.getrusage(resource.RUSAGE_CHILDREN)
    used = behind.ru_utime + behind.ru_stime - before.ru_utime - before.ru_stime
    same(f"the status and the errors of {command[1:]}", (done[0], done[2]), (0, b""))
    return done[1], passed, used


def try_processor_time(room):
    """`plan solve --seconds 1` on a large project ends soon after the second. The processor time past
    the limit is at most LATE: the same share as of the whole run, because other work on a busy
    machine also takes time of the clock."""
    path = os.path.join(room, "large.sm")
    with open(path, "w", encoding="ascii") as file:
        file.write(large_project())
    output, passed, used = times_of(PROGRAM, "solve", "--seconds", "1", path)
    if not output.startswith(b"between ") or passed < 1:
        raise Wrong(f"the search ended after {passed:.1f} s: {output[:100]!r}")
    late = (passed - 1) * used / passed
    if late > LATE:
        raise Wrong(f"{used:.1f} s of a processor in {passed:.1f} s, {late:.1f} s after the limit")
