"""What requests and starts of an office take, in instructions of `plan replay`."""

import hashlib
import itertools
import os
import sqlite3
import subprocess

import files
from replayed import expecting, request_file

KEY = "desk-key-1"
SILENT = [(os.POSIX_SPAWN_OPEN, 1, os.devnull, os.O_WRONLY, 0)]
# The more answers of a request; one of them has nothing in memory.
MORE = 10


def small():
    """A project of 32 activities on 4 resources."""
    return files.project(*files.made(32, 77, 10, 6, 9, 10))


def large():
    """A project of 502 activities and all arcs, 0.5 MB."""
    return files.projects(all_later=True)


def get(route):
    """A request for a page of the first desk."""
    return f"GET /desks/d0/{route} HTTP/1.0\r\nDesk-Key: {KEY}\r\n\r\n"


def post(route, body):
    """A command of the first desk."""
    head = f"POST /desks/d0/{route} HTTP/1.0\r\nDesk-Key: {KEY}\r\n"
    return f"{head}Content-Length: {len(body)}\r\n\r\n{body}"


# 6 is the first successor of 2 in the small project.
LAG = post("plans/1/lag", '{"from":2,"to":6,"lag":1}')

# name, body of the plans, number of plans, request, its status, most instructions of one answer
# (thousands)
REQUESTS = [
    ("request: dates, 32 activities", small, 1, get("plans/1/dates"), 200, 180),
    ("request: schedule lft, 32 activities", small, 1, get("plans/1/schedule/lft"), 200, 210),
    ("request: lag, 32 activities", small, 1, LAG, 200, 265),
    ("request: dates, 0.5 MB", large, 1, get("plans/1/dates"), 200, 4500),
    ("request: list of 50 small plans", small, 50, get("plans"), 200, 94),
    ("request: list of 50 plans of 0.5 MB", large, 50, get("plans"), 200, 94),
]

# name, body of the plans, number of lags, request, its status, most processor time of one answer (ms)
TIMES = [("request: dates, 0.5 MB, 100,000 lags", large, 100000, get("plans/1/dates"), 200, 5)]

# name, body of the plans, number of plans, most processor time for a MB of the file (ms)
COPIES = [("backup: 100 plans of 0.5 MB", large, 100, 15)]

# name, body of the plans, number of plans, most instructions for a byte of the file, most memory by
# the length of the file, besides 20 MB
STARTS = [("start: 100 plans of 0.5 MB", large, 100, 200, 1.1)]


def office(plan, folder, count, body, lags=0):
    """The file of an office with one desk, which has so many plans; the first plan has all arcs if it
    has lags."""
    path = os.path.join(folder, "office.db")
    for suffix in ("", "-wal"):
        if os.path.exists(path + suffix):
            os.remove(path + suffix)
    subprocess.run([plan, "init", path], input=b"office-key-1\n", check=True)
    digest, text = hashlib.sha256(KEY.encode()).hexdigest(), body.encode()
    tables = sqlite3.connect(path)
    tables.execute("INSERT INTO desks VALUES ('d0', ?, ?)", (digest, count + 1))
    rows = [("d0", n, "project", "", text, "", "") for n in range(1, count + 1)]
    tables.executemany("INSERT INTO plans VALUES (?, ?, ?, ?, ?, ?, ?)", rows)
    arcs = itertools.islice(itertools.combinations(range(1, 503), 2), lags)
    rows = [("d0", 1, *arc, 1 + sum(arc) % 9) for arc in arcs]
    tables.executemany("INSERT INTO lags VALUES (?, ?, ?, ?, ?)", rows)
    tables.commit()
    tables.execute("PRAGMA wal_checkpoint(TRUNCATE)")
    tables.close()
    return path


def of_request(plan, instructions, folder, case):
    """Thousands of instructions of one answer: those of eleven less those of one, by ten."""
    name, body, count, text, status, _ = case
    path, request = office(plan, folder, count, body()), request_file(folder, text)
    words = [plan, "replay", path]
    one, more = (instructions(words + [request] * n, expecting(name, status, n))
                 for n in (1, 1 + MORE))
    return (more - one) * 1000 / MORE


def processor_time(words):
    """The processor time of a process in milliseconds, and its most memory in bytes."""
    pid = os.posix_spawn(words[0], words, os.environ, file_actions=SILENT)
    _, status, usage = os.wait4(pid, 0)
    if status != 0:
        raise SystemExit(f"bench/run: {' '.join(words)} ended with status {status}")
    return (usage.ru_utime + usage.ru_stime) * 1000, usage.ru_maxrss * 1024


def of_time(plan, folder, case):
    """Milliseconds of one answer: those of eleven less those of one, by ten."""
    name, body, lags, text, status, _ = case
    path, request = office(plan, folder, 1, body(), lags), request_file(folder, text)
    words = [plan, "replay", path]
    printed = subprocess.run(words + [request] * 2, check=True, capture_output=True).stdout
    expecting(name, status, 2)(printed)
    one, more = (processor_time(words + [request] * n)[0] for n in (1, 1 + MORE))
    return (more - one) / MORE


def of_copy(plan, folder, case):
    """Milliseconds for each MB of an office that is copied and checked."""
    _, body, count, _ = case
    path, target = office(plan, folder, count, body()), os.path.join(folder, "copy.db")
    taken, _ = processor_time([plan, "backup", path, target])
    os.remove(target)
    return taken * 1e6 / os.path.getsize(path)


def of_start(plan, instructions, folder, case):
    """The length of the file, instructions for each of its bytes, and memory by its length."""
    name, body, count, _, _ = case
    path, request = office(plan, folder, count, body()), request_file(folder, get("plans"))
    size, words = os.path.getsize(path), [plan, "replay", path, request]
    _, memory = processor_time(words)
    taken = instructions(words, expecting(name, 200, 1)) * 1e6 / size
    return size, taken, (memory - 20e6) / size


def shown(value, target, form):
    """A figure, with a mark where it is more than a tenth above its target, and the target."""
    return [f"{value:{form}}" + ("!" if value > target * 1.1 else ""), f"{target}"]


def tables(plan, instructions, folder, line, is_chosen):
    """The lines of the tables of requests, of copies and of starts."""
    tables = [
        (REQUESTS, ["Request", "k instr", "at most"], lambda case: shown(of_request(plan, instructions, folder, case), case[5], ".0f")),
        (TIMES, ["Request", "ms", "at most"], lambda case: shown(of_time(plan, folder, case), case[5], ".1f")),
        (COPIES, ["Copy", "ms a MB", "at most"], lambda case: shown(of_copy(plan, folder, case), case[3], ".1f")),
        (STARTS, ["Start", "bytes", "instr a byte", "at most", "memory by length", "at most"], lambda case: start_cells(plan, instructions, folder, case)),
    ]
    for cases, head, cells_of in tables:
        chosen = [case for case in cases if is_chosen(case[0])]
        if chosen:
            yield "\n" + line(head)
            yield "|" + "---|" * len(head)
        for case in chosen:
            yield line([case[0], *cells_of(case)])


def start_cells(plan, instructions, folder, case):
    """The figures of a start beside their targets."""
    size, taken, memory = of_start(plan, instructions, folder, case)
    return [str(size), *shown(taken, case[3], ".0f"), *shown(memory, case[4], ".2f")]
