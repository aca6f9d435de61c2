"""How cost grows with the activities of a project, and with the desks of an office."""

import hashlib
import os
import sqlite3
import subprocess

import files
from replayed import expecting, request_file

ACTIVITIES = (62, 125, 250, 502)
COMMANDS = (["cpm"], ["schedule", "lft"], ["schedule", "mts"])
DESKS = (10, 100, 1000, 3000)
PLANS = 10
KEY = "desk-key-1"
# the first answers cost less or more, because the server gets memory
FEW, MANY = 11, 111
# name: the request, its status
REQUESTS = {
    "GET of the plans": ("GET /desks/d0/plans HTTP/1.0\r\nDesk-Key: %s\r\n\r\n", 200),
    "GET of the dates": ("GET /desks/d0/plans/1/dates HTTP/1.0\r\nDesk-Key: %s\r\n\r\n", 200),
    "a wrong key": ("GET /desks/d0/plans HTTP/1.0\r\nDesk-Key: no-%s\r\n\r\n", 403),
}


def of_activities(plan, instructions, folder):
    """For each number of activities what commands on a drawn project take, in millions of
    instructions; up to 3 successors each, on 4 resources."""
    for count in ACTIVITIES:
        path = os.path.join(folder, f"{count}.sm")
        with open(path, "w", encoding="ascii") as file:
            file.write(files.project(*files.made(count, 12345, 10, 8, 12, 20)))
        taken = [instructions([plan, *command, path]) for command in COMMANDS]
        yield [str(count), *(f"{million:.2f}" for million in taken)]


def office(plan, folder, desks):
    """The file of an office of so many desks, the first of which has some small projects."""
    path = os.path.join(folder, f"{desks}.db")
    subprocess.run([plan, "init", path], input=b"office-key-1\n", check=True)
    digest, body = hashlib.sha256(KEY.encode()).hexdigest(), files.example("six.sm").encode()
    with sqlite3.connect(path) as tables:
        rows = [(f"d{at}", digest, PLANS + 1) for at in range(desks)]
        tables.executemany("INSERT INTO desks VALUES (?, ?, ?)", rows)
        rows = [("d0", n, "project", "", body, "", "") for n in range(1, PLANS + 1)]
        tables.executemany("INSERT INTO plans VALUES (?, ?, ?, ?, ?, ?, ?)", rows)
    tables.close()
    return path


def of_desks(plan, instructions, folder):
    """For each number of desks what a request of one of them takes, in thousands of instructions:
    those of 111 requests less those of eleven, by a hundred."""
    for desks in DESKS:
        path, cells = office(plan, folder, desks), [str(desks)]
        for name, (text, status) in REQUESTS.items():
            request = request_file(folder, text % KEY)
            few, many = (
                instructions([plan, "replay", path, *[request] * n], expecting(name, status, n))
                for n in (FEW, MANY)
            )
            cells.append(f"{(many - few) * 1000 / (MANY - FEW):.0f}")
        yield cells


def tables(plan, instructions, folder, line):
    """The lines of both tables."""
    yield line(["Activities", *(" ".join(command) for command in COMMANDS)])
    yield "|---" * (1 + len(COMMANDS)) + "|"
    yield from map(line, of_activities(plan, instructions, folder))
    yield ""
    yield line(["Desks", *REQUESTS])
    yield "|---" * (1 + len(REQUESTS)) + "|"
    yield from map(line, of_desks(plan, instructions, folder))
