"""Hostile files and full disks: closed streams, names that aren't files, a file that another
program holds, a disk without space. The program answers correctly, or with an error of
docs/errors.md, and no row is lost.
"""

import contextlib
import os
import shutil
import socket
import stat
import subprocess
import tempfile

import longer
from exchanges import OFFICE_KEY, refusal
from programs import PROGRAM, Wrong, fault, free_port, init, plan, rows, same, serving, talk
from story import answered, written

ALL = 1000000
MOST_SECONDS = 10
KEY = OFFICE_KEY.encode() + b"\n"
STORE, OUTPUT, INPUT = fault("E91 store"), b"I3 output\n", b"I1 file\n"
NORTH = "north-key-1"
OPENED = longer.opening("north", NORTH)


def imported(number):
    """The import that gets this number."""
    send = "POST /desks/north/projects"
    return longer.asked(send, NORTH, longer.SIX, 201, longer.imported(number))


def listed(numbers):
    """The list of the plans of these numbers."""
    return longer.asked("GET /desks/north/plans", NORTH, "", 200, longer.listing(numbers))


LISTED = listed([1])


def office(room):
    """A file with an office, a desk and a plan."""
    database = os.path.join(room, "office.db")
    init(database)
    story = [OPENED, imported(1)]
    answered(story, database, written(story, room))
    return database


# ---- streams


def by_shell(line, *words):
    """The status and standard error of a line of the shell, in which "$@" is the program with its
    words."""
    call = ["sh", "-c", line, "sh", PROGRAM, *words]
    done = subprocess.run(call, capture_output=True, timeout=MOST_SECONDS)
    return done.returncode, done.stderr


# A pipe whose reader has gone.
GONE = '(sleep 0.2; "$@"; echo $? >&2) | true'


def try_closed_streams(room):
    """A standard stream that is closed or whose reader has gone: no file of an office comes to
    stand in its place."""
    database, asked = office(room), written([LISTED], room)[0]
    before, new = rows(database, room), os.path.join(room, "new.db")
    for line, words, wanted in [
        ('"$@" >&-', ("replay", database, asked), (1, OUTPUT)),
        ('"$@" <&- >&-', ("replay", database, asked), (1, OUTPUT)),
        ('"$@" <&- >&- 2>&-', ("replay", database, asked), (1, b"")),
        ('"$@" <&-', ("replay", database, asked), (0, b"")),
        ('"$@" <&-', ("init", new), (1, INPUT)),
        ('"$@" <&- >&- 2>&-', ("init", new), (1, b"")),
        ('"$@" <&- 2>&-', ("init", database), (1, b"")),
        (GONE, ("replay", database, asked), (0, OUTPUT + b"1\n")),
    ]:
        what = f"plan {words[0]} by {line}"
        same(what, by_shell(line, *words), wanted)
        same(f"the rows after {what}", rows(database, room), before)
    same("a file without a key", os.path.exists(new), False)


def try_served_without_streams(room):
    """A server whose streams are closed answers, and keeps its rows."""
    database, port = office(room), str(free_port())
    words = ["sh", "-c", '"$@" <&- >&- 2>&-', "sh", PROGRAM, "serve", database, port, "2"]
    with subprocess.Popen(words) as server:
        for exchange in (imported(2), listed([1, 2])):
            same("a response", talk(int(port), exchange.request()), exchange.expected())
        same("how it ends", server.wait(timeout=MOST_SECONDS), 0)
    answered([listed([1, 2])], database, written([listed([1, 2])], room))


# ---- names


def unusual(room):
    """Names at which no database is, with what `plan init` and the others say of them."""
    names = {name: os.path.join(room, name) for name in ("fifo", "socket", "program", "noise")}
    os.mkfifo(names["fifo"])
    with socket.socket(socket.AF_UNIX) as listener:
        listener.bind(names["socket"])
    shutil.copyfile(PROGRAM, names["program"])
    with open(names["noise"], "wb") as file:
        file.write(bytes(range(256)) * 64)
    for name, minor in (("null", 3), ("zero", 5), ("full", 7), ("random", 9)):
        with contextlib.suppress(PermissionError):
            os.mknod(os.path.join(room, name), stat.S_IFCHR | 0o666, os.makedev(1, minor))
            names[name] = os.path.join(room, name)
    return names


def look_of(path):
    """The kind of a name, and its bytes if it is a file."""
    found = os.stat(path)
    content = None
    if stat.S_ISREG(found.st_mode):
        with open(path, "rb") as file:
            content = file.read()
    return found.st_mode, found.st_rdev, content


def try_unusual_names(room):
    """A fifo, a socket, devices, a program and noise at the name of an office: a fault within ten
    seconds, and what stands there stays."""
    asked, port = written([LISTED], room)[0], str(free_port())
    for name, path in unusual(room).items():
        before = look_of(path)
        calls = (["init", path], ["replay", path, asked], ["serve", path, port, "1"])
        refused(f"a {name}", calls, STORE)
        same(f"the {name} after it", look_of(path) == before, True)


def refused(what, calls, wanted):
    """Commands fail by one line, in time."""
    for words in calls:
        found = plan(*words, given=KEY, patience=MOST_SECONDS)
        same(f"plan {words[0]} on {what}", found, wanted)


@contextlib.contextmanager
def held_by_sqlite(database, begin):
    """The sqlite3 shell starts a transaction, and ends it afterwards."""
    pipes = {"stdin": subprocess.PIPE, "stdout": subprocess.PIPE}
    with subprocess.Popen(["sqlite3", database], **pipes) as shell:
        shell.stdin.write(begin.encode() + b" SELECT 'begun';\n")
        shell.stdin.flush()
        while shell.stdout.readline() not in (b"begun\n", b""):
            pass
        yield
        shell.communicate(b"ROLLBACK;\n", timeout=MOST_SECONDS)


def try_held(room):
    """A file in which the sqlite3 shell has a transaction open is in use, and then it isn't."""
    database, asked, in_use = office(room), written([LISTED], room)[0], STORE
    for begin in ("BEGIN IMMEDIATE;", "BEGIN EXCLUSIVE;", "BEGIN; SELECT desk FROM desks;"):
        with held_by_sqlite(database, begin):
            calls = (["init", database], ["replay", database, asked])
            refused(f"a file after {begin}", calls, in_use)
        same("the list", plan("replay", database, asked), (0, LISTED.expected(), b""))


# ---- a disk without room


@contextlib.contextmanager
def small_disk(room, size):
    """A disk in memory of this size; None where this user may not have one."""
    place = tempfile.mkdtemp(dir=room)
    words = ["mount", "-t", "tmpfs", "-o", f"size={size}", "tmpfs", place]
    mounted = subprocess.run(words, capture_output=True).returncode == 0
    if not mounted:
        print("tests/trials/run: no full disk was tried, since this user can't mount one in memory")
    try:
        yield place if mounted else None
    finally:
        if mounted:
            subprocess.run(["umount", place], check=True)


def make_room(place):
    subprocess.run(["mount", "-o", "remount,size=2m", place], check=True)


def try_disk_too_small(room):
    """No office is made on a disk of 200 kB, and one is made there once there is room."""
    with small_disk(room, "200k") as place:
        if place is None:
            return
        database, asked = os.path.join(place, "office.db"), written([LISTED], room)[0]
        for words in (["init", database], ["init", database]):
            same("plan init on 200 kB", plan(*words, given=KEY), STORE)
        refused = plan("replay", database, asked)
        same("plan replay there", refused in (STORE, fault("K1 not ours")), True)
        make_room(place)
        init(database)
        same("the rows of an office", len(rows(database, room)), 1)


def imports_until_full(port):
    """How many imports are answered before the first that finds no room, which is `E91`."""
    for number in range(1, 1000):
        wanted, found = imported(number).expected(), talk(port, imported(number).request())
        if found == refusal(507, "E91 store"):
            return number - 1
        same(f"import {number}", found, wanted)
    raise Wrong("1,000 imports fit on a small disk")


def try_full_disk(room):
    """A disk that fills up: an import is refused, those that were answered are there, and with more
    room the office goes on."""
    with small_disk(room, "600k") as place:
        if place is None:
            return
        database = os.path.join(place, "office.db")
        init(database)
        answered([OPENED], database, written([OPENED], room))
        with serving(database, ALL) as server:
            last = imports_until_full(server.port)
            kept = [row for row in rows(database, room) if row.startswith("plans|")]
            same("the plans on a full disk", 0 < len(kept) == last, True)
        make_room(place)
        more = [listed(range(1, last + 1)), imported(last + 1)]
        answered(more, database, written(more, room))
