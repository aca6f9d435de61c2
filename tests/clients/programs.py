"""Runs the program under test on files and behind a socket, and reads its databases by the sqlite3
shell.
"""

import contextlib
import hashlib
import os
import shutil
import socket
import subprocess
import sys
import time

sys.path.insert(0, os.path.dirname(os.path.dirname(os.path.abspath(__file__))))

from exchanges import DUMP, OFFICE_KEY, ROWS, TOP
from program import PROGRAM


class Wrong(Exception):
    """Something differs from what it should be."""


class Unable(Exception):
    """A tool that a test needs is missing."""


def same(what, found, wanted):
    if found != wanted:
        raise Wrong(f"{what}\n  gave    {found!r}\n  and not {wanted!r}")


def plan(*words, given=b"", patience=120, **more):
    """The status and both outputs of the program, which takes no longer than so many seconds."""
    words, more = [PROGRAM, *words], {"capture_output": True, "timeout": patience, **more}
    done = subprocess.run(words, input=given, **more)
    return done.returncode, done.stdout, done.stderr


def fault(line):
    """What a command gives that fails with this line."""
    return 1, b"", line.encode() + b"\n"


# The environment in which an error has its hint although standard error is no terminal.
HINTED = {**os.environ, "PLAN_HINTS": "1"}


def hinted(line, hint):
    """What a command gives that fails with this line and this hint, in the environment HINTED."""
    return 1, b"", f"{line}\nhint: {hint}\n".encode()


DONE = (0, b"", b"")


def init(database):
    same("plan init", plan("init", database, given=OFFICE_KEY.encode() + b"\n"), DONE)


def free_port():
    with socket.socket() as taken:
        taken.bind(("127.0.0.1", 0))
        return taken.getsockname()[1]


def connect(port, patience=20):
    """A connection to a port, as soon as there is a server."""
    deadline = time.monotonic() + patience
    while True:
        try:
            return socket.create_connection(("127.0.0.1", port), timeout=patience)
        except ConnectionRefusedError:
            if time.monotonic() > deadline:
                raise Wrong("no server answers") from None
            time.sleep(0.0002)


def received(connection):
    """All bytes up to the end of a connection."""
    pieces = []
    while piece := connection.recv(65536):
        pieces.append(piece)
    return b"".join(pieces)


def talk(port, sent):
    """The response to some bytes, behind which nothing comes."""
    with connect(port) as connection:
        connection.sendall(sent)
        connection.shutdown(socket.SHUT_WR)
        return received(connection)


class Server:
    """`plan serve` on a port, a free one if none is named, with as many connections as it serves by
    itself, or with so many."""

    def __init__(self, database, count=None, options=(), port=None, **more):
        self.port = port or free_port()
        self.started = time.monotonic()
        words = [PROGRAM, "serve", database, str(self.port), *options]
        words += [] if count is None else [str(count)]
        out = {"stdin": subprocess.DEVNULL, "stdout": subprocess.PIPE, "stderr": subprocess.PIPE}
        self.process = subprocess.Popen(words, **{**out, **more})

    def url(self, path):
        return f"http://127.0.0.1:{self.port}{path}"

    def kill(self):
        self.process.kill()
        self.process.communicate()

    def end(self, patience=20):
        """The status and both outputs of a server that ends by itself."""
        out, err = self.process.communicate(timeout=patience)
        return self.process.returncode, out, err


@contextlib.contextmanager
def serving(database, count=None, options=(), **more):
    server = Server(database, count, options, **more)
    try:
        yield server
    finally:
        server.kill()


def copy(database, place):
    """Copies a database with its log."""
    for end in ("", "-wal", "-shm"):
        with contextlib.suppress(FileNotFoundError):
            os.remove(place + end)
        if os.path.exists(database + end):
            shutil.copyfile(database + end, place + end)


def told_by_sqlite(database, text):
    """What the sqlite3 shell tells of a text over a file."""
    words, as_text = ["sqlite3", database], {"encoding": "utf-8", "errors": "surrogateescape"}
    return subprocess.run(words, input=text, capture_output=True, timeout=60, **as_text)


def rows(database, room):
    """The rows of a database by the sqlite3 shell, of a copy, since a server keeps the file for
    itself."""
    copied = os.path.join(room, "copy.db")
    copy(database, copied)
    shell = told_by_sqlite(copied, DUMP)
    lines = shell.stdout.split("\n")
    same("sqlite3 on the file", (shell.stderr, lines[-2:]), ("", ["ok", ""]))
    return sorted(lines[:-2])


def summary_by_shell(database):
    """What `plan check-office` is to print of a database, by the sqlite3 shell and Python's SHA-256."""
    tables = ("desks", "published", "plans", "binds", "lags")
    counts = "".join(f"SELECT '{table} ' || count(*) FROM {table};" for table in tables)
    told = [told_by_sqlite(database, text) for text in (counts, ROWS)]
    same("sqlite3 on the file", [shell.stderr for shell in told], ["", ""])
    return f"{told[0].stdout}sha256 {hashlib.sha256(told[1].stdout.encode()).hexdigest()}\n".encode()


def memory_line(database):
    """What `plan check-office` and `plan serve --log` print of the file: its size and 1.1 times its
    size with 20 MB, both rounded up."""
    size = os.path.getsize(database) // 1000000 + 1
    return f"{database}: {size} MB; a start needs about {size + size // 10 + 21} MB of memory\n"


def sql(database, text):
    """Changes a file by the sqlite3 shell, and leaves no log behind."""
    same("sqlite3", told_by_sqlite(database, text).stderr, "")
