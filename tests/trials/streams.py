"""Standard streams that are closed when the program starts: no file and no connection gets what is
meant for them, or gives what is read from them.

    tests/trials/run missing_streams
"""

import itertools
import os
import subprocess

from hostile import LISTED, office
from programs import PROGRAM, Wrong, connect, free_port, received, same
from exchanges import file_of

# The words of the shell that close each stream.
CLOSED = ("<&-", ">&-", "2>&-")
SUBSETS = [subset for count in range(4) for subset in itertools.combinations(range(3), count)]
OUTPUT, INPUT = b"I3 output\n", b"I1 file\n"
WAITING = 4


def words_without(subset, *words):
    """A command without these streams."""
    closing = " ".join(CLOSED[stream] for stream in subset)
    return ["sh", "-c", f'exec "$@" {closing}', "sh", PROGRAM, *words]


def run_without(subset, *words, given=b""):
    """The status and both outputs of a command without these streams."""
    done = subprocess.run(words_without(subset, *words), input=given, capture_output=True, timeout=60)
    return done.returncode, done.stdout, done.stderr


def expected(subset, out, line, status):
    """What a command gives without these streams, if it ends with this status, output and line."""
    return status, b"" if 1 in subset else out, b"" if 2 in subset else line


def judge_dates(subset, path, table):
    """`plan cpm` of a file, and of standard input."""
    wanted = (1, OUTPUT) if 1 in subset else (0, b"")
    named = expected(subset, table, wanted[1], wanted[0])
    same(f"plan cpm FILE without {subset}", run_without(subset, "cpm", path), named)
    if 0 in subset:
        named = expected(subset, b"", INPUT, 1)
    with open(path, "rb") as file:
        same(f"plan cpm - without {subset}", run_without(subset, "cpm", "-", given=file.read()), named)


def judge_log(subset, path, log, table, lines):
    """`plan solve` with a log: it gets the lines of the search, and no schedule."""
    told = run_without(subset, "solve", "--conflicts", "100", "--log", log, path)
    wanted = expected(subset, table, OUTPUT if 1 in subset else b"", 1 if 1 in subset else 0)
    same(f"plan solve --log without {subset}", told, wanted)
    with open(log, "rb") as file:
        same(f"the log without {subset}", file.read(), lines)


def judge_server(subset, database):
    """A server with a log on standard error and several connections that wait: each gets its
    response and nothing else."""
    port = free_port()
    words = words_without(subset, "serve", "--log", "--patience", "5", database, str(port), str(WAITING))
    pipes = {"stdin": subprocess.DEVNULL, "stdout": subprocess.PIPE, "stderr": subprocess.PIPE}
    with subprocess.Popen(words, **pipes) as server:
        try:
            waiting = [connect(port) for _ in range(WAITING)]
            for connection in waiting:
                connection.sendall(LISTED.request())
            for connection in waiting:
                same(f"a response without {subset}", received(connection), LISTED.expected())
                connection.close()
            out, err = server.communicate(timeout=20)
        finally:
            server.kill()
    same(f"a server without {subset}", (server.returncode, out), (0, b""))
    same(f"lines of its log without {subset}", err.count(b" 200 "), 0 if 2 in subset else WAITING)


def try_missing_streams(room):
    """Each subset of the standard streams is closed."""
    path, log = os.path.join(room, "house.sm"), os.path.join(room, "log")
    with open(path, "wb") as file:
        file.write(file_of("examples/house.sm"))
    table = run_without((), "cpm", path)[1]
    solved = run_without((), "solve", "--conflicts", "100", "--log", log, path)[1]
    with open(log, "rb") as file:
        lines = file.read()
    if not table or not solved or b"lower " not in lines:
        raise Wrong("nothing is printed with all streams")
    database = office(room)
    for subset in SUBSETS:
        judge_dates(subset, path, table)
        judge_log(subset, path, log, solved, lines)
        judge_server(subset, database)
