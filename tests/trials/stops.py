"""Disks that stop or fail during `plan init`, during the migration of a database of the first
version, and during each kind of request that changes rows. The program runs with disk.c preloaded.

disks.py derives from the recorded calls what a stop leaves. In it the sqlite3 shell must find the
rows from before or after the request, and those from after once the response was on its way. The
program must find the same, and continue.

A failing disk refuses one call, or that call and all later ones. The program must answer correctly
or report an error of the store; the rows are those from before or after, from after if it
answered.
"""

import collections
import concurrent.futures
import contextlib
import os
import random
import socket
import tempfile

from damage import office_of
from disks import Disk, calls_in, content_of, library, put
from exchanges import Exchange, digest, file_of, refusal
from programs import DONE, Server, Wrong, connect, fault, plan, received, rows, same, sql
from programs import told_by_sqlite
from stores import FIRST, KEY, ROWS, rows_of
from story import same_rows

STORE_FAULTS = {fault("E91 store"), (0, refusal(507, "E91 store"), b"")}
# So many changes of its files, syncs among them, each work makes at the least.
FEWEST_CHANGES = 18


def asked(method, path, body=""):
    return Exchange(method, path, KEY, body if isinstance(body, bytes) else body.encode())


LISTING = asked("GET", "/desks/north/plans")
REQUESTS = [
    asked("POST", "/office/desks", '{"desk":"west","key":"west-key-1"}'),
    asked("POST", "/office/capacities", '{"code":"crew-b","kind":"crew","capacity":3}'),
    asked("POST", "/office/desks/west/key", '{"key":"other-key-1"}'),
    asked("POST", "/desks/north/projects", file_of("tests/trials/files/two.sm")),
    asked("POST", "/desks/north/shops/one", file_of("tests/trials/files/named.txt")),
    asked("POST", "/desks/north/plans/3/bind", '{"code":"crew-a","place":1}'),
    asked("POST", "/desks/north/plans/3/calendar", '{"days":"1111100","start":"2024-03-01"}'),
    asked("POST", "/desks/north/plans/1/lag", '{"from":1,"to":2,"lag":1}'),
    asked("DELETE", "/desks/north/plans/1"),
]


class Making:
    """`plan init`, where nothing is."""

    name, answer, answers, renews = "plan init", DONE, 0, True

    def run(self, database, environment=None):
        return plan("init", database, given=KEY.encode(), env=environment)

    answering = run

    def unmade(self, before):
        """What the sqlite3 shell finds where no office was made: nothing, or half a page."""
        return before, None

    def go_on(self, database, is_done):
        """The program continues with the files that are left: it makes a missing office."""
        again = plan("settle", database)[0] if is_done else self.run(database)[0]
        same("the status of plan settle or plan init again", again, 0)


class Asking:
    """An office is opened, and is asked by one request; it is renewed where opening brings it to
    the second version."""

    answers = 1

    def __init__(self, exchange, answer, renews=False):
        self.name = f"{exchange.method} {exchange.path}"
        self.sent, self.answer, self.renews = exchange.request(), (0, answer, b""), renews

    def run(self, database, environment=None):
        """By `plan replay`, which answers as it ends."""
        with open(database + ".req", "wb") as file:
            file.write(self.sent)
        return plan("replay", database, database + ".req", env=environment)

    def answering(self, database, environment):
        """By `plan serve`, which answers before it closes its files."""
        server = Server(database, 1, env=environment)
        try:
            with connect(server.port) as connection:
                connection.sendall(self.sent)
                connection.shutdown(socket.SHUT_WR)
                out = received(connection)
            status, _, err = server.end()
            return status, out, err
        finally:
            server.kill()

    def unmade(self, before):
        """What the sqlite3 shell finds where the request wasn't done."""
        return (before,)

    def go_on(self, database, is_done):
        """The program goes on with what is left: it opens the office."""
        same("the status of plan settle", plan("settle", database)[0], 0)


def tables_in(database):
    """All that the sqlite3 shell finds in a file and its log; None where it finds a fault."""
    shell = told_by_sqlite(database, ".dump\nPRAGMA integrity_check;\n")
    return shell.stdout if (shell.stderr, shell.stdout[-3:]) == ("", "ok\n") else None


class Bench:
    """A folder for files, and the program behind disk.c, which is loaded from a folder of its own:
    a folder in memory may be one from which nothing is loaded."""

    def __init__(self, room, loaded):
        self.room, self.built = os.path.realpath(room), library(loaded)

    @contextlib.contextmanager
    def files(self, content):
        """The name of a file that has, with its log, these bytes; where there are none it isn't
        there."""
        with tempfile.TemporaryDirectory(dir=self.room) as folder:
            database = os.path.join(folder, "office.db")
            if any(content.values()):
                put(content, database)
            yield database

    def behind(self, database, **more):
        """The environment of a program whose calls on a file are written down."""
        names = {"LD_PRELOAD": self.built, "STORE": database, "JOURNAL": database + ".calls"}
        return {**os.environ, **names, **more}

    def tables(self, content):
        with self.files(content) as database:
            return tables_in(database)


class Run:
    """A work that is done without a stop: the files that it begins with, its calls, the files behind
    it, and the tables of both."""

    def __init__(self, bench, work, content, wanted):
        self.bench, self.work, self.content = bench, work, content
        with bench.files(content) as database:
            answer = work.answering(database, bench.behind(database))
            same(f"the answer to {work.name}", answer, work.answer)
            self.calls = list(calls_in(database + ".calls"))
            told = [call for call in self.calls if call.kind == "answer"]
            same(f"the answers of {work.name}", len(told), work.answers)
            self.left = content_of(database)
            same(f"the files by the calls of {work.name}", whole_by(self.calls, content), self.left)
            same_rows(f"the rows behind {work.name}", rows(database, bench.room), wanted)
        self.before, self.after = bench.tables(content), bench.tables(self.left)

    def judge(self, content, is_answered):
        """Whether these files have the tables of after. Else they have those of before, and it
        wasn't answered; and so they do when the program has gone on with them."""
        found = self.bench.tables(content)
        is_after = found == self.after
        if not is_after and (is_answered or found not in self.work.unmade(self.before)):
            raise Wrong(f"with answer {is_answered} the tables are\n{found}")
        with self.bench.files(content) as database:
            self.work.go_on(database, is_after)
            wanted = self.after if is_after or self.work.renews else self.before
            same("the tables, gone on with", tables_in(database), wanted)
        return is_after

    # ---- stops

    def changes(self):
        """The calls that change its files or sync them."""
        return [call for call in self.calls if call.kind in ("write", "cut", "sync")]

    def stops(self, draw):
        """What stops leave, each with what it is and whether the answer was on its way."""
        disk, is_answered = Disk(self.content), False
        for number, call in enumerate([*self.calls, None]):
            is_answered |= call is None
            for content in disk.left(draw):
                yield content, f"{self.work.name}, stopped behind call {number}", is_answered
            if call is not None and call.kind == "write":
                yield disk.torn(call), f"{self.work.name}, stopped within {number + 1}", is_answered
            if call is not None:
                disk.make(call)
                is_answered |= call.kind == "answer"

    def stopped(self, content, what, is_answered):
        """Whether what a stop leaves has the tables of after."""
        with named(what):
            return self.judge(content, is_answered)

    # ---- failures

    def calls_of_failing(self):
        """The calls of the run that is to fail, as no call fails."""
        with self.bench.files(self.content) as database:
            answer = self.work.run(database, self.bench.behind(database))
            same(f"the answer to {self.work.name}", answer, self.work.answer)
            return [call for call in calls_in(database + ".calls") if call.kind != "answer"]

    def failed(self, number, way):
        """Whether a run of which the call of this number is to fail meets the failure, and whether
        the tables are those of after; a stop behind its end leaves none but those of before or after."""
        with named(f"{self.work.name}, where call {number} fails {way}"):
            with self.bench.files(self.content) as database:
                more = {"FAILS": str(number), **WAYS[way]}
                answer = self.work.run(database, self.bench.behind(database, **more))
                calls, kept = list(calls_in(database + ".calls")), content_of(database)
            is_answered = answer == self.work.answer
            if not is_answered and answer not in STORE_FAULTS:
                raise Wrong(f"the answer is {answer!r}")
            lost = disk_with(calls, self.content).synced
            if lost != kept:
                self.judge(lost, is_answered)
            return any(call.kind == "failed" for call in calls), self.judge(kept, is_answered)


def disk_with(calls, content):
    """A disk on which calls were made."""
    disk = Disk(content)
    for call in calls:
        disk.make(call)
    return disk


def whole_by(calls, content):
    """Files on which calls were made."""
    disk = disk_with(calls, content)
    return {name: disk.whole(name) for name in content}


# How a call fails: the words for disk.c, and whether they concern writes alone.
WAYS = {
    "alone": {},
    "and all behind it": {"LASTING": "1"},
    "in its middle": {"LASTING": "1", "TORN": "1"},
}


@contextlib.contextmanager
def named(what):
    """Names what is tried where something differs."""
    try:
        yield
    except Wrong as error:
        raise Wrong(f"{what}: {error}") from None


def runs(room):
    """All works, one after another, each done without a stop."""
    with tempfile.TemporaryDirectory() as loaded:
        bench, none = Bench(room, loaded), {"db": b"", "log": b""}
        yield Run(bench, Making(), none, [f"meta|2|{digest(KEY)}"])
        with bench.files(none) as database:
            sql(database, FIRST + ROWS)
            content = content_of(database)
        model = office_of(rows_of())
        for exchange in (LISTING, *REQUESTS):
            work = Asking(exchange, model.answer(exchange.request()), exchange is LISTING)
            run = Run(bench, work, content, model.rows())
            content = run.left
            yield run


def each(function, given):
    """What a function makes of each, several at once."""
    with concurrent.futures.ThreadPoolExecutor(len(os.sched_getaffinity(0))) as pool:
        waiting = [pool.submit(function, *one) for one in given]
        return collections.Counter(found.result() for found in waiting)


def stop_disks(room, step=1):
    """What a stop leaves is the office of before or of after; of each work every so many stops."""
    draw = random.Random(1)
    for run in runs(room):
        stops = {(*content.values(), is_answered): (content, what, is_answered)
                 for content, what, is_answered in run.stops(draw)}
        tally = each(run.stopped, list(stops.values())[::step])
        if len(run.changes()) < FEWEST_CHANGES or not (tally[True] and tally[False]):
            raise Wrong(f"{run.work.name}: {len(run.changes())} changes; is it after: {tally}")


def fail_disks(room, step=1):
    """A disk that fails is told, and leaves the office of before or of after; of each work every so
    many calls fail."""
    for run in runs(room):
        calls = run.calls_of_failing()
        for way in WAYS:
            numbers = [number for number, call in enumerate(calls, 1)
                       if call.kind == "write" or "TORN" not in WAYS[way]]
            tally = each(run.failed, [(number, way) for number in numbers[::step]])
            if not tally[True, False] or tally[False, False] or tally[False, True]:
                raise Wrong(f"{run.work.name}, {way}: has it failed, is it after: {tally}")
