"""Databases whose file or log is damaged: turned bits, cut ends, logs that are missing or of
another database. The program refuses such a file with `K1`, `K2` or `E91`, or answers as a simple
model does from the earlier rows, or from those that the sqlite3 shell reads.
"""

import collections
import contextlib
import os
import random

from drawing import OFFICE_KEY, Requests
from exchanges import DUMP
from model import Office
from model.office import Plan
from programs import DONE, Wrong, copy, fault, plan, same, serving, talk, told_by_sqlite

REFUSED = {fault("K1 not ours"), fault("K2 version"), fault("E91 store")}
MOST_SECONDS = 10
COMMANDS = 40
# So many connections a server serves here: all that come.
ALL = 1000000


class Bench:
    """An office in a file, the rows that it has, and requests that read them."""

    def __init__(self, room, seed=1, name="office.db"):
        self.room, self.database = room, os.path.join(room, name)
        self.drawn, self.files = Requests(seed), 0
        given = OFFICE_KEY.encode() + b"\n"
        same("plan init", plan("init", self.database, given=given), DONE)

    def serve(self, count):
        """Serves drawn requests, and is killed then. The rows behind each change, the first ones in
        front."""
        states = [self.drawn.office.rows()]
        with serving(self.database, ALL) as server:
            while len(states) <= count:
                sent, wanted = self.drawn.following()
                same(f"the response to {sent[:80]!r}", talk(server.port, sent), wanted)
                rows = self.drawn.office.rows()
                states += [rows] if rows != states[-1] else []
        return states

    def close(self):
        """Brings all of the log into the file."""
        same("plan replay", plan("replay", self.database, self.written(b""))[0], 0)

    def written(self, sent):
        """The name of a file with a request."""
        self.files += 1
        path = f"{self.database}-{self.files}.req"
        with_bytes(path, sent)
        return path

    def reading(self):
        """Requests that read everything: of each desk and of each plan."""
        office = self.drawn.office
        lists = ("plans", "capacities")
        paths = [(desk, f"{desk}/{page}") for desk in office.desks for page in lists]
        for (desk, n), own in office.plans.items():
            rule = "lft" if own.kind == "project" else "spt"
            paths += [(desk, f"{desk}/plans/{n}/{page}/{rule}") for page in ("schedule", "days")]
        return [asked(path, self.drawn.keys[office.desks[desk][0]]) for desk, path in paths]


def asked(path, key):
    """The bytes of a request for a page."""
    return f"GET /desks/{path} HTTP/1.0\r\nDesk-Key: {key}\r\n\r\n".encode()


# ---- what is read


def office_of(rows):
    """The model of an office with these rows."""
    office = Office(b"")
    for row in rows:
        add_row(office, *row.split("|"))
    return office


def add_row(office, table, *cells):
    """Puts a row into the model."""
    if table == "meta":
        office.digest = cells[1]
    elif table == "published":
        office.published[cells[0]] = (cells[1], int(cells[2]))
    elif table == "desks":
        office.desks[cells[0]] = (cells[1], int(cells[2]))
    elif table == "plans":
        own = office.plans[cells[0], int(cells[1])] = Plan(*cells[2:4], bytes.fromhex(cells[4]))
        own.start, own.days = cells[5:]
    elif table == "binds":
        office.binds[cells[0], int(cells[1]), int(cells[2])] = cells[3]
    else:
        office.lags[cells[0], *map(int, cells[1:4])] = int(cells[4])


def seen_by_sqlite(database, room):
    """The rows that the sqlite3 shell reads of a copy; None where it finds something wrong."""
    copied = os.path.join(room, "seen.db")
    copy(database, copied)
    shell = told_by_sqlite(copied, DUMP)
    lines = shell.stdout.split("\n")
    return sorted(lines[:-2]) if (shell.stderr, lines[-2:]) == ("", ["ok", ""]) else None


def answers(rows, requests):
    """What the model answers by these rows."""
    office = office_of(rows)
    return b"".join(office.answer(sent) for sent in requests)


class Judge:
    """Says of damaged offices what the program makes of them."""

    def __init__(self, bench, rows):
        self.room, self.rows, self.requests = bench.room, rows, bench.reading()
        self.paths = [bench.written(sent) for sent in self.requests]
        self.right, self.tally = answers(rows, self.requests), collections.Counter()

    def outcome(self, what, database):
        """The outcome for a database in one word; Wrong if it is not an allowed one."""
        seen = seen_by_sqlite(database, self.room)
        before = bytes_of(database)
        found = plan("replay", database, *self.paths, patience=MOST_SECONDS)
        if found in REFUSED:
            if not has_log(database):
                same(f"the file that is refused, {what}", bytes_of(database) == before, True)
            return found[2].decode().split(" ")[0]
        same(f"the status and the errors, {what}", (found[0], found[2]), (0, b""))
        if found[1] != self.right and (not seen or found[1] != answers(seen, self.requests)):
            raise Wrong(f"{what}: answers that no rows give, with sqlite3's rows {seen}")
        return self.told(found[1] == self.right, seen)

    def told(self, is_right, seen):
        """What is said of answers, beside what sqlite3 has seen."""
        own = "right" if is_right else "by other rows"
        if seen is None:
            return own + ", sqlite3 finds a fault"
        tables = tables_of(set(seen) ^ set(self.rows))
        return own + (f", another row of {tables}" if tables else "")

    def count(self, what, database):
        self.tally[self.outcome(what, database)] += 1


def tables_of(lines):
    """The tables of some rows."""
    return " and ".join(sorted({line.split("|")[0] for line in lines}))


def has_log(database):
    """It has a log with something in it."""
    log = database + "-wal"
    return os.path.exists(log) and os.path.getsize(log) > 41


def bytes_of(path):
    with open(path, "rb") as file:
        return file.read()


def with_bytes(path, content):
    with open(path, "wb") as file:
        file.write(content)


def with_turned_bit(content, bit):
    """The bytes with one bit turned."""
    turned = bytearray(content)
    turned[bit // 8] ^= 1 << bit % 8
    return bytes(turned)


def closed(room, seed=1):
    """An office whose rows are all in its file, and what judges what becomes of it."""
    bench = Bench(room, seed)
    bench.serve(COMMANDS)
    bench.close()
    return bench, Judge(bench, bench.drawn.office.rows())


def told(what, tally):
    """What was tried, and how often each thing came of it."""
    return f"{what}: " + ", ".join(f"{count} {own}" for own, count in sorted(tally.items()))


def extent(tally):
    """How many changes were left of all."""
    whole = f"all {COMMANDS} of them {tally[COMMANDS]} times"
    return f"{min(tally)} to {max(tally)} changes left, {whole}"


# ---- bits and ends of the file


def try_turned_bits(room, count=100, seed=1):
    """One bit is turned in a file, anywhere."""
    bench, judge = closed(room, seed)
    content, chance = bytes_of(bench.database), random.Random(seed)
    for bit in chance.sample(range(8 * len(content)), count):
        with_bytes(bench.database, with_turned_bit(content, bit))
        judge.count(f"seed {seed}, bit {bit} of {len(content)} bytes", bench.database)
    return told(f"{count} bits turned", judge.tally)


def try_cut_stores(room, count=50, seed=1):
    """A file ends too early."""
    bench, judge = closed(room, seed)
    content, chance = bytes_of(bench.database), random.Random(seed)
    for length in chance.sample(range(len(content)), count):
        with_bytes(bench.database, content[:length])
        judge.count(f"seed {seed}, cut to {length} of {len(content)} bytes", bench.database)
    same(f"cut stores that were read, {judge.tally}", set(judge.tally) <= {"K1", "E91"}, True)
    return told(f"{count} stores cut", judge.tally)


# ---- the log


class Logged:
    """An office whose server was killed, so that commands are in its log alone."""

    def __init__(self, room, seed=1, name="office.db", earlier=0, later=COMMANDS):
        self.bench = Bench(room, seed, name)
        self.bench.serve(earlier)
        self.bench.close()
        self.start = bytes_of(self.bench.database)
        self.states = self.bench.serve(later)
        same("the file beside the log", bytes_of(self.bench.database) == self.start, True)
        self.log = bytes_of(self.bench.database + "-wal")
        self.judge = Judge(self.bench, self.states[-1])

    def put(self, log):
        """The office with another log, or none; the name of its file."""
        database = os.path.join(self.bench.room, "damaged.db")
        with_bytes(database, self.start)
        with contextlib.suppress(FileNotFoundError):
            os.remove(database + "-wal")
        if log is not None:
            with_bytes(database + "-wal", log)
        return database

    def state(self, what, log):
        """After how many changes the rows are, with that log. The program finds those that sqlite3
        finds, and keeps them."""
        database = self.put(log)
        seen = seen_by_sqlite(database, self.bench.room)
        if seen not in self.states:
            raise Wrong(f"{what}: rows that never were, {seen}")
        found = plan("replay", database, *self.judge.paths, patience=MOST_SECONDS)
        same(what, found, (0, answers(seen, self.judge.requests), b""))
        same(f"the rows after it, {what}", seen_by_sqlite(database, self.bench.room), seen)
        return self.states.index(seen)


def try_cut_logs(room, count=50, seed=1):
    """A log ends too early: the first so many changes are there, and no part of one."""
    office, chance, before = Logged(room, seed), random.Random(seed), 0
    whole = len(office.log)
    tally = collections.Counter()
    for length in sorted([0, whole, *chance.sample(range(whole), count - 2)]):
        what = f"seed {seed}, a log cut to {length} of {whole} bytes"
        number = office.state(what, office.log[:length])
        same(f"a longer log says no less, at {length}", before <= number, True)
        before, tally[number] = number, tally[number] + 1
    same("the changes of the whole log", before, COMMANDS)
    return f"{count} logs cut: {extent(tally)}"


def try_turned_logs(room, count=50, seed=1):
    """One bit is turned in a log: the first so many changes are there, and no part of one."""
    office, chance, tally = Logged(room, seed), random.Random(seed), collections.Counter()
    for bit in chance.sample(range(8 * len(office.log)), count):
        number = office.state(f"seed {seed}, bit {bit} of a log", with_turned_bit(office.log, bit))
        tally[number] += 1
    return f"{count} bits turned in logs: {extent(tally)}"


def try_gone_logs(room):
    """Without its log an office is what it was when a server last closed it."""
    office = Logged(room, earlier=COMMANDS)
    for log in (None, b""):
        same("the changes left without a log", office.state(f"the log {log}", log), 0)


def try_logs_of_others(room, count=5):
    """The log of another office makes an office of it, as far as it goes; what no office has is
    refused."""
    tally = collections.Counter()
    for seed in range(1, count + 1):
        earlier, later = (0, COMMANDS) if seed == 1 else (COMMANDS, seed)
        own = Logged(room, seed, f"{seed}.db", earlier, later)
        other = Logged(room, seed + count, f"{seed}-other.db", earlier, later)
        what = f"the log of office {seed + count} beside the file of {seed}"
        tally[other.judge.outcome(what, own.put(other.log))] += 1
    return told("logs of other offices", tally)
