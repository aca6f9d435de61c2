"""Kills in ten kinds: of a server within imports, deletions, lags, calendars and its start; of a backup
beside a writer, of `settle`, `restore`, `check-office` and `init`. Half of the kills come at a random
moment, half before a random call that changes files or in the midst of its write (tests/clients/kill.c).
After each kill the rows are compared with a model (`Tables`), and the command succeeds the next time.
"""

import collections
import contextlib
import copy
import importlib.machinery
import importlib.util
import json
import os
import shutil
import signal
import socket
import subprocess
import threading
import time

import files
from exchanges import OFFICE_KEY, TOP, Exchange, Tables, file_of
from programs import DONE, PROGRAM, Wrong, connect, free_port, init, plan, received, rows, same, serving, talk

ALL = "1000000"
KEY = "north-key-1"
# The plans of the desk: fewer are made more before deletions, of more some are deleted before imports.
LEAST_PLANS, MOST_PLANS = 5, 30
SIX = file_of("examples/six.sm")
ARCS = [(j, i) for j, nexts in enumerate(files.read_sm(SIX.decode())[1], 1) for i in nexts]
LIST = Exchange("GET", "/desks/north/plans", KEY).request()
# A server is asked at most so often before it is killed.
MOST_ASKED = 40
PATIENCE = 60


def loaded(name):
    """A test of tests/clients that isn't called a module."""
    path = os.path.join(TOP, "tests", "clients", name)
    loader = importlib.machinery.SourceFileLoader(name, path)
    module = importlib.util.module_from_spec(importlib.util.spec_from_loader(name, loader))
    loader.exec_module(module)
    return module


copies = loaded("copies")


# ---- kills


def end_child(process):
    """Kills the child of a process, which waits for it."""
    path = f"/proc/{process.pid}/task/{process.pid}/children"
    with contextlib.suppress(FileNotFoundError, ProcessLookupError):
        with open(path, encoding="ascii") as file:
            for child in file.read().split():
                os.kill(int(child), signal.SIGKILL)


class Killer:
    """Ends programs. For each kind it keeps the number of calls, and the time, up to which kills are
    drawn; both adapt, so that most kills hit a running program."""

    def __init__(self, room, chance):
        self.tracer, self.chance = copies.tracer(room), chance
        self.calls, self.lasting, self.tally = collections.Counter(), {}, collections.Counter()

    def begin(self, kind, words, **more):
        """A program that is killed later, and a function that ends it and tells whether it was killed."""
        out = {"stdin": subprocess.DEVNULL, "stdout": subprocess.DEVNULL, "stderr": subprocess.DEVNULL, **more}
        if self.chance.random() < 0.5:
            return self.at_a_call(kind, words, out)
        return self.at_a_moment(kind, words, out)

    def at_a_call(self, kind, words, out):
        most = self.calls[kind] or 30
        number, mode = self.chance.randint(1, most), self.chance.choice(("before", "half"))
        process = subprocess.Popen([self.tracer, mode, str(number), *words], **out)

        def end(is_waited_for):
            if not is_waited_for:
                end_child(process)
            is_killed = process.wait(PATIENCE) == 100
            more = 3 if number > most - 3 else 0
            self.calls[kind] = max(1, most + (more if is_killed else -1))
            return is_killed or not is_waited_for

        return process, end

    def at_a_moment(self, kind, words, out):
        most = self.lasting.get(kind, 0.02)
        process = subprocess.Popen(words, **out)
        timer = threading.Timer(self.chance.uniform(0, most), process.kill)
        timer.start()

        def end(_):
            timer.join()
            is_killed = process.wait(PATIENCE) == -9
            self.lasting[kind] = min(2, max(0.001, most * (1.05 if is_killed else 0.96)))
            return is_killed

        return process, end

    def run(self, kind, words, given=b""):
        """Runs a command and kills it, if it hasn't ended before. Whether it was killed."""
        process, end = self.begin(kind, words, stdin=subprocess.PIPE)
        with contextlib.suppress(BrokenPipeError):
            process.stdin.write(given)
            process.stdin.close()
        is_killed = end(True)
        self.tally[f"{kind} {'killed' if is_killed else 'ended before'}"] += 1
        return is_killed


# ---- the office


class Kept:
    """An office with one desk, and what is known of it."""

    def __init__(self, room, chance):
        self.room, self.chance, self.tables = room, chance, Tables()
        self.database = os.path.join(room, "office.db")
        init(self.database)
        body = json.dumps({"desk": "north", "key": KEY}).encode()
        self.work([Exchange("POST", "/office/desks", OFFICE_KEY, body)])

    def plans(self):
        return [n for _, n in self.tables.plans]

    def an_import(self):
        blanks = self.chance.choice((0, 0, 5000, 60000))
        return Exchange("POST", "/desks/north/projects", KEY, b"#" * blanks + b"\n" + SIX)

    def a_deletion(self):
        return Exchange("DELETE", f"/desks/north/plans/{self.chance.choice(self.plans())}", KEY)

    def a_lag(self):
        source, target = self.chance.choice(ARCS)
        return self.of_plan("lag", {"from": source, "to": target, "lag": self.chance.randint(0, 9)})

    def a_calendar(self):
        return self.of_plan("calendar", {"start": f"2024-03-{self.chance.randint(1, 28):02}", "days": "1111100"})

    def of_plan(self, call, body):
        path = f"/desks/north/plans/{self.chance.choice(self.plans())}/{call}"
        return Exchange("POST", path, KEY, json.dumps(body).encode())

    def work(self, exchanges):
        """Carries commands out; the server is killed afterwards, so that the log has them."""
        with serving(self.database, ALL) as server:
            connect(server.port).close()
            for exchange in exchanges:
                same("a command", talk(server.port, exchange.request())[9:10], b"2")
                self.tables.apply(exchange)

    def with_plans(self, least, most):
        """Sees to it that the desk has at least and at most so many plans."""
        missing, spare = least - len(self.plans()), self.plans()[most:]
        if missing > 0:
            self.work([self.an_import() for _ in range(missing)])
        elif spare:
            self.work([Exchange("DELETE", f"/desks/north/plans/{n}", KEY) for n in spare])

    def compare(self, what, others=()):
        """The rows are those that are known, or those of others, which are known then."""
        found = rows(self.database, self.room)
        for tables in (self.tables, *others):
            if tables.dump() == found:
                self.tables = tables
                return tables
        missing, other = set(self.tables.dump()) - set(found), set(found) - set(self.tables.dump())
        raise Wrong(f"{what}: {len(missing)} rows are missing, {len(other)} are other ones: {sorted(other)[:1]!r:.300}")

    def answers(self, what):
        """A server answers, with the same rows."""
        with serving(self.database, ALL) as server:
            same(f"{what}: the list of plans", talk(server.port, LIST)[9:12], b"200")
        self.compare(what)


def asked(port, process, sent):
    """The response to a request; nothing once the server is gone."""
    while process.poll() is None:
        try:
            with socket.create_connection(("127.0.0.1", port), 20) as end:
                end.sendall(sent)
                return received(end)
        except ConnectionRefusedError:
            time.sleep(0.0005)
        except OSError:
            return b""
    return b""


# ---- the kinds


def work_on(kept, killer, kind, ask, following, what):
    """Sends commands until one isn't answered; the rows after that one, None if all were answered."""
    for _ in range(min(MOST_ASKED, len(kept.plans()))):
        exchange = following(kept)
        found = ask(exchange.request())
        if found[:10] != b"HTTP/1.1 2":
            same(f"{what}: no other response", found[9:10], b"")
            last = copy.deepcopy(kept.tables)
            last.apply(exchange)
            return last
        kept.tables.apply(exchange)
        killer.tally[f"{kind} answered"] += 1
    return None


def server_within(kind, following):
    """The kills of a server within commands of one kind."""

    def kill(kept, killer, what):
        kept.with_plans(LEAST_PLANS, MOST_PLANS)
        port = free_port()
        process, end = killer.begin(kind, [PROGRAM, "serve", kept.database, str(port), ALL])
        try:
            last = work_on(kept, killer, kind, lambda sent: asked(port, process, sent), following, what)
        finally:
            is_killed = end(False)
        killer.tally[f"{kind} {'killed' if is_killed else 'ended before'}"] += 1
        known = kept.tables
        is_there = kept.compare(what, [last] if last else []) is not known
        killer.tally[f"{kind} unanswered {'there' if is_there else 'gone'}"] += last is not None

    return kill


def start(kept, killer, what):
    """The start of a server with a log: the rows stay, and the next start succeeds."""
    kept.with_plans(LEAST_PLANS, MOST_PLANS)
    kept.work([kept.a_lag(), kept.a_calendar(), kept.an_import()])
    port = free_port()
    process, end = killer.begin("start", [PROGRAM, "serve", kept.database, str(port), "1"])
    asked(port, process, LIST)
    killer.tally[f"start {'killed' if end(True) else 'ended before'}"] += 1
    kept.compare(what)
    kept.answers(what)


def settle(kept, killer, what):
    """`settle`: the rows stay; after the next one the database has them without its log."""
    kept.with_plans(LEAST_PLANS, MOST_PLANS)
    kept.work([kept.a_lag(), kept.an_import()])
    killer.run("settle", [PROGRAM, "settle", kept.database])
    kept.compare(what)
    same(f"{what}: the next one", plan("settle", kept.database)[::2], (0, b""))
    alone = os.path.join(kept.room, "alone.db")
    shutil.copyfile(kept.database, alone)
    same(f"{what}: the rows without the log", rows(alone, kept.room), kept.tables.dump())
    kept.compare(what)


def check_office(kept, killer, what):
    """`check-office`: no byte of the files changes, and the next one prints their digest."""
    kept.with_plans(LEAST_PLANS, MOST_PLANS)
    if killer.chance.random() < 0.2:
        kept.work([kept.an_import()])
    paths = [kept.database, kept.database + "-wal"]
    before, scratch = list(map(content, paths)), os.path.join(kept.room, "scratch")
    os.mkdir(scratch)
    killer.run("check-office", [PROGRAM, "check-office", "--in", scratch, kept.database])
    same(f"{what}: no byte changes", list(map(content, paths)) == before, True)
    have_front(what, scratch, "plan-check-")
    same(f"{what}: the next one", copies.checked(kept.database, "--in", scratch), copies.shown(kept.database))
    shutil.rmtree(scratch)


def have_front(what, folder, *fronts):
    """The names in a folder begin with one of these."""
    same(f"{what}: other files", [name for name in os.listdir(folder) if not name.startswith(fronts)], [])


def content(path):
    """The bytes of a file; nothing if it isn't there."""
    with contextlib.suppress(FileNotFoundError), open(path, "rb") as file:
        return file.read()
    return None


def init_anew(kept, killer, what):
    """`init`: the next one succeeds, or the office is there; it is whole and empty."""
    database, key = os.path.join(kept.room, "new.db"), OFFICE_KEY.encode() + b"\n"
    killer.run("init", [PROGRAM, "init", database], key)
    found = plan("init", database, given=key)
    if found != DONE:
        same(f"{what}: the next one", found, (1, b"", b"K1 not ours\n"))
    killer.tally["init the office was there"] += found != DONE
    same(f"{what}: the rows", rows(database, kept.room), Tables().dump())
    for end in ("", "-wal"):
        with contextlib.suppress(FileNotFoundError):
            os.remove(database + end)


class Restores:
    """A restore over an office with a log, from the same files each time."""

    def __init__(self, room):
        self.trial = copies.Trial(room)

    def kill(self, killer, what):
        trial = self.trial
        shutil.rmtree(trial.folder, ignore_errors=True)
        shutil.copytree(trial.kept, trial.folder)
        killer.run("restore", [PROGRAM, "restore", trial.copied, trial.database])
        have_front(what, trial.folder, "copies", "office.db", "office-before-", ".plan-restore-")
        digest = trial.served(what)
        killer.tally[f"restore left the {'old' if digest == trial.old else 'new'} office"] += 1
        trial.again(what)


class Backups:
    """A backup beside a writer: a copy that is there is sound, and the next backup succeeds."""

    def __init__(self, room):
        self.database, self.folder = copies.opened(room), os.path.join(room, "made")
        os.mkdir(self.folder)

    def kills(self, count, killer):
        """So many kills beside one server; at the end all answered imports are there."""
        before = copies.imports_in(self.database)
        with serving(self.database) as server:
            connect(server.port).close()
            writer = copies.Writer(server.port)
            writer.sent = writer.answered = before
            writing = threading.Thread(target=self.write, args=[writer])
            writing.start()
            for number in range(count):
                self.kill(killer, writer, f"backup, kill {number}")
            server.process.kill()
            writing.join()
        found = copies.imports_in(self.database)
        if not before < writer.answered <= found <= writer.sent:
            raise Wrong(f"backup: the office has {found} imports, and not {writer.answered} to {writer.sent}")

    def write(self, writer):
        with contextlib.suppress(OSError, Wrong):
            writer.write_until_killed()

    def kill(self, killer, writer, what):
        path, least = os.path.join(self.folder, "copy.db"), writer.answered
        killer.run("backup", [PROGRAM, "backup", self.database, path])
        if os.path.exists(path):
            self.is_sound(f"{what}: the copy", path, least, writer)
            os.remove(path)
        have_front(what, self.folder, ".plan-backup-")
        killer.tally["backup left files"] += len(os.listdir(self.folder)) > 0
        least = writer.answered
        same(f"{what}: the next one", copies.run("backup", self.database, path)[::2], (0, ""))
        self.is_sound(f"{what}: the next copy", path, least, writer)
        shutil.rmtree(self.folder)
        os.mkdir(self.folder)

    def is_sound(self, what, path, least, writer):
        found = copies.sound_imports(path)
        if not least <= found <= writer.sent:
            raise Wrong(f"{what} has {found} imports, and not {least} to {writer.sent}")


# Each with the office that it is about: the kinds that change one office in turn.
ON_AN_OFFICE = {
    "imports": server_within("imports", Kept.an_import),
    "deletions": server_within("deletions", Kept.a_deletion),
    "lags": server_within("lags", Kept.a_lag),
    "calendars": server_within("calendars", Kept.a_calendar),
    "start": start,
    "settle": settle,
    "check-office": check_office,
    "init": init_anew,
}
# The backups that share a server.
TOGETHER = 20


def kills(room, count, chance):
    """So many kills of each kind. What was counted."""
    killer = Killer(room, chance)
    for kind, kill in ON_AN_OFFICE.items():
        kept = Kept(folder_in(room, kind), chance)
        for number in range(count):
            kill(kept, killer, f"{kind}, kill {number}")
        kept.answers(kind)
    restores, backups = Restores(folder_in(room, "restore")), Backups(folder_in(room, "backup"))
    for number in range(count):
        restores.kill(killer, f"restore, kill {number}")
    for first in range(0, count, TOGETHER):
        backups.kills(min(TOGETHER, count - first), killer)
    return killer.tally


def folder_in(room, name):
    path = os.path.join(room, name)
    os.mkdir(path)
    return path
