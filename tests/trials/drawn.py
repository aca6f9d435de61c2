#!/usr/bin/env python3
"""Compares drawn requests with the model: the program and the model return the same bytes and keep
the same rows, and `plan check-office` prints the digest of the rows that the sqlite3 shell reads.
A seed always draws the same requests.

    tests/trials/drawn.py                     prints nothing on success
    tests/trials/drawn.py --cases N --seed S  N requests, drawn by this seed
    tests/trials/drawn.py --commands N        N commands on files
    tests/trials/drawn.py -v                  prints how often each call and each answer occurred

Needs the sqlite3 shell. The program is the one that ./plan runs, or the one that PLAN_PROGRAM
names.
"""

import argparse
import collections
import os
import random
import shutil
import socket
import subprocess
import sys
import tempfile
import time

sys.dont_write_bytecode = True
HERE = os.path.dirname(os.path.abspath(__file__))
sys.path.insert(0, HERE)
sys.path.insert(0, os.path.join(os.path.dirname(HERE), "clients"))

from drawing import OFFICE_KEY, Draw, Requests, command
from exchanges import DUMP, TOP
from model import run
from programs import PROGRAM, summary_by_shell

# A folder in memory, where there is one: on a disk most of the time goes into waiting for it.
MEMORY = "/dev/shm" if os.path.isdir("/dev/shm") else None
MOST_SLICE = 300
SERVED = 0.1


class Differs(Exception):
    """The program and the model differ."""


def differ(what, found, wanted):
    raise Differs(f"{what}\n  gave    {found!r}\n  and not {wanted!r}")


def shown(text):
    """The bytes of a text; of a long run of stars less than a thousand."""
    return repr(text.replace(b"*" * 1000, b""))


class Store:
    """A file of an office, and the program on it."""

    def __init__(self, folder):
        self.folder, self.database = folder, os.path.join(folder, "office.db")
        given = OFFICE_KEY.encode() + b"\n"
        self.run("init", self.database, given=given)

    def run(self, *words, given=b""):
        """Standard output of a command that doesn't fail."""
        more = {"capture_output": True, "timeout": 300, "env": {**os.environ, "PLAN_HINTS": "0"}}
        done = subprocess.run([PROGRAM, *words], input=given, **more)
        found = done.returncode, done.stderr
        if found != (0, b""):
            differ(f"plan {words[0]}", found, (0, b""))
        return done.stdout

    def replay(self, requests):
        """The responses to requests in files, one behind another."""
        names = [os.path.join(self.folder, f"{place}.req") for place in range(len(requests))]
        for name, sent in zip(names, requests):
            with open(name, "wb") as file:
                file.write(sent)
        return self.run("replay", self.database, *names)

    def serve(self, requests):
        """The responses to requests by sockets, one behind another."""
        port = free_port()
        words = [PROGRAM, "serve", self.database, str(port), str(len(requests))]
        server = subprocess.Popen(words, stdin=subprocess.DEVNULL, stderr=subprocess.PIPE)
        try:
            found = b"".join(talk(port, sent) for sent in requests)
            _, error = server.communicate(timeout=20)
        except (OSError, subprocess.TimeoutExpired) as failure:
            differ("plan serve", failure, "all responses, and an end by itself")
        finally:
            server.kill()
            server.communicate()
        if (server.returncode, error) != (0, b""):
            differ("plan serve", (server.returncode, error), (0, b""))
        return found

    def rows(self):
        """The rows by the sqlite3 shell, of a copy."""
        copy = os.path.join(self.folder, "copy.db")
        shutil.copyfile(self.database, copy)
        words, given = ["sqlite3", copy], DUMP.encode()
        shell = subprocess.run(words, input=given, capture_output=True, timeout=60)
        lines = shell.stdout.decode().split("\n")
        found, wanted = (shell.stderr, lines[-2:]), (b"", ["ok", ""])
        if found != wanted:
            differ("sqlite3 on the file", found, wanted)
        return sorted(lines[:-2])


    def summary(self):
        """What `plan check-office` prints, and what the sqlite3 shell says of the copy."""
        return self.run("check-office", self.database), summary_by_shell(os.path.join(self.folder, "copy.db"))


def free_port():
    with socket.socket() as taken:
        taken.bind(("127.0.0.1", 0))
        return taken.getsockname()[1]


def connect(port):
    """A connection to a port, as soon as there is a server."""
    deadline = time.monotonic() + 20
    while True:
        try:
            return socket.create_connection(("127.0.0.1", port), timeout=20)
        except ConnectionRefusedError:
            if time.monotonic() > deadline:
                raise Differs("no server answers") from None
            time.sleep(0.001)


def talk(port, sent):
    """The response to some bytes, behind which nothing comes."""
    pieces = []
    with connect(port) as connection:
        connection.sendall(sent[: len(sent) // 3])
        connection.sendall(sent[len(sent) // 3 :])
        connection.shutdown(socket.SHUT_WR)
        while piece := connection.recv(65536):
            pieces.append(piece)
    return b"".join(pieces)


def compare(seed, number, exchanges, found):
    """Compares responses that stand one behind another. The first has this number."""
    for sent, wanted in exchanges:
        number += 1
        if not found.startswith(wanted):
            end = found.find(b"HTTP/1.1 ", 1)
            came = found[:end] if end > 0 else found
            differ(f"seed {seed}, request {number}: {shown(sent)}", came, wanted)
        found = found[len(wanted) :]
    if found:
        differ(f"seed {seed}, behind request {number}", found, b"")


def compare_rows(seed, number, found, wanted):
    if found != wanted:
        more = sorted(set(found) - set(wanted)), sorted(set(wanted) - set(found))
        differ(f"seed {seed}, the rows after request {number}", *more)


def tell(is_verbose, what, tally):
    """Says what was tried, and how often each thing came up."""
    if is_verbose:
        print("\n".join([what, *(f"{count:8} {own}" for own, count in sorted(tally.items()))]))


def try_drawn(cases=20000, seed=1, is_verbose=False):
    """Draws so many requests, and compares what comes of them."""
    drawn, done = Requests(seed), 0
    with tempfile.TemporaryDirectory(dir=MEMORY) as folder:
        store = Store(folder)
        while done < cases:
            size = min(drawn.draw.number(1, MOST_SLICE), cases - done)
            exchanges = [drawn.following() for _ in range(size)]
            work = store.serve if drawn.draw.chance(SERVED) else store.replay
            found = work([sent for sent, _ in exchanges])
            compare(seed, done, exchanges, found)
            done += size
            compare_rows(seed, done, store.rows(), drawn.office.rows())
            summary, wanted = store.summary()
            if summary != wanted:
                differ(f"seed {seed}, plan check-office after request {done}", summary, wanted)
    tell(is_verbose, f"{done} requests by seed {seed}", drawn.tally)


def in_file(folder, text):
    """The name of a file with a text."""
    path = os.path.join(folder, "starts")
    with open(path, "wb") as file:
        file.write(text)
    return path


def compare_command(what, folder, drawn):
    """Runs a command on a text by standard input, and compares all that it gives. A check takes
    its starts from a file."""
    name, text, words, behind = drawn
    wanted = run(name, text, *words, *behind)
    given = [in_file(folder, word) if type(word) is bytes else word for word in behind]
    call = [PROGRAM, name, *words, "-", *given]
    done = subprocess.run(call, input=text, capture_output=True, timeout=300)
    found = done.returncode, done.stdout, done.stderr
    if found != wanted:
        differ(f"{what}: {name} {words} {behind} {shown(text)}", found, wanted)
    return name, done.stderr.split(b" ")[0].decode() or "fine"


def try_files(cases=600, seed=1, is_verbose=False):
    """Draws so many commands on files, and compares what they print."""
    draw, tally = Draw(random.Random(seed)), collections.Counter()
    with tempfile.TemporaryDirectory(dir=MEMORY) as folder:
        for number in range(1, cases + 1):
            what = f"seed {seed}, command {number}"
            tally.update(compare_command(what, folder, command(draw)))
    tell(is_verbose, f"{cases} commands by seed {seed}", tally)


def main():
    words = argparse.ArgumentParser(description="Tries drawn requests.")
    words.add_argument("--cases", type=int, default=20000)
    words.add_argument("--commands", type=int, default=600)
    words.add_argument("--seed", type=int, default=1)
    words.add_argument("-v", action="store_true", dest="is_verbose")
    given = words.parse_args()
    if not os.path.exists(PROGRAM):
        sys.exit(f"drawn: {PROGRAM} is missing; the gate builds it, or PLAN_PROGRAM names another")
    try:
        try_drawn(given.cases, given.seed, given.is_verbose)
        try_files(given.commands, given.seed, given.is_verbose)
    except Differs as difference:
        sys.exit(f"drawn: {difference}")


if __name__ == "__main__":
    main()
