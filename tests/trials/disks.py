"""The calls of the program on a database and its log, as disk.c records them, and what a stop
after any call leaves of the two files.
"""

import collections
import contextlib
import itertools
import os
import subprocess

from exchanges import TOP

FILES = {"db": "", "log": "-wal"}
# How many ways to keep a part of what wasn't synced are drawn for each stop.
DRAWN = 3

# A call: `write` of bytes at an offset, `cut` to a length, `sync` or `read` of one of the files; or
# `answer` or `failed`, of none.
Call = collections.namedtuple("Call", "kind file number data")


def library(folder):
    """disk.c, compiled."""
    built = os.path.join(folder, "disk.so")
    source = os.path.join(TOP, "tests", "trials", "disk.c")
    subprocess.run(["cc", "-O1", "-shared", "-fPIC", "-o", built, source], check=True)
    return built


def calls_in(journal):
    """The calls that disk.c has written down."""
    with open(journal, "rb") as file:
        while words := file.readline().decode().split():
            kind, name, number, length = (*words, "0", "0", "0")[:4]
            yield Call(kind, name, int(number), file.read(int(length)))


def content_of(database):
    """The bytes of a file and of its log; empty if one is missing."""
    found = dict.fromkeys(FILES, b"")
    for name, end in FILES.items():
        with contextlib.suppress(FileNotFoundError), open(database + end, "rb") as file:
            found[name] = file.read()
    return found


def put(content, database):
    """Makes a file and its log of these bytes."""
    for name, end in FILES.items():
        with open(database + end, "wb") as file:
            file.write(content[name])


def changed(content, call, part=None):
    """The bytes of a file behind a call, or behind so much of its write."""
    front = content[: call.number].ljust(call.number, b"\0")
    if call.kind == "cut":
        return front
    data = call.data[:part]
    return front + data + content[call.number + len(data) :]


class Disk:
    """A disk on which calls are made: of each file the bytes at its last sync, and the changes that
    came behind it."""

    def __init__(self, content):
        self.synced, self.pending = dict(content), {name: [] for name in FILES}

    def make(self, call):
        if call.kind == "sync":
            self.synced[call.file] = self.whole(call.file)
            self.pending[call.file] = []
        elif call.kind in ("write", "cut"):
            self.pending[call.file].append(call)

    def whole(self, name):
        """A file with all of its changes."""
        content = self.synced[name]
        for call in self.pending[name]:
            content = changed(content, call)
        return content

    def left(self, draw):
        """What a stop here may leave: of each file all of the changes or none; and parts of them."""
        ways = [(self.synced[name], self.whole(name)) for name in FILES]
        yield from (dict(zip(FILES, chosen)) for chosen in itertools.product(*ways))
        if any(self.pending.values()):
            for _ in range(DRAWN):
                yield {name: self.part(name, draw) for name in FILES}

    def part(self, name, draw):
        """A file with some of its changes, each of them whole or in part."""
        content = self.synced[name]
        for call in self.pending[name]:
            if draw.random() < 0.5:
                content = changed(content, call, draw.choice((None, draw.randrange(len(call.data) + 1))))
        return content

    def torn(self, call):
        """What a stop in the midst of a write leaves: its first half."""
        content = {name: self.whole(name) for name in FILES}
        return content | {call.file: changed(content[call.file], call, len(call.data) // 2)}
