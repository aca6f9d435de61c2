"""An office on several servers behind nginx, with share/nginx/servers.conf, in a temporary folder;
the effects of plan-office and share/move-desk; which server sent a response; and the lines of
docs/servers.md. Used by tests/clients/many, tests/clients/booted and bench/many.
"""

import contextlib
import os
import random
import re
import socket
import subprocess

from exchanges import OFFICE_KEY, TOP, file_of
from front import Front
from programs import Server, Unable, Wrong, connect, init, received, same

PLAN_OFFICE = os.path.join(TOP, "plan-office")
MOVE_DESK = os.path.join(TOP, "share", "move-desk")
# The fields that a server sends, in their order, and those that nginx adds to them.
FIELDS = [b"Content-Type", b"Content-Length", b"Allow", b"Connection"]
CONF = file_of("share/nginx/servers.conf")
ADDED = {b"Server", b"Date", *re.findall(rb"(?m)^ *add_header (\S+) ", CONF)}


def shown(page):
    """The lines of a page that are typed, those behind `$`, each with what it prints."""
    found = []
    for line in "\n".join(block for block in page.split("\n\n") if block.startswith("    $ ")).split("\n"):
        if line.startswith("    $ "):
            found.append([line[6:], []])
        elif line.startswith("    > "):
            found[-1][0] += "\n" + line[6:]
        else:
            found[-1][1].append(line[4:])
    return found


WAITING = "until curl -so /dev/null 127.0.0.1:%s; do sleep 0.05; done"


def script(lines, changes):
    """The lines as one script, with some words changed, which waits where a person would, and tells
    each line before it is run."""
    texts = []
    for number, (line, _) in enumerate(lines):
        for old, new in changes.items():
            line = line.replace(old, new)
        texts += [f"echo line {number}", line]
        if line.endswith("&"):
            texts.append(WAITING % line.split()[-2])
        if "reload" in line:
            texts.append("sleep 1")
    return "\n".join(texts) + "\n"


def ports_below(count, chance=random.Random()):
    """So many ports that are free and that no client is given by itself, so that a server finds its
    own free again."""
    found = set()
    while len(found) < count:
        port = chance.randrange(10000, 30000)
        with socket.socket() as taken, contextlib.suppress(OSError):
            taken.bind(("127.0.0.1", port))
            found.add(port)
    return sorted(found)


def unlimited(text):
    """The configuration with rates that no client reaches."""
    text, found = re.subn(r"rate=[0-9]+r/s", "rate=100000r/s", text)
    same("the rates of servers.conf", found, 5)
    return re.sub(r"burst=[0-9]+( nodelay)?", "burst=100000 nodelay", text)


def bare(response):
    """A response of nginx without what nginx adds, as a server has sent it."""
    head, end, body = response.partition(b"\r\n\r\n")
    line, *fields = head.split(b"\r\n")
    named = {field.partition(b":")[0]: field for field in fields}
    unknown = [name for name in named if name not in ADDED and name not in FIELDS]
    if unknown or len(named) != len(fields):
        raise Wrong(f"fields of a response: {head!r}")
    return b"\r\n".join([line, *(named[name] for name in FIELDS if name in named)]) + end + body


def told(port, sent):
    """The response to a request, behind which the connection is closed."""
    with connect(port) as connection:
        connection.sendall(sent)
        return received(connection)


def asked(port, sent):
    """The same, without what nginx adds."""
    return bare(told(port, sent))


def word_of(desk):
    """A desk's name as a line of the map has it."""
    return "\\" * (desk in ("default", "hostnames", "include", "volatile")) + desk


class Office:
    """So many servers, each of a file in the folder, and nginx in front of them."""

    def __init__(self, room, count, changed=unlimited):
        self.room = room
        port, *self.ports = ports_below(count + 1)
        self.databases = [os.path.join(room, str(port), "office.db") for port in self.ports]
        self.running, self.moved = {}, []
        self.write("office.key", OFFICE_KEY.encode() + b"\n")
        self.write("servers", "".join(f"127.0.0.1:{port}\n" for port in self.ports).encode())
        for database in self.databases:
            os.makedirs(os.path.dirname(database))
            init(database)
        self.front = Front(os.path.join(room, "nginx"), self.ports, port, changed=changed)

    def write(self, name, text):
        """Writes a file of the folder, and gives its path."""
        path = os.path.join(self.room, name)
        with open(path, "wb") as file:
            file.write(text)
        return path

    def start(self, *places):
        """Starts the servers of these places, or all, with their log in a file."""
        for place in places or range(len(self.ports)):
            log = open(os.path.join(self.room, f"{place}.log"), "ab")
            with log:
                more = {"port": self.ports[place], "stderr": log, "stdout": subprocess.DEVNULL}
                self.running[place] = Server(self.databases[place], options=["--log"], **more)
            connect(self.ports[place]).close()

    def stop(self, *places):
        """Kills the servers of these places, or all."""
        for place in places or list(self.running):
            self.running.pop(place).kill()

    def end(self):
        self.front.stop()
        self.stop()

    def log(self, place):
        """The lines of a server's log."""
        with open(os.path.join(self.room, f"{place}.log"), encoding="ascii") as file:
            return file.read().splitlines()

    def ask(self, sent):
        """The response to a request of a desk."""
        return asked(self.front.port, sent)

    def send(self, path, body, servers="servers", **more):
        """The status and both outputs of plan-office."""
        files = [os.path.join(self.room, name) for name in (servers, "office.key")]
        words = [PLAN_OFFICE, *files, "POST", path, self.write("body", body)]
        done = subprocess.run(words, capture_output=True, timeout=120, **more)
        return done.returncode, done.stdout, done.stderr

    def move(self, desk, source, target):
        """Moves a desk from one place to another, as docs/servers.md says."""
        self.stop(source, target)
        words = [MOVE_DESK, desk, self.databases[source], self.databases[target]]
        done = subprocess.run(words, capture_output=True, timeout=60)
        same("move-desk", (done.returncode, done.stdout, done.stderr), (0, b"", b""))
        self.moved.append(desk)
        folder = os.path.join(self.front.room, "moved")
        os.makedirs(folder, exist_ok=True)
        with open(os.path.join(folder, "desks.map"), "a", encoding="ascii") as file:
            file.write(f"{word_of(desk)} 127.0.0.1:{self.ports[target]};\n")
        self.front.stop()
        self.start(source, target)
        self.front.start()


@contextlib.contextmanager
def offices(room, count, changed=unlimited):
    """An office on so many servers that are running."""
    office = Office(room, count, changed)
    try:
        try:
            office.start()
            office.front.start()
        except (OSError, Wrong) as fault:
            raise Unable(f"the office doesn't start: {fault}") from None
        yield office
    finally:
        office.end()
