"""A server behind nginx in a temporary folder, with share/nginx/office.conf, or several with
servers.conf. share/web/try and tests/clients/browser use the first, tests/clients/many the second.
"""

import contextlib
import json
import os
import re
import select
import shutil
import subprocess
import time

from exchanges import TOP, Exchange, file_of
from programs import Server, Unable, Wrong, connect, free_port, init, same, talk

WEB = os.path.join(TOP, "share", "web")
NGINX = shutil.which("nginx") or shutil.which("nginx", path="/usr/sbin:/usr/local/sbin")

WHOLE = """daemon off;
master_process off;
pid {room}/nginx.pid;
error_log {room}/error.log;
events {{}}
http {{
    client_body_temp_path {room}/client_body;
    proxy_temp_path {room}/proxy;
    fastcgi_temp_path {room}/fastcgi;
    uwsgi_temp_path {room}/uwsgi;
    scgi_temp_path {room}/scgi;
    include {room}/office.conf;
}}
"""


def replaced(text, pattern, value, count=1):
    """A text with so many places of a pattern replaced, which it has to have."""
    text, found = re.subn(pattern, lambda match: value, text, flags=re.MULTILINE)
    same(f"places of {pattern} in the configuration", found, count)
    return text


def filled(name, room, port, pair):
    """A configuration of share/nginx for a folder; with a pair of a certificate and its key, or in
    the clear. Requests that find no server wait for milliseconds, not for seconds: see `patient`."""
    text = file_of(f"share/nginx/{name}").decode()
    text = replaced(text, r"^ *listen \[::\]:443 ssl;.*\n", "")
    text = replaced(text, r"listen 443 ssl;", f"listen 127.0.0.1:{port}{' ssl' if pair else ''};")
    text = replaced(text, r"/var/log/nginx/office\.log", os.path.join(room, "access.log"))
    text = replaced(text, r"/var/log/nginx/office-error\.log", os.path.join(room, "office-error.log"))
    text = replaced(text, r"root /usr/local/share/plan/web;", f'root "{WEB}";')
    text = re.sub(r"auth_delay ([1248])s;", r"auth_delay \1ms;", text)
    if not pair:
        text = replaced(text, r"^ *ssl_.*\n", "", 5)
        return replaced(text, r"^ *add_header Strict-Transport-Security .*\n", "")
    text = replaced(text, r"ssl_certificate /[^;]*", "ssl_certificate " + pair[0])
    return replaced(text, r"ssl_certificate_key /[^;]*", "ssl_certificate_key " + pair[1])


def office_conf(room, office_port, port, pair):
    """share/nginx/office.conf for a folder, and an office on a port."""
    text = filled("office.conf", room, port, pair)
    return replaced(text, r"127\.0\.0\.1:8080", f"127.0.0.1:{office_port}")


def servers_conf(room, ports, port, pair):
    """share/nginx/servers.conf for a folder, and servers on several ports."""
    text = filled("servers.conf", room, port, pair)
    lines = "".join(f"    server 127.0.0.1:{own} max_fails=0;\n" for own in ports)
    text = replaced(text, r"(^    server 127\.0\.0\.1:808[12] max_fails=0;.*\n){2}", lines)
    return replaced(text, r"/etc/nginx/plan-moved", os.path.join(room, "moved"))


def patient(text):
    """A configuration in which requests that find no server wait as long as in share/nginx."""
    text, found = re.subn(r"auth_delay ([1248])ms;", r"auth_delay \1s;", text)
    same("the waits of the configuration", found, 4)
    return text


class Front:
    """nginx in front of an office that listens on a port, or on each port of a list. `changed` may
    make another text of the configuration."""

    def __init__(self, room, office_port, port=None, pair=None, changed=lambda text: text):
        self.port = port or free_port()
        os.makedirs(room, exist_ok=True)
        self.room = room
        conf = servers_conf if isinstance(office_port, list) else office_conf
        files = {
            "nginx.conf": WHOLE.format(room=room),
            "office.conf": changed(conf(room, office_port, self.port, pair)),
        }
        for name, text in files.items():
            with open(os.path.join(room, name), "w", encoding="utf-8") as file:
                file.write(text)
        self.words = [NGINX, "-e", os.path.join(room, "error.log"), "-p", room, "-c"]
        self.words.append(os.path.join(room, "nginx.conf"))
        self.process = None

    def test(self):
        """What nginx says of the configuration, as a status and a text."""
        done = subprocess.run([*self.words, "-t"], capture_output=True, encoding="utf-8")
        return done.returncode, done.stderr

    def start(self):
        """Starts nginx, which writes its number into a file as soon as it listens."""
        told = subprocess.DEVNULL
        self.process = subprocess.Popen(self.words, stdin=told, stdout=told, stderr=told)
        end = time.monotonic() + 20
        while not os.path.exists(os.path.join(self.room, "nginx.pid")):
            if self.process.poll() is not None or time.monotonic() > end:
                self.stop()
                raise Unable(f"nginx doesn't start on port {self.port}{self.last_words()}")
            time.sleep(0.002)

    def last_words(self):
        """The last line of nginx's log of errors, behind a colon; nothing if there is none."""
        with contextlib.suppress(FileNotFoundError):
            lines = self.read("error.log").splitlines()
            return "".join(f": {line}" for line in lines[-1:])
        return ""

    def stop(self):
        """Ends nginx; it may be started again."""
        if self.process is not None:
            self.process.terminate()
            self.process.wait()
            self.process = None
        with contextlib.suppress(FileNotFoundError):
            os.remove(os.path.join(self.room, "nginx.pid"))

    def read(self, name):
        """The text of a file in its folder."""
        with open(os.path.join(self.room, name), encoding="utf-8") as file:
            return file.read()

    def log(self):
        """The requests in the log, each with its fields."""
        try:
            return [json.loads(line) for line in self.read("access.log").splitlines()]
        except ValueError as fault:
            raise Wrong(f"a line of nginx's log isn't JSON: {fault}") from None


@contextlib.contextmanager
def fronting(room, office_port, port=None, pair=None, changed=lambda text: text):
    front = Front(room, office_port, port, pair, changed)
    front.start()
    try:
        yield front
    finally:
        front.stop()


def statuses(port, path, count, enough):
    """The statuses of so many requests at one time, until there are enough of them."""
    found, ends = [], []
    with contextlib.ExitStack() as open_ends:
        for _ in range(count):
            ends.append(open_ends.enter_context(connect(port)))
            ends[-1].sendall(Exchange("GET", path, "no-such-key").request())
        while not enough <= set(found):
            for end in select.select(ends, [], [], 20)[0]:
                ends.remove(end)
                found.append(end.recv(12)[-3:])
            if not ends:
                break
    return set(found)


def sent(port, method, path, key, body):
    """Sends a command to an office, which has to accept it."""
    answer = talk(port, Exchange(method, path, key, body).request())
    if not answer.startswith((b"HTTP/1.1 200", b"HTTP/1.1 201")):
        raise Wrong(f"{method} {path} gave {answer!r}")


def office_in(room, count=1000000):
    """A server of a new office in a folder."""
    database = os.path.join(room, "office.db")
    init(database)
    server = Server(database, count)
    try:
        connect(server.port).close()
    except Wrong:
        server.kill()
        raise Unable("the office doesn't start") from None
    return server
