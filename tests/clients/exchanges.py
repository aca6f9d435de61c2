"""Exchanges with a server: the file conversation, the bytes of requests and responses, and the
tables after each accepted command. Shares nothing with `plan`.
"""

import hashlib
import json
import os
import re

HERE = os.path.dirname(os.path.abspath(__file__))
TOP = os.path.dirname(os.path.dirname(HERE))
OFFICE_KEY = "office-key-1"

PHRASES = {
    200: "OK", 201: "Created", 400: "Bad Request", 403: "Forbidden", 404: "Not Found", 405: "Method Not Allowed",
    409: "Conflict", 413: "Payload Too Large", 422: "Unprocessable Entity", 501: "Not Implemented",
    503: "Service Unavailable", 507: "Insufficient Storage",
}
TYPES = {"json": "application/json", "plain": "text/plain"}


def response(status, kind, body, allow=None, is_head=False):
    """The bytes of a response."""
    lines = [f"HTTP/1.1 {status} {PHRASES[status]}", f"Content-Type: {TYPES[kind]}", f"Content-Length: {len(body)}"]
    if allow:
        lines.append(f"Allow: {allow}")
    lines += ["Connection: close", "", ""]
    return "\r\n".join(lines).encode() + (b"" if is_head else body)


def refusal(status, line):
    """The response that refuses by a line."""
    return response(status, "plain", line.encode() + b"\n")


class Exchange:
    """A request, and the response to it."""

    def __init__(self, method, path, key=None, body=b"", status=200, kind="json", answer=b"", allow=None):
        self.method, self.path, self.key, self.body = method, path, key, body
        self.fields, self.has_host, self.version = [], True, "1.1"
        self.status, self.kind, self.answer, self.allow = status, kind, answer, allow
        self.raw, self.told, self.is_text = None, None, False

    def expected(self):
        """The bytes of the response: those that are told, or what the status, the type and the
        answer make."""
        return self.told or response(self.status, self.kind, self.answer, self.allow)

    def is_accepted(self):
        """It is a command, and was carried out."""
        return self.method != "GET" and self.status < 300

    def request(self, version=None):
        """The bytes of the request."""
        if self.raw is not None:
            return self.raw
        version = version or self.version
        lines = [f"{self.method} {self.path} HTTP/{version}"]
        if self.has_host and version == "1.1":
            lines.append("Host: 127.0.0.1")
        if self.key is not None:
            lines.append(f"Desk-Key: {self.key}")
        lines += self.fields
        if self.body:
            lines.append(f"Content-Length: {len(self.body)}")
        return "\r\n".join(lines + ["", ""]).encode() + self.body


def values_of(name, fields):
    """The values of the fields of a name."""
    pairs = [field.partition(":") for field in fields]
    return [value.strip(" \t") for found, _, value in pairs if found.lower() == name]


def raw_exchange(raw):
    """An exchange whose request is these bytes, with the method, path, key and body that they spell,
    where they spell them."""
    head, *behind = re.split(rb"\r?\n\r?\n", raw.lstrip(b"\r\n"), maxsplit=1)
    line, *fields = re.split("\r?\n", head.decode("latin-1"))
    method, path = line.split(" ")[:2] if line.count(" ") == 2 else ("", "")
    keys, lengths = values_of("desk-key", fields), values_of("content-length", fields)
    length = int(lengths[0]) if lengths and lengths[0].isdecimal() else 0
    key = keys[0] if len(keys) == 1 else None
    exchange = Exchange(method, path, key, b"".join(behind)[:length])
    exchange.raw = raw
    return exchange


def escaped(text):
    """Bytes that are written with escapes."""
    return text.encode("ascii").decode("unicode_escape").encode("latin-1")


def read_part(exchange, word, rest):
    """Takes one line of an exchange behind its first."""
    if word in ("key", "version"):
        setattr(exchange, word, rest)
    elif word == "field":
        exchange.fields.append(rest)
    elif word == "|" and exchange.is_text:
        exchange.body += rest.encode() + b"\n"
    elif word == "|":
        exchange.answer += rest.encode() + b"\n"
    elif word == "no":
        exchange.has_host = False
    elif word == "allow":
        exchange.allow = rest
    elif word in BODIES:
        exchange.body += BODIES[word](rest)
        exchange.is_text = word == "text"
    else:
        exchange.status, exchange.kind, exchange.is_text = int(word), rest, False


def file_of(name):
    """The bytes of a file of the repository."""
    with open(os.path.join(TOP, name), "rb") as file:
        return file.read()


BODIES = {"body": str.encode, "file": file_of, "text": str.encode}


def exchanges_in(path):
    """The exchanges that a file tells."""
    exchanges = []
    with open(path, encoding="ascii") as file:
        for line in file.read().split("\n"):
            word, _, rest = line.partition(" ")
            if word.isupper() and word.isalpha():
                exchanges.append(Exchange(word, rest))
            elif word == "bytes":
                exchanges.append(raw_exchange(escaped(rest)))
            elif word == "more":
                exchanges[-1] = raw_exchange(exchanges[-1].raw + escaped(rest))
            elif line and word != "#":
                read_part(exchanges[-1], word, rest)
    return exchanges


def conversation():
    """The exchanges of the file `conversation`."""
    return exchanges_in(os.path.join(HERE, "conversation"))


def digest(key):
    return hashlib.sha256(key.encode()).hexdigest()


class Tables:
    """The rows that an office keeps."""

    def __init__(self, key=OFFICE_KEY):
        self.office = digest(key)
        self.published, self.desks, self.plans, self.binds, self.lags = {}, {}, {}, {}, {}

    def apply(self, exchange):
        """What an accepted command makes of them."""
        path = exchange.path.split("/")[1:]
        if path[0] == "office":
            self.apply_office(path, json.loads(exchange.body))
        elif path[2] in ("projects", "shops"):
            self.add_plan(path, exchange.body)
        elif exchange.method == "DELETE":
            self.remove_plan(path[1], int(path[3]))
        else:
            self.apply_plan((path[1], int(path[3])), path[4], json.loads(exchange.body))

    def apply_office(self, path, body):
        if path[1] == "capacities":
            self.published[body["code"]] = (body["kind"], body["capacity"])
        elif len(path) == 2:
            self.desks[body["desk"]] = [digest(body["key"]), 1]
        else:
            self.desks[path[2]][0] = digest(body["key"])

    def add_plan(self, path, body):
        kind, name = ("project", "") if path[2] == "projects" else ("shop", path[3])
        desk = self.desks[path[1]]
        self.plans[path[1], desk[1]] = [kind, name, body.hex(), "", ""]
        desk[1] += 1

    def remove_plan(self, desk, n):
        del self.plans[desk, n]
        self.binds = {key: code for key, code in self.binds.items() if key[:2] != (desk, n)}
        self.lags = {key: lag for key, lag in self.lags.items() if key[:2] != (desk, n)}

    def apply_plan(self, plan, call, body):
        if call == "bind":
            self.binds[*plan, body["place"]] = body["code"]
        elif call == "calendar":
            self.plans[plan][3:] = [body["start"], body["days"]]
        elif body["lag"] == 0:
            self.lags.pop((*plan, body["from"], body["to"]), None)
        else:
            self.lags[*plan, body["from"], body["to"]] = body["lag"]

    def dump(self):
        """The rows, as DUMP writes them."""
        rows = [f"meta|2|{self.office}"]
        rows += [f"published|{code}|{kind}|{capacity}" for code, (kind, capacity) in self.published.items()]
        rows += [f"desks|{desk}|{key}|{following}" for desk, (key, following) in self.desks.items()]
        rows += ["|".join(("plans", desk, str(n), *row)) for (desk, n), row in self.plans.items()]
        rows += [f"binds|{desk}|{n}|{place}|{code}" for (desk, n, place), code in self.binds.items()]
        rows += [f"lags|{desk}|{n}|{source}|{target}|{lag}" for (desk, n, source, target), lag in self.lags.items()]
        return sorted(rows)


# The rows of a database, a line each.
DUMP = """
SELECT 'meta|' || version || '|' || office FROM meta;
SELECT 'published|' || code || '|' || kind || '|' || capacity FROM published;
SELECT 'desks|' || desk || '|' || digest || '|' || next FROM desks;
SELECT 'plans|' || desk || '|' || n || '|' || kind || '|' || name || '|' || lower(hex(body)) || '|' || start || '|' || days FROM plans;
SELECT 'binds|' || desk || '|' || n || '|' || place || '|' || code FROM binds;
SELECT 'lags|' || desk || '|' || n || '|' || src || '|' || dst || '|' || lag FROM lags;
PRAGMA integrity_check;
"""

# The text of all rows, whose digest `plan check-office` prints (docs/operations.md, "Backups").
ROWS = file_of("examples/rows.sql").decode()
