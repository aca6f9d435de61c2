"""What the bytes of a connection spell, and the bytes of a response (docs/definitions.md,
"Connections")."""

import re

TOKEN = rb"[!#$%&'*+\-.^_`|~0-9A-Za-z]+"
FIELD = re.compile(rb"(" + TOKEN + rb"):([\t\x20-\x7e\x80-\xff]*)\r?\n")
HEAD = re.compile(
    rb"(?:\r?\n)*(" + TOKEN + rb") ([!-~\x80-\xff]+) HTTP/1\.([01])\r?\n"
    rb"((?:" + TOKEN + rb":[\t\x20-\x7e\x80-\xff]*\r?\n)*)\r?\n"
)
MOST_HEAD, MOST_FIELDS, MOST_BODY = 8192, 64, 1048576
STATUSES = {
    200: "OK", 201: "Created", 400: "Bad Request", 403: "Forbidden", 404: "Not Found",
    405: "Method Not Allowed", 409: "Conflict", 413: "Payload Too Large",
    422: "Unprocessable Entity", 501: "Not Implemented",
}
# Each route by its call: its method and its path. A star is any one segment.
ROUTES = {
    "publish": ("POST", "/office/capacities"),
    "open": ("POST", "/office/desks"),
    "key": ("POST", "/office/desks/*/key"),
    "capacities": ("GET", "/desks/*/capacities"),
    "plans": ("GET", "/desks/*/plans"),
    "project": ("POST", "/desks/*/projects"),
    "shop": ("POST", "/desks/*/shops/*"),
    "remove": ("DELETE", "/desks/*/plans/*"),
    "bind": ("POST", "/desks/*/plans/*/bind"),
    "calendar": ("POST", "/desks/*/plans/*/calendar"),
    "lag": ("POST", "/desks/*/plans/*/lag"),
    "dates": ("GET", "/desks/*/plans/*/dates"),
    "schedule": ("GET", "/desks/*/plans/*/schedule/*"),
    "chart": ("GET", "/desks/*/plans/*/chart/*"),
    "days": ("GET", "/desks/*/plans/*/days/*"),
    "best": ("GET", "/desks/*/plans/*/best/*"),
}


class Refusal(Exception):
    """A status and a line; what the route allows, and whether the response ends after its head."""

    def __init__(self, status, line, allow=None, is_head=False):
        super().__init__(line)
        self.status, self.line, self.allow, self.is_head = status, line, allow, is_head


def text_of(target):
    """The text of a target, which is UTF-8."""
    try:
        return target.decode()
    except UnicodeDecodeError:
        raise Refusal(400, "H1 message") from None


class Head:
    """The head of a request: its method, target and fields, and the bytes after it."""

    def __init__(self, sent):
        found = HEAD.match(sent[:MOST_HEAD])
        if not found or len(FIELD.findall(found[4])) > MOST_FIELDS:
            raise Refusal(400, "H1 message")
        self.method, self.target = found[1].decode(), text_of(found[2])
        self.minor = found[3]
        self.fields = FIELD.findall(found[4])
        self.behind = sent[found.end() :]

    def values(self, name):
        """The values of the fields of a name."""
        return [value.strip(b" \t") for own, value in self.fields if own.lower() == name]

    def is_host_wrong(self):
        count = len(self.values(b"host"))
        return count > 1 or count == 0 and self.minor == b"1"

    def is_length_wrong(self):
        values = self.values(b"content-length")
        if not all(re.fullmatch(b"[0-9]+", value) for value in values):
            return True
        return len({value.lstrip(b"0") for value in values}) > 1

    def length(self):
        """How long the body is: the digits may be more than Python reads at once."""
        digits = [*self.values(b"content-length"), b"0"][0].lstrip(b"0")
        return MOST_BODY + 1 if len(digits) > 7 else int(digits or b"0")

    def key(self):
        """The value of the one field with the key."""
        values = self.values(b"desk-key")
        return values[0] if len(values) == 1 else None


def route_of(target):
    """The call of a target; None where there is no such path."""
    segments = target.split("/")
    for call, (_, path) in ROUTES.items():
        wanted = path.split("/")
        if len(wanted) == len(segments) and not set(target) & set("?%#"):
            if all(each in (own, "*" if own else "") for own, each in zip(segments, wanted)):
                return call
    return None


def check_head(head, is_head):
    """The checks of a head, in their order."""
    checks = (
        (head.is_host_wrong, 400, "H1 message"),
        (head.is_length_wrong, 400, "H1 message"),
        (lambda: head.length() > MOST_BODY, 413, "H2 too large"),
        (lambda: head.values(b"transfer-encoding"), 501, "H3 coding"),
        (lambda: len(head.behind) < head.length(), 400, "H1 message"),
        (lambda: route_of(head.target) is None, 404, "H4 route"),
    )
    for is_wrong, status, line in checks:
        if is_wrong():
            raise Refusal(status, line, None, is_head)


class Request:
    """What a connection spells: a call, the segments of its path, a key and a body."""

    def __init__(self, sent):
        head = Head(sent)
        is_head = head.method == "HEAD"
        check_head(head, is_head)
        self.call = route_of(head.target)
        method = ROUTES[self.call][0]
        if head.method != method:
            raise Refusal(405, "H5 method", method, is_head)
        self.segments = head.target.split("/")
        self.key, self.body = head.key(), head.behind[: head.length()]


def response(status, kind, body, allow=None, is_head=False):
    """The bytes of a response."""
    lines = [f"HTTP/1.1 {status} {STATUSES[status]}", f"Content-Type: {kind}"]
    lines.append(f"Content-Length: {len(body)}")
    lines += [f"Allow: {allow}"] if allow else []
    head = "\r\n".join([*lines, "Connection: close", "", ""]).encode()
    return head + (b"" if is_head else body)
