"""Requests of one desk among many, in the plain form that a proxy takes, and requests of the office
between them. Each desk has a model of its own, in which the office has no other desk."""

import json

from exchanges import Exchange
from model.messages import MOST_BODY, ROUTES

from .requests import CODES, OFFICE_KEY, Requests

OFFICE_CALLS = ("publish", "open", "key")


class Plain(Requests):
    """Requests whose heads are as every client writes them, and after which the client closes."""

    def new(self):
        self.draw.care = 0.1 if self.draw.chance(0.05) else 1
        call = self.call()
        path, body = getattr(self, "draw_" + call, self.draw_page)(call)
        if len(body) > MOST_BODY:
            return self.new()
        return plain(ROUTES[call][0], path, self.key(path), body)


def plain(method, path, key, body=b""):
    """The bytes of a request."""
    exchange = Exchange(method, path, key, body)
    exchange.fields.append("Connection: close")
    return exchange.request()


class DeskRequests(Plain):
    """Requests of one desk. The keys of all desks are known, so that one may send another's."""

    def __init__(self, seed, desk, keys):
        super().__init__(seed)
        self.own = desk
        keys.update(self.keys)
        self.keys = keys

    def call(self):
        found = super().call()
        return self.call() if found in OFFICE_CALLS else found


class OfficeRequests(Plain):
    """Requests of the office: it opens desks, publishes, and gives a desk another key. Each is told
    to the models of all desks."""

    def __init__(self, seed, names):
        super().__init__(seed)
        self.desks = [DeskRequests(seed + at, name, self.keys) for at, name in enumerate(names, 1)]

    def call(self):
        return self.draw.pick(("publish", "publish", "publish", "key"))

    def told(self, path, body):
        """The path and the body of a request, which every model it concerns has heard."""
        sent = plain("POST", path, OFFICE_KEY, body)
        self.office.answer(sent)
        for desk in self.desks:
            if concerns(path, body, desk.own):
                desk.office.answer(sent)
        return path, body

    def opening(self):
        """What all desks begin with: every code is published, and they are opened."""
        for code in CODES:
            kind = "crew" if code.startswith("crew") else "machine"
            yield self.told("/office/capacities", body_of(code=code, kind=kind, capacity=2))
        for desk in self.desks:
            yield self.told("/office/desks", body_of(desk=desk.own, key=self.known_key()))

    def between(self):
        """The path and the body of a drawn request."""
        call = self.call()
        return self.told(*getattr(self, "draw_" + call)(call))


def body_of(**members):
    """The bytes of a body."""
    return json.dumps(members).encode()


def concerns(path, body, desk):
    """Whether a request of the office is for a desk: it publishes, or names that desk."""
    if path == "/office/desks":
        return json.loads(body)["desk"] == desk
    return path in ("/office/capacities", f"/office/desks/{desk}/key")
