"""Drawn requests of many desks, sent to several servers and to one server that gets all of them:
the responses are the same bytes, and the rows are the same.
"""

import os
import threading

from drawing import OFFICE_KEY
from drawing.desks import OfficeRequests, body_of, plain
from programs import Wrong, init, plan, rows, same
from servers import asked
from story import parted, same_rows

SERVERS, DESKS, CLIENTS = 4, 40, 4
# So many times the clients send so many requests, and the office sends some between.
TURNS, REQUESTS = 40, 100
# A server is down after one of these turns, and a desk is moved after each of the others.
DOWN, MOVES = 10, (20, 30)
# The digest that the row of a desk has where the desk was moved away from.
CLOSED = "0" * 64


class Drawn:
    """An office on several servers, all that is sent to it, and what it answers."""

    def __init__(self, office, seed):
        self.office = office
        self.requests = OfficeRequests(seed, [f"desk-{at:02}" for at in range(DESKS)])
        self.desks = self.requests.desks
        self.sent, self.found, self.wrong = [], [], []

    def keep(self, sent, found):
        self.sent.append(sent)
        self.found.append(found)

    def publish(self, path, body):
        """The office sends a request to all servers."""
        status, out, err = self.office.send(path, body)
        self.keep(plain("POST", path, OFFICE_KEY, body), (status, out or err))

    def ask(self, desk):
        """A desk sends its next request."""
        sent = desk.following()[0]
        return sent, self.office.ask(sent)

    def visit(self, client, turn, said):
        """One client: so many requests of its desks in turn, unless another finds a fault."""
        own = self.desks[client::CLIENTS]
        try:
            for at in range(REQUESTS // CLIENTS):
                if not self.wrong:
                    said.append(self.ask(own[(turn + at) % len(own)]))
        except (Wrong, OSError) as fault:
            self.wrong.append(fault)

    def turn(self, number):
        """The clients side by side, each with desks of its own."""
        said = [[] for _ in range(CLIENTS)]
        given = [(client, number, said[client]) for client in range(CLIENTS)]
        threads = [threading.Thread(target=self.visit, args=each) for each in given]
        for step in (threading.Thread.start, threading.Thread.join):
            list(map(step, threads))
        if self.wrong:
            raise Wrong(f"turn {number}: {self.wrong[0]}")
        for each in sum(said, []):
            self.keep(*each)

    def page(self, desk, name):
        """The request for a desk's list of plans or of capacities."""
        row = desk.office.desks[desk.own]
        return plain("GET", f"/desks/{desk.own}/{name}", desk.keys[row[0]])

    def places(self):
        """The place at which each desk was asked last, by nginx's log."""
        ports = {f"127.0.0.1:{port}": place for place, port in enumerate(self.office.ports)}
        found = dict(asked_in(self.office.front.log()))
        same("servers that aren't there", set(found.values()) - set(ports), set())
        return {desk: ports[address] for desk, address in found.items()}

    def see(self):
        """At each server a desk asks for the capacities, so that each has to have them all."""
        at = {place: desk for desk, place in self.places().items()}
        for desk in self.desks:
            if desk.own in at.values():
                sent = self.page(desk, "capacities")
                self.keep(sent, self.office.ask(sent))


def asked_in(log):
    """The desks in nginx's log, each with the address of the server that was asked, at last."""
    found = [(line["path"], line["server"].split(" ")[-1]) for line in log]
    return [(path.split("/")[2], server) for path, server in found if path.startswith("/desks/desk-")]


# ---- while a server is down


def addresses(office, *places):
    return " ".join(f"127.0.0.1:{office.ports[place]}" for place in places)


def without_one(drawn):
    """While a server is down its desks are answered 502, and the others as ever. What the office
    sends lacks it, which plan-office says; it is sent again when the server is back."""
    office, down, places = drawn.office, 1, drawn.places()
    office.stop(down)
    there = next(desk for desk in drawn.desks if places[desk.own] == down)
    other = next(desk for desk in drawn.desks if places[desk.own] != down)
    found = office.ask(drawn.page(there, "plans"))
    same("a desk whose server is down", found[:12], b"HTTP/1.1 502")
    drawn.keep(*drawn.ask(other))
    published = drawn.requests.told("/office/capacities", SAW)
    for path, body in (published, LATE):
        is_lacking(path, office.send(path, body), addresses(office, down))
    office.start(down)
    drawn.publish(*published)
    open_again(drawn, down)


SAW = body_of(code="saw", kind="machine", capacity=1)
LATE = ("/office/desks", body_of(desk="late", key="late-key-1"))


def is_lacking(path, told, address):
    """plan-office has said that no answer came from a server."""
    status, out, err = told
    wanted = f"no answer from {address}: send it again when all servers respond; "
    same(f"{path} while a server is down", (status, out), (1, b""))
    same(f"{wanted!r} in {err!r}", wanted in err.decode(), True)


def open_again(drawn, lacking):
    """A desk that one server lacks is opened again, which plan-office says; and gets its key."""
    office = drawn.office
    status, out, err = office.send(*LATE)
    there = [place for place in range(SERVERS) if place != lacking]
    line = f"plan-office: 409 E04 desk exists from {addresses(office, *there)}; "
    line += f'201 {{"desk":"late"}} from {addresses(office, lacking)}: servers with E04 '
    same("a desk that is opened again", (status, out, err.decode()[: len(line)]), (1, b"", line))
    drawn.keep(plain("POST", LATE[0], OFFICE_KEY, LATE[1]), None)
    drawn.publish("/office/desks/late/key", body_of(key="late-key-2"))
    sent = plain("GET", "/desks/late/plans", "late-key-2")
    drawn.keep(sent, office.ask(sent))


# ---- a desk that is moved


def move(drawn):
    """The desk with the most plans that wasn't moved yet goes to the next place. At the one before
    it finds its key wrong."""
    office, places = drawn.office, drawn.places()
    own = [desk for desk in drawn.desks if desk.own not in office.moved]
    desk = max(own, key=lambda each: len(each.office.plans))
    source = places[desk.own]
    office.move(desk.own, source, (source + 1) % SERVERS)
    listing = drawn.page(desk, "plans")
    same("a desk that was moved away", asked(office.ports[source], listing)[:12], b"HTTP/1.1 403")
    same("a desk that was moved", office.ask(listing)[:12], b"HTTP/1.1 200")


# ---- beside one server


def is_answered(sent, found, wanted):
    """Compares an answer with that of one server: byte for byte; of plan-office the body, or the
    line that tells how all have refused."""
    what = f"the answer to {sent[:300]!r}"
    if not isinstance(found, tuple):
        same(what, wanted if found is None else found, wanted)
        return
    body = wanted.partition(b"\r\n\r\n")[2]
    if wanted[9:10] == b"2":
        same(what, found, (0, body))
    else:
        line = b"plan-office: %b %b from " % (wanted[9:12], body.rstrip(b"\n"))
        same(what, (found[0], found[1][: len(line)]), (1, line))


def one_server(drawn, room):
    """One server gets the whole list, and gives the same answers; its file."""
    database, names = os.path.join(room, "one.db"), []
    init(database)
    for number, sent in enumerate(drawn.sent):
        names.append(os.path.join(room, f"{number}.req"))
        with open(names[-1], "wb") as file:
            file.write(sent)
    status, out, err = plan("replay", database, *names)
    same("plan replay of the whole list", (status, err), (0, b""))
    responses = parted(out)
    same("the number of responses", len(responses), len(drawn.sent))
    for sent, found, wanted in zip(drawn.sent, drawn.found, responses):
        is_answered(sent, found, wanted)
    return database


def of_tables(lines, *names):
    return [line for line in lines if line.split("|")[0] in names]


def desks_in(several):
    """The rows of desks of all servers, each with its greatest next number."""
    greatest = {}
    for line in of_tables(sum(several, []), "desks"):
        desk, _, following = line.rpartition("|")
        if not desk.endswith(CLOSED):
            greatest[desk] = max(greatest.get(desk, 1), int(following))
    return greatest


def are_rows(drawn, database, room):
    """The servers together have the rows of the one: each has all that the office has sent, and
    each plan is on one of them alone. More than one of them has plans."""
    one, several = rows(database, room), [rows(own, room) for own in drawn.office.databases]
    for lines in several:
        found, wanted = (of_tables(each, "meta", "published") for each in (lines, one))
        same("what is published", found, wanted)
    owned = [of_tables(lines, "plans", "binds", "lags") for lines in several]
    wanted = of_tables(one, "plans", "binds", "lags")
    same_rows("the rows of desks on the servers", sorted(sum(owned, [])), wanted)
    same("that more than one server has plans", sum(map(bool, owned)) > 1, True)
    same("the desks", desks_in(several), desks_in([one]))


def are_logs(drawn):
    """No key is in a log of nginx; and nginx asked one server for each desk, and another for each
    that was moved."""
    log = drawn.office.front.log()
    text = drawn.office.front.read("access.log") + drawn.office.front.read("error.log")
    found = [key for key in drawn.requests.keys.values() if key in text]
    same("keys in the logs of nginx", found, [])
    same("how many places desks had", len(set(asked_in(log))), DESKS + len(MOVES))


def send_all(drawn):
    """The office publishes and opens the desks; then turns of the clients, and what the office
    sends between them."""
    for path, body in drawn.requests.opening():
        drawn.publish(path, body)
    for number in range(1, TURNS + 1):
        drawn.turn(number)
        drawn.publish(*drawn.requests.between())
        drawn.see()
        if number == DOWN:
            without_one(drawn)
        if number in MOVES:
            move(drawn)
