"""Behaviour that only a socket shows: responses that come at once, clients that leave, and clients
that have sent before they are served.
"""

import os
import select
import socket

import longer
from exchanges import refusal
from programs import DONE, Wrong, connect, init, received, rows, same, serving, talk
from story import answered, named, rows_behind, same_rows, told, written

LOST = "lost-key-1"
RESET = b"\1\0\0\0\0\0\0\0"


def office(room, story):
    """A file with an office in which a story has happened."""
    database = os.path.join(room, "office.db")
    init(database)
    if story:
        answered(story, database, written(story, room))
    return database


# ---- at once

HEADS = [
    (b"GET\x01 and so on", refusal(400, "H1 message")),
    (b"GET /a HTTP/2.0\r\n\r\n", refusal(400, "H1 message")),
    (b"GET /a HTTP/1.1\r\n\r\nmore", refusal(400, "H1 message")),
    (b"PUT / HTTP/1.0\r\nContent-Length: x\r\n\r\nmore", refusal(400, "H1 message")),
    (b"PUT / HTTP/1.0\r\nContent-Length: 1048577\r\n\r\nmore", refusal(413, "H2 too large")),
    (b"PUT / HTTP/1.0\r\nTransfer-Encoding: a\r\n\r\nmore", refusal(501, "H3 coding")),
    (b"GET /desks/north/plans HTTP/1.0\r\n\r\nNEXT", refusal(403, "E01 key")),
    (b"POST /office/desks HTTP/1.0\r\nContent-Length: 4\r\n\r\n1234NEXT", refusal(403, "E01 key")),
]


def try_at_once(room):
    """A bad head is answered at once, and a request when it is whole, while the client still holds
    its side open."""
    with serving(office(room, [])) as server:
        for sent, wanted in HEADS:
            with connect(server.port) as connection:
                connection.sendall(sent)
                same(f"the response to {sent!r}", received(connection), wanted)


# ---- one byte after another


def talk_in_pieces(port, sent):
    """The response to some bytes that are sent one after another."""
    with connect(port) as connection:
        connection.setsockopt(socket.IPPROTO_TCP, socket.TCP_NODELAY, 1)
        for byte in sent:
            connection.sendall(bytes([byte]))
        connection.shutdown(socket.SHUT_WR)
        return received(connection)


def told_in_pieces(name, room):
    """A story whose requests are sent one byte after another."""
    story, database = told(name), os.path.join(room, f"{name}.db")
    init(database)
    with serving(database) as server:
        for number, exchange in enumerate(story, 1):
            what = f"{name} in pieces: {named(number, exchange)}"
            same(what, talk_in_pieces(server.port, exchange.request()), exchange.expected())
    same_rows("the rows at the end", rows(database, room), rows_behind(story))


def try_in_pieces(room):
    """Stories of connections, one byte after another."""
    for name in ("checks", "targets", "wire"):
        told_in_pieces(name, room)


# ---- clients that go away


def importing():
    """The import that is lost."""
    return imported_as(1).request()


def imported_as(n):
    """The same, as the plan of a number."""
    return longer.asked("POST /desks/lost/projects", LOST, longer.SIX, 201, longer.imported(n))


def removed(n):
    """The removal of a plan."""
    return longer.asked(f"DELETE /desks/lost/plans/{n}", LOST, "", 200, f'{{"n":{n}}}\n')


def listing(numbers):
    """The list of the plans that are left."""
    return longer.asked("GET /desks/lost/plans", LOST, "", 200, longer.listing(numbers))


def expected(port, exchange):
    """The exchange is made."""
    same(f"{exchange.method} {exchange.path}", talk(port, exchange.request()), exchange.expected())


def go_away(port, sent):
    """A client that sends some bytes and breaks off."""
    with connect(port) as connection:
        connection.setsockopt(socket.SOL_SOCKET, socket.SO_LINGER, RESET)
        connection.sendall(sent)


def try_broken_off(room):
    """Imports that break off after each of their bytes: the desk has no plan."""
    whole = importing()
    with serving(office(room, [longer.opening("lost", LOST)])) as server:
        for length in range(len(whole)):
            go_away(server.port, whole[:length])
        expected(server.port, listing([]))


def lose_response(port):
    """A client that sends an import and goes away without its response, once that has come."""
    with connect(port) as connection:
        connection.setsockopt(socket.SOL_SOCKET, socket.SO_LINGER, RESET)
        connection.sendall(importing())
        if not select.select([connection], [], [], 20)[0]:
            raise Wrong("no response comes to an import")


def try_lost_responses(room):
    """A command whose response is lost stands. Whoever lost it imports again, and both plans are
    listed."""
    with serving(office(room, [longer.opening("lost", LOST)])) as server:
        for n in range(1, 11):
            lose_response(server.port)
            expected(server.port, listing([n]))
            expected(server.port, removed(n))
        lose_response(server.port)
        expected(server.port, imported_as(12))
        expected(server.port, listing([11, 12]))


# ---- among others


def try_sent_before(room):
    """Two clients that have both sent before they read are served in the order in which they came
    and sent. Then the server ends."""
    opening, listed = told("opening")[:2]
    with serving(office(room, []), 2) as server:
        with connect(server.port) as first, connect(server.port) as second:
            first.sendall(opening.request())
            second.sendall(listed.request())
            same(named(1, opening), received(first), opening.expected())
            same(named(2, listed), received(second), listed.expected())
        same("a server that has served all", server.end(), DONE)


def try_visits(room):
    """Five clients, of which one breaks off before it sends, one within its request and one before
    it reads. Two are answered."""
    opening, listed, exists, _ = told("opening")
    database = office(room, [opening])
    with serving(database, 5) as server:
        for sent in (b"", b"POST /office/desks HTTP/1.0\r\nDesk-Key: off", listed.request()):
            go_away(server.port, sent)
        expected(server.port, exists)
        expected(server.port, listed)
        same("a server that has served all", server.end(), DONE)
