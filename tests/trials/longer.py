"""Longer stories: loops over requests that would fill many files. Expected responses are written
here by hand, or by formulas if a story repeats itself.
"""

import os

from exchanges import OFFICE_KEY, Exchange, Tables, file_of, raw_exchange, refusal, response
from programs import DONE, connect, fault, init, plan, rows, same, serving, talk
from story import (
    answered, by_replay, by_socket, moved, named, rows_behind, same_rows, tell, told, try_story,
    written,
)

SIX = file_of("tests/trials/files/six.sm").decode()
WHOLE = file_of("examples/six.sm").decode()


def asked(line, key, body, status, answer):
    """An exchange by its texts; the answer is JSON where it begins with a brace."""
    method, path = line.split(" ")
    kind = "json" if answer.startswith("{") else "plain"
    return Exchange(method, path, key, body.encode(), status, kind, answer.encode())


def opening(desk, key):
    """The office opens a desk."""
    body = f'{{"desk":"{desk}","key":"{key}"}}'
    return asked("POST /office/desks", OFFICE_KEY, body, 201, f'{{"desk":"{desk}"}}\n')


def imported(n):
    """What the import of a project is answered that gets a number."""
    return f'{{"kind":"project","n":{n}}}\n'


def listing(numbers):
    """What the list of projects of these numbers is answered."""
    return '{"plans":[%s]}\n' % ",".join(f'{{"kind":"project","n":{n}}}' for n in numbers)


# ---- a hundred plans


def hundred():
    """A desk imports a hundred plans, and no more, until one is removed, whose number isn't used
    again."""
    send, key = "POST /desks/full/projects", "full-key-1"
    full = asked(send, key, SIX, 409, "E08 100 plans\n")
    imports = [asked(send, key, SIX, 201, imported(n)) for n in range(1, 101)]
    return [
        opening("full", key),
        *imports,
        full,
        asked(send, key, "", 409, "E08 100 plans\n"),
        asked("GET /desks/full/plans", key, "", 200, listing(range(1, 101))),
        asked("DELETE /desks/full/plans/50", key, "", 200, '{"n":50}\n'),
        asked(send, key, SIX, 201, imported(101)),
        full,
        asked("GET /desks/full/plans", key, "", 200, listing([*range(1, 50), *range(51, 102)])),
    ]


def try_hundred(room):
    """A desk with a hundred plans."""
    by_replay(hundred(), room)
    by_socket(hundred(), room)


# ---- a file that is cut, or has another line

# What is told of the file up to a line: from which number of lines on, which fault, and of which
# line where it isn't the last.
ENDS = [
    (0, "F3", None), (11, "F5", None), (17, "F9", 17), (19, "F9", None), (24, "F5", None),
    (26, "F9", 26), (29, "F9", None), (34, "F5", None), (36, "F9", 36),
]
CHANGES = [
    (3, "initial value random\0generator: 1", "F2 line 3"),
    (5, "projects                      :", "F6 line 5"),
    (6, "jobs (incl. supersource/sink ):  1", "F10 line 6"),
    (10, "  - nonrenewable              :  1   N", "F4 line 10"),
    (19, "1 1 2 3", "F7 line 20"),
    (20, "2 1 2 4 4", "F11 line 20"),
    (20, "2 1 1 7", "F7 line 20"),
    (20, "2 1 1 x", "F6 line 20"),
    (21, "3 2 2 4 5", "F8 line 21"),
    (22, "4 1 1 4", "F12 line 17 cycle 4"),
    (22, "4 1 2 3 6", "F12 line 17 cycle 3 4"),
    (30, "2 1 10001 1", "F10 line 30"),
    (36, None, "F9 line 36"),
    (38, "2 7", "F9 line 38"),
]


def cut_file(lines):
    """The import of the file up to a line: it is read where it ends behind line 38 or 39."""
    text = "".join(line + "\n" for line in WHOLE.splitlines()[:lines])
    if lines >= 38:
        status, answer = 201, imported(lines - 37)
    else:
        code, line = [end[1:] for end in ENDS if end[0] <= lines][-1]
        status, answer = 422, f"E10 {code} line {lines if line is None else line}\n"
    return asked("POST /desks/cuts/projects", "cuts-key-1", text, status, answer)


def changed_file(number, other, told_of_it):
    """The import of the file with another text in the place of a line, or without it."""
    lines = WHOLE.splitlines()
    lines[number - 1 : number] = [] if other is None else [other]
    text = "".join(line + "\n" for line in lines)
    return asked("POST /desks/cuts/projects", "cuts-key-1", text, 422, f"E10 {told_of_it}\n")


def cut_files():
    """A file of 39 lines that ends after each of its lines, with thirteen wrong lines, and without
    the title of its last section."""
    ends = [cut_file(lines) for lines in range(40)]
    return [opening("cuts", "cuts-key-1"), *ends, *(changed_file(*change) for change in CHANGES)]


def try_cut_files(room):
    """A file that is cut after each line."""
    same("the lines of the file", len(WHOLE.splitlines()), 39)
    try_story(cut_files(), room)


# ---- a request that is cut


def sent(head, body, wanted):
    """An exchange by the lines of its head, each with its end, and its body."""
    lines = "".join(line + "\r\n" for line in [*head, ""])
    return tell(raw_exchange(lines.encode() + body), wanted)


def cut_requests():
    """A removal and an opening, each cut after each of its bytes: no request, and nothing changes.
    Then both are whole."""
    removal = sent(
        ["DELETE /desks/north/plans/1 HTTP/1.0", "Desk-Key: north-key-1", "Content-Length: 3"],
        b"123", response(200, "json", b'{"n":1}\n'))
    body = b'{"desk":"south","key":"south-key-1"}'
    head = ["POST /office/desks HTTP/1.1", "Host: a", f"Desk-Key: {OFFICE_KEY}"]
    head.append(f"Content-Length: {len(body)}")
    opened = sent(head, body, response(201, "json", b'{"desk":"south"}\n'))
    cuts = [whole.raw[:length] for whole in (removal, opened) for length in range(len(whole.raw))]
    wrong = refusal(400, "H1 message")
    return [
        opening("north", "north-key-1"),
        asked("POST /desks/north/projects", "north-key-1", SIX, 201, imported(1)),
        *(tell(raw_exchange(cut), wrong) for cut in cuts),
        removal,
        opened,
    ]


def try_cut_requests(room):
    """Requests that are cut after each of their bytes."""
    by_replay(cut_requests(), room)
    by_socket(cut_requests(), room)


# ---- lengths

LONG_HEAD = ["GET /desks/long/plans HTTP/1.0", "Desk-Key: long-key-1"]
DATES = b""" act       d      ES      EF      LS      LF      TF      FF
   1       0       0       0       0       0       0       0 *
   2       3       0       3       0       3       0       0 *
   3       2       0       2       1       3       1       0
   4       4       3       7       3       7       0       0 *
   5       3       2       5       4       7       2       2
   6       0       7       7       7       7       0       0 *
T 7
"""


def head_of(length):
    """A head of so many bytes, without the empty line behind it."""
    start = sum(len(line) + 2 for line in LONG_HEAD) + len("X: ") + len("\r\n\r\n")
    return [*LONG_HEAD, "X: " + "x" * (length - start)]


def many_fields():
    """Heads of 63, 64 and 65 fields."""
    none, wrong = response(200, "json", b'{"plans":[]}\n'), refusal(400, "H1 message")
    for others, wanted in [(62, none), (63, none), (64, wrong)]:
        yield sent(LONG_HEAD + ["A: b"] * others, b"", wanted)


def long_heads():
    """Heads of 8,191, 8,192 and 8,193 bytes."""
    none, wrong = response(200, "json", b'{"plans":[]}\n'), refusal(400, "H1 message")
    for length, wanted in [(8191, none), (8192, none), (8193, wrong)]:
        exchange = sent(head_of(length), b"", wanted)
        same("the length of a head", len(exchange.raw), length)
        yield exchange


def long_body(text, length, wanted, filling=()):
    """The import of a text with spaces behind it up to a length."""
    head = ["POST /desks/long/projects HTTP/1.0", "Desk-Key: long-key-1"]
    head += [f"Content-Length: {length}", *filling]
    return sent(head, text.encode().ljust(length), wanted)


def longest_request():
    """The longest head and the longest body, 1,056,768 bytes, with more behind them."""
    body, first = 1048576, response(201, "json", imported(2).encode())
    start = len(long_body("", body, first, ["X: "]).raw) - body
    exchange = long_body(SIX, body, first, ["X: " + "x" * (8192 - start)])
    same("the length of a request", len(exchange.raw), 1056768)
    return tell(raw_exchange(exchange.raw + b"?"), first)


def off_routes():
    """Bodies on a path without a route, and with a method that the route hasn't: whole, a byte short,
    and with a byte behind them. One that is short is told first."""
    short = refusal(400, "H1 message")
    posted = response(405, "plain", b"H5 method\n", allow="GET")
    for start, wanted in [("PUT /desks/long", refusal(404, "H4 route")), ("POST /desks/long/plans", posted)]:
        for length in (1, 2, 4095, 4096, 4097, 8192, 1048576):
            head = [f"{start} HTTP/1.0", f"Content-Length: {length}"]
            yield sent(head, b"x" * (length - 1), short)
            yield sent(head, b"x" * length, wanted)
            yield sent(head, b"x" * (length + 1), wanted)


def lengths():
    """What is as long as it may be is read, and what is longer is refused."""
    none, first = refusal(422, "E10 F3 line 1"), response(201, "json", imported(1).encode())
    return [
        opening("long", "long-key-1"),
        *long_heads(),
        *many_fields(),
        *off_routes(),
        long_body("", 1048576, none),
        long_body(SIX, 1048576, first),
        long_body(SIX, 1048577, refusal(413, "H2 too large")),
        asked("GET /desks/long/plans/1/dates", "long-key-1", "", 200, DATES.decode()),
        longest_request(),
        tell(raw_exchange(b" " * 1056767), refusal(400, "H1 message")),
        tell(raw_exchange(b" " * 1056769), refusal(400, "H1 message")),
    ]


def try_lengths(room):
    """Heads and bodies at their limits, and above them."""
    try_story(lengths(), room)


# ---- long responses


def chain(count):
    """The file of activities one after another, of one time unit each but for both ends."""
    arcs = [f"{i} 1 1 {i + 1}" for i in range(1, count)] + [f"{count} 1 0"]
    times = [f"{i} 1 {int(1 < i < count)} 0" for i in range(1, count + 1)]
    lines = SIX.splitlines()
    head = [line.replace("jobs: 6", f"jobs: {count}") for line in lines[:7]]
    return "\n".join([*head, *arcs, *lines[13:15], *times, *lines[21:], ""])


def chain_dates(count):
    """Its table of dates: each activity begins where the one before it ends, and none may slip."""
    lines = []
    for i in range(1, count + 1):
        start, time = max(i - 2, 0), int(1 < i < count)
        dates = [time, start, start + time, start, start + time, 0, 0]
        lines.append(f"{i:4}" + "".join(f"{date:8}" for date in dates) + " *\n")
    return DATES.decode().splitlines(keepends=True)[0] + "".join(lines) + f"T {count - 2}\n"


def long_responses():
    """Tables of up to 32,000 bytes, around the 4,096 that are handed over at once among them."""
    yield opening("long", "long-key-1")
    for n, count in enumerate([2, 60, 61, 62, 63, 64, 65, 66, 67, 128, 129, 500, 502], 1):
        yield asked("POST /desks/long/projects", "long-key-1", chain(count), 201, imported(n))
        yield asked(f"GET /desks/long/plans/{n}/dates", "long-key-1", "", 200, chain_dates(count))


def try_long_responses(room):
    """Responses that are handed over in several pieces."""
    try_story(list(long_responses()), room)


# ---- the long list

DESKS = [f"d{number}" for number in range(1, 11)]
CODE = '{"capacity":2,"code":"crew-a","kind":"crew"}\n'
BOUND = '{"code":"crew-a","place":1}\n'
CALENDAR = '{"days":"1111100","start":"2024-03-01"}\n'
LONGER = file_of("tests/trials/files/longer.sm").decode()
TABLE = """ act       d   start     end
   1       0       0       0
   2       3       0       3
   3       2       0       2
   4       4       3       7
   5       5       2       7
   6       0       7       7
makespan 7
"""
DAYS = """ act       first        last
   1           -           -
   2  2024-03-01  2024-03-05
   3  2024-03-01  2024-03-04
   4  2024-03-06  2024-03-11
   5  2024-03-05  2024-03-11
   6           -           -
"""


def turns_of(desk, n):
    """The seven requests of a desk in the round in which its plan has this number."""
    at, key = f"/desks/{desk}/plans", f"the-key-of-{desk}"
    return [
        asked(f"POST /desks/{desk}/projects", key, LONGER, 201, imported(n)),
        asked(f"POST {at}/{n}/bind", key, BOUND, 200, BOUND),
        asked(f"POST {at}/{n}/calendar", key, CALENDAR, 200, CALENDAR),
        asked(f"GET {at}/{n}/schedule/lft", key, "", 200, TABLE),
        asked(f"GET {at}/{n}/days/lft", key, "", 200, DAYS),
        asked(f"GET {at}", key, "", 200, listing([n])),
        asked(f"DELETE {at}/{n}", key, "", 200, f'{{"n":{n}}}\n'),
    ]


def rounds(first, last, turns=slice(None)):
    """Rounds from one to another of all desks, one desk after another, or some turns of them."""
    starts = [(desk, n) for n in range(first, last + 1) for desk in DESKS]
    return [turn for start in starts for turn in turns_of(*start)[turns]]


def no_plans():
    """No desk has a plan."""
    pairs = [(f"GET /desks/{desk}/plans", f"the-key-of-{desk}") for desk in DESKS]
    return [asked(*pair, "", 200, listing([])) for pair in pairs]


def long_list():
    """Ten desks in fifty rounds, 3,511 requests, and one round more: three parts, between which the
    store is opened again."""
    openings = [asked("POST /office/capacities", OFFICE_KEY, CODE, 200, CODE)]
    openings += [opening(desk, f"the-key-of-{desk}") for desk in DESKS]
    first, second = rounds(1, 25), rounds(26, 50)
    same("the requests of the long list", len(openings + first + second), 3511)
    return [
        openings + first,
        second + no_plans() + rounds(51, 51, slice(0, 3)),
        rounds(51, 51, slice(3, 7)) + no_plans(),
    ]


def by_replays(parts, room):
    """The parts of a story, each by one replay."""
    database, before = os.path.join(room, "replays.db"), []
    init(database)
    for part in parts:
        answered(part, database, written(part, room))
        before += part
        same_rows("the rows after a part of the list", rows(database, room), rows_behind(before))


def by_server(part, database, tables, room):
    """A part of a story by a server of its own. The rows are read after each 70 requests."""
    with serving(database, len(part) + 1) as server:
        connect(server.port).close()
        for number, exchange in enumerate(part, 1):
            what = named(number, exchange)
            same(what, talk(server.port, exchange.request()), exchange.expected())
            moved(tables, exchange)
            if number % 70 == 0:
                same_rows(f"the rows after {what}", rows(database, room), tables.dump())
        same("the end of a server that has served all", server.end(), DONE)


def by_servers(parts, room):
    """The parts of a story, each by a server of its own; the database, and its rows."""
    database, tables = os.path.join(room, "servers.db"), Tables()
    init(database)
    for part in parts:
        by_server(part, database, tables, room)
        same_rows("the rows after a part of the list", rows(database, room), tables.dump())
    return database, tables


def try_long_list(room):
    """The long list; no office is made over the tables that it leaves."""
    by_replays(long_list(), room)
    database, tables = by_servers(long_list(), room)
    over = plan("init", database, given=b"office-key-2\n")
    same("plan init over them", over, fault("K1 not ours"))
    same_rows("the rows after plan init over them", rows(database, room), tables.dump())


# ---- all in one office

# How many requests of the story `wire` open its office.
WIRE = 7


def together():
    """Stories of eight desks, one behind another in one office."""
    first = told("desks") + told("capacities") + told("lags") + told("wire")[WIRE:]
    return first + lengths() + cut_files() + hundred()


def try_together(room):
    """Stories of eight desks in one office."""
    by_replay(together(), room)
    by_socket(together(), room, 20)


def stories():
    """All longer stories, by their names."""
    parts = long_list()
    return {
        "hundred": hundred(),
        "cut_files": cut_files(),
        "cut_requests": cut_requests(),
        "lengths": lengths(),
        "long_responses": list(long_responses()),
        "together": together(),
        "long_list": [exchange for part in parts for exchange in part],
    }
