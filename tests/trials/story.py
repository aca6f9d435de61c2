"""Stories: requests and their responses, to the byte. Each runs from files, over a socket, and one
request at a time.
"""

import os
import re

from exchanges import TOP, Tables, exchanges_in
from programs import Wrong, connect, init, plan, rows, same, serving, talk

STORIES = os.path.join(TOP, "tests", "trials", "stories")


def names():
    """The names of all stories that stand in files."""
    return sorted(os.listdir(STORIES))


def parted(out):
    """Responses that stand one behind another."""
    front, *responses = re.split(rb"(?=HTTP/1\.1 )", out)
    same("the bytes before the first response", front, b"")
    return responses


def told(name):
    """The exchanges of a story, each with its whole response."""
    folder = os.path.join(STORIES, name)
    story = exchanges_in(os.path.join(folder, "requests"))
    with open(os.path.join(folder, "responses"), "rb") as file:
        responses = parted(file.read())
    same("the number of responses", len(responses), len(story))
    for exchange, wanted in zip(story, responses):
        tell(exchange, wanted)
    return story


def tell(exchange, wanted):
    """Gives an exchange its whole response."""
    exchange.told, exchange.status = wanted, int(wanted[9:12])
    return exchange


def named(number, exchange):
    """How an exchange is called where something differs."""
    line = exchange.request()[:100].partition(b"\r\n")[0].decode("latin-1")
    return f"request {number}, {line!r}"


def written(story, room):
    """Files with the requests of a story."""
    paths = []
    for number, exchange in enumerate(story, 1):
        paths.append(os.path.join(room, f"request-{number:04}"))
        with open(paths[-1], "wb") as file:
            file.write(exchange.request())
    return paths


def shown(lines, others):
    """The rows that are among some and not among others, each cut to a line."""
    return "".join(f"\n    {line[:200]}" for line in lines if line not in others) or " nothing"


def same_rows(what, found, wanted):
    """The rows of a database are the wanted ones."""
    if found != wanted:
        more, less = shown(found, wanted), shown(wanted, found)
        raise Wrong(f"{what}\n  have too much:{more}\n  and lack:{less}")


def moved(tables, exchange):
    """The rows behind an exchange."""
    if exchange.is_accepted():
        tables.apply(exchange)
    return tables


def rows_behind(story):
    """The rows that the accepted commands of a story make."""
    tables = Tables()
    for exchange in story:
        moved(tables, exchange)
    return tables.dump()


def first_other(story, out):
    """Names the first response of a replay that isn't the wanted one."""
    at = 0
    for number, exchange in enumerate(story, 1):
        wanted = exchange.expected()
        same(f"plan replay: {named(number, exchange)}", out[at : at + len(wanted)], wanted)
        at += len(wanted)
    raise Wrong(f"plan replay wrote {out[at:]!r} behind the last response")


def answered(story, database, paths):
    """One replay gives all responses, one behind another."""
    status, out, err = plan("replay", database, *paths)
    same("plan replay: the status and the errors", (status, err), (0, b""))
    if out != b"".join(exchange.expected() for exchange in story):
        first_other(story, out)


def by_replay(story, room):
    """A story by one `plan replay`, and the rows that it leaves."""
    database = os.path.join(room, "replay.db")
    init(database)
    answered(story, database, written(story, room))
    same_rows("plan replay: the rows at the end", rows(database, room), rows_behind(story))


def by_single_replays(story, room):
    """A story by one `plan replay` a request, so that the store is opened again between."""
    database = os.path.join(room, "single.db")
    init(database)
    for number, (exchange, path) in enumerate(zip(story, written(story, room)), 1):
        same(named(number, exchange), plan("replay", database, path), (0, exchange.expected(), b""))
    same_rows("single replays: the rows at the end", rows(database, room), rows_behind(story))


def by_socket(story, room, stride=1):
    """A story by `plan serve`, one connection a request, with all rows read by sqlite3 after each
    one, or each so many."""
    database, tables = os.path.join(room, "serve.db"), Tables()
    init(database)
    with serving(database) as server:
        connect(server.port).close()
        for number, exchange in enumerate(story, 1):
            what = f"plan serve: {named(number, exchange)}"
            same(what, talk(server.port, exchange.request()), exchange.expected())
            moved(tables, exchange)
            if number % stride == 0 or number == len(story):
                same_rows(f"the rows after {what}", rows(database, room), tables.dump())


def try_story(story, room):
    """A story in each of the three ways."""
    by_replay(story, room)
    by_socket(story, room)
    by_single_replays(story, room)
