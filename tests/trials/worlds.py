"""Each desk of each story in an office with others and in one of its own: the responses are the
same bytes.
"""

import json
import os

import longer
import story as stories
from exchanges import OFFICE_KEY, Tables, digest, refusal
from programs import Wrong, init, rows
from story import answered, moved, same_rows, written


def all_stories():
    """The stories that stand in files, and the longer ones, by their names."""
    found = {name: stories.told(name) for name in stories.names()}
    found.update(longer.stories())
    return found


def is_request(exchange):
    """Its bytes spell a request, so that it was handled: no connection check failed."""
    return exchange.method in ("GET", "POST", "DELETE") and b"\r\n\r\nH" not in exchange.expected()


def opened_desk(exchange):
    """The desk that the body of an opening names, if it names one."""
    try:
        return json.loads(exchange.body)["desk"]
    except (ValueError, TypeError, KeyError):
        return None


def is_of_office(exchange, desk):
    """It publishes, or opens the desk, or sets the desk's key."""
    if exchange.path == "/office/desks":
        return opened_desk(exchange) == desk
    return exchange.path in ("/office/capacities", f"/office/desks/{desk}/key")


def belongs(exchange, desk, tables):
    """It is on a path of the desk with the desk's key; or it is the office's about the desk, with
    the office's key."""
    if not is_request(exchange) or exchange.key is None:
        return False
    if exchange.path.startswith("/office/"):
        return exchange.key == OFFICE_KEY and is_of_office(exchange, desk)
    is_key = desk in tables.desks and tables.desks[desk][0] == digest(exchange.key)
    return exchange.path.startswith(f"/desks/{desk}/") and is_key


def alone(story, desk):
    """What belongs to a desk of a story."""
    tables, own = Tables(), []
    for exchange in story:
        if belongs(exchange, desk, tables):
            own.append(exchange)
        moved(tables, exchange)
    return own


def desks_of(story):
    """The desks that a story opens."""
    tables = Tables()
    for exchange in story:
        moved(tables, exchange)
    return list(tables.desks)


def seen(lines, desk):
    """The rows that a desk sees: the office's key, all codes, and its own."""
    common = ("meta", "published")
    parted = [(line, line.split("|")) for line in lines]
    return [line for line, parts in parted if parts[0] in common or parts[1] == desk]


def left(story, room, name):
    """The rows that a story leaves in an office of its own, which answers as expected."""
    database = os.path.join(room, name)
    init(database)
    answered(story, database, written(story, room))
    return rows(database, room)


def each_alone(name, story, room):
    """Each desk of a story that asks something has an office of its own."""
    among = left(story, room, f"{name}.db")
    for desk in desks_of(story):
        own = alone(story, desk)
        if any(exchange.path.startswith("/desks/") for exchange in own):
            what = f"the rows that {desk} sees"
            same_rows(what, left(own, room, f"{name}-{desk}.db"), seen(among, desk))


def try_alone(room):
    """Each desk of each story has an office of its own: it gets the same responses, and the same
    rows."""
    for name, story in all_stories().items():
        try:
            each_alone(name, story, room)
        except Wrong as error:
            raise Wrong(f"a desk of the story {name} alone: {error}") from None


# ---- another desk between

KEY = "stranger-key"


def strange(turn, desk):
    """What another desk sends before a request: the office opens it, it imports a project, and asks
    to remove a plan of the desk."""
    opened, n = longer.opening("stranger", KEY), turn + 1
    send, remove = "POST /desks/stranger/projects", f"DELETE /desks/{desk}/plans/1"
    if turn:
        stories.tell(opened, refusal(409, "E04 desk exists"))
    made = longer.asked(send, KEY, longer.SIX, 201, longer.imported(n))
    if n > 100:
        stories.tell(made, refusal(409, "E08 100 plans"))
    return [opened, made, longer.asked(remove, KEY, "", 403, "E01 key\n")]


def crowded(story, desk):
    """A story with three requests of another desk before each of its own."""
    return [exchange for turn, own in enumerate(story) for exchange in [*strange(turn, desk), own]]


def try_crowded(room):
    """Each story that stands in a file, with three requests of another desk before each of its own,
    gets the same responses."""
    for name in stories.names():
        story = stories.told(name)
        desk = (desks_of(story) or ["north"])[0]
        lines = left(crowded(story, desk), room, f"{name}.db")
        others = [line for line in lines if line.split("|")[1] != "stranger"]
        same_rows(f"the rows of the story {name}", others, stories.rows_behind(story))
