"""Random stories of three desks, twice: each desk among the others and alone. The responses must
be the same bytes. The program is compared with itself: no response is predicted.
"""

import os
import random
import tempfile

from exchanges import OFFICE_KEY, Exchange, file_of
from programs import Wrong, init, plan, rows, same
from story import named, parted, rows_behind, same_rows, tell, written
from worlds import alone, left, seen

LENGTH = 100
DESKS = ["north", "north-2", "south"]
KEYS = ["north-key-1", "north-2-key", "key-number-4", "key-number-5", OFFICE_KEY, "short", None]
CODES = ["crew-a", "crew-b", "saw", "drill"]
FILES = [
    (None, "six.sm"), (None, "longer.sm"), (None, "five.sm"), (None, "two.sm"),
    ("-", "shop.txt"), ("one", "named.txt"),
]
RULES = ["lft", "slk", "spt", "mts", "num", "mwkr", "fcfs", "zzz"]
BUDGETS = ["1", "2", "10", "200", "0", "007"]
DATES = ["2024-03-01", "2000-01-01", "9999-12-20", "2023-02-29"]
MARKS = ["1111100", "0000001", "1010101", "0000000"]


class Drawing:
    """Requests that are drawn, and what is known of the office while they are."""

    def __init__(self, seed):
        self.chance = random.Random(seed)
        self.keys = dict(zip(DESKS, KEYS))
        self.imports = dict.fromkeys(DESKS, 0)

    def some(self, values):
        return self.chance.choice(values)

    def is_rare(self, times):
        return self.chance.randrange(times) == 0

    def key(self, right):
        """Mostly the right key."""
        return self.some(KEYS) if self.is_rare(12) else right

    def opening(self, desk):
        """The office opens a desk."""
        body = f'{{"desk":"{desk}","key":"{self.keys[desk]}"}}'
        return Exchange("POST", "/office/desks", OFFICE_KEY, body.encode())

    def key_set(self, desk):
        """The office gives a desk another key."""
        key, by = self.some(KEYS[:5]), self.key(OFFICE_KEY)
        if by == OFFICE_KEY:
            self.keys[desk] = key
        return Exchange("POST", f"/office/desks/{desk}/key", by, f'{{"key":"{key}"}}'.encode())

    def publication(self):
        """The office publishes a code, which mostly keeps its kind."""
        code, capacity = self.some(CODES), self.some([0, 1, 1, 2, 3, 9, 10001])
        kind = "crew" if code.startswith("crew") != self.is_rare(8) else "machine"
        body = f'{{"code":"{code}","kind":"{kind}","capacity":{capacity}}}'
        return Exchange("POST", "/office/capacities", self.key(OFFICE_KEY), body.encode())

    def imported(self, desk):
        """A desk imports a project or a shop."""
        name, file = self.some(FILES)
        if self.is_rare(12):
            name, file = "none", "named.txt"
        key = self.key(self.keys[desk])
        self.imports[desk] += name != "none" and key == self.keys[desk]
        path = f"/desks/{desk}/projects" if name is None else f"/desks/{desk}/shops/{name}"
        return Exchange("POST", path, key, file_of(f"tests/trials/files/{file}"))

    def number(self, desk):
        """A number of a plan, which mostly is there."""
        return self.chance.randint(1, max(1, self.imports[desk]))

    def changed(self, desk):
        """A desk changes one of its plans."""
        source, target, lag = self.some([1, 2]), self.some([2, 4]), self.some([0, 2, 2])
        call, body = self.some([
            ("bind", f'{{"code":"{self.some(CODES)}","place":{self.some([0, 1, 1, 2])}}}'),
            ("calendar", f'{{"start":"{self.some(DATES)}","days":"{self.some(MARKS)}"}}'),
            ("lag", f'{{"from":{source},"to":{target},"lag":{lag}}}'),
        ])
        path = f"/desks/{desk}/plans/{self.number(desk)}"
        if self.is_rare(12):
            return Exchange("DELETE", path, self.key(self.keys[desk]))
        return Exchange("POST", f"{path}/{call}", self.key(self.keys[desk]), body.encode())

    def shown(self, desk):
        """A desk asks for a page."""
        plan_path, rule = f"plans/{self.number(desk)}", self.some(RULES)
        page = self.some([
            "plans", "capacities", f"{plan_path}/dates", f"{plan_path}/best/{self.some(BUDGETS)}",
            *(f"{plan_path}/{call}/{rule}" for call in ("schedule", "chart", "days")),
        ])
        return Exchange("GET", f"/desks/{desk}/{page}", self.key(self.keys[desk]))

    def request(self):
        """A request of any desk, or of the office."""
        desk, turn = self.some(DESKS), self.chance.randrange(20)
        if turn < 1:
            return self.some([self.opening, self.key_set])(desk)
        if turn < 4:
            return self.publication()
        return self.some([self.imported, self.changed, self.changed, self.shown, self.shown])(desk)

    def story(self):
        """The desks are opened, and then so many requests drawn."""
        start = [asked(desk) for asked in (self.opening, self.imported) for desk in DESKS]
        return start + [self.request() for _ in range(LENGTH)]


def answers(story, database, room):
    """Gives each request of a story the response that the program writes."""
    init(database)
    status, out, err = plan("replay", database, *written(story, room))
    same("plan replay: the status and the errors", (status, err), (0, b""))
    responses = parted(out)
    same("the number of responses", len(responses), len(story))
    return [tell(exchange, response) for exchange, response in zip(story, responses)]


def told_alone(story, desk, among, room):
    """A desk gets the same responses alone, and the same rows; how many requests it has."""
    own = alone(story, desk)
    for number, exchange in enumerate(own, 1):
        if exchange.status > 500:
            raise Wrong(f"{named(number, exchange)} is answered for want: {exchange.told!r}")
    lines = left(own, room, f"{desk}.db")
    same_rows(f"the rows that {desk} sees", lines, seen(among, desk))
    return len(own)


def tell_story(seed, room):
    """A random story, and each desk of it alone: how many requests were done, and how many told."""
    story, database = Drawing(seed).story(), os.path.join(room, "among.db")
    among = answers(story, database, room)
    lines = rows(database, room)
    same_rows("the rows of all desks", lines, rows_behind(among))
    own = [told_alone(among, desk, lines, room) for desk in DESKS]
    return sum(exchange.status < 300 for exchange in among), sum(own)


def told_in_memory(seed):
    """The same in a folder of memory where there is one, since no disk is tried."""
    memory = "/dev/shm" if os.path.isdir("/dev/shm") else None
    with tempfile.TemporaryDirectory(dir=memory) as room:
        try:
            return tell_story(seed, room)
        except Wrong as error:
            raise Wrong(f"the story of the seed {seed}: {error}") from None


def try_drawn_worlds(count, seed):
    """Random stories. More than a third of the requests are done, and most belong to a desk."""
    told = [told_in_memory(number) for number in range(seed, seed + count)]
    done, own = (sum(column) for column in zip(*told))
    if 3 * done < count * LENGTH or 3 * own < 2 * count * LENGTH:
        raise Wrong(f"{done} requests were done and {own} told in {count} stories")
