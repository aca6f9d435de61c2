"""Each route of an office under refused memory. From tests/clients/conversation, whose answers are worked
out by hand, it takes each route's first request that is accepted; `plan replay` reads that request
twice, over the office that the conversation has made until there, and one allocation behind the
opening of its file is refused: each in turn. Each response is the one of the page or E90, by which
the tables are left as they were; asked again, an office answers as it does with ample memory. The
tables are read by sqlite3 after each run.
"""

import os
import re
import sys

HERE = os.path.dirname(os.path.abspath(__file__))
TESTS = os.path.dirname(HERE)
sys.path.insert(0, os.path.join(TESTS, "clients"))
from exchanges import OFFICE_KEY, Exchange, Tables, conversation, refusal
from programs import PROGRAM, Wrong, copy, init, plan, rows, same

WANT_OF_MEMORY = (1, b"", b"E90 memory\n")
STARVED = refusal(503, "E90 memory")
VARIABLE = [
    (r"^/(office/)?desks/[^/]+", r"/\1desks/D"),
    (r"/plans/\d+", "/plans/N"),
    (r"/(schedule|chart|days)/\w+$", r"/\1/R"),
    (r"/best/\d+$", "/best/B"),
    (r"/shops/.*$", "/shops/I"),
]
# The routes of docs/api.md.
ROUTES = 16
NOBODY = Exchange("GET", "/nobody")


def route(exchange):
    """The method and the path of a request, with a letter for each name and number."""
    path = exchange.path
    for spelled, letter in VARIABLE:
        path = re.sub(spelled, letter, path)
    return f"{exchange.method} {path}"


def responses(text):
    """The responses in what `plan replay` prints."""
    return re.split(rb"(?=HTTP/1\.1 )", text)[1:]


class Trial:
    """A request that is sent twice to an office in a file, and what that does with ample memory."""

    def __init__(self, exchange, folder, tables):
        self.exchange, self.folder = exchange, folder
        self.kept, self.used = (os.path.join(folder, name) for name in ("kept.db", "used.db"))
        self.before, self.after = tables.dump(), None
        self.twice, self.name = None, route(exchange)

    def words(self, exchange):
        """The command by which an office answers a request twice."""
        path = os.path.join(self.folder, exchange.method + exchange.path.replace("/", "-"))
        with open(path, "wb") as file:
            file.write(exchange.request())
        return [PROGRAM, "replay", self.used, path, path]

    def prepare(self):
        copy(self.kept, self.used)

    def tables(self):
        return rows(self.used, self.folder)

    def range(self, refusals, words):
        """The numbers of the allocations behind the opening, of which a request to nobody asks for
        fewer than 20."""
        counts = []
        for asked in (words, self.words(NOBODY)):
            self.prepare()
            counts.append(refusals.asked(asked))
        return range(counts[1] - 20, counts[0] + 2)

    def judge(self, number, found, ample):
        """Compares what a refused run gave, and the tables behind it, with what ample memory gives;
        whether a response was E90."""
        first, second = responses(ample[1])
        allowed = {
            (first, second): self.twice,
            (STARVED, first): self.after,
            (first, STARVED): self.after,
        }
        told = tuple(responses(found[1]))
        what = f"{self.name}, allocation {number} refused"
        if found == WANT_OF_MEMORY:
            self.judge_silence(what)
        elif told not in allowed or found[::2] != ample[::2]:
            raise Wrong(f"{what}\n  gave {found!r}")
        else:
            same(f"{what}: the tables", self.tables(), allowed[told])
        return STARVED in told

    def judge_silence(self, what):
        """Nothing was printed, as `plan replay` does where there is no memory for all responses: so
        many of the requests were carried out whole."""
        found = self.tables()
        if found not in (self.before, self.after, self.twice):
            raise Wrong(f"{what}: the tables are {found!r}")

    def sweep(self, refusals):
        """How many refusals the requests met, and how many of these were answered by E90."""
        words = self.words(self.exchange)
        numbers = self.range(refusals, words)
        self.prepare()
        ample, _ = refusals.run(words)
        same(self.name, responses(ample[1])[0], self.exchange.expected())
        self.twice = self.tables()
        met = starved = 0
        for number in numbers:
            self.prepare()
            found, refused = refusals.run(words, number=number)
            starved += self.judge(number, found, ample)
            met += refused
        if met == len(numbers) or not starved:
            raise Wrong(f"{self.name}: the refusals missed the request")
        return met, starved


def trials(folder):
    """A trial for each route, with the office that its request meets."""
    office, tables, found, seen = os.path.join(folder, "office.db"), Tables(), [], set()
    init(office)
    for number, exchange in enumerate(conversation()):
        trial = Trial(exchange, os.path.join(folder, f"trial-{number}"), tables)
        if exchange.raw is None and exchange.status < 300 and trial.name not in seen:
            seen.add(trial.name)
            os.makedirs(trial.folder)
            copy(office, trial.kept)
            found.append(trial)
        answer(office, exchange, folder)
        if exchange.is_accepted():
            tables.apply(exchange)
        trial.after = tables.dump()
    same("the routes of the conversation", len(found), ROUTES)
    return found


def answer(office, exchange, folder):
    """Sends a request to the office that the next trials meet."""
    path = os.path.join(folder, "request")
    with open(path, "wb") as file:
        file.write(exchange.request())
    status, text, _ = plan("replay", office, path)
    same(f"{exchange.method} {exchange.path}", (status, text), (0, exchange.expected()))
