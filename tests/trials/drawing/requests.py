"""Requests for an office, drawn so that most of them are accepted. What is right is judged by the
model alone, never here."""

import collections
import random

from model import Office
from model.messages import MOST_BODY, ROUTES, Refusal, Request

from .bodies import EDGES, spelled, spoiled_body
from .connections import faulty_request, request
from .draw import Draw
from .texts import project_text, shop_text
from .words import budget, calendar, instance, is_long, rule

OFFICE_KEY = "office-key-1"
DESKS = ("north", "north-2", "east", "a", "0-west")
NO_DESKS = ("nobody", "North", "-a", "x" * 40)
CODES = ("crew-a", "crew-b", "crew-c", "press", "lathe", "saw")
# So many plans are there before one goes for each that comes, those of the crowded desk apart, of
# which few go, so that it comes to hold as many as a desk may.
PLENTY = 60
CROWDED = "north-2"

# How often each call is drawn.
WEIGHTS = {
    "publish": 9, "open": 1, "key": 3, "capacities": 2, "plans": 3, "project": 8, "shop": 6,
    "remove": 4, "bind": 14, "calendar": 7, "lag": 8, "dates": 6, "schedule": 8, "chart": 7,
    "days": 9, "best": 10,
}


class Requests:
    """Draws requests for an office, which the model keeps."""

    def __init__(self, seed):
        self.draw = Draw(random.Random(seed))
        self.office = Office(OFFICE_KEY.encode())
        known = (OFFICE_KEY, *EDGES)
        self.keys = {Office(key.encode()).digest: key for key in known}
        self.tally = collections.Counter()
        self.last = []

    def following(self):
        """The bytes of the next request, and the response that the model gives."""
        sent = self.draw.pick(self.last) if self.last and self.draw.chance(0.04) else self.new()
        self.last = [*self.last[-20:], sent]
        wanted = self.office.answer(sent)
        self.count(sent, wanted)
        return sent, wanted

    def new(self):
        """The bytes of a request that isn't one of the last ones again."""
        self.draw.care = 0.1 if self.draw.chance(0.05) else 1
        call = self.call()
        path, body = getattr(self, "draw_" + call, self.draw_page)(call)
        key = self.key(path)
        form = faulty_request if self.draw.slips(0.08) else request
        return form(self.draw, ROUTES[call][0], path, key, body)

    def call(self):
        """A call; desks and codes come first, and where there are many plans one goes."""
        if len(self.office.desks) < 3 and self.draw.chance(0.2):
            return "open"
        call = self.draw.random.choices(list(WEIGHTS), list(WEIGHTS.values()))[0]
        others = [desk for desk, _ in self.office.plans if desk != CROWDED]
        return "remove" if call in ("project", "shop") and len(others) > PLENTY else call

    def count(self, sent, wanted):
        """Counts the call and what it was answered."""
        line = wanted.partition(b"\r\n\r\n")[2].partition(b"\n")[0].decode() or "head"
        status = wanted[9:12].decode()
        self.tally["status " + status] += 1
        self.tally[line.split(" ")[0] if status >= "400" else "fine"] += 1
        if status == "422":
            self.tally[" ".join(line.split(" ")[:2])] += 1
        try:
            self.tally[Request(sent).call] += 1
        except Refusal:
            self.tally["no call"] += 1

    # ---- parts of a request

    def known_key(self):
        """A new key, which is kept, so that it can be sent."""
        key = f"key-{self.draw.number(10000, 99999)}"
        self.keys[Office(key.encode()).digest] = key
        return key

    def desk(self):
        """A desk, mostly an existing one."""
        there = list(self.office.desks)
        if not there or self.draw.slips(0.02):
            return self.draw.pick(DESKS + NO_DESKS)
        return self.draw.pick(there)

    def importing(self):
        """The desk that imports: often the crowded one, until it is full."""
        held = sum(desk == CROWDED for desk, _ in self.office.plans)
        is_often = CROWDED in self.office.desks and held < 99
        return CROWDED if self.draw.chance(0.3 if is_often else 0.04) else self.desk()

    def key(self, path):
        """The key that a path takes, now and then another or none."""
        if self.draw.chance(0.03):
            return self.draw.pick((None, "wrong-key-1", *list(self.keys.values())[-9:]))
        if path.startswith("/office"):
            return OFFICE_KEY
        row = self.office.desks.get(path.split("/")[2])
        return "some-key-1" if row is None else self.keys.get(row[0], "some-key-1")

    def plan(self, *kinds):
        """The desk and the number of a plan of these kinds, mostly an existing one."""
        plans, long = self.office.plans.items(), self.long_plans()
        there = [own for own, plan in plans if plan.kind in kinds and own not in long]
        there = long if long and (not there or self.draw.chance(0.1)) else there
        if not there or self.draw.slips(0.03):
            others = ("0", "1", "01", "999999", "1000000", "12345678", "x", "-1", "1.0")
            return self.desk(), self.draw.pick(others)
        return self.draw.pick(there)

    def long_plans(self):
        return [own for own, plan in self.office.plans.items() if is_long(plan.body)]

    def place(self, call, *kinds):
        """The path of a call for a plan, and the plan; at times one of another kind."""
        kinds = kinds or ("project", "shop")
        kinds = ("shop",) if self.draw.slips(0.06) else kinds
        desk, n = self.plan(*kinds)
        zero = "0" if self.draw.slips(0.01) else ""
        return f"/desks/{desk}/plans/{zero}{n}/{call}", self.office.plans.get((desk, n))

    def body(self, members):
        form = spoiled_body if self.draw.slips(0.1) else spelled
        return form(self.draw, members)

    # ---- requests, by their calls

    def draw_publish(self, call):
        code = self.draw.pick(CODES)
        kind = "crew" if code.startswith("crew") else "machine"
        if self.draw.slips(0.1):
            kind = self.draw.pick(("crew", "machine"))
        most = (0, 1, 1, 1, 2, 2) if kind == "machine" else (0, 1, 2, 2, 2, 3, 3, 3, 4, 4, 5, 10000)
        capacity = self.draw.pick(most)
        return "/office/capacities", self.body({"code": code, "kind": kind, "capacity": capacity})

    def draw_open(self, call):
        return "/office/desks", self.body({"desk": self.draw.pick(DESKS), "key": self.known_key()})

    def draw_key(self, call):
        desk = self.draw.pick(NO_DESKS) if self.draw.chance(0.2) else self.desk()
        form = spoiled_body if self.draw.chance(0.3) else spelled
        return f"/office/desks/{desk}/key", form(self.draw, {"key": self.known_key()})

    def draw_capacities(self, call):
        return f"/desks/{self.desk()}/capacities", self.draw.pick((b"", b"", b"anything"))

    def draw_plans(self, call):
        return f"/desks/{self.desk()}/plans", b""

    def draw_project(self, call):
        text = project_text(self.draw)
        if self.draw.chance(0.01):
            stars = self.draw.pick((MOST_BODY, MOST_BODY + 1)) - len(text) - 1
            text = b"*" * stars + b"\n" + text
        return f"/desks/{self.importing()}/projects", text

    def draw_shop(self, call):
        text = shop_text(self.draw)
        return f"/desks/{self.importing()}/shops/{instance(self.draw, text)}", text

    def draw_remove(self, call):
        path, _ = self.place("")
        if CROWDED in path and self.draw.chance(0.9):
            return self.draw_remove(call)
        return path[:-1], b""

    def draw_bind(self, call):
        path, plan = self.place(call)
        kind = plan.takes() if plan else "crew"
        codes = [code for code in self.office.published if self.office.published[code][0] == kind]
        codes = [*CODES, "unknown", "none"] if self.draw.slips(0.1) or not codes else codes
        places = [place for place in range(4) if plan and plan.has_place(place)]
        places = (0, 1, 2, 3, 17) if self.draw.slips(0.05) or not places else places
        place = self.draw.pick(places)
        return path, self.body({"place": place, "code": self.draw.pick(codes)})

    def draw_calendar(self, call):
        path, plan = self.place(call)
        start, days = calendar(self.draw, plan.body if plan else b"")
        return path, self.body({"start": start, "days": days})

    def draw_lag(self, call):
        path, plan = self.place(call, "project")
        if plan and is_long(plan.body) and self.draw.chance(0.9):
            return self.draw_lag(call)
        arcs = plan.project().arcs if plan and plan.kind == "project" else []
        source, target = self.draw.pick(arcs) if arcs else (1, 2)
        if self.draw.slips(0.08):
            source, target = self.draw.pick((0, 3, 502, 503, 2**32)), self.draw.number(0, 8)
        lag = self.draw.pick((0, 0, 1, 1, 2, 3, 5, 9, 10000))
        return path, self.body({"from": source, "to": target, "lag": lag})

    def draw_best(self, call):
        path, plan = self.place(call)
        _, _, desk, _, n, _ = path.split("/")
        pages = self.office.pages((desk, int(n))) if plan else None
        return f"{path}/{budget(self.draw, pages)}", b""

    def draw_dates(self, call):
        return self.place(call, "project")[0], b""

    def draw_days(self, call):
        """The days of a plan, mostly of one with a calendar."""
        dated = [own for own, plan in self.office.plans.items() if plan.start]
        if not dated or self.draw.chance(0.4):
            return self.draw_page(call)
        desk, n = self.draw.pick(dated)
        is_shop = self.office.plans[desk, n].kind == "shop"
        return f"/desks/{desk}/plans/{n}/days/{rule(self.draw, is_shop)}", b""

    def draw_page(self, call):
        path, plan = self.place(call)
        return f"{path}/{rule(self.draw, plan is not None and plan.kind == 'shop')}", b""
