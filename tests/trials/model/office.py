"""An office: its rows, and what each connection is answered and changes (docs/api.md, and
docs/definitions.md, "Desks")."""

import hashlib
import json
import re

from .bodies import members_of
from .messages import Refusal, Request, response
from .pages import ProjectPages, ShopPages
from .projects import read_project
from .shops import read_shop
from .texts import check_calendar, date_text
from .words import Fault

PLAN_NUMBER = re.compile(r"[1-9][0-9]{0,6}")
MOST_PLANS, MOST_NUMBER = 100, 1000000
REFUSALS = {
    "E01": (403, "E01 key"),
    "E02": (404, "E02 not found"),
    "E03": (400, "E03 body"),
    "E04": (409, "E04 desk exists"),
    "E05": (404, "E05 code not published"),
    "E06": (409, "E06 kind differs"),
    "E07": (409, "E07 other kind of plan"),
    "E08": (409, "E08 100 plans"),
    "E09": (409, "E09 numbers spent"),
}


def refuse_if(test, code):
    if test:
        raise Refusal(*REFUSALS[code])


def told(code, work, *given):
    """What some work gives; its fault is the rest of a refusal."""
    try:
        return work(*given)
    except Fault as fault:
        raise Refusal(422, f"{code} {fault.line}") from None


def digest(key):
    return hashlib.sha256(key).hexdigest()


def json_text(**members):
    """An answer in JSON, its members in the order of their names."""
    return json.dumps(members, sort_keys=True, separators=(",", ":")) + "\n"


class Plan:
    """A row of plans. Its project or shop is read again each time."""

    def __init__(self, kind, name, body):
        self.kind, self.name, self.body = kind, name, body
        self.start, self.days = "", ""

    def project(self):
        return read_project(self.body)

    def shop(self):
        return read_shop(self.body, self.name.encode())

    def read(self):
        return self.project() if self.kind == "project" else self.shop()

    def has_place(self, place):
        """A resource from 1 on, or a machine from 0 on."""
        if self.kind == "project":
            return 1 <= place <= len(self.project().capacities)
        return place < self.shop().machines

    def takes(self):
        """The kind of code that it is bound to."""
        return "crew" if self.kind == "project" else "machine"


class Office:
    """The rows of an office, and its answers."""

    def __init__(self, key):
        self.digest = digest(key)
        self.published, self.desks, self.plans, self.binds, self.lags = {}, {}, {}, {}, {}

    def answer(self, sent):
        """The response to the bytes of a connection."""
        try:
            request = Request(sent)
            status, text = self.reply(request)
        except Refusal as refusal:
            line = refusal.line.encode() + b"\n"
            return response(refusal.status, "text/plain", line, refusal.allow, refusal.is_head)
        kind = "application/json" if text.startswith("{") else "text/plain"
        return response(status, kind, text.encode())

    def reply(self, request):
        """The status and the text that answer a request."""
        parts = request.segments
        if parts[1] == "office":
            refuse_if(not self.has_key(self.digest, request), "E01")
            given = [parts[3]] if request.call == "key" else []
            return getattr(self, "call_" + request.call)(*given, request.body)
        row = self.desks.get(parts[2])
        refuse_if(row is None or not self.has_key(row[0], request), "E01")
        if len(parts) < 5 or parts[3] == "shops":
            return getattr(self, "call_" + request.call)(*parts[2::2], request.body)
        place = (parts[2], self.plan_number(parts))
        given = [request.body] if request.call in ("bind", "calendar", "lag") else parts[6:]
        return getattr(self, "call_" + request.call)(place, *given)

    def has_key(self, wanted, request):
        return request.key is not None and digest(request.key) == wanted

    def plan_number(self, parts):
        """The number of an existing plan."""
        is_there = PLAN_NUMBER.fullmatch(parts[4]) and (parts[2], int(parts[4])) in self.plans
        refuse_if(not is_there, "E02")
        return int(parts[4])

    # ---- for the office

    def call_publish(self, body):
        members = members_of("publish", body)
        refuse_if(members is None, "E03")
        code, kind, capacity = members
        refuse_if(self.published.get(code, (kind,))[0] != kind, "E06")
        self.published[code] = (kind, capacity)
        return 200, json_text(capacity=capacity, code=code, kind=kind)

    def call_open(self, body):
        members = members_of("open", body)
        refuse_if(members is None, "E03")
        desk, key = members
        refuse_if(desk in self.desks, "E04")
        self.desks[desk] = (digest(key.encode()), 1)
        return 201, json_text(desk=desk)

    def call_key(self, desk, body):
        refuse_if(desk not in self.desks, "E02")
        members = members_of("key", body)
        refuse_if(members is None, "E03")
        self.desks[desk] = (digest(members[0].encode()), self.desks[desk][1])
        return 200, json_text(desk=desk)

    # ---- for a desk

    def call_capacities(self, desk, body):
        rows = [
            {"capacity": capacity, "code": code, "kind": kind}
            for code, (kind, capacity) in sorted(self.published.items())
        ]
        return 200, json_text(capacities=rows)

    def call_plans(self, desk, body):
        rows = [
            {"kind": plan.kind, "n": n}
            for (own, n), plan in sorted(self.plans.items())
            if own == desk
        ]
        return 200, json_text(plans=rows)

    def keep(self, desk, plan):
        """Keeps an imported plan."""
        key, n = self.desks[desk]
        refuse_if(sum(own == desk for own, _ in self.plans) >= MOST_PLANS, "E08")
        refuse_if(n > MOST_NUMBER, "E09")
        told("E10", plan.read)
        self.plans[desk, n] = plan
        self.desks[desk] = (key, n + 1)
        return 201, json_text(kind=plan.kind, n=n)

    def call_project(self, desk, body):
        return self.keep(desk, Plan("project", "", body))

    def call_shop(self, desk, name, body):
        return self.keep(desk, Plan("shop", name, body))

    # ---- for a plan

    def call_remove(self, place):
        del self.plans[place]
        self.binds = {row: code for row, code in self.binds.items() if row[:2] != place}
        self.lags = {row: lag for row, lag in self.lags.items() if row[:2] != place}
        return 200, json_text(n=place[1])

    def call_bind(self, place, body):
        plan, members = self.plans[place], members_of("bind", body)
        refuse_if(members is None or not plan.has_place(members[0]), "E03")
        own, code = members
        refuse_if(code not in self.published, "E05")
        refuse_if(self.published[code][0] != plan.takes(), "E06")
        self.binds[*place, own] = code
        return 200, json_text(code=code, place=own)

    def call_calendar(self, place, body):
        plan, members = self.plans[place], members_of("calendar", body)
        refuse_if(members is None, "E03")
        told("E12", check_calendar, *members)
        plan.start, plan.days = members
        return 200, json_text(start=plan.start, days=plan.days)

    def call_lag(self, place, body):
        plan, members = self.plans[place], members_of("lag", body)
        refuse_if(members is None, "E03")
        refuse_if(plan.kind == "shop", "E07")
        source, target, lag = members
        refuse_if((source, target) not in plan.project().arcs, "E03")
        self.lags.pop((*place, source, target), None)
        if lag:
            self.lags[*place, source, target] = lag
        return 200, json_text(**{"from": source, "to": target, "lag": lag})

    # ---- pages

    def capacity(self, place, own):
        """The published capacity of what is bound to a place; None where nothing is."""
        code = self.binds.get((*place, own))
        return None if code is None else self.published[code][1]

    def bound_project(self, place):
        """The project of a plan with the lags of its desk and the capacities that are bound."""
        project = self.plans[place].project()
        for arc in project.arcs:
            project.lags[arc] = self.lags.get((*place, *arc), 0)
        bound = [self.capacity(place, k) for k in range(1, len(project.capacities) + 1)]
        own = zip(bound, project.capacities)
        project.capacities = [given if found is None else found for found, given in own]
        return project

    def pages(self, place):
        """The pages of a plan."""
        if self.plans[place].kind == "project":
            return ProjectPages(self.bound_project(place))
        shop = self.plans[place].shop()
        closed = [own for own in range(shop.machines) if self.capacity(place, own) == 0]
        return ShopPages(shop, closed)

    def call_dates(self, place):
        refuse_if(self.plans[place].kind == "shop", "E07")
        return 200, date_text(self.bound_project(place))

    def call_schedule(self, place, rule):
        return 200, told("E11", self.pages(place).schedule, rule)

    def call_chart(self, place, rule):
        return 200, told("E11", self.pages(place).chart, rule)

    def call_days(self, place, rule):
        plan, pages = self.plans[place], self.pages(place)
        starts = told("E11", pages.starts, rule)
        if not plan.start:
            raise Refusal(422, "E12 G4 no calendar")
        return 200, told("E12", pages.days, starts, (plan.start, plan.days))

    def call_best(self, place, budget):
        return 200, told("E11", self.pages(place).best, budget)

    # ---- the rows

    def rows(self):
        """The rows, a line each, sorted."""
        rows = [f"meta|2|{self.digest}"]
        rows += [f"published|{code}|{k}|{number}" for code, (k, number) in self.published.items()]
        rows += [f"desks|{desk}|{key}|{following}" for desk, (key, following) in self.desks.items()]
        for (desk, n), plan in self.plans.items():
            own = (plan.kind, plan.name, plan.body.hex(), plan.start, plan.days)
            rows.append("|".join(("plans", desk, str(n), *own)))
        rows += ["|".join(map(str, ("binds", *row, code))) for row, code in self.binds.items()]
        rows += ["|".join(map(str, ("lags", *row, lag))) for row, lag in self.lags.items()]
        return sorted(rows)
