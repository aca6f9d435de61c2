"""Words of requests and commands: names, rules, budgets and calendars, mostly right ones."""

from model.words import Fault

from .texts import NAMES

PROJECT_RULES, SHOP_RULES = ("lft", "slk", "spt", "mts", "num"), ("spt", "mwkr", "fcfs")
NO_RULES = ("LFT", "best", "lf", "lftt")
BUDGETS = ("1", "2", "5", "12", "40", "150", "400", "3000")
NO_BUDGETS = ("0", "06", "+6", "200001", "six", "1000000", "2.0")
STARTS = ("2024-03-01", "1900-01-01", "2199-12-31", "2000-02-29", "2023-12-30", "2031-07-06")
NO_STARTS = ("2023-02-29", "1899-12-31", "2200-01-01", "20240301", "2024-3-1", "", "+2024-03-01")
MARKS = ("1111100", "1111111", "0000001", "1010101", "0000011", "1000000")
NO_MARKS = ("0000000", "111110", "11111000", "MTWTF..", "", "1111102")


def rule(draw, is_shop):
    """A rule, mostly one of this kind."""
    if draw.slips(0.1):
        return draw.pick(PROJECT_RULES + SHOP_RULES + NO_RULES)
    return draw.pick(SHOP_RULES if is_shop else PROJECT_RULES)


def budget(draw, pages):
    """A budget, often just the one that a search needs, or one word less."""
    needed = words_of(pages) if pages and draw.chance(0.6) else None
    if needed and not draw.slips(0.12):
        return str(max(needed - draw.number(0, 1), 1))
    return draw.pick(NO_BUDGETS if draw.slips(0.15) else BUDGETS)


def words_of(pages):
    """How many words a search visits, up to 400; None where there is no search."""
    try:
        return pages.search("400").visited
    except Fault:
        return None


def instance(draw, text):
    """The name of an instance, mostly one that a text has."""
    lines = text.decode("latin-1").split("\n")
    names = [line.strip()[9:].strip() for line in lines if line.strip().startswith("instance ")]
    name = draw.pick(names) if names else "-"
    is_plain = name in NAMES or name.isascii() and name.isalnum()
    return draw.pick("ab-x") if draw.slips(0.05) or not is_plain else name


def is_long(text):
    """A project or a shop that may leave a calendar."""
    return len(text) > 800 and text.count(b"10000") > 30


def calendar(draw, text):
    """The two texts of a calendar; for a long project mostly one that it may leave."""
    if is_long(text) and draw.chance(0.9):
        return draw.pick(("2000-01-01",) * 4 + ("2199-12-31",)), "0000001"
    start = draw.pick(NO_STARTS if draw.slips(0.08) else STARTS)
    return start, draw.pick(NO_MARKS if draw.slips(0.08) else MARKS)
