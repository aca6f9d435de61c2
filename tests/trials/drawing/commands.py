"""Commands on files with their words and texts, mostly right ones."""

from model.commands import pages_of
from model.projects import read_project
from model.schedules import check_needs, rule_starts
from model.words import Fault

from .texts import project_text, shop_text, spoiled_at_times
from .words import budget, calendar, instance, rule

PROJECT_COMMANDS = ("cpm", "schedule", "chart", "days", "best-project", "best-project", "check")
SHOP_COMMANDS = ("shop", "best", "best", "best", "names", "chart", "days")
OTHER_TEXTS = (b"", b"\n", b" " * 1048576, b"\n" * 1048577, b"x" * 1048577, b"1 1", b"\0")


def starts_of(text):
    """The starts of a schedule of a project; some numbers where there is none."""
    try:
        project = read_project(text)
        check_needs(project)
    except Fault:
        return [0, 0, 1, 2]
    return list(rule_starts(project, "num").values())


def starts_text(draw, text):
    """A text of starts, of which at times some are changed."""
    starts = starts_of(text)
    if draw.chance(0.6):
        place = draw.number(0, len(starts) - 1)
        starts[place] = draw.pick((0, 1, starts[place] + 1, max(starts[place] - 1, 0), 10000000))
        starts = [start + 2 for start in starts] if draw.chance(0.2) else starts
    pieces = [f"{start}{draw.pick((' ', ' ', chr(10)))}" for start in starts]
    return spoiled_at_times(draw, "".join(pieces), 0.15)


def searched(text, name):
    """The pages of a text; None where it is wrong."""
    try:
        return pages_of(text, name)
    except Fault:
        return None


def words_of(draw, name, text, behind):
    """The words of a command in front of the file."""
    if name in ("cpm", "names", "check"):
        return []
    if name.startswith("best"):
        return [budget(draw, searched(text, behind))]
    words = [rule(draw, len(behind) > 0)]
    return [*words, *calendar(draw, text)] if name == "days" else words


def command(draw):
    """A command, its text and its words; of a check the text of the starts too."""
    is_shop = draw.chance(0.45)
    name = draw.pick(SHOP_COMMANDS if is_shop else PROJECT_COMMANDS)
    text = shop_text(draw) if is_shop else project_text(draw)
    text = draw.pick(OTHER_TEXTS) if draw.chance(0.02) else text
    behind = [instance(draw, text)] if is_shop and name != "names" else []
    words = words_of(draw, name, text, behind)
    listed = [starts_text(draw, text)] if name == "check" else []
    return name, text, words, [*behind, *listed]
