"""The bodies of commands: JSON objects and their members (docs/definitions.md, "Desks")."""

import json
import math
import re

NAME = re.compile(r"[a-z0-9][a-z0-9-]{0,31}")
KEY = re.compile(r"[!-~]{8,64}")
STRING = re.compile(r'"(?:[^"\\]|\\.)*"')
MOST_LEVELS = 127
MOST_CAPACITY = 10000
MOST_LAG = 10000
MOST_ACTIVITIES = 502


class NoJson(ValueError):
    """Python reads more than JSON, or more than what is read here."""


def real(text):
    """A number that is no whole one; it has to be finite."""
    if math.isinf(float(text)):
        raise NoJson(text)
    return float(text)


def whole(text):
    """A number without a point or an exponent. Below 0, or from 2^64 on, it is none that counts."""
    real(text)
    return int(text) if text[0] != "-" and int(text) < 2**64 else float(text)


def constant(text):
    """NaN and Infinity aren't JSON."""
    raise NoJson(text)


def levels(text):
    """How deep arrays and objects stand in each other, in a text without strings."""
    depth, deepest = 0, 0
    for sign in re.findall(r"[\[\]{}]", text):
        depth += 1 if sign in "[{" else -1
        deepest = max(deepest, depth)
    return deepest


def json_of(body):
    """The value that a body says; ValueError where it is no JSON."""
    text = body.decode("utf-8")
    if levels(STRING.sub("", text)) > MOST_LEVELS:
        raise NoJson("levels")
    value = json.loads(text, parse_int=whole, parse_float=real, parse_constant=constant)
    for string in STRING.findall(text):
        json.loads(string).encode("utf-8")
    return value


def is_whole(value, most):
    return type(value) is int and 0 <= value <= most


def is_activity(value):
    """The number of an activity of some project, be it in this one or not."""
    return is_whole(value, MOST_ACTIVITIES) and value > 0


def is_name(value):
    return type(value) is str and NAME.fullmatch(value) is not None


def is_key(value):
    return type(value) is str and KEY.fullmatch(value) is not None


def is_text(value):
    return type(value) is str


# The members of each body, each with its rule.
MEMBERS = {
    "publish": {
        "code": is_name,
        "kind": lambda value: value in ("crew", "machine"),
        "capacity": lambda value: is_whole(value, MOST_CAPACITY),
    },
    "open": {"desk": is_name, "key": is_key},
    "key": {"key": is_key},
    "bind": {"place": lambda value: is_whole(value, 2**64), "code": is_name},
    "calendar": {"start": is_text, "days": is_text},
    "lag": {
        "from": is_activity,
        "to": is_activity,
        "lag": lambda value: is_whole(value, MOST_LAG),
    },
}


def members_of(call, body):
    """The members of a body in the order of the table; None where it is to be refused."""
    try:
        value = json_of(body)
    except (ValueError, RecursionError):
        return None
    rules = MEMBERS[call]
    if type(value) is not dict or any(member not in value for member in rules):
        return None
    if not all(rules[member](value[member]) for member in rules):
        return None
    return [value[member] for member in rules]
