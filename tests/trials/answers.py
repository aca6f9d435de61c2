"""Runs a command and compares its answer."""

import os
import subprocess
import sys

HERE = os.path.dirname(os.path.abspath(__file__))
sys.path.insert(0, os.path.dirname(HERE))

from program import PROGRAM, TOP

EXAMPLES = os.path.join(TOP, "examples")

MOST_SHOWN = 1000


class Wrong(Exception):
    """Something differs from what it should be."""


def shown(value, other):
    """How a value is written; of a long one the part about the first difference from another."""
    text = repr(value)
    begin = max(0, len(os.path.commonprefix([text, repr(other)])) - MOST_SHOWN // 2)
    return text if len(text) <= MOST_SHOWN else ".." + text[begin : begin + MOST_SHOWN] + ".."


def same(what, found, wanted):
    if found != wanted:
        differing = f"gave    {shown(found, wanted)}\n  and not {shown(wanted, found)}"
        raise Wrong(f"{what}\n  {differing}")


def plan(folder, *words, given=b"", variable=None):
    """The status and both outputs of a command that is given in a folder, with a variable of the
    environment, as NAME=VALUE."""
    run = ["env", variable, PROGRAM, *words] if variable else [PROGRAM, *words]
    done = subprocess.run(run, cwd=folder, input=given, capture_output=True, timeout=60)
    return done.returncode, done.stdout, done.stderr


def printed(text):
    """What a command gives that prints this text."""
    return 0, text.encode(), b""


def refused(line):
    """What a command gives that fails with this line."""
    return 1, b"", line.encode() + b"\n"


def written(folder, name, content):
    """The name of a file, once this is in it."""
    with open(os.path.join(folder, name), "wb") as file:
        file.write(content)
    return name


def content_of(*path):
    """All bytes of a file."""
    with open(os.path.join(*path), "rb") as file:
        return file.read()
