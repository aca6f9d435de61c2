#!/usr/bin/env python3
"""Runs worked examples of the commands on files: those of commands/SUBJECT.trial, and those over
many files of formulas.py, six_activities.py and fisher_thompson.py.

    tests/trials/commands.py             prints nothing on success
    tests/trials/commands.py -v          prints what was tried
    tests/trials/commands.py SUBJECT..   only these, for example `schedules` or `cuts`

A trial file lists files, commands and their outputs, to the byte:

    # a comment
    file six.sm                           a file of examples/
    file pair.txt                         a file with this text, one line after each bar
    | 2 2
    | 0 4 1 1
    | 0 1 1 3
    file bare.txt "1 1\n0 5"              the same in quotes, with the escapes of Python
    file long.sm is six.sm, line 33 "x"   a file that differs from an earlier one in that line
    with six.sm, line 38 "   1"           the same change, for the next command alone
    with six.sm, line 36 removed          without the line, for the next command alone
    $ plan schedule lft six.sm            a command; `< pair.txt` at its end is standard input
    $ PLAN_HINTS=1 plan cpm six.sm        a command with a variable of the environment
    | the lines of standard output        status 0 and nothing on standard error
    ~ the same                            lines that end with CR LF
    = a line on standard error            below standard output: status 0, and a note on a list
    ! the line on standard error          status 1 and nothing on standard output; the hint is a
                                          second line
    ? the lines on standard error         status 2 and nothing on standard output

A command without such lines prints nothing and exits with status 0. The commands run in a
temporary folder, where the files remain until the end of the trial file. The program is the one
that ./plan runs, or the one that PLAN_PROGRAM names.
"""

import ast
import os
import re
import shlex
import sys
import tempfile

sys.dont_write_bytecode = True
sys.path.insert(0, os.path.dirname(os.path.abspath(__file__)))
import fisher_thompson
import formulas
import six_activities
from answers import EXAMPLES, HERE, Wrong, content_of, plan, same, written

FORMULAS = six_activities.FORMULAS | formulas.FORMULAS | fisher_thompson.FORMULAS
FOLDER = os.path.join(HERE, "commands")
PLAIN_FILE = re.compile(r'file (\S+)(?: (".*"))?')
OTHER_FILE = re.compile(r'file (\S+) is (\S+), line (\d+) (".*")')
CHANGE = re.compile(r'with (\S+), line (\d+) (".*"|removed)')
COMMAND = re.compile(r"\$ (?:(\w+=\S*) )?plan (.*)")


class Block:
    """A line of a trial file, and the lines behind bars and marks below it."""

    def __init__(self, number, line):
        self.number, self.line = number, line
        self.printed, self.noted, self.told, self.misused = [], [], [], []

    def add(self, line):
        """Takes a line that begins with a bar, a tilde or a mark."""
        if line[1:2] not in ("", " "):
            raise Wrong(f"below `{self.line}` there is no blank in {line}")
        lines = {"=": self.noted, "!": self.told, "?": self.misused}.get(line[0], self.printed)
        lines.append(line[2:] + ("\r" if line[0] == "~" else ""))

    def refuse_lines(self):
        """That there are no lines below the block, which doesn't take any."""
        if self.printed or self.noted or self.told or self.misused:
            raise ValueError("no lines are wanted below it")

    def wanted(self):
        """The status and both outputs that the block wants of its command."""
        if any(not line.startswith("hint: ") for line in self.told[1:]):
            raise ValueError("more than one line of an error is wanted")
        if [self.printed, self.told, self.misused].count([]) < 2:
            raise ValueError("lines of several kinds are wanted")
        if len(self.noted) > 1 or self.noted and not self.printed:
            raise ValueError("one line of notes is wanted, below an output")
        if self.misused:
            return 2, b"", text_of(self.misused)
        if self.told:
            return 1, b"", text_of(self.told)
        return 0, text_of(self.printed), text_of(self.noted)


def text_of(lines):
    """The bytes of lines."""
    return "".join(line + "\n" for line in lines).encode()


def blocks_of(path):
    """The blocks of a trial file."""
    blocks = []
    lines = content_of(path).decode().split("\n")
    for number, line in enumerate(lines, 1):
        if line[:1] in ("|", "~", "=", "!", "?"):
            blocks[-1].add(line)
        elif line and not line.startswith("#"):
            blocks.append(Block(number, line))
    return blocks


def quoted(text):
    """The bytes of a text in quotes."""
    return ast.literal_eval("b" + text)


def changed(content, number, line):
    """A content with another line in the place of one, or without it."""
    lines = content.split(b"\n")
    if not 1 <= number < len(lines):
        raise ValueError(f"there is no line {number}")
    lines[number - 1 : number] = [] if line is None else [line]
    return b"\n".join(lines)


class Trial:
    """A trial file on its way through its blocks."""

    def __init__(self, name, folder):
        self.name, self.folder, self.changes, self.count = name, folder, [], 0

    def take(self, block):
        """Does what a block says, and names it where something is wrong."""
        place = f"tests/trials/commands/{self.name}.trial, line {block.number}: {block.line}"
        try:
            self.do(block, place)
        except (OSError, SyntaxError, ValueError) as problem:
            raise Wrong(f"{place}: {problem}") from None

    def do(self, block, place):
        """Writes a file, keeps a change, or gives a command."""
        if match := COMMAND.fullmatch(block.line):
            self.run(block, place, shlex.split(match[2]), match[1])
        elif match := CHANGE.fullmatch(block.line):
            block.refuse_lines()
            line = None if match[3] == "removed" else quoted(match[3])
            self.changes.append((match[1], int(match[2]), line))
        elif match := OTHER_FILE.fullmatch(block.line):
            block.refuse_lines()
            content = content_of(self.folder, match[2])
            written(self.folder, match[1], changed(content, int(match[3]), quoted(match[4])))
        elif match := PLAIN_FILE.fullmatch(block.line):
            written(self.folder, match[1], self.plain(block, *match.groups()))
        else:
            raise ValueError("that isn't understood")

    def plain(self, block, name, text):
        """The content of a file: named, below its name, or after it."""
        if text or block.noted or not block.printed:
            block.refuse_lines()
            return quoted(text) if text else content_of(EXAMPLES, name)
        return block.wanted()[1]

    def run(self, block, place, words, variable):
        """Gives a command, between the changes that are made for it, and compares the answer."""
        given = b""
        kept = [(name, content_of(self.folder, name)) for name, _, _ in self.changes]
        for name, number, line in self.changes:
            written(self.folder, name, changed(content_of(self.folder, name), number, line))
        if "<" in words:
            words, given = words[:-2], content_of(self.folder, words[-1])
        same(place, plan(self.folder, *words, given=given, variable=variable), block.wanted())
        self.restore(kept)
        self.count += 1

    def restore(self, kept):
        """Undoes the changes, the last first."""
        for name, content in reversed(kept):
            written(self.folder, name, content)
        self.changes = []


def try_file(name, folder):
    """Tries a trial file, and says how many commands it has."""
    trial = Trial(name, folder)
    for block in blocks_of(os.path.join(FOLDER, name + ".trial")):
        trial.take(block)
    if trial.changes or not trial.count:
        raise Wrong(f"{name}.trial has no command, or a change without one")
    return trial.count


def subjects():
    """The names of all trials, those in files first."""
    names = sorted(os.listdir(FOLDER))
    return [name.removesuffix(".trial") for name in names] + list(FORMULAS)


def try_commands(is_verbose, names=()):
    """Tries the commands on files: all subjects, or these."""
    for name in names or subjects():
        if name not in subjects():
            raise Wrong(f"there is no trial {name}")
        with tempfile.TemporaryDirectory() as folder:
            count = FORMULAS[name](folder) if name in FORMULAS else try_file(name, folder)
        if is_verbose:
            print(f"{name}: {count} commands")


def main():
    names = [word for word in sys.argv[1:] if word != "-v"]
    try:
        try_commands("-v" in sys.argv[1:], names)
    except Wrong as wrong:
        print(f"tests/trials/commands.py: {wrong}", file=sys.stderr)
        return 1
    return 0


if __name__ == "__main__":
    sys.exit(main())
