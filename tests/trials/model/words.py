"""Lines, words, numbers and streams of a text (docs/definitions.md, "Files")."""

import re

BLANKS = bytes([9, 11, 12, 13, 26, 32])
NUMBER = re.compile(rb"[0-9]{1,9}")
MOST_BYTES = 1048576
MOST_UNITS = 10000
MOST_TOGETHER = 1000000


class Fault(Exception):
    """Why there is no answer: a line that begins with a code."""

    def __init__(self, line):
        super().__init__(line)
        self.line = line


def file_fault(code, line, behind=""):
    return Fault(f"{code} line {line}{behind}")


def lines_of(text):
    """The lines of a text, each with its number, and without the blanks at its ends."""
    pieces = text.split(b"\n")
    if pieces[-1] == b"":
        pieces.pop()
    return [(number, piece.strip(BLANKS)) for number, piece in enumerate(pieces, 1)]


def words_of(line):
    """The words of a line, which blanks separate."""
    return [word for word in re.split(b"[" + BLANKS + b"]", line) if word]


def is_number(word):
    return NUMBER.fullmatch(word) is not None


def check_plain(text):
    """The checks that come before all others."""
    if len(text) > MOST_BYTES:
        raise file_fault("F1", 0)
    if b"\0" in text:
        raise file_fault("F2", text[: text.index(b"\0")].count(b"\n") + 1)


class Stream:
    """The words of some lines one after another, and the line of the word that was read last."""

    def __init__(self, lines, line):
        self.words = [(number, word) for number, text in lines for word in words_of(text)]
        self.place, self.line = 0, line

    def number(self):
        if self.place == len(self.words):
            raise file_fault("F9", self.line)
        self.line, word = self.words[self.place]
        self.place += 1
        if not is_number(word):
            raise file_fault("F6", self.line)
        return int(word)

    def within(self, code, least, greatest):
        """A number from a least to a greatest, or the fault of this code."""
        number = self.number()
        if not least <= number <= greatest:
            raise file_fault(code, self.line)
        return number

    def expect(self, code, wanted):
        self.within(code, wanted, wanted)

    def duration(self, so_far):
        """A duration behind others, which last so long together."""
        return self.within("F10", 0, min(MOST_UNITS, MOST_TOGETHER - so_far))

    def end(self):
        if self.place < len(self.words):
            raise file_fault("F9", self.words[self.place][0])
