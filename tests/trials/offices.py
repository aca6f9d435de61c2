"""Databases that `plan init` makes from various keys, and desks whose next number the sqlite3
shell has set.
"""

import itertools
import os
import subprocess

import longer
from exchanges import OFFICE_KEY, digest
from programs import DONE, PROGRAM, fault, init, plan, rows, same, sql
from story import answered, rows_behind, same_rows, told, written

LONGEST = "0123456789012345678901234567890123456789012345678901234567890123"

# Texts, and the keys that they say: the first line without its end.
KEYS = [
    ("password", "password"),
    ("password\n", "password"),
    ("password\r\n", "password"),
    ("password\r", "password"),
    ("password\nand more", "password"),
    ("password\r\nand more\r\n", "password"),
    ("12345678\n\n", "12345678"),
    (LONGEST, LONGEST),
    (LONGEST + "\n", LONGEST),
    (LONGEST + "\r\n", LONGEST),
    (LONGEST + "\r\nmore", LONGEST),
]
NO_KEYS = [
    "", "\n", "\npassword", "1234567\n", "two words", "pass\rword", "\r\n", "pass\n", "pass",
    LONGEST + "4", LONGEST + "45", LONGEST + "4\n", LONGEST + "\r\r\n", LONGEST + "456789",
]

# The SHA-256 of `password`, as others print it.
PASSWORD = "5e884898da28047151d0e56f8dc6292773603d0d6aabbdd62a11ef721d1542d8"


def try_texts_of_keys(room):
    """What a text says is the key of the office."""
    same("the digest of `password`", digest("password"), PASSWORD)
    for number, (text, key) in enumerate(KEYS):
        database = os.path.join(room, f"{number}.db")
        same(f"plan init by {text!r}", plan("init", database, given=text.encode()), DONE)
        same_rows(f"the rows by {text!r}", rows(database, room), [f"meta|2|{digest(key)}"])


def try_no_keys(room):
    """An invalid key is refused, and no file is made; an existing office stays."""
    database, there = os.path.join(room, "new.db"), os.path.join(room, "there.db")
    init(there)
    for text, place in itertools.product(NO_KEYS, (database, there)):
        made = plan("init", place, given=text.encode())
        same(f"plan init {place} by {text!r}", made, fault("K3 key"))
    over = plan("init", there, given=b"password")
    same("plan init over an office", over, fault("K1 not ours"))
    same("a file after a wrong key", os.path.exists(database), False)
    same_rows("the rows of the office", rows(there, room), [f"meta|2|{digest(OFFICE_KEY)}"])


# Texts, and how many of their bytes are read: up to the first line feed, and at most 66.
READ = [
    ("password\nnext", 9),
    ("password\r\nnext\n", 10),
    ("1234567\nnext", 8),
    ("password", 8),
    (LONGEST + "\r\nnext", 66),
    (LONGEST + "456789", 66),
]


def try_nothing_behind_the_line(room):
    """Nothing of a file is read behind the line with the key."""
    text = os.path.join(room, "text")
    for number, (content, length) in enumerate(READ):
        with open(text, "wb") as file:
            file.write(content.encode())
        with open(text, "rb") as file:
            words = [PROGRAM, "init", os.path.join(room, f"{number}.db")]
            subprocess.run(words, stdin=file, stderr=subprocess.DEVNULL, timeout=60)
            found = os.lseek(file.fileno(), 0, os.SEEK_CUR)
        same(f"the bytes that are read of {content!r}", found, length)


def try_full_output(room):
    """A replay whose responses find no room fails, and the office keeps what was done."""
    database, story = os.path.join(room, "office.db"), told("opening")
    init(database)
    words = [PROGRAM, "replay", database, *written(story[:1], room)]
    with open("/dev/full", "wb") as full:
        done = subprocess.run(words, stdout=full, stderr=subprocess.PIPE, timeout=60)
    same("a replay into a full output", (done.returncode, done.stderr), (1, b"I3 output\n"))
    same_rows("the rows after it", rows(database, room), rows_behind(story))
    answered(story[1:], database, written(story[1:], room))


def with_next(room, number):
    """A closed store whose one desk has a next number."""
    database = os.path.join(room, f"next-{number}.db")
    init(database)
    story = [longer.opening("north", "north-key-1")]
    answered(story, database, written(story, room))
    sql(database, f"UPDATE desks SET next = {number};")
    return database


def rows_of(number):
    """The rows of that store."""
    return [f"desks|north|{digest('north-key-1')}|{number}", f"meta|2|{digest(OFFICE_KEY)}"]


def last_numbers():
    """A desk whose next number is 1,000,000 imports one plan more, then none. A number isn't used
    again."""
    send, key, spent = "POST /desks/north/projects", "north-key-1", "E09 numbers spent\n"
    return [
        longer.asked(send, key, longer.SIX, 201, longer.imported(1000000)),
        longer.asked(send, key, longer.SIX, 409, spent),
        longer.asked(send, key, "", 409, spent),
        longer.asked("GET /desks/north/plans", key, "", 200, longer.listing([1000000])),
        longer.asked("DELETE /desks/north/plans/1000000", key, "", 200, '{"n":1000000}\n'),
        longer.asked(send, key, longer.SIX, 409, spent),
        longer.asked("GET /desks/north/plans", key, "", 200, longer.listing([])),
    ]


def try_last_number(room):
    """The last number of a plan."""
    database = with_next(room, 1000000)
    answered(last_numbers(), database, written(last_numbers(), room))
    same_rows("the rows at the end", rows(database, room), rows_of(1000001))


LISTING = [longer.asked("GET /desks/north/plans", "north-key-1", "", 200, longer.listing([]))]


def try_next_numbers(room):
    """The least and the greatest number that a desk's next plan may get."""
    for number in (1, 1000001):
        answered(LISTING, with_next(room, number), written(LISTING, room))


def try_no_next_numbers(room):
    """A store isn't opened that says a next number that no office writes."""
    for number in (0, 1000002):
        database = with_next(room, number)
        replayed = plan("replay", database, *written(LISTING, room))
        same(f"the next number {number}", replayed, fault("K1 not ours"))
        same_rows(f"the rows of {number}", rows(database, room), rows_of(number))
