"""Databases that the sqlite3 shell has written: opened, migrated to the second version, or
refused.
"""

import os

import longer
from exchanges import digest, file_of
from programs import DONE, HINTED, Wrong, fault, hinted, plan, rows, same, sql, told_by_sqlite
from story import answered, same_rows, written

KEY = "password"
ROWS = file_of("tests/trials/files/rows.sql").decode()
LAG = "INSERT INTO lags (desk, n, src, dst, lag) VALUES ('north', 1, 1, 2, 2);"
FIRST = file_of("tests/trials/files/first-version.sql").decode()
SECOND = file_of("tests/trials/files/second-version.sql").decode()
NOT_OURS, VERSION = fault("K1 not ours"), fault("K2 version")


def asked(line, answer, body="", status=200):
    """An exchange with the key of the stores."""
    return longer.asked(line, KEY, body, status, answer)


# ---- a store of the second version

PLANS = '{"plans":[{"kind":"project","n":1},{"kind":"shop","n":2},{"kind":"project","n":3}]}\n'
LISTING = [asked("GET /desks/north/plans", PLANS)]

# The lag moves activity 2, and the end.
DATES = """ act       d      ES      EF      LS      LF      TF      FF
   1       3       0       3       0       3       0       0 *
   2       4       5       9       5       9       0       0 *
T 9
"""

# Friday the first of March, and then each Monday to Friday.
DAYS = """ act       first        last
   1  2024-03-01  2024-03-05
   2  2024-03-08  2024-03-13
"""
STORY = LISTING + [
    asked("GET /desks/north/plans/1/dates", DATES),
    asked("GET /desks/north/plans/1/days/lft", DAYS),
]


def filled(room, change=""):
    """A store with the rows, and a lag of 2 on an arc of the first project, that was then
    changed."""
    database = os.path.join(room, f"{len(os.listdir(room))}.db")
    same("plan init", plan("init", database, given=KEY.encode()), DONE)
    sql(database, ROWS + LAG + change)
    return database


def whole(database):
    """All that the sqlite3 shell finds in a closed store."""
    shell = told_by_sqlite(database, ".dump")
    same(".dump", shell.stderr, "")
    return shell.stdout


def refused(database, room, change, wanted):
    """A store isn't opened, and stays as it is."""
    before = whole(database)
    same(f"the store after {change}", plan("replay", database, *written(LISTING, room)), wanted)
    if whole(database) != before:
        raise Wrong(f"the store that isn't opened is changed, after {change}")


def try_taken(room):
    """A store is opened as often as it is asked, and no office is made over it."""
    database = filled(room)
    before = rows(database, room)
    for _ in range(3):
        answered(STORY, database, written(STORY, room))
    same("plan init over it", plan("init", database, given=KEY.encode()), NOT_OURS)
    answered(STORY, database, written(STORY, room))
    same_rows("the rows at the end", rows(database, room), before)


def try_by_hand(room):
    """A store of the second version that the shell has made is opened."""
    database = os.path.join(room, "by-hand.db")
    sql(database, SECOND + ROWS + LAG)
    before = rows(database, room)
    answered(STORY, database, written(STORY, room))
    same_rows("the rows at the end", rows(database, room), before)


def changes():
    """The changes that break one rule each."""
    lines = file_of("tests/trials/files/not-ours.sql").decode().split("\n")
    return [line for line in lines if line and not line.startswith("--")]


def try_not_ours(room):
    """Rows that no office writes, that contradict one another, and other tables."""
    same("the number of changes", len(changes()), 53)
    for change in changes():
        refused(filled(room, change), room, change, NOT_OURS)


def try_versions(room):
    """Another version gets another error than other tables."""
    for change, wanted in [
        ("UPDATE meta SET version = 9;", VERSION),
        ("UPDATE meta SET version = 0;", VERSION),
        ("UPDATE meta SET version = -2;", VERSION),
        ("UPDATE meta SET version = 1;", NOT_OURS),
        ("UPDATE meta SET version = 9; UPDATE published SET capacity = 10001;", NOT_OURS),
    ]:
        refused(filled(room, change), room, change, wanted)


def try_no_tables(room):
    """A database without tables is none of ours."""
    database = os.path.join(room, "none.db")
    sql(database, "CREATE TABLE notes (a TEXT); DROP TABLE notes;")
    refused(database, room, "no table", NOT_OURS)


# 30 desks more, of 100 plans each, with the key of the others.
MANY = """WITH RECURSIVE tens(k) AS (SELECT 10 UNION ALL SELECT k + 1 FROM tens WHERE k < 39)
INSERT INTO desks SELECT 'desk-' || k, digest, 101 FROM desks, tens WHERE desk = 'south';
WITH RECURSIVE numbers(i) AS (SELECT 1 UNION ALL SELECT i + 1 FROM numbers WHERE i < 100)
INSERT INTO plans SELECT d.desk, i, kind, name, body, start, days FROM desks d, numbers, plans p
WHERE d.desk LIKE 'desk-%' AND p.desk = 'north' AND p.n = 3;"""


def try_many(room):
    """A store of 3,003 plans is opened; a wrong row behind all others is seen."""
    database = filled(room, MANY)
    entries = ",".join(f'{{"kind":"project","n":{n}}}' for n in range(1, 101))
    listing = f'{{"plans":[{entries}]}}\n'
    story = STORY + [asked("GET /desks/desk-39/plans", listing)]
    answered(story, database, written(story, room))
    last = "UPDATE plans SET body = x'00' WHERE desk = 'desk-39' AND n = 100;"
    refused(filled(room, MANY + last), room, last, NOT_OURS)


def try_spent(room):
    """Spent numbers stay spent, also where fewer than a hundred plans are there."""
    database = filled(room, "UPDATE desks SET next = 1000001 WHERE desk = 'north';")
    project, spent = file_of("tests/trials/files/two.sm").decode(), "E09 numbers spent\n"
    story = [asked("POST /desks/north/projects", spent, project, 409)]
    answered(story, database, written(story, room))


# ---- a store that plan 0.2.0 made

# Its columns `source` and `target` were those that are `src` and `dst`.
EARLIER = file_of("tests/trials/files/version-0.2.0.sql").decode()
EARLIER_LAG = LAG.replace("src, dst", "source, target")


def renames():
    """Returns the two lines of docs/operations.md that upgrade such a store."""
    lines = file_of("docs/operations.md").decode().split("\n")
    found = [line.strip() for line in lines if line.startswith("    ALTER TABLE ")]
    same("the lines of docs/operations.md that rename columns", len(found), 2)
    return found


def try_earlier_columns(room):
    """A store that plan 0.2.0 made is refused, and opened once its columns have their names."""
    database = os.path.join(room, "earlier.db")
    sql(database, EARLIER + ROWS + EARLIER_LAG)
    refused(database, room, "no change", NOT_OURS)
    same("plan init over it", plan("init", database, given=KEY.encode()), NOT_OURS)
    sql(database, renames()[0])
    refused(database, room, "the first rename alone", NOT_OURS)
    sql(database, renames()[1])
    before = rows(database, room)
    answered(STORY, database, written(STORY, room))
    same_rows("the rows at the end", rows(database, room), before)


def try_explained(room):
    """`plan explain K1` names the two lines."""
    status, out, err = plan("explain", "K1")
    same("how plan explain K1 ends", (status, err), (0, b""))
    for line in renames():
        same(f"that plan explain K1 has {line}", line.encode() in out, True)


# ---- a store of the first version

# No arc has a lag; then one has.
FIRST_DATES = """ act       d      ES      EF      LS      LF      TF      FF
   1       3       0       3       0       3       0       0 *
   2       4       3       7       3       7       0       0 *
T 7
"""
LATER_DATES = """ act       d      ES      EF      LS      LF      TF      FF
   1       3       0       3       0       3       0       0 *
   2       4       4       8       4       8       0       0 *
T 8
"""

# The project is still bound, and has its calendar.
LATER_DAYS = """ act       first        last
   1  2024-03-01  2024-03-05
   2  2024-03-07  2024-03-12
"""
LATER_LAG = '{"from":1,"lag":1,"to":2}\n'
FIRST_STORY = LISTING + [
    asked("GET /desks/north/plans/1/dates", FIRST_DATES),
    asked("POST /desks/north/plans/1/lag", LATER_LAG, '{"from":1,"to":2,"lag":1}'),
    asked("GET /desks/north/plans/1/dates", LATER_DATES),
    asked("GET /desks/north/plans/1/days/lft", LATER_DAYS),
]


def first(room, change=""):
    """A store of the first version with the rows, that was then changed."""
    database = os.path.join(room, f"{len(os.listdir(room))}.db")
    sql(database, FIRST + ROWS + change)
    return database


def rows_of():
    """The rows of a store of the second version without lags."""
    project, shop = (file_of(f"tests/trials/files/{name}").hex() for name in ("two.sm", "named.txt"))
    key = digest(KEY)
    return sorted([
        f"meta|2|{key}", f"desks|north|{key}|4", f"desks|south|{key}|1",
        "published|crew-a|crew|2", "published|mill|machine|1", "published|spare|crew|0",
        f"plans|north|1|project||{project}|2024-03-01|1111100",
        f"plans|north|2|shop|one|{shop}||", f"plans|north|3|project||{project}||",
        "binds|north|1|1|crew-a", "binds|north|2|0|mill",
    ])


# The hints below the error of `plan init` over tables, after the name of the file.
TAKEN, OTHER = " already holds an office", ": not the database of an office; see: plan explain K1"


def kept_from(database, what, hint):
    """No office is made over what is there, which stays as it is."""
    before, wanted = whole(database), hinted("K1 not ours", database + hint)
    same(f"plan init over {what}", plan("init", database, given=KEY.encode(), env=HINTED), wanted)
    same(f"{what} stays", whole(database) == before, True)


def try_init_over(room):
    """No office is made over tables. An office's tables have a hint of their own."""
    for change, hint in [
        ("SELECT 1;", TAKEN),
        ("UPDATE meta SET version = 9;", TAKEN),
        ("UPDATE published SET capacity = 10001;", TAKEN),
        ("DELETE FROM meta;", TAKEN),
        ("DROP TABLE lags;", TAKEN),
        ("DROP TABLE lags; DROP TABLE binds;", OTHER),
        ("CREATE TABLE notes (a TEXT);", OTHER),
        ("CREATE INDEX by_kind ON plans (kind);", OTHER),
        ("CREATE VIEW crews AS SELECT code FROM published;", OTHER),
    ]:
        kept_from(filled(room, change), f"an office after {change}", hint)
    kept_from(first(room), "an office of the first version", TAKEN)
    kept_from(first(room, "DROP TABLE binds;"), "a part of it", OTHER)


def try_first_version(room):
    """A store of the first version goes on, and its tables are those of the second."""
    database = first(room)
    answered(LISTING, database, written(LISTING, room))
    same_rows("the rows of the second version", rows(database, room), rows_of())
    answered(FIRST_STORY, database, written(FIRST_STORY, room))
    wanted = sorted([*rows_of(), "lags|north|1|1|2|1"])
    same_rows("the rows at the end", rows(database, room), wanted)


def try_first_version_rules(room):
    """A first version is judged by its own rules."""
    for change, wanted in [
        ("UPDATE meta SET version = 2;", NOT_OURS),
        ("UPDATE meta SET version = 9;", VERSION),
        ("UPDATE binds SET place = 2 WHERE n = 1;", NOT_OURS),
        ("DROP TABLE binds;", NOT_OURS),
        ("CREATE TABLE lags (a TEXT);", NOT_OURS),
    ]:
        refused(first(room, change), room, change, wanted)
