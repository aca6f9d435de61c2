"""The hint below an error line on a terminal, and the argument that it names. Without a terminal
commands/hints.trial shows it. The last line of a server on a terminal. Options that are misspelt
behind the last argument, and the exit statuses of `plan check --status`.

    tests/trials/run hint_on_a_terminal hint_subjects hint_characters
    tests/trials/run end_on_a_terminal misspelt check_status
"""

import os

from programs import HINTED, PROGRAM, connect, free_port, init, plan, same, serving
from progress import begun, ended

LINE, OFFICE = b"I1 file\r\n", b"E91 store\r\nhint: there is no nowhere.db\r\n"
HINT = b"hint: nowhere.sm: a file can't be read; see: plan explain I1\r\n"


def try_hint_on_a_terminal(room):
    """An error has a hint on a terminal, unless PLAN_HINTS is 0."""
    command = [PROGRAM, "cpm", "nowhere.sm"]
    same("an error on a terminal", ended(*begun(*command)), (1, b"", LINE + HINT))
    office = ended(*begun(PROGRAM, "check-office", "nowhere.db"))
    same("an error of an office on a terminal", office, (1, b"", OFFICE))
    for value, wanted in (("0", LINE), ("1", LINE + HINT), ("yes", LINE + HINT), ("", LINE + HINT)):
        told = ended(*begun("env", f"PLAN_HINTS={value}", *command))
        same(f"the same with PLAN_HINTS={value}", told, (1, b"", wanted))


def try_end_on_a_terminal(room):
    """On a terminal the last line of a server is the number of connections; else it prints nothing."""
    database, port = os.path.join(room, "office.db"), str(free_port())
    init(database)
    process, here = begun(PROGRAM, "serve", database, port, "2")
    for _ in range(2):
        connect(int(port)).close()
    same("a server on a terminal", ended(process, here), (0, b"", b"2 connections served\r\n"))
    port = free_port()
    with serving(database, 1, port=port) as server:
        connect(port).close()
        same("a server without a terminal", server.end(), (0, b"", b""))


PROJECT = """projects: 1
jobs: 3
- renewable: 1
- nonrenewable: 0
- doubly constrained: 0
PRECEDENCE RELATIONS:
jobnr. #modes #successors successors
1 1 1 2
2 1 1 3
3 1 0
REQUESTS/DURATIONS:
jobnr. mode duration R 1
------------------------
1 1 0 0
2 1 2 1
3 1 0 0
RESOURCEAVAILABILITIES:
R 1
1
"""
NEEDY = PROJECT.replace("2 1 2 1", "2 1 2 2")
# 1 is before 2, 2 before 3 and 4, these before 5. Activity 2 takes 2, the others 1.
PLAIN = """projects: 1
jobs: 5
- renewable: 1
- nonrenewable: 0
- doubly constrained: 0
PRECEDENCE RELATIONS:
jobnr. #modes #successors successors
1 1 1 2
2 1 2 3 4
3 1 1 5
4 1 1 5
5 1 0
REQUESTS/DURATIONS:
jobnr. mode duration R 1
------------------------
1 1 0 0
2 1 2 1
3 1 1 1
4 1 1 1
5 1 0 0
RESOURCEAVAILABILITIES:
R 1
2
"""
FILES = {
    "p.sm": PROJECT,
    "plain.sm": PLAIN,
    "wired.sm": PLAIN
    + "PROJECT INFORMATION:\nname 2 Demolition\nname 3 Wiring\nname 4 Painting\nresource 1 crew\n",
    "early.txt": "0 0 1 2 3\n",
    "before.txt": "1 0 2 2 3\n",
    "both.txt": "0 0 2 2 3\n",
    "last.txt": "0 0 2 3 3\n",
    "named.shops.txt": "instance shop\n+ machine 0 saw\n+ machine 1 press\n+ job 1 order 4711\n"
    + "+ job 2 order 4712\nplan import\n2 2\n0 4 1 1\n0 1 1 3\n",
    "steps.txt": "0 3 4 5\n",
    "clash.txt": "0 4 1 5\n",
    "bad.csv": "id,name,duration\nA,Dig,4 weeks\n",
    "bad.orders.csv": "order,machine,time\nA,saw,x\n",
    "empty.csv": "id,name,duration\nA,Dig,\n",
    # 60 bytes, and 59 bytes before a character of two
    "sixty.csv": f"id,name,duration\nA,Dig,{'x' * 58}ä\n",
    "long.csv": f"id,name,duration\nA,Dig,{'x' * 59}ä{'x' * 300_000}\n",
    "needy.sm": NEEDY,
    "named.sm": NEEDY + "PROJECT INFORMATION:\nname 2 Dig \x07 deep\nresource 1 crew\n",
    "shops.txt": "2 2\n0 4 1 1\n0 1 1 3\n",
    "list.csv": "id,name,duration\nA,Dig,2\n",
    "orders.csv": "order,machine,time\nA,saw,2\n",
    "good.txt": "0 0 2\n",
    "bad.txt": "0 x 2\n",
    "columns.csv": "job,step,machine,start\n1,1,0,0\n",
    "days.txt": "2024-13-01\n",
}

BEST = "no such priority rule; --solve finds the best schedule"

# The words of a command, the code of its error, and what its hint says before the code.
SUBJECTS = [
    ("schedule fast p.sm", "S3", "fast: no such priority rule"),
    ("shop fast shops.txt -", "S3", "fast: no such priority rule"),
    ("chart fast p.sm", "S3", "fast: no such priority rule"),
    ("chart --svg fast p.sm", "S3", "fast: no such priority rule"),
    ("report --rule fast p.sm", "S3", "fast: no such priority rule"),
    ("schedule best p.sm", "S3", "best: no such priority rule"),
    ("chart best p.sm", "S3", f"best: {BEST}"),
    ("chart --svg best p.sm", "S3", f"best: {BEST}"),
    ("chart best shops.txt -", "S3", f"best: {BEST}"),
    ("report --rule best p.sm", "S3", f"best: {BEST}"),
    ("days best 2024-03-01 1111100 p.sm", "S3", f"best: {BEST}"),
    ("days --format ics best 2024-03-01 1111100 p.sm", "S3", f"best: {BEST}"),
    ("days fast 2024-03-01 1111100 p.sm", "S3", "fast: no such priority rule"),
    ("best 0 shops.txt -", "S6", "0: the budget is invalid"),
    ("best-project 0 p.sm", "S6", "0: the budget is invalid"),
    ("prove 0 shops.txt -", "S7", "0: the number of nodes is invalid"),
    ("schedule --capacity X=1 lft p.sm", "S8", "--capacity: the only resource is 1"),
    ("schedule --capacity R2=1 lft p.sm", "S8", "--capacity: the only resource is 1"),
    ("schedule --capacity X=1 lft named.sm", "S8", "--capacity: the only resource is crew"),
    ("schedule lft needy.sm", "S1", "needy.sm: activity 2 needs 2 of resource 1, which has 1"),
    ("chart --svg lft needy.sm", "S1", "needy.sm: activity 2 needs 2 of resource 1, which has 1"),
    ("solve named.sm", "S1", "named.sm: Dig ? deep needs 2 of crew, which has 1"),
    ("schedule --capacity crew=0 lft named.sm", "S1", "named.sm: Dig ? deep needs 2 of crew, which has 0"),
    ("import --capacity X=1 list.csv", "T14", "--capacity: no such resource in the list"),
    ("days lft 1.3.2024 1111100 p.sm", "G1", "1.3.2024: the first date is invalid"),
    ("days lft 2024-03-01 weekdays p.sm", "G2", "weekdays: the weekday marks are invalid"),
    (
        "days --starts good.txt 1.3.2024 1111100 p.sm",
        "G1",
        "1.3.2024: the first date is invalid",
    ),
    (
        "days --format ics lft 2024-03-01 weekdays p.sm",
        "G2",
        "weekdays: the weekday marks are invalid",
    ),
    (
        "report --start 2024-03-01 --days weekdays p.sm",
        "G2",
        "weekdays: the weekday marks are invalid",
    ),
    (
        "report --start 2024-03-01 --days mon-fri --holidays days.txt p.sm",
        "G5",
        "days.txt: a line of the holidays is invalid",
    ),
    ("check p.sm bad.txt", "F6", "bad.txt: a number is missing or malformed"),
    ("chart --starts bad.txt p.sm", "F6", "bad.txt: a number is missing or malformed"),
    ("report --starts bad.txt p.sm", "F6", "bad.txt: a number is missing or malformed"),
    ("compare p.sm good.txt bad.txt", "F6", "bad.txt: a number is missing or malformed"),
    (
        "check p.sm columns.csv",
        "F3",
        "columns.csv: the columns aren't those of a table of start times",
    ),
    ("check bad.txt good.txt", "F3", "bad.txt: a header is missing; a list has duration, or order and machine"),
    ("chart lft --starts good.txt p.sm", "I1", "lft: a file can't be read"),
    ("compare p.sm good.txt nowhere.txt", "I1", "nowhere.txt: a file can't be read"),
    ("report --starts nowhere.txt p.sm", "I1", "nowhere.txt: a file can't be read"),
    (
        "days --holidays nowhere.txt lft 2024-03-01 1111100 p.sm",
        "I1",
        "nowhere.txt: a file can't be read",
    ),
    ("check nowhere.sm nowhere.txt", "I1", "nowhere.txt: a file can't be read"),
    ("check --status nowhere.sm nowhere.txt", "I1", "nowhere.txt: a file can't be read"),
    ("check nowhere.sm good.txt", "I1", "nowhere.sm: a file can't be read"),
    ("compare nowhere.sm nowhere.txt .", "I1", "nowhere.txt: a file can't be read"),
    ("compare p.sm . nowhere.txt", "I1", ".: a file can't be read"),
    (
        "report --starts good.txt --start 2024-03-01 --days 1111100 --holidays . p.sm",
        "I1",
        ".: a file can't be read",
    ),
    ("verify p.sm nowhere.log", "I1", "nowhere.log: a file can't be read"),
    ("verify nowhere.sm good.txt", "I1", "nowhere.sm: a file can't be read"),
    ("chart --starts early.txt wired.sm", "S10", "early.txt: Wiring starts before Demolition ends"),
    (
        "report --starts early.txt wired.sm",
        "S10",
        "early.txt: Wiring starts before Demolition ends",
    ),
    ("slack wired.sm early.txt", "S10", "early.txt: Wiring starts before Demolition ends"),
    (
        "days --format ics --starts early.txt 2024-03-01 1111100 wired.sm",
        "S10",
        "early.txt: Wiring starts before Demolition ends",
    ),
    (
        "chart --starts before.txt wired.sm",
        "S10",
        "before.txt: Demolition starts before activity 1 ends",
    ),
    (
        "chart --starts both.txt --capacity crew=1 wired.sm",
        "S10",
        "both.txt: at time 2 more of crew is needed than there is",
    ),
    ("chart --starts last.txt wired.sm", "S10", "last.txt: activity 5 starts before Painting ends"),
    ("chart --starts early.txt plain.sm", "S10", "early.txt: the start times aren't feasible"),
    (
        "chart --starts steps.txt named.shops.txt shop",
        "S10",
        "steps.txt: step 2 of order 4711 starts before step 1 ends",
    ),
    (
        "report --starts clash.txt named.shops.txt shop",
        "S10",
        "clash.txt: at time 1 more than one step is on saw",
    ),
    ("chart --starts clash.txt shops.txt -", "S10", "clash.txt: the start times aren't feasible"),
    ("import bad.csv", "T5", "bad.csv: \"4 weeks\" isn't a whole number of at most 10000"),
    (
        "import --shop bad.orders.csv",
        "T5",
        "bad.orders.csv: \"x\" isn't a whole number of at most 10000",
    ),
    ("import empty.csv", "T5", "empty.csv: a duration isn't a number; capacities are in the row capacity"),
    (
        "import sixty.csv",
        "T5",
        f"sixty.csv: \"{'x' * 58}ä\" isn't a whole number of at most 10000",
    ),
    (
        "import long.csv",
        "T5",
        f"long.csv: \"{'x' * 59}..\" isn't a whole number of at most 10000",
    ),
    ("import --capacity saw=1 orders.csv", "T14", "--capacity: no such resource in the list"),
    ("cpm list.csv", "F3", "list.csv: this is a list of activities; plan import converts it"),
    (
        "shop spt orders.csv -",
        "F13",
        "orders.csv: this is a list of orders; plan import --shop converts it",
    ),
    ("import --shop list.csv", "T3", "list.csv: this is a list of activities; leave out --shop"),
    ("import p.sm", "T3", "p.sm: a required column is missing"),
    ("import --shop p.sm", "T3", "p.sm: a required column is missing"),
    ("cpm p.sm.old", "I1", "p.sm.old: a file can't be read"),
    ("explain F80", "C1", "no such code"),
]


def written_files(room):
    """Writes FILES."""
    for name, text in FILES.items():
        with open(os.path.join(room, name), "w", encoding="utf-8") as file:
            file.write(text)


def try_hint_subjects(room):
    """A hint names the file or the argument that the error is about."""
    written_files(room)
    for words, code, text in SUBJECTS:
        status, out, err = plan(*words.split(), cwd=room, env=HINTED)
        line, _, hint = err.decode().partition("\n")
        same(f"the code of plan {words}", (status, out, line.split()[0]), (1, b"", code))
        same(f"the hint of plan {words}", hint, f"hint: {text}; see: plan explain {code}\n")


def try_hint_characters(room):
    """No control character of a name reaches the terminal by a hint."""
    names = ["a\x1b[31mb", "a\nb", "a\x7fb", "a\u0085b", "a\u009bb", "\u00e4\u20ac\U0001f600"]
    for name in names:
        shown = "".join("?" if ord(c) < 32 or 127 <= ord(c) <= 159 else c for c in name)
        wanted = f"I1 file\nhint: {shown}: a file can't be read; see: plan explain I1\n"
        found = plan("cpm", name, cwd=room, env=HINTED)
        same(f"the hint for {name!r}", found, (1, b"", wanted.encode()))
        wanted = f"E91 store\nhint: there is no {shown}\n"
        found = plan("serve", name, str(free_port()), cwd=room, env=HINTED)
        same(f"the hint for the office {name!r}", found, (1, b"", wanted.encode()))
        wanted = f"E91 store: there is no {shown}; check the name\n"
        found = plan("settle", name, cwd=room, env=HINTED)
        same(f"the line for the office {name!r}", found, (1, b"", wanted.encode()))


# Command lines with a word that is no option of the command, and that word without its value.
MISSPELT = [
    ("check p.sm good.txt --statsu", "--statsu"),
    ("check p.sm --statsu good.txt", "--statsu"),
    ("check p.sm --statsu", "--statsu"),
    ("solve p.sm --secnds=5", "--secnds"),
    ("report p.sm --titel", "--titel"),
    ("report p.sm --titel House", "--titel"),
    ("compare p.sm good.txt good.txt --nams", "--nams"),
    ("slack p.sm good.txt --nams", "--nams"),
    ("shop spt shops.txt --nams", "--nams"),
    ("chart lft p.sm --svgg", "--svgg"),
    ("chart lft p.sm - extra", "extra"),
    ("chart lft p.sm -x", "-x"),
    ("days lft 2024-03-01 1111100 p.sm --formt=ics", "--formt"),
    ("explain F9 --formt json", "--formt"),
]


def try_misspelt(room):
    """An unknown option is a usage error, also behind the last argument. Behind `--` a word that
    begins with a hyphen is an argument."""
    written_files(room)
    for words, word in MISSPELT:
        status, out, err = plan(*words.split(), cwd=room)
        first = err.decode().partition("\n")[0]
        wanted = (2, b"", f"error: unexpected argument '{word}' found")
        same(f"plan {words}", (status, out, first), wanted)
    same("a name", plan("shop", "spt", "shops.txt", "--", "-x", cwd=room)[0], 1)
    os.rename(os.path.join(room, "p.sm"), os.path.join(room, "-x"))
    same("./-x", plan("check", "./-x", "good.txt", cwd=room), (0, b"active\n", b""))
    same("-- -x", plan("check", "--", "-x", "good.txt", cwd=room), (0, b"active\n", b""))
    wanted = plan("explain", "--format", "json", "F9")
    same("the explanation as JSON", (wanted[0], wanted[1][:9]), (0, b'{"rows":['))
    same("--format=json", plan("explain", "F9", "--format=json"), wanted)
    same("--format json", plan("explain", "F9", "line", "31", "--format", "json"), wanted)


# Start times of p.sm, and the status and the verdict of `plan check --status`.
STATUSES = [
    ("0 0 2", 0, b"active\n"),
    ("0 1 3", 3, b"activity 2 can start earlier\n"),
    ("0 0 1", 3, b"activity 3 starts before 2 ends\n"),
    ("0 0 x", 1, b""),
    ("0 0", 1, b""),
]


def try_check_status(room):
    """`plan check --status` exits with 0 for an active schedule, with 3 for any other one, with 1
    for an error and with 2 for an invalid command line. Without the option a verdict is 0."""
    written_files(room)
    path = os.path.join(room, "starts.txt")
    for starts, status, out in STATUSES:
        with open(path, "w", encoding="ascii") as file:
            file.write(starts)
        found = plan("check", "--status", "p.sm", path, cwd=room)
        same(f"plan check --status of {starts}", found[:2], (status, out))
        found = plan("check", "p.sm", path, cwd=room)
        same(f"plan check of {starts}", found[:2], (min(status, 1) if out == b"" else 0, out))
    late = os.path.join(room, "late.sm")
    with open(late, "w", encoding="ascii") as file:
        file.write(NEEDY)
    same("a need above the capacity", plan("check", "--status", late, path)[0], 1)
    same("no starts", plan("check", "--status", late)[0], 2)
    for starts, status in ((b"0 4 4 5", 0), (b"0 4 4 6", 3), (b"0 3 4 5", 3)):
        found = plan("check", "--status", "shops.txt", "-", "-", cwd=room, given=starts)
        same(f"plan check --status of the shop with {starts}", found[0], status)
