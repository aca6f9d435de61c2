"""The job shop of Fisher and Thompson, 6 jobs on 6 machines, in a file among other text: it is
read exactly, its schedules are feasible, and 55 is proved optimal.
"""

from answers import Wrong, plan, printed, refused, same, written
from formulas import SHOP, row

FISHER = """\
6 6
2 1 0 3 1 6 3 7 5 3 4 6
1 8 2 5 4 10 5 10 0 10 3 4
2 5 3 4 5 8 0 9 1 1 4 7
1 5 0 5 2 5 3 3 4 8 5 9
2 9 1 3 4 5 5 4 0 3 3 1
1 3 3 3 5 9 0 10 4 4 2 1
"""
PLUS = "+++++++++++++++++++++++++++++\n"
COLLECTION = (
    f"a collection of shops\n instance ft06 again\n{PLUS}instance tiny\n{PLUS}1 1\n1 1\n0 2\n"
    f"{PLUS}instance ft06\n{PLUS}Fisher and Thompson 6x6\n{FISHER}{PLUS}instance last"
)
TIMES = [26, 47, 34, 35, 25, 30]


def steps_of(text):
    """The job, step, machine, time, start and end of each line of a table."""
    return [[int(word) for word in line.split()] for line in text.split("\n")[1:-2]]


def fisher_steps():
    """The job, the step, the machine and the time of each step of the instance."""
    jobs = [[int(word) for word in line.split()] for line in FISHER.splitlines()[1:]]
    return [
        [job, step, *steps[2 * step - 2 : 2 * step]]
        for job, steps in enumerate(jobs, 1)
        for step in range(1, 7)
    ]


def overlap(one, two):
    """Two steps of one job or on one machine go on at once; the first is earlier in the table."""
    if one[0] == two[0]:
        return two[4] < one[5]
    return one[2] == two[2] and one[4] < two[5] and two[4] < one[5]


def overlaps(rows):
    """The pairs of steps of a table that aren't one behind the other."""
    pairs = [(one, two) for place, one in enumerate(rows) for two in rows[place + 1 :]]
    return [pair for pair in pairs if overlap(*pair)]


def judge_table(what, text):
    """That a table has the steps of the instance, each as long as it takes and none beside another
    one of its job or its machine, and the last end; which is the answer."""
    rows = steps_of(text)
    makespan = max(end for *_, end in rows)
    lines = [row(*numbers) + "\n" for numbers in rows]
    same(what, text, SHOP + "".join(lines) + f"makespan {makespan}\n")
    same(f"{what}: the steps", [numbers[:4] for numbers in rows], fisher_steps())
    same(f"{what}: the ends", [end for *_, end in rows], [sum(numbers[3:5]) for numbers in rows])
    same(f"{what}: steps at once", overlaps(rows), [])
    return makespan


def text_of(what, answer):
    """What a command printed."""
    if answer[0] != 0 or answer[2] != b"":
        raise Wrong(f"{what} gave {answer!r}")
    return answer[1].decode()


def try_rules(folder):
    """The instance is read exactly, by each rule."""
    steps = fisher_steps()
    times = [sum(time for job, _, _, time in steps if job == own) for own in range(1, 7)]
    same("the times of the jobs", times, TIMES)
    for rule in ("spt", "mwkr", "fcfs"):
        answer = plan(folder, "shop", rule, "shops.txt", "ft06")
        judge_table(f"ft06 by {rule}", text_of(rule, answer))
    return 3


def try_budgets(folder):
    """The least makespan is proved within 649 words, and not within 648."""
    for budget, kind in (("648", "budget"), ("649", "optimal"), ("200000", "optimal")):
        what = f"ft06 within {budget}"
        text = text_of(what, plan(folder, "best", budget, "shops.txt", "ft06"))
        first, _, table = text.partition("\n")
        same(what, first, f"{kind} 55")
        same(what, judge_table(what, table), 55)
    return 3


def try_proof(folder):
    """The least makespan is proved by the search of pairs too."""
    text = text_of("ft06", plan(folder, "prove", "100000", "shops.txt", "ft06"))
    first, _, table = text.partition("\n")
    same("ft06", first, "optimal 55")
    same("ft06", judge_table("ft06", table), 55)
    return 1


def try_fisher(folder):
    """The instance among other text and instances; one is incomplete, and one is missing."""
    written(folder, "shops.txt", COLLECTION.encode())
    tiny = printed(SHOP + row(1, 1, 0, 2, 0, 2) + "\nmakespan 2\n")
    same("the names", plan(folder, "names", "shops.txt"), printed("tiny\nft06\nlast\n"))
    same("tiny", plan(folder, "shop", "spt", "shops.txt", "tiny"), tiny)
    for name, line in (("ft10", "F13 line 21"), ("last", "F9 line 21")):
        same(name, plan(folder, "shop", "spt", "shops.txt", name), refused(line))
    return 4 + try_rules(folder) + try_budgets(folder) + try_proof(folder)


FORMULAS = {"fisher": try_fisher}
