"""The project and job shop files that bench/run measures, and those that bench/agree draws."""

import itertools
import os

HERE = os.path.dirname(os.path.abspath(__file__))
EXAMPLES = os.path.join(os.path.dirname(HERE), "examples")
STARS = "*" * 40


def head(count, kinds):
    """The lines of an .sm file up to its first section."""
    return [
        STARS,
        "projects                      :  1",
        f"jobs (incl. supersource/sink ):  {count}",
        "RESOURCES",
        f"  - renewable                 :  {kinds}   R",
        "  - nonrenewable              :  0   N",
        "  - doubly constrained        :  0   D",
    ]


def row(*words):
    """Words with a blank between them."""
    return " ".join(str(word) for word in words)


def project(durations, successors, needs, available):
    """The text of an .sm file; successors are lists of numbers from 1, needs a row for each
    activity."""
    heads = "".join(f"  R{k + 1:>2}" for k in range(len(available)))
    lines = head(len(durations), len(available))
    lines += [STARS, "PRECEDENCE RELATIONS:", "jobnr. #modes #successors successors"]
    lines += [row(j, 1, len(nexts), *nexts) for j, nexts in enumerate(successors, 1)]
    lines += [STARS, "REQUESTS/DURATIONS:", "jobnr. mode duration" + heads]
    activities = zip(durations, needs)
    lines += [row(j, 1, time, *amounts) for j, (time, amounts) in enumerate(activities, 1)]
    lines += [STARS, "RESOURCEAVAILABILITIES:", heads, row(*available), STARS]
    return "\n".join(lines) + "\n"


def section(lines, title):
    """The numbers of a section of an .sm file, behind its title and its line of headings."""
    first = next(k for k, line in enumerate(lines) if line.startswith(title)) + 2
    rows = itertools.takewhile(lambda line: not line.startswith("***"), lines[first:])
    return iter([int(word) for line in rows if not line.startswith("---") for word in line.split()])


def value(lines, key):
    """The number behind a key in the head of an .sm file."""
    line = next(line for line in lines if line.strip().startswith(key))
    return int(line.split(":")[1].split()[0])


def read_sm(text):
    """The durations, successors, needs and capacities in an .sm file of PSPLIB, for `project`."""
    lines = text.splitlines()
    count, kinds = value(lines, "jobs"), value(lines, "- renewable")
    words, successors = section(lines, "PRECEDENCE"), []
    for _ in range(count):
        _, _, size = next(words), next(words), next(words)
        successors.append([next(words) for _ in range(size)])
    words, durations, needs = section(lines, "REQUESTS"), [], []
    for _ in range(count):
        _, _, time = next(words), next(words), next(words)
        durations.append(time)
        needs.append([next(words) for _ in range(kinds)])
    return durations, successors, needs, list(section(lines, "RESOURCEAVAILABILITIES"))


def read_rcp(text):
    """The same in a file of Patterson's form (.rcp): the numbers of activities and of resources, the
    capacities, and for each activity its duration, its needs, the number of its successors and
    these."""
    words = map(int, text.split())
    count, kinds = next(words), next(words)
    available = [next(words) for _ in range(kinds)]
    durations, successors, needs = [], [], []
    for _ in range(count):
        durations.append(next(words))
        needs.append([next(words) for _ in range(kinds)])
        successors.append([next(words) for _ in range(next(words))])
    return durations, successors, needs, available


READERS = {".sm": read_sm, ".rcp": read_rcp}


def in_folder(folder):
    """The name and the parts of each project file in a folder, in the order of the names."""
    for name in sorted(os.listdir(folder)):
        label, end = os.path.splitext(name)
        if end in READERS:
            with open(os.path.join(folder, name), encoding="latin-1") as file:
                yield label, READERS[end](file.read())


def all_arcs():
    """The largest network: 502 activities, an arc from each to each later one, padded with blanks
    to 0.9 MB."""
    count = 502
    durations = [0] + [1] * (count - 2) + [0]
    successors = [range(j + 1, count + 1) for j in range(1, count + 1)]
    text = project(durations, successors, [[1]] * count, [4])
    return text.replace(" ", "   ") if len(text) < 300_000 else pad(text, 900_000)


def pad(text, size):
    """The text with blanks in front of its end, so that it has this size."""
    return text + " " * max(0, size - len(text) - 1) + "\n"


def numbers(state):
    """Numbers up to 2^31 that look random: the same ones of the same first one."""
    while True:
        state = (state * 1103515245 + 12345) % 2**31
        yield state


def made(count, seed, longest, most, reach, available):
    """Activities between two that take no time and need nothing: up to 3 successors each, within
    a reach; 4 resources, of which each needs less than `most`."""
    durations, needs, successors = [0], [[0] * 4], [[2, 3, 4]]
    for j, state in zip(range(2, count), numbers(seed)):
        durations.append(1 + (state >> 8) % longest)
        needs.append([(state >> (10 + 3 * k)) % most for k in range(4)])
        nexts = {min(count, j + 1 + (state >> (4 * k + 5)) % reach) for k in range(3)}
        successors.append(sorted(nexts))
    return durations + [0], successors + [[]], needs + [[0] * 4], [available] * 4


def projects(longest=10, all_later=False):
    """502 activities on 4 resources, up to 3 successors each or all later ones."""
    durations, successors, needs, available = made(502, 12345, longest, 8, 12, 20)
    if all_later:
        successors = [range(j + 1, 503) for j in range(1, 502)] + [[]]
    return project(durations, successors, needs, available)


def activity_list():
    """A list of 500 activities, the greatest number, on 4 crews; each follows up to 3 others."""
    durations, successors, needs, available = made(502, 12345, 10, 8, 12, 20)
    before = {j: [] for j in range(1, 503)}
    for j, nexts in enumerate(successors, 1):
        for i in nexts:
            before[i].append(f"a{j}")
    crews = [f"crew{k}" for k in range(1, 5)]
    lines = [["id", "name", "duration", "predecessors", *crews], ["capacity", "", "", "", *available]]
    for j in range(2, 502):
        own = " ".join(name for name in before[j] if name != "a1")
        lines.append([f"a{j}", f"Activity {j}", durations[j - 1], own, *needs[j - 1]])
    return "".join(",".join(map(str, line)) + "\n" for line in lines)


def random_project():
    """30 activities on 4 resources, which need up to 5 of 10 each."""
    return project(*made(30, 77, 10, 6, 9, 10))


def shop(rows):
    """A job shop without a name; of each job machine and time of each step."""
    sizes = row(len(rows), len(rows[0]) // 2)
    return "\n".join([sizes] + [row(*steps) for steps in rows]) + "\n"


def random_shop():
    """A shop of 10 jobs on 10 machines, each job once on each machine, times from 1 to 99."""
    states = numbers(2024)
    return shop([random_job(states) for _ in range(10)])


def wide_shop():
    """A shop of 50 jobs on 20 machines, drawn in the same way."""
    states = numbers(2024)
    return shop([random_job(states, 20) for _ in range(50)])


def random_job(states, count=10):
    """The steps of a job, once on each of so many machines."""
    machines, steps = list(range(count)), []
    while machines:
        state = next(states)
        machine = machines.pop((state >> 8) % len(machines))
        steps += [machine, 1 + (state >> 16) % 99]
    return steps


def example(name):
    """The text of a file of the tour."""
    with open(os.path.join(EXAMPLES, name), encoding="ascii") as file:
        return file.read()


def drawn_project(draw):
    """A small project whose activities aren't numbered in the order of its arcs. A few have a need
    that is too much, or name a successor twice."""
    count, kinds = draw.randint(2, 12), draw.randint(1, 3)
    label = draw.sample(range(1, count + 1), count)
    share = draw.choice([0.1, 0.3, 0.6])
    successors = [[] for _ in label]
    for i in range(count):
        later = [label[j] for j in range(i + 1, count) if draw.random() < share]
        twice = later[:1] if draw.random() < 0.01 else []
        successors[label[i] - 1] = draw.sample(later, len(later)) + twice
    longest = draw.choice([1, 3, 9, 99])
    available = [draw.randint(0, 6) for _ in range(kinds)]
    spare = 1 if draw.random() < 0.1 else 0
    needs = [[draw.randint(0, amount + spare) for amount in available] for _ in label]
    return project([draw.randint(0, longest) for _ in label], successors, needs, available)


def drawn_shop(draw):
    """The text of a small shop and its name; a job may come to a machine twice or never."""
    jobs, machines = draw.randint(1, 5), draw.randint(1, 5)
    longest = draw.choice([1, 3, 9, 99])
    rows = [[] for _ in range(jobs)]
    for steps in rows:
        for _ in range(machines):
            steps += [draw.randrange(machines), draw.randint(0, longest)]
    text = shop(rows)
    if draw.random() < 0.5:
        return text, "-"
    return f"no shop\n++\n instance other\n\ninstance a\n++\n\nwords\n{text}\n++\n1 2\n", "a"


def damaged(draw, text):
    """The text with one line left out, one number of nine or ten digits, or one byte changed."""
    kind, lines = draw.randrange(4), text.split("\n")
    place = draw.randrange(len(lines))
    if kind == 0:
        del lines[place]
    elif kind == 1 and lines[place].split():
        words = lines[place].split()
        words[-1] = words[-1].zfill(draw.choice([9, 10]))
        lines[place] = row(*words)
    else:
        place = draw.randrange(len(text))
        return text[:place] + draw.choice("0129 :x*+-\t\n\r\x00\x1a") + text[place + 1 :]
    return "\n".join(lines)
