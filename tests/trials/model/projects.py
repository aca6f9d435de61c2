"""Project files: the reading of a PSPLIB text (docs/definitions.md, "Files")."""

from .words import MOST_UNITS, Fault, Stream, check_plain, file_fault, is_number, lines_of, words_of

PRECEDENCE, REQUESTS = b"PRECEDENCE RELATIONS", b"REQUESTS/DURATIONS"
AVAILABILITIES = b"RESOURCEAVAILABILITIES"
TITLES = (b"PROJECT INFORMATION", PRECEDENCE, REQUESTS, AVAILABILITIES)
KEYS = (b"projects", b"jobs", b"- renewable", b"- nonrenewable", b"- doubly constrained")


class Project:
    """Activities by numbers from 1 on, arcs in their order with their lags, needs, capacities."""

    def __init__(self, durations, arcs, needs, capacities):
        self.durations, self.arcs, self.needs = durations, arcs, needs
        self.lags = {arc: 0 for arc in arcs}
        self.capacities = capacities
        self.before = {j: [i for i, k in sorted(arcs) if k == j] for j in durations}
        self.behind = {j: [k for i, k in sorted(arcs) if i == j] for j in durations}

    def predecessors(self, j):
        return self.before[j]

    def successors(self, j):
        return self.behind[j]


def is_title(line):
    return line.startswith(TITLES)


def kept_lines(text):
    """The lines that count."""
    return [(number, line) for number, line in lines_of(text) if line.strip(b"*-")]


def head_of(kept):
    """The lines before the first title."""
    titles = [place for place, (_, line) in enumerate(kept) if is_title(line)]
    return kept[: titles[0]] if titles else kept


def key_line(head, key, last):
    """The first line that begins with a key."""
    for number, line in head:
        if line.startswith(key):
            return number, line
    raise file_fault("F3", last)


def key_value(number, line):
    """The first word behind the first colon, which is a number."""
    words = words_of(line.partition(b":")[2])
    if not words or not is_number(words[0]):
        raise file_fault("F6", number)
    return number, int(words[0])


def head_values(kept, last):
    """How many jobs and resources there are."""
    head = head_of(kept)
    found = [key_line(head, key, last) for key in KEYS]
    projects, jobs, renewable, nonrenewable, doubly = [key_value(*line) for line in found]
    for (number, value), wanted in ((projects, 1), (nonrenewable, 0), (doubly, 0)):
        if value != wanted:
            raise file_fault("F4", number)
    if not 2 <= jobs[1] <= 502:
        raise file_fault("F10", jobs[0])
    if not 1 <= renewable[1] <= 16:
        raise file_fault("F10", renewable[0])
    return jobs[1], renewable[1]


def section(kept, title, last):
    """The stream of the section behind a title."""
    places = [place for place, (_, line) in enumerate(kept) if line.startswith(title)]
    if not places:
        raise file_fault("F5", last)
    begin = places[0] + 1
    ends = [place for place in range(begin, len(kept)) if is_title(kept[place][1])]
    rows = kept[begin : ends[0]] if ends else kept[begin:]
    return Stream(rows[1:], kept[places[0]][0])


def successors_at(stream, count):
    """The successors that a row names, each once."""
    named = []
    for _ in range(stream.number()):
        successor = stream.within("F7", 1, count)
        if successor in named:
            raise file_fault("F11", stream.line)
        named.append(successor)
    return named


def precedence(stream, count):
    """The arcs."""
    arcs = []
    for job in range(1, count + 1):
        stream.expect("F7", job)
        stream.expect("F8", 1)
        arcs += [(job, successor) for successor in successors_at(stream, count)]
    stream.end()
    return arcs


def amounts_at(stream, resources):
    return [stream.within("F10", 0, MOST_UNITS) for _ in range(resources)]


def requests(stream, count, resources):
    """The durations and the needs."""
    durations, needs = {}, {}
    for job in range(1, count + 1):
        stream.expect("F7", job)
        stream.expect("F8", 1)
        durations[job] = stream.duration(sum(durations.values()))
        needs[job] = amounts_at(stream, resources)
    stream.end()
    return durations, needs


def caught(project):
    """What is left where again and again activities without a predecessor are taken away."""
    left = set(project.durations)
    while True:
        free = {j for j in left if not left & set(project.predecessors(j))}
        if not free:
            return left
        left -= free


def named_cycle(project):
    """The one cycle that is named, from the least of its activities; empty without one."""
    left = caught(project)
    if not left:
        return []
    way = [min(left)]
    while way.count(way[-1]) < 2:
        way.append(min(left & set(project.predecessors(way[-1]))))
    members = way[way.index(way[-1]) + 1 :][::-1]
    least = members.index(min(members))
    return members[least:] + members[:least]


def read_project(text):
    """The project that a text says; Fault where it says none."""
    check_plain(text)
    kept, last = kept_lines(text), len(lines_of(text))
    count, resources = head_values(kept, last)
    stream = section(kept, PRECEDENCE, last)
    title = stream.line
    arcs = precedence(stream, count)
    durations, needs = requests(section(kept, REQUESTS, last), count, resources)
    stream = section(kept, AVAILABILITIES, last)
    capacities = amounts_at(stream, resources)
    stream.end()
    project = Project(durations, arcs, needs, capacities)
    cycle = named_cycle(project)
    if cycle:
        raise Fault(" ".join([f"F12 line {title} cycle", *map(str, cycle)]))
    return project
