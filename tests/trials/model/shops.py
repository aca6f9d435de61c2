"""Job shops: the reading of an OR-Library text, the words of a shop and its rules
(docs/definitions.md, "Job shop files" and "Job shops")."""

from .words import Fault, Stream, check_plain, file_fault, is_number, lines_of, words_of


def instance_name(line):
    """The name that an instance line gives; None of other lines."""
    words = words_of(line)
    return words[1] if len(words) == 2 and words[0] == b"instance" else None


def is_bare(lines):
    """The first line that isn't blank is two numbers."""
    first = next((words_of(line) for _, line in lines if line), [])
    return len(first) == 2 and all(map(is_number, first))


def names_of(lines):
    """The names of the instances in their order."""
    if is_bare(lines):
        return [b"-"]
    names = [instance_name(line) for _, line in lines]
    return [name for name in names if name is not None]


def block(lines, name):
    """The lines of the first instance of a name."""
    place = next(place for place, (_, line) in enumerate(lines) if instance_name(line) == name)
    rest = lines[place + 1 :]
    ends = [end for end, (_, line) in enumerate(rest) if instance_name(line) is not None]
    return lines[place][0], rest[: ends[0]] if ends else rest


def stream_of(lines, name):
    """The stream of the instance with a known name."""
    if is_bare(lines):
        return Stream(lines, 0)
    number, rows = block(lines, name)
    texts = [place for place, (_, line) in enumerate(rows) if line and line[:1] != b"+"]
    rows = rows[texts[0] + 1 :] if texts else []
    ends = [end for end, (_, line) in enumerate(rows) if line[:1] == b"+"]
    return Stream(rows[: ends[0]] if ends else rows, number)


class Shop:
    """How many machines there are, and the steps of each job: a machine and a time each."""

    def __init__(self, machines, jobs):
        self.machines, self.jobs = machines, jobs
        self.size = len(jobs) * machines


def job_at(stream, machines, so_far):
    """The steps of a job behind jobs that last so long together."""
    steps = []
    for _ in range(machines):
        machine = stream.within("F14", 0, machines - 1)
        time = stream.duration(so_far)
        so_far += time
        steps.append((machine, time))
    return steps


def read_shop(text, name):
    """The shop that a text says of a name; Fault where it says none."""
    check_plain(text)
    lines = lines_of(text)
    if name not in names_of(lines):
        raise file_fault("F13", len(lines))
    stream = stream_of(lines, name)
    count = stream.within("F10", 1, 50)
    machines = stream.within("F10", 1, 20)
    jobs = []
    for _ in range(count):
        so_far = sum(time for steps in jobs for _, time in steps)
        jobs.append(job_at(stream, machines, so_far))
    return Shop(machines, jobs)


def read_names(text):
    check_plain(text)
    return names_of(lines_of(text))


class Placed:
    """What a word of a shop places: each letter's next step where it is ready."""

    def __init__(self, shop, word=()):
        self.shop = shop
        self.done = [0] * len(shop.jobs)
        self.ends = [0] * len(shop.jobs)
        self.free = [0] * shop.machines
        self.starts = [[] for _ in shop.jobs]
        for letter in word:
            self.place(letter - 1)

    def left(self, job):
        """The steps of a job that aren't placed."""
        return self.shop.jobs[job][self.done[job] :]

    def ready_at(self, machine, time, end):
        """When a step may start whose job has got to its end."""
        return max(end, self.free[machine]) if time else end

    def ready(self, job):
        return self.ready_at(*self.left(job)[0], self.ends[job])

    def next_end(self, job):
        return self.ready(job) + self.left(job)[0][1]

    def place(self, job):
        machine, time = self.left(job)[0]
        start = self.ready(job)
        self.starts[job].append(start)
        self.done[job] += 1
        self.ends[job] = start + time
        if time:
            self.free[machine] = max(self.free[machine], start + time)

    def letters(self):
        """The letters that may follow."""
        jobs = [job for job in range(len(self.done)) if self.left(job)]
        zeros = [job for job in jobs if self.left(job)[0][1] == 0]
        if zeros or not jobs:
            return [job + 1 for job in zeros[:1]]
        winner = min(jobs, key=self.next_end)
        machine, end = self.left(winner)[0][0], self.next_end(winner)
        return [
            job + 1
            for job in jobs
            if self.left(job)[0][0] == machine and self.ready(job) < end
        ]

    def heads(self, job):
        """The unplaced steps of positive time of a job: machine, head, time and tail."""
        found, end, steps = [], self.ends[job], self.left(job)
        for place, (machine, time) in enumerate(steps):
            head = self.ready_at(machine, time, end)
            tail = sum(later for _, later in steps[place + 1 :])
            end = head + time
            if time:
                found.append((machine, head, time, tail))
        return found

    def job_bound(self, job):
        steps = self.left(job)
        if not steps:
            return self.ends[job]
        return self.ready(job) + sum(time for _, time in steps)

    def bound(self):
        """At most the makespan of each full word that begins with this one."""
        jobs = range(len(self.done))
        pending = [step for job in jobs for step in self.heads(job)]
        bounds = [self.job_bound(job) for job in jobs]
        for machine in range(self.shop.machines):
            own = [step[1:] for step in pending if step[0] == machine]
            if own:
                heads, times, tails = zip(*own)
                bounds.append(min(heads) + sum(times) + min(tails))
        return max(bounds)


def chosen(rule, placed, letter):
    """What a rule wants least of a job."""
    steps = placed.left(letter - 1)
    if rule == "spt":
        return steps[0][1]
    if rule == "mwkr":
        return -sum(time for _, time in steps)
    return placed.ready(letter - 1)


def rule_starts(shop, rule):
    """The starts of the word of a rule, job by job."""
    placed = Placed(shop)
    while letters := placed.letters():
        placed.place(min(letters, key=lambda letter: (chosen(rule, placed, letter), letter)) - 1)
    return placed.starts


def check_rule(rule):
    if rule not in ("spt", "mwkr", "fcfs"):
        raise Fault("S3 unknown rule")


def check_open(shop, closed):
    """No step that takes time is on a closed machine."""
    used = {machine for steps in shop.jobs for machine, time in steps if time}
    if used & set(closed):
        raise Fault(f"S4 machine {min(used & set(closed))} closed")


def makespan(shop, starts):
    """The greatest end."""
    return max(begin[-1] + steps[-1][1] for begin, steps in zip(starts, shop.jobs))
