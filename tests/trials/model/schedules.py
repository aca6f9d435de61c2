"""Dates, and schedules of projects by serial generation (docs/definitions.md, "Dates" and
"Schedules")."""

from .words import Fault

RULES = ("lft", "slk", "spt", "mts", "num")


def finishes(project):
    """The greatest length of a path that ends with each activity."""
    found = {}

    def finish(j):
        if j not in found:
            arcs = [(i, j) for i in project.predecessors(j)]
            before = [finish(i) + project.lags[i, j] for i, j in arcs]
            found[j] = project.durations[j] + max(before, default=0)
        return found[j]

    return {j: finish(j) for j in project.durations}


def tails(project):
    """The greatest length of a path that begins with each activity."""
    found = {}

    def tail(j):
        if j not in found:
            behind = [project.lags[j, k] + tail(k) for k in project.successors(j)]
            found[j] = project.durations[j] + max(behind, default=0)
        return found[j]

    return {j: tail(j) for j in project.durations}


class Dates:
    """The dates of an activity: duration, ES, EF, LS, LF, TF and FF."""

    def __init__(self, project, j, ends, behind):
        whole = max(ends.values())
        self.duration = project.durations[j]
        self.early_finish = ends[j]
        self.early_start = ends[j] - self.duration
        self.late_start = whole - behind[j]
        self.late_finish = self.late_start + self.duration
        self.total_float = self.late_start - self.early_start
        starts = [
            ends[k] - project.durations[k] - project.lags[j, k] for k in project.successors(j)
        ]
        self.free_float = min(starts, default=whole) - self.early_finish

    def row(self):
        early, late = (self.early_start, self.early_finish), (self.late_start, self.late_finish)
        return (self.duration, *early, *late, self.total_float, self.free_float)


def all_dates(project):
    ends, behind = finishes(project), tails(project)
    return {j: Dates(project, j, ends, behind) for j in project.durations}


def total_successors(project, j):
    """The other activities at the end of a path that begins with j."""
    reached = set(project.successors(j))
    while True:
        more = {further for k in reached for further in project.successors(k)} - reached
        if not more:
            return reached
        reached |= more


def check_needs(project):
    """No activity that lasts needs more than there is."""
    for j in project.durations:
        resources = range(len(project.capacities))
        over = [k for k in resources if project.needs[j][k] > project.capacities[k]]
        if project.durations[j] and over:
            raise Fault(f"S1 activity {j} resource {over[0] + 1}")


def usage(project, placed, t, k):
    """What is in use of a resource at an instant."""
    running = [j for j, start in placed.items() if start <= t < start + project.durations[j]]
    return sum(project.needs[j][k] for j in running)


def fits(project, placed, j, start):
    """The needs of j fit beside what is placed. Usage rises only where something starts, so these
    instants and the first one are looked at."""
    end = start + project.durations[j]
    instants = {start, *placed.values()}
    return all(
        usage(project, placed, t, k) + project.needs[j][k] <= capacity
        for t in instants
        if start <= t < end
        for k, capacity in enumerate(project.capacities)
    )


def earliest(project, placed, j):
    """The least instant from the release on at which j fits: the release, or an end after it."""
    ends = {i: start + project.durations[i] for i, start in placed.items()}
    release = max((ends[i] + project.lags[i, j] for i in project.predecessors(j)), default=0)
    later = sorted(end for end in ends.values() if end > release)
    return next(t for t in (release, *later) if fits(project, placed, j, t))


def serial(project, word):
    """The starts of activities that are placed one after another, by activity."""
    placed = {}
    for j in word:
        placed[j] = earliest(project, placed, j)
    return placed


def eligible(project, word):
    """The activities that aren't in a word, and whose predecessors all are."""
    return [
        j
        for j in project.durations
        if j not in word and all(i in word for i in project.predecessors(j))
    ]


def keys_of(project, rule):
    """What a rule wants least of each activity."""
    if rule == "spt":
        return project.durations
    if rule == "num":
        return {j: j for j in project.durations}
    if rule == "mts":
        return {j: -len(total_successors(project, j)) for j in project.durations}
    dates = all_dates(project)
    part = "late_finish" if rule == "lft" else "total_float"
    return {j: getattr(dates[j], part) for j in dates}


def rule_starts(project, rule):
    """The starts of the schedule by a rule."""
    keys, word = keys_of(project, rule), []
    while letters := eligible(project, word):
        word.append(min(letters, key=lambda j: (keys[j], j)))
    return serial(project, word)


def check_rule(rule):
    if rule not in RULES:
        raise Fault("S3 unknown rule")


def makespan(project, starts):
    """The greatest end."""
    return max(start + project.durations[j] for j, start in starts.items())
