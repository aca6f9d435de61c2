"""Starts that are handed in, and the first verdict on them (docs/definitions.md, "Verdicts on
lists of starts" and "Runs")."""

from .schedules import fits, usage
from .words import Fault, Stream, check_plain, lines_of

LATEST_START = 10000000


def read_starts(text, count):
    """As many starts as there are activities, by activity."""
    try:
        check_plain(text)
        stream = Stream(lines_of(text), len(lines_of(text)))
        starts = {j: stream.within("F10", 0, LATEST_START) for j in range(1, count + 1)}
        stream.end()
    except Fault as fault:
        raise Fault(fault.line + " of the starts") from None
    return starts


def release(project, starts, j):
    """The least instant that the arcs to j allow."""
    ends = [
        starts[i] + project.durations[i] + project.lags[i, j] for i in project.predecessors(j)
    ]
    return max(ends, default=0)


def is_broken(project, starts, arc):
    source, target = arc
    return starts[target] < starts[source] + project.durations[source] + project.lags[arc]


def first_over(project, starts):
    """The least overloaded instant with its least resource; None without one. Usage rises only
    where something starts."""
    resources = range(len(project.capacities))
    over = [
        (t, k + 1)
        for t in set(starts.values())
        for k in resources
        if usage(project, starts, t, k) > project.capacities[k]
    ]
    return min(over, default=None)


def has_shift(project, starts, j):
    """j alone can start earlier: at its release, or at the end of another one."""
    others = {i: start for i, start in starts.items() if i != j}
    ends = [start + project.durations[i] for i, start in others.items()]
    first = release(project, starts, j)
    return any(fits(project, others, j, t) for t in (first, *ends) if first <= t < starts[j])


def is_feasible(project, starts):
    is_kept = not any(is_broken(project, starts, arc) for arc in project.arcs)
    return is_kept and first_over(project, starts) is None


def slack(project, starts, j):
    """The greatest delay of j such that, while the others stay, each delay up to it leaves the
    schedule feasible and its makespan the same."""
    ends = {i: start + project.durations[i] for i, start in starts.items()}
    most = max(ends.values()) - ends[j]
    for delay in range(1, most + 1):
        if not is_feasible(project, {**starts, j: starts[j] + delay}):
            return delay - 1
    return most


def first_verdict(project, starts):
    """The first verdict: its kind, and the numbers that it is about."""
    broken = [arc for arc in sorted(project.arcs) if is_broken(project, starts, arc)]
    if broken:
        return "broken", broken[0]
    over = first_over(project, starts)
    if over:
        return "over", over
    shifts = [j for j in sorted(starts) if has_shift(project, starts, j)]
    return ("early", shifts[:1]) if shifts else ("active", ())


def verdict(project, starts):
    """The first verdict, in a sentence with numbers."""
    kind, about = first_verdict(project, starts)
    if kind == "broken":
        return f"activity {about[1]} starts before {about[0]} ends"
    if kind == "over":
        return f"at time {about[0]} more of resource {about[1]} is needed than there is"
    return f"activity {about[0]} can start earlier" if kind == "early" else "active"


def label(ids, names, j):
    """The id and the name of an activity, as far as it has them."""
    return " ".join(word for word in (ids.get(j), names.get(j)) if word)


def named_verdict(project, starts, ids, names, resources):
    """The first verdict, in a sentence with ids and names, which are known by their numbers. What has
    none has its number, as in a sentence with numbers if it names nothing else."""
    kind, about = first_verdict(project, starts)
    if kind == "over":
        time, resource = about
        return f"at time {time} more of {resources.get(resource) or f'resource {resource}'} is needed than there is"
    labels = [label(ids, names, j) for j in about]
    if not any(labels):
        return verdict(project, starts)
    called = [own or f"activity {j}" for own, j in zip(labels, about)]
    return f"{called[1]} starts before {called[0]} ends" if kind == "broken" else f"{called[0]} can start earlier"
