"""Job shops whose jobs are due, as lists of activities for `plan solve --goal tardiness`."""

import os

HERE = os.path.dirname(os.path.abspath(__file__))
# A job is due at this share of its own work, in percent.
SHARE = 130


def text_of(rows):
    """The list of a job shop: each step is an activity, each machine a resource of capacity 1, and the
    last step of a job has its due date. Of each job, `rows` has machine and time of each step."""
    machines = 1 + max(machine for steps in rows for machine in steps[::2])
    lines = [["id", "duration", "predecessors", "due", *(f"m{k}" for k in range(machines))]]
    lines.append(["capacity", "", "", "", *["1"] * machines])
    for job, steps in enumerate(rows, 1):
        due = sum(steps[1::2]) * SHARE // 100
        for place in range(0, len(steps), 2):
            step, is_last = place // 2 + 1, place + 2 == len(steps)
            before = f"j{job}s{step - 1}" if step > 1 else ""
            needs = ["1" if k == steps[place] else "" for k in range(machines)]
            lines.append([f"j{job}s{step}", steps[place + 1], before, due if is_last else "", *needs])
    return "".join(",".join(map(str, line)) + "\n" for line in lines)


def shops(count=10):
    """The names and rows of the job shops of bench/shops.txt with so many jobs and machines."""
    with open(os.path.join(HERE, "shops.txt"), encoding="ascii") as file:
        lines = file.read().splitlines()
    for place, line in enumerate(lines):
        if line.startswith("instance") and lines[place + 3].split() == [str(count)] * 2:
            rows = lines[place + 4 : place + 4 + count]
            yield line.split()[1], [[int(word) for word in row.split()] for row in rows]
