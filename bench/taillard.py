#!/usr/bin/env python3
"""The generator of job shops in E. Taillard, Benchmarks for basic scheduling problems (1993), and the
seeds of ta01 from there. Both were typed from memory.

    bench/taillard.py > ta01.txt    ta01, a shop of 15 jobs on 15 machines
"""

MODULUS, FACTOR, QUOTIENT, REST = 2147483647, 16807, 127773, 2836
# jobs, machines, seed of the times, seed of the machines
SHOPS = {"ta01": (15, 15, 840612802, 398197754)}


class Numbers:
    """Numbers that look random, from a seed."""

    def __init__(self, seed):
        self.seed = seed

    def between(self, low, high):
        over, under = divmod(self.seed, QUOTIENT)
        self.seed = FACTOR * under - REST * over
        self.seed += MODULUS if self.seed < 0 else 0
        return low + int(self.seed / MODULUS * (high - low + 1))


def drawn(name):
    """The text of a shop without a name."""
    jobs, machines, times_seed, machines_seed = SHOPS[name]
    times, swaps = Numbers(times_seed), Numbers(machines_seed)
    lasting = [[times.between(1, 99) for _ in range(machines)] for _ in range(jobs)]
    lines = [f"{jobs} {machines}"]
    for row in lasting:
        order = list(range(machines))
        for at in range(machines):
            other = swaps.between(at, machines - 1)
            order[at], order[other] = order[other], order[at]
        lines.append(" ".join(f"{machine} {time}" for machine, time in zip(order, row)))
    return "\n".join(lines) + "\n"


if __name__ == "__main__":
    print(drawn("ta01"), end="")
