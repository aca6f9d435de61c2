"""The machine that a bench measures on."""

import os
import time


def told():
    """The processors, the load of the last minute and the day, for the head of a table."""
    day = time.strftime("%Y-%m-%d", time.gmtime())
    return f"{os.cpu_count()} processors, load {os.getloadavg()[0]:.2f}, {day}"
