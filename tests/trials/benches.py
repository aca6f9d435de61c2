"""Each request that bench/run measures is answered with the status that is expected there."""

import os
import subprocess
import sys

sys.path.append(os.path.join(os.path.dirname(os.path.abspath(__file__)), "..", "..", "bench"))
import growth
import services
from programs import PROGRAM, Wrong, same
from replayed import expecting, request_file, statuses


def replayed(path, request, count=2):
    """The output of `plan replay` on a request, several times."""
    words = [PROGRAM, "replay", path, *[request] * count]
    return subprocess.run(words, check=True, capture_output=True).stdout


def try_benches(room):
    """The requests of both tables; an output with another status is noticed."""
    for name, body, count, text, status, _ in services.REQUESTS:
        path = services.office(PROGRAM, room, count, body())
        found = statuses(replayed(path, request_file(room, text)))
        same(f"the statuses of {name}", found, [status] * 2)
    for name, body, lags, text, status, _ in services.TIMES:
        path = services.office(PROGRAM, room, 1, body(), lags)
        found = statuses(replayed(path, request_file(room, text)))
        same(f"the statuses of {name}", found, [status] * 2)
    path = growth.office(PROGRAM, room, 10)
    for name, (text, status) in growth.REQUESTS.items():
        output = replayed(path, request_file(room, text % growth.KEY))
        same(f"the statuses of {name}", statuses(output), [status] * 2)
        is_noticed(name, output, status + 1, 2)
        is_noticed(name, output, status, 3)


def is_noticed(name, output, status, count):
    try:
        expecting(name, status, count)(output)
    except SystemExit:
        return
    raise Wrong(f"{name}: nobody notices an output without {count} responses with status {status}")
