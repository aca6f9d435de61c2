"""Requests that `plan replay` answers, and the statuses that its responses must have."""

import os
import re


def request_file(folder, text):
    """The file of a request."""
    path = os.path.join(folder, "request")
    with open(path, "w", encoding="ascii", newline="") as file:
        file.write(text)
    return path


def statuses(printed):
    """The status of each response in the output of `plan replay`."""
    found = []
    while printed:
        head, _, rest = printed.partition(b"\r\n\r\n")
        size = re.search(rb"(?im)^content-length: *(\d+)", head)
        if not head.startswith(b"HTTP/1.1 ") or size is None:
            raise SystemExit(f"bench/run: no response: {head[:60]!r}")
        found.append(int(head.split()[1]))
        printed = rest[int(size[1]):]
    return found


def expecting(name, status, count):
    """A function of an output that ends the program unless it has so many responses with a status."""

    def check(printed):
        found = statuses(printed)
        if found != [status] * count:
            seen = ", ".join(map(str, sorted(set(found)))) or "none"
            raise SystemExit(
                f"bench/run: {name}: {len(found)} responses with status {seen} in place of {count}"
                f" with status {status}")

    return check
