"""Logs of `plan solve --log`: names that are refused, files that stay as they were, and searches that
are killed.

    tests/trials/run log_faults     names that can't be those of a log
    tests/trials/run log_places     what is at the name before and after
    tests/trials/run log_stops      killed searches
"""

import os
import resource
import signal
import stat
import subprocess
import sys
import tempfile
import threading
import time

sys.path.append(os.path.join(os.path.dirname(os.path.abspath(__file__)), "..", "..", "bench"))
import checker
import files
import progen
from exchanges import file_of
from programs import HINTED, PROGRAM, Wrong, plan, same

HOUSE = file_of("examples/house.sm")
# A log from before, and the start of the name of a log that isn't complete.
OLD, DRAFT = b"old log\n", ".plan-log-"
INPUT, OTHER = (f"it {what}; name another file" for what in ("is the input", "gets another output"))
SEE = "\n\nFor more information, try '--help'.\n"


def put(room, name, content):
    """A new file with these bytes."""
    path = os.path.join(room, name)
    with open(path, "wb") as file:
        file.write(content)
    return path


def bytes_of(path):
    with open(path, "rb") as file:
        return file.read()


def solve(log, path, *words, **more):
    """What `plan solve` with a log gives."""
    return plan("solve", "--log", log, *words, path, **more)


def usage(name, reason):
    """What it gives if the name of the log is refused."""
    return 2, b"", f"error: --log can't write to '{name}': {reason}{SEE}".encode()


def unwritable(rest):
    """What it gives if the log can't be written."""
    return 1, b"", f"I3 output: {rest}\n".encode()


def same_without_drafts(what, room):
    """No log that isn't complete is left."""
    same(f"drafts after {what}", [name for name in os.listdir(room) if name.startswith(DRAFT)], [])


def judge_log(what, path, log):
    """A log proves what the checker of logs confirms, down to its last line."""
    try:
        checker.shown(bytes_of(path).decode(), bytes_of(log).decode())
    except checker.Refused as error:
        raise Wrong(f"the log of {what}: {error}") from None
    same(f"the last line of {what}", bytes_of(log).split(b"\n")[-2][:6], b"lower ")


def names_of_input(room, path):
    """The input's names: its own, one by another folder, a hard link and symbolic links."""
    names = [path, os.path.join(room, ".", "house.sm"), os.path.join(room, "hard")]
    names += [os.path.join(room, name) for name in ("soft", "soft_of_soft")]
    os.link(path, names[2])
    os.symlink("house.sm", names[3])
    os.symlink("soft", names[4])
    return names


def try_log_faults(room):
    """A name that the input has, `-`, a folder, a name in a missing folder, a link to no file, a
    file behind standard output: one line, and no byte of any file is lost."""
    path = put(room, "house.sm", HOUSE)
    for name in names_of_input(room, path):
        same(f"a log {name} of {path}", solve(name, path), usage(name, INPUT))
        same(f"a log {path} of {name}", solve(path, name), usage(path, INPUT))
        same("the input", bytes_of(path), HOUSE)
    with open(path, "rb") as given:
        told = solve(path, "-", given=None, stdin=given)
        same("a log of standard input", told, usage(path, INPUT))
    same("the input", bytes_of(path), HOUSE)
    same("a log -", solve("-", path, cwd=room), usage("-", "name a file"))
    same("a file -", os.path.exists(os.path.join(room, "-")), False)
    same("a folder", solve(room, path), unwritable(f"{room} is a folder; name a file"))
    away = os.path.join(room, "away")
    missing = unwritable(f"there is no folder {away}; make it")
    same("a missing folder", solve(os.path.join(away, "log"), path), missing)
    link = os.path.join(room, "link")
    os.symlink("nothing", link)
    wanted = unwritable(f"{link} is a link to no file; name another file")
    same("a link to no file", solve(link, path), wanted)
    hint = b"there is no folder %b; make it; see: plan explain I3" % away.encode()
    line = b"I3 output: there is no folder %b; make it" % away.encode()
    json = b'{"code":"I3","hint":"%b","text":"%b"}\n' % (hint, line)
    told = solve(os.path.join(away, "log"), path, "--format", "json", env=HINTED)
    same("a missing folder as JSON", told, (1, b"", json))
    out = os.path.join(room, "out")
    with open(out, "wb") as file:
        words = [PROGRAM, "solve", "--log", out, path]
        told = subprocess.run(words, stdout=file, stderr=subprocess.PIPE, timeout=60)
    same("a log of the schedule's file", (told.returncode, b"", told.stderr), usage(out, OTHER))
    same_without_drafts("refused names", room)


# ---- what is at the name before and after


def drawn(room, count, seed):
    """A drawn project of so many activities."""
    text = files.project(*progen.made(count, 1.8, 0.5, 0.2, seed))
    return put(room, f"drawn-{count}.sm", text.encode())


def judge_replaced(room):
    """A complete log replaces the file at its name, with the mode of the old file, and the file that
    a link leads to."""
    path, plain = put(room, "house.sm", HOUSE), plan("solve", os.path.join(room, "house.sm"))
    log, link = put(room, "log", OLD), os.path.join(room, "link")
    os.chmod(log, 0o600)
    os.symlink("log", link)
    for name in (log, link, os.path.join(room, "new")):
        same(f"a search with the log {name}", solve(name, path), plain)
        judge_log(name, path, name)
    same("the link", os.readlink(link), "log")
    same("the mode", stat.S_IMODE(os.stat(log).st_mode), 0o600)
    same_without_drafts("complete logs", room)


def judge_kept(room):
    """A search that fails leaves the old log as it was: an invalid file, no file, a log that can't be
    written whole."""
    log, away = put(room, "log", OLD), os.path.join(room, "away.sm")
    wrong = put(room, "wrong.sm", file_of("examples/wrong_count.sm"))
    same("a search of an invalid file", solve(log, wrong), (1, b"", b"F7 line 21\n"))
    same("the log of an invalid file", bytes_of(log), OLD)
    same("a search of no file", solve(log, away), (1, b"", b"I1 file\n"))
    same("the log of no file", bytes_of(log), OLD)
    path = drawn(room, 60, 1)
    small = {"preexec_fn": small_files, "restore_signals": False}
    status, out, err = solve(log, path, "--conflicts", "500", **small)
    same("a log that can't be written whole", (status, err), (1, b"I3 output\n"))
    same("the schedule of that search", out.split(b" ")[0] in (b"optimal", b"between"), True)
    same("the log of that search", bytes_of(log), OLD)
    same_without_drafts("failed searches", room)


def small_files():
    """No file of this process grows beyond 10,000 bytes."""
    resource.setrlimit(resource.RLIMIT_FSIZE, (10000, 10000))


def read_of(fifo, pieces):
    """Reads a fifo to its end."""
    with open(fifo, "rb") as file:
        pieces.append(file.read())


def judge_devices(room):
    """A device or a pipe gets the lines, and stays what it is. A full output loses no log."""
    path, log = put(room, "house.sm", HOUSE), os.path.join(room, "log")
    plain = plan("solve", path)
    same("a search with a log", solve(log, path), plain)
    null, fifo, pieces = os.path.join(room, "null"), os.path.join(room, "fifo"), []
    os.symlink("/dev/null", null)
    same("a search with the log /dev/null", solve(null, path), plain)
    same("the link to /dev/null", os.readlink(null), "/dev/null")
    same("/dev/null", stat.S_ISCHR(os.stat("/dev/null").st_mode), True)
    os.mkfifo(fifo)
    reader = threading.Thread(target=read_of, args=(fifo, pieces), daemon=True)
    reader.start()
    same("a search with a fifo", solve(fifo, path), plain)
    reader.join(timeout=20)
    same("what the fifo gets", pieces, [bytes_of(log)])
    same("the fifo", stat.S_ISFIFO(os.stat(fifo).st_mode), True)
    lines = bytes_of(log)
    same("a log on standard output", solve("/dev/stdout", path), (0, lines + plain[1], b""))
    same("a full device", solve("/dev/full", path), (1, plain[1], b"I3 output\n"))
    os.remove(log)
    with open("/dev/full", "wb") as full:
        words = [PROGRAM, "solve", "--log", log, path]
        told = subprocess.run(words, stdout=full, stderr=subprocess.PIPE, timeout=60)
    same("a full output", (told.returncode, told.stderr), (1, b"I3 output\n"))
    same("the log of a full output", bytes_of(log), lines)
    same_without_drafts("devices", room)


def try_log_places(room):
    """What is at the name of a log before and after a search."""
    for judge in (judge_replaced, judge_kept, judge_devices):
        with tempfile.TemporaryDirectory(dir=room) as place:
            judge(place)


# ---- killed searches


def drafts(room):
    """The logs that aren't complete."""
    return [os.path.join(room, name) for name in os.listdir(room) if name.startswith(DRAFT)]


def begun(room, log, path):
    """A search that has written some of its log."""
    words = [PROGRAM, "solve", "--seconds", "120", "--log", log, path]
    process = subprocess.Popen(words, stdout=subprocess.PIPE, stderr=subprocess.PIPE)
    deadline = time.monotonic() + 30
    while time.monotonic() < deadline:
        if any(os.path.getsize(name) > 100_000 for name in (*drafts(room), log) if os.path.exists(name)):
            return process
        time.sleep(0.02)
    process.kill()
    process.communicate()
    raise Wrong("a search writes no log")


def judge_draft(what, path, draft):
    """The whole lines of a log that isn't complete show a lower bound."""
    log = bytes_of(draft)
    shown = checker.shown(bytes_of(path).decode(), log[: log.rfind(b"\n") + 1].decode())
    same(f"what is shown after {what}", shown.rpartition(" ")[0], "verified at least")


def try_log_stops(room):
    """A search that is killed leaves what was at the name of its log: the old log, or nothing, and a
    new file with the lines so far. A search that its time limit ends has a complete log."""
    path, log = drawn(room, 90, 1), os.path.join(room, "log")
    for before in (OLD, None):
        for number in (signal.SIGINT, signal.SIGTERM, signal.SIGKILL):
            if before is not None:
                put(room, "log", before)
            process = begun(room, log, path)
            process.send_signal(number)
            process.communicate(timeout=20)
            same(f"the end by signal {number}", process.returncode, -number)
            found = bytes_of(log) if os.path.exists(log) else None
            same(f"the log after signal {number}", found, before)
            for name in drafts(room):
                judge_draft(f"signal {number}", path, name)
                os.remove(name)
        if before is not None:
            os.remove(log)
    status, out, err = solve(log, path, "--seconds", "1")
    same("a time limit", (status, out[:8], err), (0, b"between ", b""))
    judge_log("a time limit", path, log)
    same_without_drafts("a time limit", room)
