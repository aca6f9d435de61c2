"""The program that the tests run: the one that PLAN_PROGRAM names, else the one that ./plan runs."""

import os
import signal
import subprocess
import sys

TESTS = os.path.dirname(os.path.abspath(__file__))
TOP = os.path.dirname(TESTS)


def _resolved():
    """The path of the program; exits with one line if there is none."""
    named = os.environ.get("PLAN_PROGRAM")
    if named:
        if not os.access(named, os.X_OK):
            sys.exit(f"PLAN_PROGRAM names {named}, which can't be run")
        return os.path.abspath(named)
    words = [os.path.join(TOP, "release"), "--program"]
    asked = subprocess.run(words, capture_output=True, text=True)
    if asked.returncode:
        sys.exit(f"{asked.stderr.strip()}, or set PLAN_PROGRAM")
    return asked.stdout.strip()


PROGRAM = _resolved()
# Tests see no hints, unless they ask for them.
os.environ.pop("PLAN_HINTS", None)
# A background job of a script ignores these signals, and so would each program that a test starts.
for _signal, _handler in ((signal.SIGINT, signal.default_int_handler), (signal.SIGQUIT, signal.SIG_DFL)):
    if signal.getsignal(_signal) == signal.SIG_IGN:
        signal.signal(_signal, _handler)
