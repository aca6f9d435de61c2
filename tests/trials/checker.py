"""The checker of logs, share/plan-check-log, as a module."""

import importlib.machinery
import importlib.util
import io
import os

TOP = os.path.dirname(os.path.dirname(os.path.dirname(os.path.abspath(__file__))))
CHECKER = os.path.join(TOP, "share", "plan-check-log")

loader = importlib.machinery.SourceFileLoader("plan_check_log", CHECKER)
module = importlib.util.module_from_spec(importlib.util.spec_from_loader(loader.name, loader))
loader.exec_module(module)
Refused = module.Refused


def shown(text, log):
    """What a log shows of the project in a text, as a line. Refuses a log that doesn't follow."""
    return module.check(module.project(text), io.StringIO(log, newline="\n"))


def shown_of_shop(text, instance, log):
    """The same for an instance in the text of a job shop file."""
    return module.check(module.shop(text, instance), io.StringIO(log, newline="\n"))
