"""Programs of which one allocation is refused, by its number."""

import os
import subprocess

HERE = os.path.dirname(os.path.abspath(__file__))
TOP = os.path.dirname(os.path.dirname(HERE))


def library(folder):
    """The library that refuses, built from refuse.c."""
    built = os.path.join(folder, "refuse.so")
    source = os.path.join(HERE, "refuse.c")
    subprocess.run(["cc", "-O1", "-shared", "-fPIC", "-o", built, source], check=True)
    return built


class Refusals:
    """Runs of programs with a library that refuses allocations; its reports are in a folder."""

    def __init__(self, built, folder):
        self.built, self.told = built, os.path.join(folder, "refused")
        os.makedirs(folder, exist_ok=True)

    def run(self, words, file=os.devnull, number=0):
        """The status and both outputs of a program, and whether it met the refusal of this number; 0
        refuses nothing."""
        if os.path.exists(self.told):
            os.remove(self.told)
        names = dict(os.environ, LD_PRELOAD=self.built, REFUSE=str(number), REFUSED=self.told)
        with open(os.path.join(TOP, file), "rb") as source:
            run = subprocess.run(words, stdin=source, capture_output=True, cwd=TOP, env=names)
        return (run.returncode, run.stdout, run.stderr), os.path.exists(self.told)

    def asked(self, words):
        """How often a program asks for memory, of which nothing is refused."""
        counted = self.told + ".count"
        names = dict(os.environ, LD_PRELOAD=self.built, COUNTED=counted)
        subprocess.run(words, stdin=subprocess.DEVNULL, capture_output=True, cwd=TOP, env=names)
        with open(counted, encoding="ascii") as file:
            return int(file.read())
