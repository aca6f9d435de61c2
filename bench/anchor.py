"""Compiles the C++ programs of bench/native, beside which `plan` is measured."""

import os
import shutil
import subprocess

HERE = os.path.dirname(os.path.abspath(__file__))
COMPILER = os.environ.get("CXX") or "c++"
# A start of `plan` loads the C library and no other, so the library of C++ isn't loaded either.
FLAGS = ["-std=c++17", "-O2", "-static-libstdc++", "-static-libgcc"]
# The commands that have a program, in a file of this name.
FILES = {"cpm": "cpm", "schedule": "schedule", "best": "best", "best-project": "best_project"}


def compiled(folder):
    """The programs by their commands; none where there is no compiler."""
    if shutil.which(COMPILER) is None:
        return {}
    return {command: built(folder, name) for command, name in FILES.items()}


def built(folder, name):
    """The program of a file, in this folder."""
    program = os.path.join(folder, name)
    source = os.path.join(HERE, "native", name + ".cpp")
    subprocess.run([COMPILER, *FLAGS, "-o", program, source], check=True)
    return program


def version():
    """The first line of what the compiler says of itself."""
    said = subprocess.run([COMPILER, "--version"], check=True, capture_output=True, text=True)
    return said.stdout.splitlines()[0]
