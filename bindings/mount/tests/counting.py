"""counting.py NUZ MOUNT WORKER COUNT: counts in steps alongside others, and prints how often.

Each step reads one of three files, writes a number that is greater by one, and is committed, or
aborted now and then. One that would close a cycle of waits is aborted and begun anew.
"""
from __future__ import annotations

import errno
import os
import random
import subprocess
import sys


def count_in(step: str, name: str) -> bool:
    """Whether a file of a step has been counted up."""
    try:
        os.mkdir(step)
        with open(f"{step}/{name}", encoding="ascii") as file:
            number = int(file.read())
        with open(f"{step}/{name}.new", "w", encoding="ascii") as file:
            file.write(str(number + 1))
        os.rename(f"{step}/{name}.new", f"{step}/{name}")
        return True
    except OSError as error:
        if error.errno != errno.EDEADLK:
            raise
        return False


def main(nuz: str, top: str, worker: str, count: str) -> None:
    source = random.Random(int(worker))
    committed = done = 0
    while done < int(count):
        step = f"{top}/worker{worker}"
        counted = count_in(step, source.choice("abc"))
        keeps = counted and source.random() < 0.7
        subprocess.run([nuz, "commit" if keeps else "abort", step], check=True)
        committed += keeps
        done += counted
    print(committed)


main(*sys.argv[1:])
