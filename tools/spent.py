#!/usr/bin/env python3
"""Tells the processor time that programs take on a script, in microseconds: the least of so many runs, in turn.

  tools/spent.py RUNS SCRIPT PROGRAM..

Each program is run as `PROGRAM run` with the script as its input. Its time is that of the program and of the kernel for it.
A program that ends with a fault ends this one, with what it said last.
"""

import os
import subprocess
import sys


def spent(program, script):
    """The processor time of one run."""
    with open(script, "rb") as lines, open(os.devnull, "wb") as nothing:
        run = subprocess.Popen([program, "run"], stdin=lines, stdout=nothing)
        _, status, used = os.wait4(run.pid, 0)
        run.returncode = status
    if status != 0:
        sys.exit(f"spent: {program} could not run {script}")
    return round((used.ru_utime + used.ru_stime) * 1_000_000)


def main(words):
    runs, script, programs = int(words[0]), words[1], words[2:]
    times = [[spent(program, script) for program in programs] for _ in range(runs)]
    print(*(min(column) for column in zip(*times)))


if __name__ == "__main__":
    main(sys.argv[1:])
