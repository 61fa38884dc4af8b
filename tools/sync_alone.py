#!/usr/bin/env python3
"""Tells the processor time that programs take for the syncs that end a script, over sparing knowledge, in microseconds: the least of so many runs, in turn.

  tools/sync_alone.py RUNS SCRIPT PROGRAM..

Each program is run as `PROGRAM run --sparing` and given the script's lines but for the last ones that all sync replica 1, or ask for bytes. Once it waits for
more, its processor time is read; then it is given these. What it takes from there to its end counts: the program and the kernel for it, and giving its memory back.
So this is no difference of two runs, each of which would be longer than what is measured. It needs Linux.
"""

import os
import subprocess
import sys
import threading
import time

LAST = (b"sync 1 ", b"bytes ")
PAUSE = 0.05


def so_far(pid):
    """The processor time of a process whose one thread is still there."""
    with open(f"/proc/{pid}/schedstat", encoding="ascii") as file:
        return int(file.read().split()[0]) / 1e9


def waits(pid):
    with open(f"/proc/{pid}/stat", encoding="ascii") as file:
        return file.read().rpartition(")")[2].split()[0] == "S"


def settled(pid):
    """The processor time once the process waits and takes no more."""
    before = None
    while True:
        now = so_far(pid)
        if now == before and waits(pid):
            return now
        before = now
        time.sleep(PAUSE)


def parted(script):
    """The lines of a script up to its last syncs, and these."""
    with open(script, "rb") as file:
        lines = file.readlines()
    first = len(lines)
    while first and lines[first - 1].startswith(LAST):
        first -= 1
    return b"".join(lines[:first]), b"".join(lines[first:])


def alone(program, written, rest):
    """The processor time of one run behind what is written before the sync."""
    with subprocess.Popen([program, "run", "--sparing"], stdin=subprocess.PIPE, stdout=subprocess.PIPE) as run:
        reader = threading.Thread(target=run.stdout.read)
        reader.start()
        run.stdin.write(written)
        run.stdin.flush()
        begun = settled(run.pid)
        run.stdin.write(rest)
        run.stdin.close()
        reader.join()
        _, status, used = os.wait4(run.pid, 0)
        run.returncode = status
    if status != 0:
        sys.exit(f"sync_alone: {program} could not run the script")
    return round((used.ru_utime + used.ru_stime - begun) * 1_000_000)


def main(words):
    runs, script, programs = int(words[0]), words[1], words[2:]
    written, rest = parted(script)
    if not rest:
        sys.exit(f"sync_alone: {script} ends with no sync of replica 1")
    times = [[alone(program, written, rest) for program in programs] for _ in range(runs)]
    print(*(min(column) for column in zip(*times)))


if __name__ == "__main__":
    main(sys.argv[1:])
