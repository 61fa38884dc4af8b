"""Whether 10,000 creates take at most three times of what they take in C: `creates.py PROGRAM`, which tools/creates.c is. The best of five each,
in turn, in processor's time."""

import subprocess
import sys
import time

from mailrep import Device, Message

BODY = b"x" * 2000


def here() -> int:
    with Device(0) as device:
        begun = time.process_time_ns()
        for _ in range(10_000):
            device.create(Message("ann@example.org", "lunch", BODY, ("inbox", "work"), 0, 20_000))
        return time.process_time_ns() - begun


def in_c() -> int:
    return int(subprocess.run([sys.argv[1]], check=True, capture_output=True).stdout)


pairs = [(in_c(), here()) for _ in range(5)]
c, python = (min(times) for times in zip(*pairs, strict=True))
print(f"10,000 creates: {c / 1e6:.1f} ms in C, {python / 1e6:.1f} ms in Python, {python / c:.2f} times as many")
sys.exit(python > 3 * c)
