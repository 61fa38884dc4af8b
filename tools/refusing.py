"""Runs a program of which one call is refused: what tools/each-growth, tools/each-cut and tools/bytes-asked share.

It compiles tools/refusing.c with `cc`, which stands before the program by LD_PRELOAD. The program has to be linked to the
C library at run time, as `rt run` links it.
"""

import atexit
import os
import pathlib
import shutil
import subprocess
import sys
import tempfile

TOP = pathlib.Path(__file__).resolve().parent.parent
ROWS = TOP / "crates/try_scripts/data"
MAILREP = TOP / "crates/mr_console/out/mailrep"
# A script of two nodes, and what `mailrep live` prints of it.
LIVE_SCRIPT = b"""\
replica 0 1000000 4096 all
replica 1 1000000 4096 label:inbox
create 0 inbox . 2026-01-05 ann Hi
create 0 work . 2026-01-05 ann Hi
create 1 work . 2026-01-05 ann Hi
"""
LIVE_PRINTS = b"""\
joined
heads 0: 0.1 0.2 1.1
pushouts 0:
heads 1: 0.1
pushouts 1: 1.1
"""

room = pathlib.Path(tempfile.mkdtemp(prefix="refusing-"))
atexit.register(shutil.rmtree, room, ignore_errors=True)
differing = 0


def differs(what):
    """Says what is not as it has to be."""
    global differing
    differing += 1
    print(what, flush=True)


def finish(text):
    """Ends the tool: with what was tried where all was as it has to be, else with status 1."""
    if differing:
        print(f"{differing} differ")
        sys.exit(1)
    print(text)


def program(words, default=MAILREP):
    """The program to run: the one that is named, or the built one."""
    path = pathlib.Path(words[0]).resolve() if words else default
    if not os.access(path, os.X_OK):
        sys.exit(f"{path} is not there: build it first, or name the program")
    return path


def library():
    """The library that stands before the program."""
    built = room / "refusing.so"
    if not built.exists():
        source = TOP / "tools/refusing.c"
        words = [os.environ.get("CC", "cc"), "-O2", "-shared", "-fPIC", "-o", built, source, "-ldl"]
        subprocess.run(words, check=True)
    return built


class Run:
    """What a run came to."""

    def __init__(self, words, given=b"", refuse=None, asked=None, read_bytes=None, seconds=None):
        refused, reads = room / "refused", room / "reads"
        refused.unlink(missing_ok=True)
        reads.unlink(missing_ok=True)
        env = dict(os.environ, LD_PRELOAD=str(library()), REFUSED=str(refused), READS=str(reads))
        if refuse:
            env["REFUSE"] = refuse
        if asked:
            env["ASKED"] = str(asked)
        if read_bytes:
            env["READ_BYTES"] = str(read_bytes)
        words = [str(word) for word in words]
        try:
            ran = subprocess.run(words, input=given, capture_output=True, env=env, timeout=seconds)
            self.out, self.err, self.status = ran.stdout, ran.stderr, ran.returncode
        except subprocess.TimeoutExpired:
            self.out, self.err, self.status = b"", b"no end in %d seconds" % seconds, None
        self.is_refused = refused.exists()
        self.is_asked_again = self.is_refused and refused.read_text() == "again"
        self.reads = int(reads.read_text()) if reads.exists() else None

    def told(self):
        return f"status {self.status}, {self.err.decode(errors='replace').strip()!r}, prints {self.out!r}"


def has_live(mailrep):
    """Whether the program has the command `live`."""
    return subprocess.run([mailrep, "live", "--help"], capture_output=True).returncode == 0


def outputs(mailrep, lines, *options):
    """What the script prints up to each of its lines: the first is of none of them."""
    begun = [b"".join(lines[:count]) for count in range(len(lines) + 1)]
    return [subprocess.run([mailrep, "run", *options], input=it, capture_output=True).stdout for it in begun]


def row(name, *options):
    """The lines of a row's script, and what it has to print."""
    lines = (ROWS / f"{name}.script").read_bytes().splitlines(keepends=True)
    expected = ROWS / f"{name}.expected"
    sparing = ROWS / f"{name}.sparing.expected"
    if "--sparing" in options and sparing.exists():
        expected = sparing
    return lines, expected.read_bytes()
