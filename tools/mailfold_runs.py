"""Runs mailfold, kills and cuts it, and reads what its folders have, for tools/mailfold-trials."""

import collections
import hashlib
import os
import queue
import re
import shutil
import signal
import subprocess
import tempfile
import threading
import time
from pathlib import Path

TOP = Path(__file__).resolve().parent.parent
PROGRAM = str(TOP / "crates/mailfold/out/proved/mailfold")
faults = 0


def say(*words):
    print(*words, flush=True)


def fault(*words):
    global faults
    faults += 1
    say("FAULT", *words)


def expect(is_so, *words):
    if not is_so:
        fault(*words)
    return is_so


# ---- running the program

End = collections.namedtuple("End", "status cpu memory out err")
Sync = collections.namedtuple("Sync", "caller server bytes turns cut")


def waited(child):
    """Waits for a child: its status, its processor seconds, and the most memory it had in MB."""
    _, status, used = os.wait4(child.pid, 0)
    child.returncode = os.waitstatus_to_exitcode(status)
    return child.returncode, used.ru_utime + used.ru_stime, used.ru_maxrss // 1024


def end_at_once(child):
    """Kills a child that wasn't waited for yet."""
    if child.returncode is None:
        try:
            os.kill(child.pid, signal.SIGKILL)
        except ProcessLookupError:
            pass


def run(*words, user=None, preload=None, kill_after=None):
    """Runs the program to its end, or kills it after so many seconds."""
    surroundings = {**os.environ, "LD_PRELOAD": preload} if preload else None
    with tempfile.TemporaryFile() as out, tempfile.TemporaryFile() as err:
        child = subprocess.Popen([PROGRAM, *words], stdin=subprocess.DEVNULL, stdout=out, stderr=err, user=user, env=surroundings)
        timer = threading.Timer(kill_after, end_at_once, [child]) if kill_after is not None else None
        if timer:
            timer.start()
        status, cpu, memory = waited(child)
        if timer:
            timer.cancel()
        out.seek(0), err.seek(0)
        return End(status, cpu, memory, out.read().decode(errors="replace"), err.read().decode(errors="replace"))


class Relay:
    """Carries bytes between two programs, counts them, may cut both ways after so many, and may hand each on so many seconds later."""

    def __init__(self, most, delay=0):
        self.most, self.bytes, self.turns, self.last, self.cut = most, 0, 0, None, False
        self.delay = delay
        self.lock = threading.Lock()

    def parts(self, name, source):
        try:
            while not self.cut and (part := os.read(source, 1 << 16)):
                with self.lock:
                    if self.most is not None and self.bytes + len(part) >= self.most:
                        part, self.cut = part[: self.most - self.bytes], True
                    self.bytes += len(part)
                    self.turns += self.last != name
                    self.last = name
                yield part
        except OSError:
            pass

    def carry(self, name, source, target):
        parts = self.parts(name, source)
        try:
            for part in later(parts, self.delay) if self.delay else parts:
                while part:
                    part = part[os.write(target, part) :]
        except OSError:
            pass
        os.close(target)
        os.close(source)


def later(parts, delay):
    """The parts, each so many seconds after it came."""
    waiting = queue.SimpleQueue()

    def take():
        for part in parts:
            waiting.put((time.monotonic() + delay, part))
        waiting.put((time.monotonic() + delay, None))

    threading.Thread(target=take, daemon=True).start()
    while True:
        due, part = waiting.get()
        time.sleep(max(0, due - time.monotonic()))
        if part is None:
            return
        yield part


def sync(caller, server, cut=None, kill=None, preload=None, programs=None, delay=0):
    """Syncs two folders. `cut` ends the line after so many bytes; `kill` is (seconds, ends), with `c` and `s` for the ends; each byte comes `delay`
    seconds later than it was sent."""
    surroundings = {**os.environ, "LD_PRELOAD": preload} if preload else None
    relay = Relay(cut, delay)
    ends, errors = [], []
    for which, (word, folder) in enumerate((("sync", caller), ("serve", server))):
        err = tempfile.TemporaryFile()
        program = programs[which] if programs else PROGRAM
        ends.append(subprocess.Popen([program, word, folder], stdin=subprocess.PIPE, stdout=subprocess.PIPE, stderr=err, env=surroundings, bufsize=0))
        errors.append(err)
    one, other = ends
    carriers = []
    for name, source, target in (("c", one, other), ("s", other, one)):
        fds = os.dup(source.stdout.fileno()), os.dup(target.stdin.fileno())
        carriers.append(threading.Thread(target=relay.carry, args=(name, *fds)))
    for end in ends:
        end.stdin.close(), end.stdout.close()
    for carrier in carriers:
        carrier.start()
    timer = None
    if kill:
        timer = threading.Timer(kill[0], lambda: [end_at_once(end) for end, letter in zip(ends, "cs") if letter in kill[1]])
        timer.start()
    told = []
    for end, err in zip(ends, errors):
        status, cpu, memory = waited(end)
        err.seek(0)
        told.append(End(status, cpu, memory, "", err.read().decode(errors="replace")))
        err.close()
    if timer:
        timer.cancel()
    for carrier in carriers:
        carrier.join()
    return Sync(*told, relay.bytes, relay.turns, relay.cut)


def whole_sync(caller, server, **words):
    """A sync that must come to its end on both sides."""
    done = sync(caller, server, **words)
    expect(done.caller.status == done.server.status == 0, f"sync {caller} {server}: {done.caller.status} {done.server.status} {done.caller.err} {done.server.err}")
    return done


def settled_sync(caller, server, most=4):
    """Syncs until there is nothing to tell; the number of syncs before that."""
    for number in range(most):
        done = whole_sync(caller, server)
        if "nothing to tell" in done.caller.err and "nothing to tell" in done.server.err:
            return number
    fault(f"{caller} and {server} have something to tell after {most} syncs: {done.caller.err.strip()} | {done.server.err.strip()}")
    return most


def nothing_synced():
    """A library that makes the calls that flush a disk do nothing, or none where there is no compiler."""
    source = "int fsync(int f){(void)f;return 0;} int fdatasync(int f){(void)f;return 0;} void sync(void){}\n"
    library = os.path.abspath("no-flush.so")
    done = subprocess.run(["cc", "-shared", "-fPIC", "-x", "c", "-o", library, "-"], input=source.encode(), capture_output=True)
    return library if done.returncode == 0 else None


# ---- what a Maildir has

def mail_paths(root):
    """The path of each file of mail, as bytes, and its folder."""
    for where, folders, names in os.walk(os.fsencode(root)):
        folders[:] = [name for name in folders if name != b".mailfold"]
        if os.path.basename(where) in (b"cur", b"new"):
            folder = os.path.relpath(os.path.dirname(where), os.fsencode(root)).decode()
            folder = "inbox" if folder == "." else folder.lstrip(".").replace(".", "/") if folder.startswith(".") else folder
            for name in names:
                yield os.path.join(where, name), folder


def flags_of(path):
    """The flags by a file's name: behind its first colon."""
    told = re.match(rb"[^:]*:2,(.*)$", os.path.basename(path), re.DOTALL)
    return "".join(sorted(set(told[1].decode(errors="replace")) & set("DFRST"))) if told else ""


def view(root):
    """Of each mail, by the digest of its bytes, its folders and flags. A mail that stands twice in a folder has it twice."""
    found = collections.defaultdict(list)
    for path, folder in mail_paths(root):
        with open(path, "rb") as file:
            found[hashlib.sha256(file.read()).hexdigest()].append((folder, flags_of(path)))
    return {digest: sorted(places) for digest, places in found.items()}


def numbered(root):
    """Of each mail that `mails.deliver` wrote, by its number, the paths and folders where it stands."""
    found = collections.defaultdict(list)
    for path, folder in mail_paths(root):
        number = re.search(rb"M(\d+)P", path)
        if number:
            found[int(number[1])].append((path.decode(), folder))
    return found


def fresh(*folders):
    """Makes folders anew: each (name, id, filter or None, layout)."""
    for name, number, keeps, layout in folders:
        shutil.rmtree(name, ignore_errors=True)
        os.makedirs(name)
        words = ["init", name, "--id", str(number), "--layout", layout]
        end = run(*words, *(["--filter", keeps] if keeps else []))
        expect(end.status == 0, f"init {name}: {end.err}")


def log_of(root):
    """The events of a folder's log, one line each, without their numbers."""
    end = run("log", root)
    expect(end.status == 0, f"log {root}: {end.err}")
    return [line.split("\t", 1)[1] for line in end.out.splitlines()]


def check_logs(roots, made=None):
    """No version is new twice or taken twice by one folder, and each mail is new once in all; how many are new, changed and merged."""
    new, changed = collections.Counter(), collections.Counter()
    for root in roots:
        taken = collections.Counter()
        for line in log_of(root):
            words = line.split()
            if words[0] == "new":
                new[words[1]] += 1
            elif words[0] == "change":
                changed[words[1]] += 1
            elif words[:2] == ["take", "from"] and words[3] == "mail":
                taken[words[4]] += 1
        twice = [version for version, times in taken.items() if times > 1]
        expect(not twice, f"{root} took {len(twice)} versions twice: {twice[:5]}")
    twice = [version for version, times in (new + changed).items() if times > 1]
    expect(not twice, f"told twice: {twice[:5]}")
    if made is not None:
        expect(len(new) == made, f"{len(new)} mails were told as new, and {made} were made")
    return len(new), len(changed)


def check_whole(*roots):
    for root in roots:
        end = run("verify", root)
        expect(end.status == 0 and "0 missing, 0 damaged" in end.err, f"verify {root}: {end.out[:200]} {end.err}")


def check_equal(one, other, keeps=None, what=""):
    """Two folders show the same, or the second shows what `keeps` picks of the first."""
    here, there = view(one), view(other)
    wanted = {digest: places for digest, places in here.items() if keeps is None or keeps(places)}
    missing, more = wanted.keys() - there.keys(), there.keys() - wanted.keys()
    other_view = [digest for digest in wanted.keys() & there.keys() if wanted[digest] != there[digest]]
    expect(not missing, f"{what}{len(missing)} mails of {one} aren't in {other}: {[wanted[digest] for digest in sorted(missing)[:3]]}")
    expect(not more, f"{what}{len(more)} mails of {other} shouldn't be there: {[there[digest] for digest in sorted(more)[:3]]}")
    expect(not other_view, f"{what}{len(other_view)} stand otherwise in {one} and {other}: {[(wanted[digest], there[digest]) for digest in other_view[:3]]}")
    return len(wanted)
