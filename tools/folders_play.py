"""Folders on the disk, what users and mailfold do to them, and what lies in them: for tools/try-folders.

A user's act is done as mail programs do it, by renames, links and new files, and is left out where it can't be done (a mail that isn't there
can't be moved), so that a history may lose any of its steps.
"""

import collections
import hashlib
import os
import re
import shutil
import signal
import subprocess
import threading

# A file of a Maildir: the mail by its bytes' name, its folder by the name that a user gave it, flags, inode, path, and the folder as it is named there.
File = collections.namedtuple("File", "mail folder flags inode path raw")
End = collections.namedtuple("End", "status out err")
RECENT, EARLY = 1_600_000_000, 900_000_000
# Where rooms are made: in memory, where there is such a place.
ROOM = "/dev/shm" if os.access("/dev/shm", os.W_OK) else None
DIGEST_NAME = re.compile(r"f-[0-9a-f]{30}$")


# ---- mails

def body(name):
    """The bytes of a mail: `m..` has a Date of 2020, `o..` one of 1999, `u..` none; what stands behind each `+` was written to its end."""
    base, *more = name.split("+")
    date = {"m": "Date: Sun, 13 Sep 2020 12:26:40 +0000\n", "o": "Date: Fri, 9 Jul 1999 12:00:00 +0000\n", "u": ""}[base[0]]
    text = f"From: {base}@example.org\nSubject: mail {base}\nMessage-ID: <{base}@example.org>\n{date}\nText of {base}\n"
    return (text + "".join(f"More, {part}\n" for part in more)).encode()


def day(name, times):
    """The days that a mail may count as: its Date, or those of its files."""
    return {"m": {RECENT}, "o": {EARLY}}.get(name[0], times or {RECENT})


# ---- folders

def label(folder):
    """The label of a folder."""
    if re.fullmatch(r"[a-z0-9-]{1,32}", folder) and folder not in ("mailfold", "cur", "new", "tmp"):
        return folder
    return "f-" + hashlib.sha256(folder.encode()).hexdigest()[:30]


def folder_path(root, layout, folder):
    inner = "" if folder == "inbox" else "." + folder if layout == "dots" else folder.replace(".", "/")
    return os.path.join(root, inner)


def home(root):
    """Where the program keeps what it keeps: `.mailfold`, or where the file of that name says."""
    path = os.path.join(root, ".mailfold")
    if not os.path.isfile(path):
        return path
    for name in os.listdir(root):
        if os.path.isfile(os.path.join(root, name, "log")):
            return os.path.join(root, name)
    return path


def flags_of(name):
    _, mark, letters = name.partition(":2,")
    return "".join(sorted(set(letters) & set("DFRST"))) if mark else ""


class Names:
    """The name of each mail by its bytes, where other bytes than a user wrote have one with a question mark; and users' folders by label."""

    def __init__(self):
        self.by_bytes, self.by_label = {}, {}

    def add_folder(self, folder):
        self.by_label.setdefault(label(folder), folder)

    def bytes_of(self, name):
        text = body(name)
        self.by_bytes[text] = name
        return text

    def name_of(self, text):
        return self.by_bytes.get(text) or "?" + hashlib.sha256(text).hexdigest()[:8]


def listing(root, layout, names):
    """Each file of mail in a Maildir."""
    found, own = [], home(root)

    def walk(where, inner):
        for entry in os.scandir(where):
            if not entry.is_dir(follow_symlinks=False) or entry.path == own or entry.name == "tmp":
                continue
            if entry.name not in ("cur", "new"):
                walk(entry.path, f"{inner}/{entry.name}" if inner else entry.name)
                continue
            folder = inner[1:] if layout == "dots" and inner[:1] == "." else inner.replace("/", ".") or "inbox"
            for file in os.scandir(entry.path):
                with open(file.path, "rb") as open_file:
                    mail = names.name_of(open_file.read())
                found.append(File(mail, names.by_label.get(folder, folder), flags_of(file.name), file.inode(), file.path, folder))

    walk(root, "")
    found.sort()
    return found


class View(collections.namedtuple("View", "folders flags")):
    """Where a mail stands, and the flags of its files."""

    def __str__(self):
        return ",".join(sorted(self.folders)) + (";" + self.flags if self.flags else "") if self.folders else "nowhere"


NOWHERE = View(frozenset(), "")


def views(files):
    """Of each mail where it stands, with the flags that any file of it has."""
    found = {}
    for file in files:
        folders, flags = found.get(file.mail, (frozenset(), ""))
        found[file.mail] = (folders | {file.folder}, "".join(sorted(set(flags) | set(file.flags))))
    return {mail: View(*view) for mail, view in found.items()}


# ---- filters

def selects(words, view, times):
    """Whether a filter selects what a mail shows, where its day is one of these; None where that isn't the same for each."""
    answers = {any(all(holds(word.strip(), view, time) for word in clause.split("&")) for clause in words.split("|")) for time in times}
    return answers.pop() if len(answers) == 1 else None


def holds(word, view, time):
    if word in ("all", "none"):
        return word == "all"
    is_plain, word = not word.startswith("!"), word.lstrip("!")
    kind, _, what = word.partition(":")
    if kind == "since":
        return time > RECENT - 1_000_000 if int(what[:4]) > 1999 else True
    if kind == "label":
        return (what in {label(folder) for folder in view.folders}) == is_plain
    letter = {"seen": "S", "answered": "R", "flagged": "F", "draft": "D", "deleted": "T"}[what]
    return (letter in view.flags or (letter == "T" and not view.folders)) == is_plain


# ---- the program

class Relay:
    """Carries bytes both ways between two programs, and ends both ways after so many."""

    def __init__(self, most):
        self.left, self.lock = most, threading.Lock()

    def carry(self, source, target):
        try:
            while part := os.read(source, 1 << 16):
                with self.lock:
                    part = part[: self.left]
                    self.left -= len(part)
                os.write(target, part)
                if not self.left:
                    break
        except OSError:
            pass
        os.close(target)
        os.close(source)


class Device:
    def __init__(self, name, filter_words, layout, number):
        self.name, self.filter, self.layout, self.number = name, filter_words, layout, number
        self.root, self.files, self.is_edited, self.written = name, [], False, set()
        self.has_begun = False  # whether a scan or a talk came to its end, so that a next talk tells what is here

    @property
    def has_all(self):
        return self.filter == "all"


class Player:
    """Plays acts and commands in a room of its own."""

    def __init__(self, program, room, killer=None):
        self.program, self.room, self.killer, self.names = program, room, killer, Names()
        self.devices, self.count, self.next_number = {}, 0, 0
        self.times = collections.defaultdict(set)

    # -- what is there

    def listed(self, device):
        return listing(os.path.join(self.room, device.root), device.layout, self.names)

    def log_size(self, device):
        path = os.path.join(home(os.path.join(self.room, device.root)), "log")
        return os.path.getsize(path) if os.path.exists(path) else 0

    def root_of(self, device):
        return os.path.join(self.room, device.root)

    # -- commands

    def run(self, *words, kill_at=None):
        child = subprocess.Popen([self.program, *words], cwd=self.room, stdin=subprocess.DEVNULL, stdout=subprocess.PIPE, stderr=subprocess.PIPE,
                                 env=self.surroundings(kill_at))
        try:
            out, err = child.communicate(timeout=60)
        except subprocess.TimeoutExpired:
            child.kill()
            out, err = child.communicate()
            err += b"no end after 60 s"
        return End(child.returncode, out.decode(errors="replace"), err.decode(errors="replace"))

    def surroundings(self, kill_at):
        return {**os.environ, "LD_PRELOAD": self.killer, "KILL_AT": str(kill_at)} if kill_at else None

    def make(self, name, filter_words, layout):
        device = Device(name, filter_words, layout, self.next_number)
        self.next_number += 1
        os.makedirs(self.root_of(device))
        self.devices[name] = device
        words = ["--filter", filter_words] if filter_words != "all" else []
        end = self.run("init", device.root, "--id", str(device.number), "--layout", layout, *words)
        if end.status:
            raise ValueError(f"init {name}: {end.err}")
        return device

    def sync(self, caller, server, cut=None, kills=(None, None), programs=None):
        """The two ends of a sync, by two programs where they are named."""
        ends = []
        down, up = os.pipe(), os.pipe()
        if cut is None:
            fds = ((up[0], down[1]), (down[0], up[1]))
        else:
            down_end, up_end = os.pipe(), os.pipe()
            fds = ((up_end[0], down[1]), (down_end[0], up[1]))
            relay = Relay(cut)
        programs = programs or [self.program] * 2
        for program, (word, device), (reads, writes), kill_at in zip(programs, (("sync", caller), ("serve", server)), fds, kills):
            ends.append(subprocess.Popen([program, word, device.root], cwd=self.room, stdin=reads, stdout=writes, stderr=subprocess.PIPE,
                                         env=self.surroundings(kill_at)))
        for pair in fds:
            for fd in pair:
                os.close(fd)
        carriers = []
        if cut is not None:
            for source, target in ((down[0], down_end[1]), (up[0], up_end[1])):
                carriers.append(threading.Thread(target=relay.carry, args=(source, target)))
                carriers[-1].start()
        told = []
        for end in ends:
            try:
                _, err = end.communicate(timeout=60)
            except subprocess.TimeoutExpired:
                for other in ends:
                    other.send_signal(signal.SIGKILL)
                _, err = end.communicate()
                err += b" no end after 60 s"
            told.append(End(end.returncode, "", err.decode(errors="replace")))
        for carrier in carriers:
            carrier.join()
        return told

    # -- users' acts

    def files_of(self, device, mail, folder=None):
        """The files of a mail, in a folder or in all; `*` is the first folder in which it stands."""
        files = [file for file in self.listed(device) if file.mail == mail]
        folder = files[0].folder if folder == "*" and files else folder
        return [file for file in files if folder in (None, file.folder)]

    def path(self, device, folder):
        """Where a folder lies, under the name that it has there."""
        for word in (folder, label(folder)):
            path = folder_path(self.root_of(device), device.layout, word)
            if os.path.isdir(os.path.join(path, "cur")):
                return path
        return folder_path(self.root_of(device), device.layout, folder)

    def part(self, device, folder, part):
        """A part of a folder, which is made where it is missing."""
        path = self.path(device, folder)
        self.names.add_folder(folder)
        for name in ("cur", "new", "tmp"):
            os.makedirs(os.path.join(path, name), exist_ok=True)
        return os.path.join(path, part)

    def new_name(self, flags=None):
        self.count += 1
        name = f"{RECENT + self.count}.M{self.count}P1.host"
        return name if flags is None else f"{name}:2,{flags}"

    def write(self, device, folder, mail, flags, time=RECENT):
        """Writes a file in `tmp`, and renames it into its place."""
        name = self.new_name(flags)
        place = os.path.join(self.part(device, folder, "tmp"), name)
        with open(place, "wb") as file:
            file.write(self.names.bytes_of(mail))
        os.utime(place, (time, time))
        os.rename(place, os.path.join(self.part(device, folder, "new" if flags is None else "cur"), name))

    def new(self, device, mail, folder, flags="-", how=""):
        there = {file.folder for file in self.files_of(device, mail)}
        if folder in there or len(there) >= 16:
            return
        time = EARLY if how == "old" else RECENT
        self.times[mail].add(time)
        self.write(device, folder, mail, None if flags == "-" else flags, time)

    def fill(self, device, first, count, folder):
        for number in range(int(count)):
            mail = f"{first}{number}"
            self.write(device, folder, mail, "S")

    def clear(self, device, first, count):
        for number in range(int(count)):
            self.delete(device, f"{first}{number}")

    def renamed(self, device, file, folder, flags):
        """A file gets another folder or other flags by a rename."""
        base = os.path.basename(file.path).split(":2,")[0]
        os.rename(file.path, os.path.join(self.part(device, folder, "cur"), f"{base}:2,{''.join(sorted(flags))}"))

    def flag(self, device, mail, change, folder=None):
        for file in self.files_of(device, mail, folder):
            self.renamed(device, file, file.folder, changed(file.flags, change))

    def move(self, device, mail, source, target, change=""):
        """As most programs move: by a rename."""
        for file in self.files_of(device, mail, source)[:1]:
            if target not in {other.folder for other in self.files_of(device, mail)}:
                self.renamed(device, file, target, changed(file.flags, change))

    def carry(self, device, mail, source, target):
        """As others move: the mail is written once more, and the first file removed."""
        for file in self.files_of(device, mail, source)[:1]:
            if target not in {other.folder for other in self.files_of(device, mail)}:
                self.write(device, target, mail, file.flags, os.stat(file.path).st_mtime)
                os.remove(file.path)

    def copy(self, device, mail, source, target):
        for file in self.files_of(device, mail, source)[:1]:
            there = {other.folder for other in self.files_of(device, mail)}
            if target not in there and len(there) < 16:
                self.write(device, target, mail, file.flags, os.stat(file.path).st_mtime)

    def spread(self, device, mail, first, behind):
        """Copies a mail into folders with numbers."""
        for number in range(int(first), int(behind)):
            for file in self.files_of(device, mail)[:1]:
                self.copy(device, mail, file.folder, f"g{number:02}")

    def remove(self, device, mail, folder):
        for file in self.files_of(device, mail, folder):
            os.remove(file.path)

    def delete(self, device, mail):
        for file in self.files_of(device, mail):
            os.remove(file.path)

    def edit(self, device, mail, more, how):
        """A mail is written in place, once more under another name, or over its own name."""
        name = f"{mail}+{more}"
        text = self.names.bytes_of(name)
        for file in self.files_of(device, mail)[:1]:
            self.times[name].add(RECENT)
            if how == "inplace":
                device.is_edited = True
                if file.inode in {known.inode for known in device.files}:  # else no program saw the file before
                    device.written.add((mail, file.folder))
                with open(file.path, "ab") as open_file:
                    open_file.write(text[len(body(mail)):])
                os.utime(file.path, (RECENT, RECENT))
            elif how == "fresh":
                self.write(device, file.folder, name, file.flags)
                os.remove(file.path)
            else:
                place = os.path.join(self.part(device, file.folder, "tmp"), self.new_name())
                with open(place, "wb") as open_file:
                    open_file.write(text)
                os.rename(place, file.path)

    def mkfolder(self, device, folder):
        """A folder under the very name that a user gives it, as a mail program makes one before it puts mail there."""
        self.names.add_folder(folder)
        for name in ("cur", "new", "tmp"):
            os.makedirs(os.path.join(folder_path(self.root_of(device), device.layout, folder), name), exist_ok=True)

    def rename(self, device, folder, name):
        source, target = self.path(device, folder), folder_path(self.root_of(device), device.layout, name)
        if folder != "inbox" and os.path.isdir(source) and not os.path.exists(target):
            os.makedirs(os.path.dirname(target), exist_ok=True)
            os.rename(source, target)
            self.names.add_folder(name)


def changed(flags, change):
    """Flags after a change as `+FS-R`."""
    for sign, letters in re.findall(r"([+-])([A-Z]*)", change):
        flags = set(flags) | set(letters) if sign == "+" else set(flags) - set(letters)
    return "".join(sorted(flags))


def killer_in(room, source):
    """The library that kills a program at one of its calls, or None where nothing compiles it."""
    library = os.path.join(room, "killing.so")
    compiler = os.environ.get("CC", "cc")
    if not shutil.which(compiler):
        return None
    done = subprocess.run([compiler, "-O1", "-shared", "-fPIC", "-o", library, source], capture_output=True)
    return library if done.returncode == 0 else None
