"""Folders that an older mailfold made, as archives in tools/fixtures, and what comes of them: for tools/try-folders.

Each archive is a folder with all that the program keeps, hard links among it, as `write` made it once by that program. `all` is a folder with
dots, `inbox` a plain one with the filter label:inbox; the two have met, and each has something that the other hasn't heard of yet:

  m1   lies in both, as it was delivered        m6   was deleted, and both know it
  m2   was flagged on both sides, and joined    m7   was deleted on `all`, which `inbox` doesn't know
  m3   was moved into Trash on `all`            m8   stands in two folders
  m4   was flagged on one side and answered     u9   has no Date
       on the other, and they haven't met since m10  was edited, as a draft
  m5   was moved out by `inbox`, and waits      m11  was moved into Sent by `inbox`, and came as .f-c16bc8..

A log knows its file, so that a folder out of an archive says that it was copied until it is told that it was moved.
"""

import io
import os
import tarfile
from pathlib import Path

import folders_play
from folders_play import NOWHERE, RECENT, Player, views

FIXTURES = Path(__file__).resolve().parent / "fixtures"
NAMES = ("all", "inbox")
STEPS = """\
new all m1 inbox S
new all m2 inbox S
new all m3 inbox S
new all m4 inbox S
new all m5 inbox S
new all m6 inbox S
new all m7 inbox S
new all m8 inbox S
copy all m8 inbox work
new all u9 inbox S old
new all m10 inbox DS
new all m11 inbox S
scan all
sync inbox all
sync inbox all
flag all m2 +F
flag inbox m2 +R
sync inbox all
sync inbox all
move all m3 inbox Trash
delete all m6
edit all m10 1 fresh
move inbox m11 inbox Sent
sync all inbox
sync inbox all
sync all inbox
flag all m4 +F
delete all m7
scan all
flag inbox m4 +R
move inbox m5 inbox work
scan inbox
"""


def versions():
    return sorted({path.name.removeprefix("mailfold-").removesuffix("-all.tar") for path in FIXTURES.glob("mailfold-*-all.tar")})


# ---- archives

def packed(root):
    """A folder as the bytes of an archive: in order, with fixed times and owners."""
    out = io.BytesIO()
    with tarfile.open(fileobj=out, mode="w", format=tarfile.USTAR_FORMAT) as archive:
        for path in sorted(Path(root).rglob("*"), key=lambda path: path.relative_to(root).parts):
            entry = archive.gettarinfo(path, str(path.relative_to(root)))
            entry.uid = entry.gid = 0
            entry.uname = entry.gname = ""
            entry.mtime = RECENT
            entry.mode = 0o700 if path.is_dir() else 0o600
            if entry.isreg():
                with open(path, "rb") as file:
                    archive.addfile(entry, file)
            else:
                archive.addfile(entry)
    return out.getvalue()


def unpacked(version, name, root):
    with tarfile.open(FIXTURES / f"mailfold-{version}-{name}.tar") as archive:
        archive.extractall(root)


def view_lines(version, part):
    """What a list of the repository says of a part: lines as `m1 inbox S`."""
    lines = (FIXTURES / f"mailfold-{version}.views").read_text().splitlines()
    return [line.split(": ", 1)[1] for line in lines if line.startswith(f"{part}: ")]


def lines_of(device_views):
    return [f"{mail} {','.join(sorted(view.folders))} {view.flags}".strip() for mail, view in sorted(device_views.items())]


# ---- making them

def write(program, room, version):
    """Makes the archives anew by a program, and the list of what they show. Returns the files."""
    import folders_game
    import folders_histories

    history = folders_histories.read("folder all all dots\nfolder inbox label:inbox plain\nedge all inbox\n" + STEPS)
    game = folders_game.Game(program, history, room)
    for name, filter_words, layout in history.folders:
        game.model.begin(name)
        game.player.make(name, filter_words, layout)
    for step in history.steps:
        game.step(step)
    FIXTURES.mkdir(exist_ok=True)
    said, files = [], []
    for part in ("before", "after"):
        for device in game.player.devices.values():
            if part == "before":
                files.append(FIXTURES / f"mailfold-{version}-{device.name}.tar")
                files[-1].write_bytes(packed(game.player.root_of(device)))
            said += [f"{device.name} {part}: {line}" for line in lines_of(views(game.player.listed(device)))]
        if part == "before":
            for _ in range(3):
                for pair in (("all", "inbox"), ("inbox", "all")):
                    game.sync(*map(game.device, pair))
    files.append(FIXTURES / f"mailfold-{version}.views")
    files[-1].write_text("\n".join(said) + "\n")
    return files


# ---- opening them

class Fixture:
    """The two folders of a version in a room, by a program."""

    def __init__(self, version, program, room):
        self.version, self.player, self.wrong = version, Player(program, room), []
        for name in [f"{base}{more}" for base in ("m", "u") for more in range(1, 12)] + ["m10+1"]:
            self.player.names.bytes_of(name)
        for folder in ("inbox", "work", "Trash", "Sent"):
            self.player.names.add_folder(folder)
        for number, (name, filter_words, layout) in enumerate((("all", "all", "dots"), ("inbox", "label:inbox", "plain"))):
            self.player.devices[name] = folders_play.Device(name, filter_words, layout, number)
            os.makedirs(os.path.join(room, name))
            unpacked(version, name, os.path.join(room, name))
        self.player.next_number = 2

    def expect(self, is_so, text):
        if not is_so:
            self.wrong.append(f"{self.version}: {text}")

    def ran(self, *words, status=0, text=""):
        end = self.player.run(*words)
        self.expect(end.status == status and text in end.out + end.err, f"{' '.join(words)} ended with {end.status}: {(end.out + end.err).strip()[:300]}")
        return end

    def shows(self, name, part):
        found, wanted = lines_of(views(self.player.listed(self.player.devices[name]))), view_lines(self.version, f"{name} {part}")
        self.expect(found == wanted, f"{name} {part} a sync shows {sorted(set(found) - set(wanted))} and not {sorted(set(wanted) - set(found))}")

    def synced(self, one, other):
        ends = self.player.sync(self.player.devices[one], self.player.devices[other])
        self.expect(all(end.status == 0 for end in ends), f"sync {one} {other}: {' | '.join(end.err.strip() for end in ends)[:300]}")

    def open(self):
        """Each folder is refused as a copy, opens once it was moved, and has nothing to tell."""
        for name in NAMES:
            self.ran("scan", name, status=1, text="copied or restored")
            self.ran("moved", name)
            self.ran("scan", name, text="0 new, 0 changed, 0 deleted here; 0 shown, 0 removed")
            self.shows(name, "before")

    def meet(self):
        """They sync, and a third folder with them; then all show what they should, and nothing is told."""
        for _ in range(3):
            self.synced("all", "inbox"), self.synced("inbox", "all")
        for name in NAMES:
            self.shows(name, "after")
        self.player.make("third", "all", "plain")
        for _ in range(2):
            self.synced("third", "all")
        third, first = (views(self.player.listed(self.player.devices[name])) for name in ("third", "all"))
        for mail in sorted(third.keys() | first.keys()):
            here, there = third.get(mail, NOWHERE), first.get(mail, NOWHERE)
            self.expect(here == there, f"a third folder has {mail} in {here}, and `all` in {there}")
        sizes = [self.player.log_size(self.player.devices[name]) for name in ("all", "inbox", "third")]
        self.synced("all", "inbox"), self.synced("third", "all")
        self.expect(sizes == [self.player.log_size(self.player.devices[name]) for name in ("all", "inbox", "third")], "syncs still tell something")
        for name in ("all", "inbox", "third"):
            self.ran("verify", name)
        self.ran("audit", "all", "inbox", "third", text="one history")


def tree_of(root):
    """All names and bytes below a folder, but what notes time."""
    found = {}
    for where, _, names in os.walk(root):
        for name in names:
            path = os.path.join(where, name)
            if os.path.basename(where) == "tmp":
                continue
            with open(path, "rb") as file:
                found[os.path.relpath(path, root)] = file.read()
    return found


def refused_by_the_old(fixture, old_program):
    """What the new program left: the old one says why it does nothing, changes nothing, and neither of the two tells the other anything."""
    player = fixture.player
    for name in NAMES:
        root, before = os.path.join(player.room, name), tree_of(os.path.join(player.room, name))
        for words in (("scan", name), ("ls", name), ("expire", name), ("moved", name), ("init", name, "--id", "9")):
            player.program, new_program = old_program, player.program
            end = player.run(*words)
            player.program = new_program
            fixture.expect(end.status != 0 and end.err.startswith("mailfold: "), f"the old program's {' '.join(words)} ended with {end.status}: {(end.out + end.err).strip()[:200]}")
        fixture.expect(tree_of(root) == before, f"the old program changed {name}")


def talk_with_the_old(version, new_program, old_program, room):
    """One folder that the new program opened and one that the old one has, both ways round: each end has a text, and no mail goes or comes."""
    wrong = []
    for caller, server in (("all", "inbox"), ("inbox", "all")):
        for new_end in ("all", "inbox"):
            place = os.path.join(room, f"{caller}-calls-{new_end}-new")
            os.makedirs(place)
            fixture = Fixture(version, old_program, place)
            player = fixture.player
            for name in NAMES:
                player.program = new_program if name == new_end else old_program
                fixture.ran("moved", name), fixture.ran("scan", name)
            before = {name: views(player.listed(player.devices[name])) for name in NAMES}
            programs = [new_program if name == new_end else old_program for name in (caller, server)]
            ends = player.sync(player.devices[caller], player.devices[server], programs=programs)
            fixture.expect(all(end.status != 0 for end in ends) and all("mailfold: " in end.err for end in ends),
                           f"{caller} calls {server}, {new_end} is new: {[(end.status, end.err.strip()[:150]) for end in ends]}")
            after = {name: views(player.listed(player.devices[name])) for name in NAMES}
            fixture.expect(before == after, f"{caller} calls {server}, {new_end} is new: mail went or came")
            wrong += fixture.wrong
    return wrong


def tried(program, old_program, room):
    """Tries all versions: what is wrong."""
    wrong = []
    for version in versions():
        place = os.path.join(room, version)
        os.makedirs(place)
        fixture = Fixture(version, program, place)
        fixture.open()
        fixture.meet()
        if old_program:
            refused_by_the_old(fixture, old_program)
        wrong += fixture.wrong
        if old_program:
            wrong += talk_with_the_old(version, program, old_program, os.path.join(room, f"{version}-talks"))
    return wrong
