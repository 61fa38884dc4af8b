"""Plays a history of folders by the program and beside the model, and says what is wrong at its end: for tools/try-folders."""

import os
import re
import shutil
import tempfile
import threading

import folders_play
import folders_reference
from folders_model import Model
from folders_play import DIGEST_NAME, NOWHERE, day, selects, views

ROUNDS = 6
NOTHING = re.compile(r"^0 new, 0 changed, 0 deleted here; 0 shown, 0 removed", re.M)
ACTS = ("new", "fill", "clear", "flag", "move", "carry", "copy", "spread", "remove", "delete", "edit", "rename", "mkfolder")
COMMANDS = {"race": 2, "scan": 1, "expire": 1, "renew": 1, "checkpoint": 1, "killscan": 1, "sync": 2, "cut": 2, "kill": 2}
CLAIMS = ("holds", "quiet", "kept", "refuses", "items")


class Fault(Exception):
    def __init__(self, kind, text):
        super().__init__(kind, text)
        self.kind, self.text = kind, text


class Game:
    def __init__(self, program, history, room, killer=None, watches=None):
        self.player = folders_reference.Reference(room, program.split(":")[1]) if program.startswith("reference:") else folders_play.Player(program, room, killer)
        self.model, self.history = Model(), history
        self.killer, self.watches, self.commands = killer, watches, 0
        self.is_at_rest, self.allowed, self.looks_again = False, {0}, False

    # -- commands, and what users did before them

    def device(self, name):
        return self.player.devices[name]

    def note(self, device):
        """Tells the model what a user did since the last command."""
        files = self.player.listed(device)
        self.model.changed(device.name, device.files, files, device.written)
        device.files, device.written = files, set()

    def look(self, device):
        device.files = self.player.listed(device)
        seen = views(device.files)
        self.model.seen[device.name] = seen
        return seen

    def ended(self, what, end):
        self.commands += 1
        if self.watches:
            self.watches(f"    {what}: {end.status} {end.err.strip() or end.out.strip()}")
        if end.status not in self.allowed:
            text = (end.err.strip().splitlines() or [""])[-1]
            raise Fault("status", f"{what} ended with {end.status}: {text}")

    def alone(self, device, word, *words):
        self.note(device)
        end = self.player.run(word, device.root, *words)
        self.ended(f"{word} {device.name}", end)
        self.look(device)
        return end

    def scan(self, device, *words):
        end = self.alone(device, "scan", *words)
        device.is_edited, device.has_begun = False, True
        self.again(device)
        return end

    def again(self, device):
        """A look at all files, behind a command that went by what was noted of them, has to find nothing to do."""
        if self.looks_again and not device.is_edited:
            end = self.player.run("scan", device.root, "--dry-run")
            self.ended(f"scan {device.name} --dry-run", end)
            if not NOTHING.search(end.out + end.err):
                raise Fault("again", f"scan {device.name} --dry-run has something to do: {(end.out + end.err).strip()}")

    def killscan(self, device, at):
        self.note(device)
        self.watched(f"killscan {device.name}", self.player.run("scan", device.root, kill_at=at))
        self.look(device)

    def watched(self, what, *ends):
        self.commands += len(ends)
        if self.watches:
            self.watches(f"    {what}: " + " | ".join(f"{end.status} {end.err.strip()}" for end in ends))

    def expire(self, device):
        self.alone(device, "expire")

    def checkpoint(self, device):
        self.alone(device, "checkpoint")

    def renew(self, device, *words):
        """What a careful user does: a scan before it."""
        self.scan(device)
        number = self.player.next_number
        self.player.next_number += 1
        self.alone(device, "renew", "--id", str(number), *(["--filter", words[0]] if words else []))
        device.has_begun = False
        if words:
            device.filter = words[0]
        self.model.renewed(device.name)

    def sync(self, caller, server, cut=None, kills=(None, None), is_whole=True, beside=None):
        self.note(caller), self.note(server)
        if beside:
            beside.start()
        ends = self.player.sync(caller, server, cut, kills)
        if beside:
            beside.join()
            is_whole = not any("changed files meanwhile" in end.err for end in ends)
        name = f"sync {caller.name} {server.name}"
        if is_whole:
            for end, device in zip(ends, (caller, server)):
                if end.status != 3 or ends[0].status == ends[1].status:  # else the text of the one that ended first says why
                    self.ended(f"{name}, {device.name}", end)
        else:
            self.watched(name, *ends)
        is_whole = all(end.status == 0 for end in ends)
        is_first = not caller.has_begun
        for device in (caller, server):
            device.files = self.player.listed(device)
            device.has_begun = device.has_begun or is_whole
        self.model.synced(caller, server, is_whole, is_first, {device.name: views(device.files) for device in (caller, server)})
        for device in (caller, server) if is_whole and not beside else ():
            self.again(device)

    def cut(self, caller, server, most):
        self.sync(caller, server, cut=int(most), is_whole=False)

    def kill(self, caller, server, who, at):
        self.sync(caller, server, kills=tuple(at if letter in who else None for letter in "cs"), is_whole=False)

    def race(self, caller, server, wait, word, name, mail, *rest):
        """A sync, so many milliseconds behind whose beginning a user does something."""
        device, seen = self.device(name), []
        past, told = set(self.model.carried[name][mail]), set(self.model.told[name])

        def act():
            seen.append(views(self.player.files_of(device, mail)).get(mail, NOWHERE))
            try:
                getattr(self.player, word)(device, mail, *rest)
            except OSError:
                pass  # the program moved it just then
            seen.append(views(self.player.files_of(device, mail)).get(mail, NOWHERE))

        self.sync(caller, server, beside=threading.Timer(int(wait) / 1000, act))
        if seen[0] != seen[1]:
            self.model.raced(name, mail, *seen, past, told)

    # -- what a scene claims

    def holds(self, device, mail, wanted, flags=""):
        found = views(self.player.listed(device)).get(mail, NOWHERE)
        wanted = folders_play.View(frozenset() if wanted == "-" else frozenset(wanted.split(",")), "".join(sorted(flags)))
        if found != wanted:
            raise Fault("holds", f"{device.name} has {mail} in {found}, and not in {wanted}")

    def quiet(self, device):
        """A scan has nothing to do."""
        end = self.scan(device)
        if not NOTHING.search(end.out + end.err):
            raise Fault("quiet", f"scan {device.name} tells, though nothing was done: {(end.out + end.err).strip()}")

    def refuses(self, device, text):
        """A scan isn't done, with a text."""
        self.note(device)
        end = self.player.run("scan", device.root)
        self.watched(f"scan {device.name}", end)
        self.look(device)
        if not end.status or text not in end.err:
            raise Fault("refuses", f"scan {device.name} ended with {end.status}: {(end.out + end.err).strip()}")

    def items(self, device, wanted):
        """So many mails were told as new, by this folder and those that it met."""
        end = self.player.run("log", device.root)
        found = {line.split("\t")[1].split()[1] for line in end.out.splitlines() if line.split("\t")[1].startswith("new ")}
        found |= {words[6] for line in end.out.splitlines() for words in [line.split("\t")[1].split()] if words[:2] == ["take", "from"] and words[3] == "mail"}
        if len(found) != int(wanted):
            raise Fault("items", f"the log of {device.name} tells of {len(found)} items, and not {wanted}")

    def kept(self, device, mail):
        """The bytes of a mail are somewhere below the folder."""
        text = folders_play.body(mail)
        for where, _, files in os.walk(self.player.root_of(device)):
            for name in files:
                with open(os.path.join(where, name), "rb") as file:
                    if file.read(len(text) + 1) == text:
                        return
        raise Fault("kept", f"no file below {device.name} has the bytes of {mail}")

    # -- a history

    def play(self):
        """What is wrong: a list of faults, each a kind and a text."""
        try:
            for name, filter_words, layout in self.history.folders:
                self.model.begin(name)
                self.player.make(name, filter_words, layout)
            for step in self.history.steps:
                self.step(step)
            if not self.is_at_rest:
                self.rest()
            return []
        except Fault as fault:
            return [fault]

    def step(self, step):
        word, *rest = step
        if self.watches:
            self.watches(" ".join(step))
        if word in ACTS:
            getattr(self.player, word)(self.device(rest[0]), *rest[1:])
        elif word in COMMANDS:
            count = COMMANDS[word]
            getattr(self, word)(*map(self.device, rest[:count]), *rest[count:])
        elif word == "rest":
            self.rest()
        elif word == "allows":
            self.allowed = {0, *map(int, rest)}
        elif word in CLAIMS:
            getattr(self, word)(self.device(rest[0]), *rest[1:])
        else:
            raise ValueError(f"no step is named {word}")
        if word in ACTS or word in COMMANDS:
            self.is_at_rest = False

    def state(self):
        return [(self.player.log_size(device), sorted((file.mail, file.folder, file.flags) for file in device.files)) for device in self.player.devices.values()]

    def rest(self):
        """Syncs over all edges, both ways, until nothing is told any more, and then looks at what is there."""
        for device in self.player.devices.values():
            if device.is_edited:
                self.scan(device)
        for _ in range(ROUNDS + 1):
            before = self.state()
            for one, other in self.history.edges:
                self.sync(self.device(one), self.device(other))
                self.sync(self.device(other), self.device(one))
            if self.state() == before:
                break
        else:
            raise Fault("rest", f"syncs still tell something after {ROUNDS} rounds: {self.differing()}")
        self.is_at_rest = True
        self.check()

    def differing(self):
        """Where two folders differ, for a text."""
        shown = [(device.name, views(device.files)) for device in self.player.devices.values()]
        mails = sorted({mail for _, seen in shown for mail in seen})
        lines = [f"{mail}: " + ", ".join(f"{name} {seen.get(mail, NOWHERE)}" for name, seen in shown) for mail in mails if len({str(seen.get(mail)) for _, seen in shown}) > 1]
        return "; ".join(lines[:3]) or "all show the same"

    def check(self):
        devices = list(self.player.devices.values())
        alls = [device for device in devices if device.has_all]
        shown = {device.name: views(device.files) for device in devices}
        wanted = shown[alls[0].name]
        for device in devices:
            for mail in sorted(wanted.keys() | shown[device.name].keys()):
                here, there = shown[device.name].get(mail, NOWHERE), wanted.get(mail, NOWHERE)
                is_selected = device.has_all or (selects(device.filter, there, day(mail, self.player.times[mail])) if there.folders else False)
                options = {True: (there,), False: (NOWHERE,), None: (there, NOWHERE)}[is_selected]
                if here not in options:
                    raise Fault("differ" if device.has_all else "filter", f"{mail}: {alls[0].name} shows {there}, and {device.name} ({device.filter}) {here}")
        for device in devices:
            places = [(file.mail, file.folder) for file in device.files]
            if twice := {place for place in places if places.count(place) > 1}:
                raise Fault("doubled", f"{device.name} has {twice} twice")
        for mail in sorted({act.mail for act in self.model.acts} | wanted.keys()):
            for kind, text in self.model.judged(mail, wanted.get(mail, NOWHERE)):
                raise Fault(kind, text)
        for device in devices:
            for file in device.files:
                if DIGEST_NAME.match(file.raw) and file.folder != file.raw:
                    raise Fault("names", f"{device.name} has {file.mail} in a folder {file.raw}, which is {file.folder}")
        if not any(step[0] == "edit" and step[-1] == "inplace" for step in self.history.steps):
            for device in devices:
                end = self.player.run("verify", device.root)
                self.commands += 1
                if end.status:
                    raise Fault("verify", f"verify {device.name}: {(end.out + end.err).strip()}")


def played(program, history, killer=None, watches=None, looks_again=False):
    """Plays a history in a new room: what is wrong, and the game."""
    room = tempfile.mkdtemp(prefix="try-folders-", dir=folders_play.ROOM)
    try:
        game = Game(program, history, room, killer, watches)
        game.looks_again = looks_again
        return game.play(), game
    finally:
        shutil.rmtree(room, ignore_errors=True)
