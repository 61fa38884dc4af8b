"""Histories of folders as text, at random, and shrunk: for tools/try-folders.

  folder NAME FILTER LAYOUT           a folder, with its filter and layout; the first ones have the ids 0, 1, ..
  edge NAME NAME                      these two sync with one another, at the end too
  # ..                                nothing

A mail is `m1`, `o1` or `u1`: of 2020, of 1999, without a Date; `m1+2` is what an edit made of m1. `*` is the first folder in which it stands. Acts:

  new A m1 inbox [FLAGS|-] [old]      delivers it, into `new` where it has no flags; `old` is the time of a file of 1999
  flag A m1 +F-S [FOLDER]             of all its files, or of one
  move A m1 inbox play [+S]           by a rename; carry A m1 inbox play: by a new file
  copy A m1 inbox play                into one more folder; spread A m1 3 12: into g03 to g11
  remove A m1 play, delete A m1       from one folder, from all
  edit A m1 2 inplace|fresh|over      it becomes m1+2: in place, by a new file under another name or over the same name
  rename A play Trash, mkfolder A Sent
  fill A m 30 inbox, clear A m 30     delivers, deletes m0 to m29

Commands:

  scan A [WORDS], expire A, renew A [FILTER], checkpoint A
  sync A B                            A begins it
  cut A B 300                         the line is cut behind so many bytes
  kill A B c|s|cs 12                  the caller, the server or both are killed in place of their 12th call that changes something
  kill A B s gone                     .. of the first that takes a name from a folder of mail
  killscan A 12                       the same of a scan
  race A B 5 ACT                      a user acts 5 ms behind the beginning of a sync
  rest                                syncs until nothing is told, and looks at all; a history that doesn't end so does it at its end
  allows 7                            commands may end with this status from here on

Claims of scenes:

  holds A m1 inbox,play FS            it stands there with these flags; `-`: nowhere
  quiet A                             a scan has nothing to do
  kept A m1                           its bytes are somewhere below the folder
  refuses A TEXT                      a scan isn't done, with a text
  items A 200                         the log of A tells of so many items
"""

import dataclasses
import random
import shlex

FOLDERS = ("inbox", "play", "work", "Trash", "Sent", "Archive.2026")
FLAGS = "FFFSSSRRDT"
FILTERS = ("label:inbox", "label:inbox", "!label:play", "label:play", "label:work", "flag:flagged", "!flag:seen", "!flag:flagged", "since:2001-01-01", "label:inbox & !flag:seen",
           "label:inbox | flag:flagged", "since:2001-01-01 & !label:play")


# How many acts there are to choose of, the usual ones several times.
ACTS = 40
# What users do during a sync.
RACING = ("new", "flag", "move", "carry", "copy", "remove", "delete")


@dataclasses.dataclass
class History:
    folders: list
    edges: list
    steps: list

    def text(self):
        lines = [["folder", *folder] for folder in self.folders] + [["edge", *edge] for edge in self.edges] + self.steps
        return "".join(shlex.join(line) + "\n" for line in lines)

    def is_joined(self):
        """Whether those with `all` are joined by edges among them, and each other one meets one of these."""
        alls = {name for name, words, _ in self.folders if words == "all"}
        reached, size = set(sorted(alls)[:1]), 0
        while size < len(reached):
            size = len(reached)
            reached |= {name for edge in self.edges if reached & set(edge) for name in edge if name in alls}
        return reached == alls and all(any(name in edge and alls & set(edge) for edge in self.edges) for name, _, _ in self.folders if len(self.folders) > 1)


def read(text):
    history = History([], [], [])
    for line in text.splitlines():
        words = shlex.split(line, comments=True)
        if not words:
            continue
        if words[0] == "folder":
            history.folders.append(tuple(words[1:]))
        elif words[0] == "edge":
            history.edges.append(tuple(words[1:]))
        else:
            history.steps.append(words)
    return history


class Maker:
    """Makes histories by the numbers of a seed."""

    def __init__(self, seed, options):
        self.random, self.options = random.Random(seed), options

    def one(self, *words):
        return self.random.choice(words)

    def chance(self, of):
        return self.random.randrange(of) == 0

    def history(self):
        numbers, most = self.random, self.options.devices
        count = numbers.randint(2, most)
        has_filters = self.chance(2)
        self.names = "ABCDE"[:count]
        folders = []
        for name in self.names:
            filter_words = "all" if name == "A" or not has_filters or self.chance(2) else numbers.choice(FILTERS)
            folders.append((name, filter_words, self.one("dots", "plain")))
        filters = {name: words for name, words, _ in folders}
        self.edges = []
        for number, name in enumerate(self.names[1:], 1):
            self.edges.append((name, numbers.choice([other for other in self.names[:number] if filters[other] == "all"])))
        for _ in range(numbers.randrange(3)):
            one, other = numbers.choice(self.names), numbers.choice(self.names)
            if one != other and (one, other) not in self.edges and (other, one) not in self.edges:
                self.edges.append((one, other))
        self.mails = [f"{kind}{number}" for number, kind in enumerate(numbers.choices("mmmmou", k=self.one(1, 1, 2, 2, 3)), 1)]
        self.folders = numbers.sample(FOLDERS[1:], 2) + ["inbox", "inbox"]
        self.flags = numbers.choices(FLAGS, k=2)
        self.spreads = self.chance(12)
        self.more = 0
        steps = [["new", self.one(*self.names), mail, "inbox"] for mail in self.mails if self.chance(2)]
        if not self.chance(4):
            steps += [["new", "A", self.mails[0], "inbox"]]
            steps += [["copy", "A", self.mails[0], "inbox", self.folders[0]]] if self.chance(3) else []
            steps += [["sync", *edge] for _ in range(2) for edge in self.edges]
        acts = numbers.randint(1, 3)
        wanted = len(steps) + numbers.randint(4, self.options.steps)
        while len(steps) < wanted:
            steps += self.both() if self.chance(6) else [self.act() if numbers.randrange(4) < acts else self.command()]
        return History(folders, self.edges, steps)

    def both(self):
        """Two users change one mail at once, half of the time likewise, and their folders meet."""
        edge, mail, at = self.one(*self.edges), self.one(*self.mails), self.random.randrange(ACTS)
        return [self.act(device, mail, at if self.chance(2) else None) for device in edge] + [["sync", *edge]]

    def act(self, device=None, mail=None, at=None):
        numbers = self.random
        device, mail = device or numbers.choice(self.names), mail or numbers.choice(self.mails)
        at = numbers.randrange(ACTS) if at is None else at
        folder, target, flag = numbers.choice(self.folders), numbers.choice(self.folders), numbers.choice(self.flags)
        source = self.one("*", "*", "inbox", folder)
        if self.spreads and (at >= 38 or 23 <= at < 28):
            first = numbers.randrange(12)
            return ["spread", device, mail, str(first), str(first + numbers.randint(4, 14))]
        if at < 7:
            how = ["S" if self.chance(3) else "-"] + (["old"] if mail[0] == "u" and self.chance(2) else [])
            return ["new", device, mail, folder if self.chance(3) else "inbox", *how]
        if at < 15:
            return ["flag", device, mail, self.one("+", "+", "-") + flag, *([source] if self.chance(6) else [])]
        if at < 20:
            return ["move", device, mail, source, target]
        if at < 22:
            return ["move", device, mail, source, target, self.one("+", "+", "-") + flag]
        if at < 23:
            return ["carry", device, mail, source, target]
        if at < 28:
            return ["copy", device, mail, source, target]
        if at < 32:
            return ["remove", device, mail, source]
        if at < 36:
            return ["delete", device, mail]
        if at < 38 and self.more < 3:
            self.more += 1
            self.mails.append(f"{mail}+{self.more}")
            return ["edit", device, mail, str(self.more), self.one("inplace", "fresh", "over")]
        return ["rename", device, *numbers.sample(FOLDERS[1:], 2)]

    def command(self):
        numbers, options = self.random, self.options
        one, other = numbers.choice(self.edges)
        if self.chance(2):
            one, other = other, one
        if options.races and self.chance(4):
            act = self.act()
            while act[0] not in RACING or act[1] not in (one, other):
                act = self.act()
            return ["race", one, other, str(numbers.randint(0, 12)), *act]
        at = numbers.randrange(40)
        if at < 3:
            return ["scan", one]
        if at < 4:
            return ["expire", one]
        if at < 5 and self.chance(2):
            return ["renew", one]
        if at < 7 and options.checkpoints:
            return ["checkpoint", one]
        if at < 10 and options.kills:
            return ["cut", one, other, str(self.bytes())]
        if at < 15 and options.kills:
            return ["kill", one, other, self.one("c", "s", "cs"), str(numbers.randint(1, 40))]
        if at < 17 and options.kills:
            return ["killscan", one, str(numbers.randint(1, 30))]
        return ["sync", one, other]

    def bytes(self):
        return self.random.choice((50, 200, 400, 800, 1600)) + self.random.randrange(200)


# ---- shrinking

def shrunk(history, fails):
    """A smaller history that fails likewise: without folders, steps, filters, layouts and edges."""
    for name, _, _ in history.folders:
        less = without(history, name)
        if less and fails(less):
            history = less
    size = max(1, len(history.steps) // 2)
    while size:
        at = 0
        while at < len(history.steps):
            less = History(history.folders, history.edges, history.steps[:at] + history.steps[at + size :])
            if fails(less):
                history = less
            else:
                at += size
        size = size // 2 if size > 1 else 0
    is_smaller = True
    while is_smaller:
        is_smaller = False
        for less in smaller(history):
            if fails(less):
                history, is_smaller = less, True
                break
    return history


def without(history, name):
    """A history without a folder and what is done there; others that met it meet one another. None where that is no history."""
    met = [other for edge in history.edges if name in edge for other in edge if other != name]
    edges = [edge for edge in history.edges if name not in edge] + [(met[0], other) for other in met[1:]]
    less = History([folder for folder in history.folders if folder[0] != name], list(dict.fromkeys(edges)), [step for step in history.steps if name not in step[1:3]])
    return less if len(less.folders) > 1 and any(words == "all" for _, words, _ in less.folders) and less.is_joined() else None


def smaller(history):
    for at in range(len(history.steps)):
        yield History(history.folders, history.edges, history.steps[:at] + history.steps[at + 1 :])
    for at, (name, filter_words, layout) in enumerate(history.folders):
        if less := without(history, name):
            yield less
        for simple in ((name, "all", layout), (name, filter_words, "dots")):
            if simple != history.folders[at]:
                yield History(history.folders[:at] + [simple] + history.folders[at + 1 :], history.edges, history.steps)
    for at in range(len(history.edges)):
        less = History(history.folders, history.edges[:at] + history.edges[at + 1 :], history.steps)
        if less.is_joined():
            yield less
    for at, step in enumerate(history.steps):
        simple = simpler(step)
        if simple:
            yield History(history.folders, history.edges, history.steps[:at] + [simple] + history.steps[at + 1 :])


def simpler(step):
    """A step that does a little less."""
    if step[0] in ("cut", "kill"):
        return ["sync", *step[1:3]]
    if step[0] == "race":
        return step[4:]
    if step[0] == "killscan":
        return ["scan", step[1]]
    if step[0] == "carry":
        return ["move", *step[1:]]
    if step[0] == "move" and len(step) > 5:
        return step[:5]
    if step[0] == "new" and len(step) > 4:
        return step[:4]
    return None
