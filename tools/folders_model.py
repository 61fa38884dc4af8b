"""What users did to each mail, from listings of the folders alone, and what must have come of it: for tools/try-folders.

The model repeats no decision of the program. It knows acts: what one user changed of a mail between two commands on one folder, element by
element (a folder, or a flag), and which acts that user saw before. Of the last three answers are kept: `past` are acts that surely were in what
was seen, `told` those that surely had reached the folder, `heard` those that may have. What must be so of all is asked of the first, what
stands beside something of the second, and what may excuse of the third.
"""

import collections
import dataclasses

from folders_play import NOWHERE, View, label, selects, views

MOST_SHOWN = 16


@dataclasses.dataclass
class Act:
    number: int
    mail: str
    device: str
    set: frozenset = frozenset()
    unset: frozenset = frozenset()
    either: frozenset = frozenset()  # may be changed: not all files of the mail say the same
    anew: frozenset = frozenset()  # what a put-back may say anew that it doesn't have
    beyond: frozenset = frozenset()  # folders that may have been set and not shown, as so many others were
    past: frozenset = frozenset()
    told: frozenset = frozenset()
    heard: frozenset = frozenset()
    is_deletion: bool = False
    is_weak: bool = False  # a folder made anew forgot it

    def touches(self):
        return self.set | self.unset | self.either | self.beyond


def is_flag(element):
    return len(element) == 1 and element.isupper()


# ---- excuses: each is counted, and a history that needs one counts for nothing

def equal_toggles(act, acts, counts_beyond=False):
    """Whether each thing that the act changed was changed by somebody beside it, too, whom a deletion knew: equally many toggles are one."""
    left = act.set | act.beyond | act.either | (frozenset() if act.is_deletion else act.unset)
    for deletion in acts:
        for other in acts:
            are_beside = other is not act and act.number not in other.told and other.number not in act.told
            if deletion.is_deletion and are_beside and other.number in deletion.heard:
                left -= other.set | other.unset | other.anew | other.either | (other.beyond if counts_beyond else frozenset())
    return not left


def equal_toggles_beyond(act, acts):
    """The same, where what the deletion knew was taken off as it was beyond the folders that are shown."""
    return not equal_toggles(act, acts) and equal_toggles(act, acts, counts_beyond=True)


def beyond_those_shown(folder, shown):
    """Whether as many folders before it are shown as may be: the inbox, and then the least by label."""
    rank = lambda word: (word != "inbox", label(word))  # noqa: E731
    return len(shown.folders) == MOST_SHOWN and all(rank(other) < rank(folder) for other in shown.folders)


def taken_as_beyond(folder, last):
    """Whether one of the last who changed it took it off with those beyond."""
    return any(folder in act.beyond for act in last)


EXCUSES = ("equal toggles", "equal toggles beyond", "beyond those shown", "taken as beyond")


# ---- what is known

class Model:
    def __init__(self):
        self.acts, self.heard, self.told, self.carried, self.seen = [], {}, {}, {}, {}
        self.unsure, self.excused = set(), collections.Counter()

    def begin(self, device):
        self.heard[device], self.told[device], self.carried[device], self.seen[device] = set(), set(), collections.defaultdict(set), {}

    def changed(self, device, before, after, written=()):
        """Takes what a user did in a folder, as it was listed behind one command and before the next; `written` are mails and folders of files
        that were written in place meanwhile: such a mail isn't taken from its folder, whatever becomes of the file."""
        old, new, by_inode = views(before), views(after), {file.inode: file.mail for file in after}
        for mail in sorted(old.keys() | new.keys()):
            was, now = old.get(mail, NOWHERE), new.get(mail, NOWHERE)
            written_over = {file.folder for file in before if file.mail == mail and by_inode.get(file.inode, mail) != mail}
            written_over = (written_over | {folder for other, folder in written if other == mail}) & was.folders - now.folders
            if written_over and not now.folders:
                if not any(mail in seen for other, seen in self.seen.items() if other != device):
                    self.unsure.add(mail)
                continue
            uneven = {flag for flag in now.flags if any(file.mail == mail and flag not in file.flags for file in after)}
            either = written_over | (uneven if was != now or _flags(before, mail) != _flags(after, mail) else set())
            if was != now or either:
                self.add(device, mail, was, now, either)
        self.seen[device] = new

    def add(self, device, mail, was, now, either=frozenset(), is_weak=False):
        before, behind = was.folders | set(was.flags), now.folders | set(now.flags)
        is_deletion = not now.folders
        act = Act(len(self.acts), mail, device, frozenset(behind - before), frozenset(before - behind - either), frozenset(either))
        act.is_deletion, act.is_weak = is_deletion, is_weak
        if is_deletion:
            act.unset = frozenset(was.folders)
        known = [other for other in self.acts if other.mail == mail and other.number in self.heard[device]]
        ever = frozenset().union(*(other.touches() for other in known))
        act.past, act.told, act.heard = frozenset(self.carried[device][mail]), frozenset(self.told[device]), frozenset(self.heard[device])
        if was.folders == {"inbox"} < now.folders and any("inbox" in other.unset for other in known):
            act.either |= {"inbox"}  # it may have stood there for want of a folder, and was put there now
        if not was.folders:
            act.anew = ever - act.set
        elif len(was.folders) >= MOST_SHOWN and was.folders != now.folders:
            act.beyond = frozenset(word for word in ever - was.folders - now.folders if not is_flag(word))
        self.acts.append(act)
        self.heard[device].add(act.number), self.told[device].add(act.number)
        self.carried[device][mail].add(act.number)

    def raced(self, device, mail, was, now, past, told):
        """A user's act during a command: what it took away may stand for all that, if the program moved it at once."""
        self.add(device, mail, was, now)
        act = self.acts[-1]
        act.past, act.told = frozenset(past), frozenset(told)
        if not act.is_deletion:
            act.either, act.unset = act.either | act.unset, frozenset()

    def synced(self, caller, server, is_whole, is_first, seen):
        """Two folders talked. `seen` is what each shows behind it; a first talk tells nothing of the caller's."""
        both = self.heard[caller.name] | self.heard[server.name]
        self.heard[caller.name], self.heard[server.name] = set(both), set(both)
        if is_whole:
            gave = [self.told[device.name] if device.has_all else set().union(*self.carried[device.name].values()) for device in (caller, server)]
            self.told[caller.name] |= gave[1]
            self.told[server.name] |= gave[0] if not is_first else set()
            mails = {mail for device in (caller, server) for mail in self.carried[device.name]}
            here, there = self.carried[caller.name], self.carried[server.name]
            for mail in mails:
                told, came = set(here[mail]), set(there[mail])
                if not is_first and self.gives(caller, server, mail, seen):
                    there[mail] |= told
                if self.gives(server, caller, mail, seen):
                    here[mail] |= came
        for device in (caller, server):
            self.seen[device.name] = seen[device.name]
            for mail in list(self.carried[device.name]):
                if not device.has_all and mail not in seen[device.name]:
                    del self.carried[device.name][mail]

    def gives(self, source, target, mail, seen):
        """Whether what the source carries of a mail surely came to the target, and is in what it shows from then on."""
        if target.has_all:
            return True
        before, behind = self.seen[source.name].get(mail, NOWHERE), seen[source.name].get(mail, NOWHERE)
        is_selected = all(view.folders and selects(target.filter, view, {0, 1 << 40}) for view in (before, behind))
        return source.has_all and is_selected and mail in seen[target.name]

    def renewed(self, device):
        """A folder was made anew: what only it knew may be forgotten, and what stands there is said once more."""
        others = set().union(*(heard for name, heard in self.heard.items() if name != device))
        for act in self.acts:
            if act.device == device and act.number not in others:
                act.is_weak = True
        self.carried[device].clear()
        for mail, view in sorted(self.seen[device].items()):
            self.add(device, mail, NOWHERE, view, is_weak=True)
            self.acts[-1].either, self.acts[-1].set = self.acts[-1].set, frozenset()

    # -- what must be so

    def judged(self, mail, shown):
        """What is wrong with what a mail shows at rest: pairs of a kind and a text."""
        acts = [act for act in self.acts if act.mail == mail]
        newest = [act for act in acts if not any(act.number in other.heard for other in acts)]
        if not shown.folders:
            living = [act for act in newest if not act.is_deletion and not act.is_weak and act.set | act.unset]
            faults = [act for act in living if not self.excuse_nowhere(act, acts)]
            return [("nowhere", f"{mail} is nowhere, though {faults[0].device} changed it last")] if faults and mail not in self.unsure else []
        if not acts:
            return [("unknown", f"{mail} stands in {shown}, and nobody wrote it")]
        if all(act.is_deletion and not act.is_weak for act in last_of(acts)):
            return [("stands", f"{mail} stands in {shown}, though all who changed it last deleted it")]
        found = []
        for element in sorted(set().union(*(act.touches() for act in acts)) | shown.folders | set(shown.flags)):
            found += self.judged_flag(element, acts, shown) if is_flag(element) else self.judged_folder(element, acts, shown)
        return [(kind, f"{mail}, which stands in {shown}, {text}") for kind, text in found]

    def excuse_nowhere(self, act, acts):
        if equal_toggles(act, acts):
            self.excused["equal toggles"] += 1
        elif equal_toggles_beyond(act, acts):
            self.excused["equal toggles beyond"] += 1
        else:
            return False
        return True

    def judged_folder(self, folder, acts, shown):
        of = [act for act in acts if folder in act.touches()]
        has_it = folder in shown.folders
        if not of:
            return [("folder-extra", f"is in {folder}, into which nobody put it")] if has_it and shown.folders != {"inbox"} else []
        last = last_of([act for act in of if folder in act.set | act.unset | act.either])
        if not has_it and last and all(is_set_by(act, folder) for act in last) and not is_hidden(folder, last, acts):
            if beyond_those_shown(folder, shown):
                self.excused["beyond those shown"] += 1
            elif taken_as_beyond(folder, last_of(of)):
                self.excused["taken as beyond"] += 1
            else:
                return [("folder-lost", f"isn't in {folder}, from which nobody took it")]
        last = last_of(of)
        if has_it and all(is_unset_by(act, folder) for act in last) and not is_kept(folder, last, acts, shown):
            return [("folder-extra", f"is in {folder}, from which it was taken")]
        return []

    def judged_flag(self, flag, acts, shown):
        of = [act for act in acts if flag in act.touches()]
        has_it = flag in shown.flags
        if not of:
            return [("flag-extra", f"has {flag}, which nobody set")] if has_it else []
        last = last_of(of)
        if not has_it and all(is_set_by(act, flag) for act in last) and not is_hidden(flag, last, acts, by_all=True):
            return [("flag-lost", f"lacks {flag}, which nobody took off")]
        if has_it and all(is_unset_by(act, flag) for act in last):
            return [("flag-extra", f"has {flag}, which was taken off")]
        return []


def _flags(files, mail):
    return sorted((file.folder, file.flags) for file in files if file.mail == mail)


def last_of(acts):
    """Those that surely nobody of these saw."""
    return [act for act in acts if not any(act.number in other.past for other in acts)]


def is_set_by(act, element):
    return element in act.set and element not in act.unset | act.either | act.beyond and not act.is_weak


def is_unset_by(act, element):
    return element in act.unset | act.beyond and element not in act.set | act.either and not act.is_weak


def is_hidden(element, last, acts, by_all=False):
    """Whether a deletion that may have heard of one of the last acts hid it, or a put-back behind that said anew that it isn't so."""
    for other in acts:
        for act in last:
            if act.number in other.heard and (element in other.anew or other.is_deletion and (by_all or act.number not in other.past)):
                return True
    return False


def is_kept(folder, last, acts, shown):
    """Whether a folder may be what is left: a deletion counts for nothing beside another change, and of two removals side by side both may."""
    for act in acts:
        for other in acts:
            if act is other or act.number in other.past or other.number in act.past:
                continue
            if act in last and (not other.is_deletion if act.is_deletion else bool({word for word in other.unset if not is_flag(word)} - {folder})):
                return True
            if shown.folders == {"inbox"} == {folder} and act.unset - other.unset and other.unset - act.unset:
                return True
    return False


# ---- worked rows

def _act(number, changes, past=(), heard=None, is_deletion=False, beyond=""):
    words = {sign: frozenset(word[1:] for word in changes.split() if word[0] == sign) for sign in "+-"}
    return Act(number, "m1", "A", words["+"], words["-"], past=frozenset(past), told=frozenset(past), heard=frozenset(past if heard is None else heard), is_deletion=is_deletion,
               beyond=frozenset(beyond.split()))


def rows():
    """Each excuse, and each answer of the model, with a case in which it is so and one in which it isn't: pairs of a name and whether it holds."""
    full = View(frozenset(["inbox"] + [f"g{number:02}" for number in range(15)]), "")
    born, a_flags, b_flags = _act(0, "+inbox"), _act(1, "+F", [0]), _act(2, "+F", [0])
    b_deletes = _act(3, "-inbox", [0, 2], is_deletion=True)
    yield "equal toggles: A flags, B flags and deletes", equal_toggles(a_flags, [born, a_flags, b_flags, b_deletes])
    yield "no equal toggles: A answers, B flags and deletes", not equal_toggles(_act(1, "+R", [0]), [born, _act(1, "+R", [0]), b_flags, b_deletes])
    c_copies, a_takes, knew = _act(1, "+work", [0]), _act(2, "-play", [0], beyond="work"), _act(3, "-inbox", [0, 2], is_deletion=True)
    yield "equal toggles beyond: A took work off as it was beyond, and B deletes", equal_toggles_beyond(c_copies, [born, c_copies, a_takes, knew])
    yield "no equal toggles beyond: without that", not equal_toggles_beyond(c_copies, [born, c_copies, _act(2, "-play", [0]), knew])
    yield "beyond those shown: g15 beside inbox and g00 to g14", beyond_those_shown("g15", full)
    yield "not beyond those shown: a01 beside them", not beyond_those_shown("a01", full)
    yield "not beyond those shown: where one fewer is shown", not beyond_those_shown("g15", View(full.folders - {"g14"}, ""))
    yield "taken as beyond: by the last edit of folders", taken_as_beyond("work", [a_takes])
    yield "not taken as beyond: by an edit of another folder", not taken_as_beyond("play", [a_takes])
    for name, wanted, acts, shown in ROWS:
        model = Model()
        model.acts = acts
        kinds = sorted(kind for kind, _ in model.judged("m1", shown))
        yield f"{name}: {shown} is {' '.join(kinds) or 'right'}", kinds == wanted.split() and not model.excused
    model = Model()
    model.acts = [born, a_flags, b_flags, b_deletes]
    yield "an excuse is counted: A flags, B flags and deletes, nowhere", not model.judged("m1", NOWHERE) and model.excused["equal toggles"] == 1


def _view(folders, flags=""):
    return View(frozenset(folders.split()), flags)


_BORN = _act(0, "+inbox")
_BOTH = _act(0, "+inbox +play")
_A_FLAGS, _B_ANSWERS, _B_DELETES = _act(1, "+F", [0]), _act(2, "+R", [0]), _act(2, "-inbox", [0], is_deletion=True)
_CROSSED = [_BOTH, _act(1, "-inbox", [0]), _act(2, "-play", [0])]
_MOVED = [_BORN, _act(1, "-inbox +play", [0]), _act(2, "-inbox +work", [0])]
ROWS = (
    ("A and B flag", "", [_BORN, _A_FLAGS, _B_ANSWERS], _view("inbox", "FR")),
    ("A and B flag", "flag-lost", [_BORN, _A_FLAGS, _B_ANSWERS], _view("inbox", "F")),
    ("and B takes it off", "flag-extra", [_BORN, _A_FLAGS, _act(2, "-F", [0, 1])], _view("inbox", "F")),
    ("B deletes, A flags", "", [_BORN, _A_FLAGS, _B_DELETES], _view("inbox", "F")),
    ("B deletes, A flags", "nowhere", [_BORN, _A_FLAGS, _B_DELETES], NOWHERE),
    ("B deletes", "", [_BORN, _B_DELETES], NOWHERE),
    ("B deletes", "stands", [_BORN, _B_DELETES], _view("inbox")),
    ("each side takes another folder", "", _CROSSED, _view("inbox")),
    ("each side takes another folder", "nowhere", _CROSSED, NOWHERE),
    ("both move", "", _MOVED, _view("play work")),
    ("both move", "folder-lost", _MOVED, _view("play")),
    ("both move", "folder-extra", _MOVED, _view("inbox play work")),
    ("nobody put it there", "folder-extra", [_BORN], _view("inbox play")),
    ("nobody wrote it", "unknown", [], _view("inbox")),
)
