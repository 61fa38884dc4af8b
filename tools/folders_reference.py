"""What a right program does, in memory, in place of mailfold: the tester of tools/try-folders tried by it.

A mail's value is how often each element was toggled, for each delivery, and how often it had been as the mail was deleted. Heads join by the
greatest of each, and what is shown is a function of that join. So the model's checks may find nothing here; and where one rule is another one
(`WRONG`) they have to find it.
"""

import collections
import os

from folders_model import MOST_SHOWN, is_flag
from folders_play import NOWHERE, RECENT, End, Player, View, label, selects, views

WRONG = (
    "joins_by_the_least",
    "shows_by_the_first_head",
    "a_deletion_beats_a_change",
    "leaves_no_folder",
    "a_put_back_says_nothing_anew",
    "one_row_for_all_deliveries",
    "forgets_a_flag",
)


def _number(kill_at):
    """A number for a call at which an end is killed."""
    return int(kill_at) if kill_at and kill_at.isdigit() else 0


class Value:
    """How often each key, a delivery and an element, was raised, and how often it had been as the mail was deleted."""

    def __init__(self, raised=(), gone=()):
        self.raised, self.gone = dict(raised), dict(gone)

    def joined(self, other, pick=max):
        def both(one, two):
            return {key: pick(one.get(key, 0), two.get(key, 0)) for key in one.keys() | two.keys()}

        return Value(both(self.raised, other.raised), both(self.gone, other.gone))

    def stands(self):
        return any(count > self.gone.get(key, 0) for key, count in self.raised.items())

    def has(self):
        return {element for (_, element), count in self.raised.items() if count % 2}

    def folders(self):
        return {element for element in self.has() if not is_flag(element)}

    def shown(self):
        return sorted(self.folders(), key=lambda folder: (folder != "inbox", label(folder)))[:MOST_SHOWN]

    def view(self, wrong=None):
        if not self.stands():
            return NOWHERE
        folders = self.shown() or ([] if wrong == "leaves_no_folder" else ["inbox"])
        return View(frozenset(folders), "".join(sorted(filter(is_flag, self.has())))) if folders else NOWHERE

    def edited(self, wanted, delivery, wrong=None):
        """The value once a user made this view of it."""
        before, out = self.view(wrong), Value(self.raised, self.gone)
        if before == wanted:
            return out
        if not wanted.folders:
            out.gone = dict(self.raised)
            return out
        had, beyond = self.folders(), self.folders() - set(self.shown())
        flags = {element for element in self.has() if is_flag(element)}
        if not before.folders:
            if wrong == "a_put_back_says_nothing_anew":
                out.gone = {}
            else:
                had, flags, beyond = set(), set(), set()
                for key in [key for key, count in out.raised.items() if count % 2]:
                    out.raised[key] += 1
        if before.folders != wanted.folders:
            for folder in wanted.folders:
                if folder not in had or folder in beyond:
                    out.lift((delivery, folder))
            out.take(had - wanted.folders)
        for flag in set(wanted.flags) - flags:
            if not (wrong == "forgets_a_flag" and flag == "R"):
                out.lift((delivery, flag))
        out.take(flags - set(wanted.flags))
        return out

    def lift(self, key):
        """To the next odd number."""
        self.raised[key] = self.raised.get(key, 0) // 2 * 2 + (3 if self.raised.get(key, 0) % 2 else 1)

    def take(self, elements):
        for key in self.raised:
            if key[1] in elements and self.raised[key] % 2:
                self.raised[key] += 1


Version = collections.namedtuple("Version", "item mail value below day")


class Replica:
    def __init__(self):
        self.known, self.store, self.push_outs, self.own_last = set(), set(), set(), {}
        self.left, self.inodes, self.lacking = {}, {}, set()


class Reference(Player):
    """A player whose program is this one."""

    def __init__(self, room, wrong=None):
        super().__init__(None, room)
        self.versions, self.replicas, self.wrong = [], {}, wrong

    def make(self, name, filter_words, layout):
        from folders_play import Device

        device = Device(name, filter_words, layout, self.next_number)
        self.next_number += 1
        os.makedirs(self.root_of(device))
        self.devices[name], self.replicas[name] = device, Replica()

    def log_size(self, device):
        replica = self.replicas[device.name]
        return len(replica.known), len(replica.store), len(replica.push_outs)

    def edit(self, device, mail, more, how):
        """A file that was written in place is the store's too: the mail lacks its bytes, whatever becomes of its file."""
        super().edit(device, mail, more, how)
        self.replicas[device.name].lacking |= {mail for mail, _ in device.written}

    def run(self, word, *words, kill_at=None):
        if word == "scan" and (kill_at is None or _number(kill_at) % 2):
            self.scan(self.devices[words[0]])
        return End(0, "", "")

    def sync(self, caller, server, cut=None, kills=(None, None), programs=None):
        for device in (caller, server):
            if device is server or device.has_begun:
                self.scan(device, is_shown=False)
        is_whole = cut is None and kills == (None, None)
        most = [None, None] if is_whole else [(cut or 7) % 3, ((cut or 7) // 3 + sum(_number(at) for at in kills)) % 3]
        self.pull(caller, server, most[0]), self.pull(server, caller, most[1])
        if is_whole:
            self.release(caller, server), self.release(server, caller)
        if not caller.has_begun:  # it first takes what the other has, and finds its own mail among that
            self.scan(caller, is_shown=False)
        for device in (caller, server):
            self.settle(device)
            self.show(device)
        return [End(0 if is_whole else 3, "", "")] * 2

    # -- what a replica has of a mail

    def counted(self, device, mail):
        """Of each item the versions that are held, and the values that count."""
        replica, items, counted = self.replicas[device.name], {}, []
        for version in sorted(replica.store) + sorted(replica.push_outs):
            if self.versions[version].mail == mail:
                items.setdefault(self.versions[version].item, []).append(version)
                counted.append(version)
        for item, held in items.items():
            own = replica.own_last.get(item)
            if own is not None and not any(version == own or own in self.versions[version].below for version in held):
                counted.append(own)
        return items, counted

    def together(self, counted):
        values = [self.versions[version].value for version in counted]
        value = values[0]
        for other in values[1:] if self.wrong != "shows_by_the_first_head" else []:
            value = value.joined(other, min if self.wrong == "joins_by_the_least" else max)
        if self.wrong == "a_deletion_beats_a_change" and any(not other.stands() for other in values):
            value = Value(value.raised, value.raised)
        return value, min(self.versions[version].day for version in counted)

    def mails(self, device):
        replica = self.replicas[device.name]
        return sorted({self.versions[version].mail for version in replica.store | replica.push_outs})

    def issue(self, device, item, mail, value, day):
        replica, number, below = self.replicas[device.name], len(self.versions), set()
        if item is not None:
            held = [version for version in replica.store | replica.push_outs if self.versions[version].item == item]
            for version in held + [own for own in [replica.own_last.get(item)] if own is not None]:
                below |= {version} | self.versions[version].below
        item = number if item is None else item
        self.versions.append(Version(item, mail, value, frozenset(below), day))
        replica.known.add(number)
        replica.store -= below
        replica.push_outs -= below
        (replica.store if selects(device.filter, value.view(self.wrong), {day}) else replica.push_outs).add(number)
        replica.own_last[item] = number

    # -- what it does

    def scan(self, device, is_shown=True):
        replica, files = self.replicas[device.name], self.listed(device)
        seen = views(files)
        for file in files:
            mail = replica.inodes.get(file.inode, file.mail)
            if mail != file.mail and mail not in seen:
                replica.lacking.add(mail)
        replica.lacking -= seen.keys()
        for mail in sorted(seen.keys() | replica.left.keys()):
            if mail in replica.lacking:
                continue
            now, left = seen.get(mail, NOWHERE), replica.left.get(mail, NOWHERE)
            if now != left:
                self.tell(device, mail, now, left, files)
        self.settle(device)
        if is_shown:
            self.show(device)

    def tell(self, device, mail, now, left, files):
        items, counted = self.counted(device, mail)
        times = [os.stat(file.path).st_mtime for file in files if file.mail == mail]
        own_day = {"m": RECENT, "o": 900_000_000}.get(mail[0], int(min(times)) if times else RECENT)
        if not counted:
            if now.folders:
                number = len(self.versions)
                delivery = 0 if self.wrong == "one_row_for_all_deliveries" else number
                self.issue(device, None, mail, Value({(delivery, element): 1 for element in now.folders | set(now.flags)}), own_day)
            return
        value, day = self.together(counted)
        shown = value.view(self.wrong)
        folders = shown.folders - (left.folders - now.folders) | (now.folders - left.folders)
        flags = set(shown.flags) - (set(left.flags) - set(now.flags)) | (set(now.flags) - set(left.flags))
        wanted = View(frozenset(folders), "".join(sorted(flags))) if folders else NOWHERE
        if wanted != shown and len(folders) <= MOST_SHOWN:
            delivery = 0 if self.wrong == "one_row_for_all_deliveries" else next(iter(sorted(items)))
            value = value.edited(wanted, delivery, self.wrong)
            for item in sorted(items):
                self.issue(device, item, mail, value, day)

    def settle(self, device):
        for mail in self.mails(device):
            items, counted = self.counted(device, mail)
            value, day = self.together(counted)
            if mail in self.replicas[device.name].lacking:
                continue
            shows = (value.view(self.wrong), day)
            due = [item for item in sorted(items) if any((self.versions[version].value.view(self.wrong), self.versions[version].day) != shows for version in items[item])]
            for item in due:
                self.issue(device, item, mail, value, day)

    def show(self, device):
        """Files follow what is held: what isn't selected has none."""
        replica, files = self.replicas[device.name], self.listed(device)
        replica.left, acted = {}, 0
        for mail in sorted({file.mail for file in files} | set(self.mails(device))):
            counted = [version for version in self.counted(device, mail)[1]]
            value, day = self.together(counted) if counted else (Value(), RECENT)
            view = value.view(self.wrong)
            view = view if view.folders and selects(device.filter, view, {day}) and mail not in replica.lacking else NOWHERE
            own = [file for file in files if file.mail == mail]
            for file in own:
                acted += file.folder not in view.folders or file.flags != view.flags
                if file.folder not in view.folders:
                    os.remove(file.path)
                elif file.flags != view.flags:
                    self.renamed(device, file, file.folder, view.flags)
            for folder in sorted(view.folders - {file.folder for file in own}):
                self.write(device, folder, mail, view.flags)
                acted += 1
            if view.folders:
                replica.left[mail] = view
        files = files if acted == 0 else self.listed(device)
        replica.inodes = {file.inode: file.mail for file in files}

    def pull(self, target, source, most):
        mine, theirs = self.replicas[target.name], self.replicas[source.name]
        asked, given = set(mine.known), 0
        for number in sorted(theirs.store | theirs.push_outs):
            version = self.versions[number]
            is_selected = selects(target.filter, version.value.view(self.wrong), {version.day})
            if number in asked or (not is_selected and version.item not in asked):
                continue
            if given == most:
                return
            given += 1
            if number not in mine.known:
                mine.known |= {number} | version.below
                mine.store -= version.below
                mine.push_outs -= version.below
                if is_selected:
                    mine.store.add(number)
        for mail in list(mine.lacking):
            if mail in views(self.listed(source)):
                mine.lacking.discard(mail)
        if most is None and (source.has_all or source.filter == target.filter):
            mine.store -= theirs.known - theirs.store
            mine.known |= theirs.known

    def release(self, one, other):
        there = self.replicas[other.name].store
        waiting = self.replicas[one.name].push_outs
        for number in list(waiting):
            item = self.versions[number].item
            if any(version == number or self.versions[version].item == item and number in self.versions[version].below for version in there):
                waiting.discard(number)
