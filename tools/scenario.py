#!/usr/bin/env python3
"""Prints a script that makes a mailbox of a size, and lets a device sync with the office that has it.

  tools/scenario.py NAME MESSAGES

The office is replica 0 and keeps all mail, the device replica 1; replica 2 is a branch that keeps all mail too. Each name is a way in
which the mail came about, with `-cut` behind it for a sync that is cut at half of its items, and with `-cuts` for one that is cut
twenty times; it is taken up again behind each cut. The first
line is a comment with the number of items that all syncs of the device tell, if none comes twice, and the last one asks for the bytes of
the newest request. The numbers are random, but the same in each run. A script has at most 16,777,216 bytes. Small ones are rows of
`try_scripts`; tools/figures times large ones.
"""

import random
import sys

EDITS = 4
BLOCKS = 10
SOONEST, LATEST = 40, 400
TEXT = ". 2026-01-05 ann Hi"


class Mailbox:
    """The lines that make one, the newest version of each message, and how many versions each author has issued."""

    def __init__(self):
        self.lines, self.heads, self.labels = [], [], []
        self.issued = {0: 0, 1: 0, 2: 0}
        self.asked = 0
        self.random = random.Random(40_961)

    def issue(self, author):
        self.issued[author] += 1
        return f"{author}.{self.issued[author]}"

    def create(self, author=0, label="inbox"):
        self.lines.append(f"create {author} {label} {TEXT}")
        self.heads.append(self.issue(author))
        self.labels.append(label)

    def edit(self, message, author=0):
        self.lines.append(f"edit {author} {self.heads[message]} {self.labels[message]} {TEXT}")
        self.heads[message] = self.issue(author)

    def sync(self, target, source, records=None):
        self.lines.append(f"sync {target} {source}" + ("" if records is None else f" {records}"))
        self.asked += 1

    def either(self):
        return self.random.choice((0, 2))

    def wanted(self):
        """How many messages the device's filter selects."""
        return self.labels.count("inbox")


def at_once(box, messages):
    """Each message is edited right behind its create."""
    for message in range(messages):
        box.create()
        box.edit(message)


def after_all(box, messages, rounds=1, shuffled=False):
    """Behind the last create each message is edited."""
    for _ in range(messages):
        box.create()
    for _ in range(rounds):
        order = list(range(messages))
        if shuffled:
            box.random.shuffle(order)
        for message in order:
            box.edit(message)


def later(box, messages):
    """Each message is edited 40 to 400 messages later."""
    due = {}
    for now in range(messages + LATEST + 1):
        if now < messages:
            box.create()
            due.setdefault(now + box.random.randint(SOONEST, LATEST), []).append(now)
        for message in due.get(now, ()):
            box.edit(message)


def two_authors(box, messages, labels=("inbox",)):
    """The office and the branch create messages and edit each up to four times, block by block, and sync as they go."""
    for block in range(BLOCKS):
        first, end = messages * block // BLOCKS, messages * (block + 1) // BLOCKS
        for _ in range(first, end):
            box.create(box.either(), box.random.choice(labels))
        for turn in range(EDITS + 1):
            if turn:
                for message in range(first, end):
                    if box.random.randrange(EDITS + 1) < EDITS + 1 - turn:
                        box.edit(message, box.either())
            box.sync(2, 0)
            box.sync(0, 2)


def every(box, messages, distance):
    """The filter selects one message of so many."""
    for message in range(messages):
        box.create(0, "inbox" if message % distance == 0 else "archive")


def both_sides(box, messages):
    """The office and the device hold all messages, and each edits them all."""
    for _ in range(messages):
        box.create()
    box.sync(1, 0)
    for message in range(messages):
        base = box.heads[message]
        box.edit(message, 1)
        box.heads[message] = base
        box.edit(message)


WAYS = {
    "at-once": at_once,
    "after-all": after_all,
    "after-all-random": lambda box, messages: after_all(box, messages, shuffled=True),
    "later": later,
    "two-authors": two_authors,
    "two-authors-half": lambda box, messages: two_authors(box, messages, ("inbox", "archive")),
    "every-second": lambda box, messages: every(box, messages, 2),
    "every-third": lambda box, messages: every(box, messages, 3),
    "three-edits": lambda box, messages: after_all(box, messages, 3),
    "both-sides": both_sides,
}


def cuts_of(name):
    """The way's name, how often its sync is cut, and in how many parts its items come."""
    for ending, cuts, parts in (("-cuts", 20, 21), ("-cut", 1, 2)):
        if name.endswith(ending):
            return name[: -len(ending)], cuts, parts
    return name, 0, 1


def main(name, messages):
    way, cuts, parts = cuts_of(name)
    box = Mailbox()
    WAYS[way](box, int(messages))
    items = box.wanted() * (2 if way == "both-sides" else 1)
    for _ in range(cuts):
        # The start of the stream is a record too.
        box.sync(1, 0, box.wanted() // parts + 1)
    box.sync(1, 0)
    box.lines.append(f"bytes Q{box.asked}")
    some = way in ("two-authors-half", "every-second", "every-third")
    print(f"# items: {items}")
    for replica, selects in enumerate(("all", "label:inbox" if some else "all", "all")):
        print(f"replica {replica} 1000000 1 {selects}")
    print("\n".join(box.lines))


main(*sys.argv[1:])
