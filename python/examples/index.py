#!/usr/bin/env python3
"""An index of a mailbox that is kept in step, as notmuch has one: words are searched in SQLite, and the index reads the mailbox's feed on from
where it had come to.

    MAILREP_LIB=build/c PYTHONPATH=python python/examples/index.py      prints index.expected
"""

from __future__ import annotations

import sqlite3
import tempfile
from collections.abc import Iterator
from pathlib import Path

from mailrep import Code, Flag, KeptDevice, Message, NotThere, OpenFault, Received, Refused, Version

TABLES = """
create table if not exists mail (version text primary key, item text, sender text, subject text, body text, flags integer, day integer);
create table if not exists tag (version text, label text, primary key (version, label));
create table if not exists place (seen integer);
"""


class Index:
    """What is searched. It may be thrown away: it is made again of the feed, from its first change."""

    def __init__(self, path: Path) -> None:
        self.rows = sqlite3.connect(path)
        self.rows.executescript(TABLES)

    def seen(self) -> int:
        """How many changes are in it."""
        return next(self.rows.execute("select seen from place"), (0,))[0]

    def update(self, mailbox: KeptDevice) -> int:
        """Takes the changes that are new, and says how many these were. What is kept and how far that is stand in one transaction: killed in
        between the index is as it was, and the next update begins there."""
        seen = self.seen()
        changes = 0
        with self.rows:
            for change in mailbox.changes_since(seen):
                changes += 1
                if change.entered:
                    self.put(change.item, change.version, mailbox)
                else:
                    self.drop(change.version)
            self.rows.execute("delete from place")
            self.rows.execute("insert into place values (?)", (seen + changes,))
        return changes

    def put(self, item: Version, version: Version, mailbox: KeptDevice) -> None:
        try:
            message = mailbox.message(version)
        except NotThere:
            # It left again: a later change says so.
            return
        body = message.body.decode(errors="replace")
        row = (str(version), str(item), message.sender, message.subject, body, int(message.flags), message.day)
        self.rows.execute("insert into mail values (?, ?, ?, ?, ?, ?, ?)", row)
        self.rows.executemany("insert into tag values (?, ?)", [(str(version), label) for label in message.labels])

    def drop(self, version: Version) -> None:
        for table in ("mail", "tag"):
            self.rows.execute(f"delete from {table} where version = ?", (str(version),))

    def search(self, *words: str) -> Iterator[str]:
        """The messages that have all words, ``tag:LABEL`` and ``is:unread`` among them, the oldest first: a line for each."""
        rows = "select version, subject, sender, flags from mail where 1"
        wanted: list[str] = []
        for word in words:
            if word == "is:unread":
                rows += f" and not flags & {int(Flag.SEEN)}"
            elif word.startswith("tag:"):
                rows += " and version in (select version from tag where label = ?)"
                wanted.append(word.removeprefix("tag:"))
            else:
                rows += " and instr(lower(sender || ' ' || subject || ' ' || body), lower(?))"
                wanted.append(word)
        for version, subject, sender, _ in self.rows.execute(rows + " order by day, version", wanted):
            tags = " ".join(label for (label,) in self.rows.execute("select label from tag where version = ? order by label", (version,)))
            yield f"{version} {sender}: {subject} ({tags})"


def mailbox_at(path: Path, id: int) -> KeptDevice:
    """The device of the file, begun where there is none."""
    try:
        return KeptDevice.open(path)
    except FileNotFoundError:
        return KeptDevice.begin(path, id)
    except OpenFault as error:
        if error.code != Code.OPEN_NO_REPLICA:
            raise
        # A begin was cut off, in which there was no mail yet.
        path.write_bytes(b"")
        return KeptDevice.begin(path, id)


def records_of(source: KeptDevice, request: bytes) -> Iterator[bytes]:
    """All that a device has for one that asked, in one commit."""
    stream = source.answer(request)
    try:
        while True:
            source.next(stream)
    except Refused as error:
        if error.code != Code.REFUSED_NO_STREAM:
            raise
    return (out.frame for out in source.commit())


def sync(to: KeptDevice, source: KeptDevice) -> None:
    to.pull()
    (asked,) = to.commit()
    outcomes = [to.receive(record) for record in records_of(source, asked.frame)]
    assert outcomes[-1] == Received.FINISHED
    to.commit()


def main() -> None:
    with tempfile.TemporaryDirectory() as name:
        folder = Path(name)
        with mailbox_at(folder / "phone", 0) as phone, mailbox_at(folder / "office", 1) as office:
            phone.create(Message("ann@example.org", "Lunch", b"See you there.", ("inbox",), day=20_000))
            phone.create(Message("bob@example.org", "Minutes", b"Of the lunch meeting.", ("inbox", "work"), day=20_001))
            phone.commit()
            sync(office, phone)
            print(f"{Index(folder / 'index').update(office)} changes")

            # Read and moved at the office; and another mail comes.
            lunch = next(office.heads())
            message = office.message(lunch.version)
            office.edit([lunch.version], message._replace(flags=message.flags | Flag.SEEN, labels=("archive",)))
            office.create(Message("cy@example.org", "Dinner", b"After lunch?", ("inbox",), day=20_002))
            office.commit()
        # The program ends; the next one finds both files.
        with mailbox_at(folder / "office", 1) as office:
            index = Index(folder / "index")
            print(f"{index.update(office)} changes, and then {index.update(office)}")
            for words in (["lunch"], ["lunch", "tag:inbox"], ["is:unread", "tag:work"], ["supper"]):
                print(f"{' '.join(words)}:")
                for line in index.search(*words):
                    print(f"  {line}")
            anew = Index(folder / "anew")
            print(f"made again of {anew.update(office)} changes, it finds {'the same' if list(anew.search()) == list(index.search()) else 'others'}")


if __name__ == "__main__":
    main()
