"""What a device takes and tells."""

from __future__ import annotations

import enum
from typing import NamedTuple

from ._errors import Code, VersionFault

MAX_EVENTS = 1_000_000


class Flag(enum.IntFlag):
    """The flags of a message, to be joined by ``|``."""

    SEEN = 1
    ANSWERED = 2
    FLAGGED = 4
    DRAFT = 8
    DELETED = 16


class Version(NamedTuple):
    """A version of a message: its author's id, 0 to 63, and its number among that author's, 1 to 1,000,000.

    It names it on all devices, for ever. A message through all its versions is an item, named by its first version.
    """

    author: int
    counter: int

    def __str__(self) -> str:
        """As ``0.17``."""
        return f"{self.author}.{self.counter}"

    @classmethod
    def parse(cls, text: str) -> Version:
        """The version of just what ``str`` makes of one; VersionFault of another text."""
        author, _, counter = text.partition(".")
        if author.isdecimal() and counter.isdecimal():
            version = cls(int(author), int(counter))
            if str(version) == text and version.author <= 63 and 1 <= version.counter <= 1_000_000:
                return version
        raise VersionFault(Code.VERSION_BAD_VERSION)


class Held(NamedTuple):
    """A version that is held, and its item."""

    item: Version
    version: Version


class Change(NamedTuple):
    """A change of what is held: the version entered, or else it left."""

    entered: bool
    item: Version
    version: Version


class Counts(NamedTuple):
    """How much there is."""

    heads: int
    """Messages that the filter selects."""
    push_outs: int
    """Messages written here that it doesn't, held until another device has them."""
    changes: int
    """Changes of the heads, since the device was opened for the first time."""
    events: int
    """Events of the log."""


class Message(NamedTuple):
    """A message, as it is held and as it is written."""

    sender: str = ""
    """At most 254 bytes of UTF-8."""
    subject: str = ""
    """At most 998."""
    body: bytes = b""
    """At most 65,536 bytes."""
    labels: tuple[str, ...] = ()
    """At most 16, each 1 to 32 of a-z, 0-9 and ``-``; of a held message in rising order."""
    flags: Flag = Flag(0)
    day: int = 0
    """Days since 1970-01-01."""


class Born(NamedTuple):
    """A file of a device, as another device knows it: the device's id, and what was drawn when the file was begun."""

    author: int
    birth: bytes


class FrameKind(enum.IntEnum):
    """What a frame is: of a pull, of a next, of a vouch."""

    ASK = 0
    RECORD = 1
    RECEIPT = 2


class Claim(NamedTuple):
    """What a frame is, and the id of the device that it claims to come from."""

    kind: FrameKind
    author: int


class Received(enum.IntEnum):
    """What came of a record."""

    TOOK = 0
    """It was taken, and what it tells was not known."""
    KNOWN = 1
    """It was taken, and tells of a version that is known already."""
    FINISHED = 2
    """The stream's last one was taken, and the session is closed."""


class Issued(NamedTuple):
    """What a commit hands out of a create, an edit or a merge."""

    version: Version


class Asked(NamedTuple):
    """What a commit hands out of a pull: the session, and the request's frame."""

    session: int
    frame: bytes


class Gave(NamedTuple):
    """What a commit hands out of a next: the record's frame."""

    frame: bytes


class Vouched(NamedTuple):
    """What a commit hands out of a vouch: the receipt's frame."""

    frame: bytes


HandedOut = Issued | Asked | Gave | Vouched
