"""A device."""

from __future__ import annotations

import ctypes
import functools
import threading
from collections.abc import Callable, Iterable, Iterator, Sequence
from ctypes import addressof, c_size_t, c_uint8, c_uint16, c_uint32, c_uint64, c_void_p, string_at
from typing import Any, Self

from ._errors import Code, MessageFault, NotThere, error_of
from ._library import RawChange, RawClaimed, RawCount, RawDevice, RawHeld, RawPlaced, RawVersion, library
from ._values import MAX_EVENTS, Change, Claim, Counts, Flag, FrameKind, Held, Message, Received, Version

_ROOM = 4096
_MAX_OPEN = 8
_TOO_SMALL = int(Code.TOO_SMALL)
_NOT_THERE = int(Code.NOT_THERE)
_new = tuple.__new__


def answer(code: int) -> None:
    """Raises the error of a code that isn't 0."""
    if code:
        raise error_of(code)


# A number that doesn't fit would be another one for C: so it becomes one that fits and is refused as well, in its turn.


def raw_version(version: Version) -> RawVersion:
    """A version, for C."""
    author, counter = version
    return RawVersion(author if 0 <= author < 64 else 64, counter if 0 <= counter <= 1_000_000 else 0)


def number_of(number: int) -> int:
    """The number of a session or a stream, for C; the highest is that of none."""
    return number if 0 <= number < 1 << 64 else (1 << 64) - 1


def setup_of(id: int, filter: str, event_limit: int) -> tuple[int, bytes, int, int]:
    """What each opening takes, with the filter's length."""
    text = filter.encode()
    return id if 0 <= id < 64 else 64, text, len(text), event_limit if 0 <= event_limit <= MAX_EVENTS else 0


class Numbers(dict[int, Any]):
    """The numbers of a type of C, each made once: a call takes an object of its type in less time than a number."""

    def __init__(self, kind: type) -> None:
        self.kind = kind

    def __missing__(self, number: int) -> Any:
        made = self.kind(number)
        if number <= 65_536:
            self[number] = made
        return made


_SIZES, _FLAGS, _DAYS = Numbers(c_size_t), Numbers(c_uint8), Numbers(c_uint16)


def version_of(raw: RawVersion) -> Version:
    return Version(raw.author, raw.counter)


@functools.lru_cache(1024)
def labels_of(labels: tuple[str, ...]) -> tuple[bytes, c_size_t]:
    """Labels as a call takes them: with commas between, so that none may have one itself."""
    text = ",".join(labels).encode()
    if labels and (not text or text.count(b",") + 1 != len(labels)):
        raise MessageFault(Code.MESSAGE_BAD_LABEL)
    return text, c_size_t(len(text))


def parts_of(message: Message) -> tuple[Any, ...]:
    """A message as a call takes it: bytes, and objects of C's types."""
    sender_text, subject_text, body, labels, flags, day = message
    if type(body) is not bytes:
        body = bytes(memoryview(body))
    if type(labels) is not tuple:
        if isinstance(labels, str):
            raise TypeError("labels are several texts, and not one")
        labels = tuple(labels)
    if not 0 <= day <= 65_535:
        raise ValueError("a day is 0 to 65535")
    sender, subject, sizes = sender_text.encode(), subject_text.encode(), _SIZES
    text, size = labels_of(labels)
    bits = _FLAGS[flags if 0 <= flags < 32 else 32]
    return sender, sizes[len(sender)], subject, sizes[len(subject)], body, sizes[len(body)], text, size, bits, _DAYS[day]


class Base:
    """What a plain and a kept device have in common. Calls of several threads wait for one another."""

    def __init__(self) -> None:
        self._library = library()
        # All that is given to it has C's types already: so it looks at none, which takes a third of its time.
        self._create = self._library["mr_create"]
        self._handle = RawDevice()
        self._at = addressof(self._handle)
        self._here = c_void_p(self._at)
        self._lock = threading.RLock()
        self._issued = RawVersion()
        self._issued_at = c_void_p(addressof(self._issued))
        self._len = c_size_t()
        self._len_at = addressof(self._len)
        self._make_room(_ROOM)
        self._events = 0

    def _make_room(self, room: int) -> None:
        self._buffer = ctypes.create_string_buffer(room)
        self._room = addressof(self._buffer), room, self._len_at

    def close(self) -> None:
        """Gives back all that the device holds; from then on each call is refused by ``Code.CLOSED``. A closed one stays so."""
        with self._lock:
            self._library.mr_close(self._at)

    def __enter__(self) -> Self:
        return self

    def __exit__(self, *_: object) -> None:
        self.close()

    def __del__(self) -> None:
        # A device whose opening was refused may have no handle yet.
        if hasattr(self, "_events"):
            self.close()

    def _do(self, call: Callable[..., int], *arguments: Any) -> None:
        """Has an event happen."""
        with self._lock:
            code = call(self._at, *arguments)
            if code:
                raise error_of(code)
            self._events += 1

    def _read(self, call: Callable[..., int], *arguments: Any) -> None:
        with self._lock:
            code = call(self._at, *arguments)
        if code:
            raise error_of(code)

    def _filled(self, call: Callable[..., int], *arguments: Any) -> bytes:
        """What a reader writes to a buffer, which grows to the length that it tells."""
        with self._lock:
            code = call(self._at, *arguments, *self._room)
            if code == _TOO_SMALL:
                self._make_room(self._len.value)
                code = call(self._at, *arguments, *self._room)
            if code:
                raise error_of(code)
            return string_at(self._buffer, self._len.value)

    def _items(self, kind: type, call: Callable[..., int], *arguments: Any) -> list[Any]:
        """The same of items that are no bytes."""
        with self._lock:
            room = _MAX_OPEN
            while True:
                items = (kind * room)()
                code = call(self._at, *arguments, addressof(items), room, self._len_at)
                if code != _TOO_SMALL:
                    answer(code)
                    return items[: self._len.value]  # type: ignore[no-any-return]
                room = self._len.value

    def _write(self, message: Message) -> Version:
        parts = parts_of(message)
        with self._lock:
            code = self._create(self._here, *parts, self._issued_at)
            if code:
                raise error_of(code)
            self._events += 1
            return _new(Version, (self._issued.author, self._issued.counter))

    def _edit(self, bases: Sequence[Version], message: Message) -> Version:
        parts = parts_of(message)
        raw = (RawVersion * len(bases))(*map(raw_version, bases))
        with self._lock:
            self._do(self._library.mr_edit, addressof(raw), len(bases), *parts, self._issued_at)
            return version_of(self._issued)

    def _merge(self, item: Version) -> Version:
        with self._lock:
            self._do(self._library.mr_merge, raw_version(item), self._issued_at)
            return version_of(self._issued)

    def _pull(self) -> int:
        session = c_uint64()
        self._do(self._library.mr_pull, addressof(session))
        return session.value

    def _next(self, stream: int) -> None:
        self._do(self._library.mr_next, number_of(stream))

    def retire(self) -> None:
        """Writes, asks and takes nothing more; it still answers. Refused while it keeps messages for others."""
        self._do(self._library.mr_retire)

    def answer(self, frame: bytes) -> int:
        """Opens a stream for a request, and gives its number. WireFault, MailrepError of another frame, Refused."""
        stream = c_uint64()
        self._do(self._library.mr_answer, frame, len(frame), addressof(stream))
        return stream.value

    def receive(self, frame: bytes) -> Received:
        """Takes a record. WireFault, Refused."""
        outcome = c_uint32()
        self._do(self._library.mr_receive, frame, len(frame), addressof(outcome))
        return Received(outcome.value)

    def cut_in(self, session: int) -> None:
        """Gives up a session; what it took stays. Refused where no such session is open."""
        self._do(self._library.mr_cut_in, number_of(session))

    def cut_out(self, stream: int) -> None:
        """Gives up a stream. Refused where no such stream is open."""
        self._do(self._library.mr_cut_out, number_of(stream))

    def release(self, frame: bytes) -> None:
        """Lets go of the push-outs that a receipt frees. WireFault, MailrepError of another frame, Refused."""
        self._do(self._library.mr_release, frame, len(frame))

    def counts(self) -> Counts:
        """How much there is."""
        counts = RawCount()
        self._read(self._library.mr_counts, addressof(counts))
        return Counts(counts.heads, counts.push_outs, counts.changes, counts.events)

    def _each_held(self, call: Callable[..., int], count: int) -> Iterator[Held]:
        events, held = self._events, RawHeld()
        for place in range(count):
            if self._events != events:
                raise RuntimeError("the device changed during iteration")
            self._read(call, place, addressof(held))
            yield Held(version_of(held.item), version_of(held.version))

    def heads(self) -> Iterator[Held]:
        """The messages that the filter selects, in version order. No event may happen before the last one is given."""
        return self._each_held(self._library.mr_head, self.counts().heads)

    def push_outs(self) -> Iterator[Held]:
        """The messages that wait for another device to have them, in version order; as ``heads``."""
        return self._each_held(self._library.mr_push_out, self.counts().push_outs)

    def conflicts(self) -> list[Version]:
        """The items that have two or more heads, in rising order: they are in conflict until an edit of all their heads."""
        return [version_of(raw) for raw in self._items(RawVersion, self._library.mr_conflicts)]

    def heads_of(self, item: Version) -> list[Version]:
        """The versions of an item that are heads, in version order. VersionFault."""
        return [version_of(raw) for raw in self._items(RawVersion, self._library.mr_heads_of, raw_version(item))]

    def changes_since(self, seen: int = 0) -> Iterator[Change]:
        """The changes of the heads, in order of time, behind the first so many. Keep how many you have seen. It goes on to those that come
        meanwhile."""
        if seen < 0:
            raise ValueError("so many changes can't have been seen")
        change, place = RawChange(), seen
        while True:
            with self._lock:
                code = self._library.mr_change(self._at, place, addressof(change))
            if code == _NOT_THERE:
                return
            answer(code)
            yield Change(change.entered == 1, version_of(change.item), version_of(change.version))
            place += 1

    def message(self, version: Version) -> Message:
        """The message of a held version. VersionFault where there is no such version, then NotThere."""
        raw, card, get = raw_version(version), RawPlaced(), self._library
        with self._lock:
            self._read(get.mr_card, raw, addressof(card))
            sender, subject, body = (self._filled(get.mr_part, raw, part) for part in range(3))
            labels = tuple(self._filled(get.mr_label, raw, place).decode() for place in range(card.labels))
        return Message(sender.decode(), subject.decode(), body, labels, Flag(card.flags), card.day)

    def knows(self, item: Version, version: Version) -> bool:
        """Whether a version of an item is known, held or not. VersionFault."""
        is_known = c_uint32()
        self._read(self._library.mr_knows, raw_version(item), raw_version(version), addressof(is_known))
        return is_known.value == 1

    def highest(self, author: int) -> int | None:
        """The highest counter of an author's versions that the device knows, of whatever item, and None where it knows none: to be told to that
        author, for ``KeptDevice.check_peer`` there. VersionFault; Refused, where what is known has too many holes."""
        counter = c_uint32()
        try:
            self._read(self._library.mr_highest, author if 0 <= author < 64 else 64, addressof(counter))
        except NotThere:
            return None
        return counter.value

    def is_retired(self) -> bool:
        """Whether it has retired."""
        is_retired = c_uint32()
        self._read(self._library.mr_is_retired, addressof(is_retired))
        return is_retired.value == 1

    def sessions(self) -> list[int]:
        """The numbers of the open sessions, rising."""
        return self._items(c_uint64, self._library.mr_sessions)

    def streams(self) -> list[int]:
        """The numbers of the open streams, rising."""
        return self._items(c_uint64, self._library.mr_streams)

    def log_since(self, kept: int = 0) -> Iterator[bytes]:
        """The events of the log behind the first so many, each as the bytes to be kept for ``Device.replay``."""
        if kept < 0:
            raise ValueError("so many events can't have been kept")
        for place in range(kept, self.counts().events):
            yield self._filled(self._library.mr_event, place)


class Device(Base):
    """A device: one end of a mailbox that is kept in step. It is its log, which the program keeps.

    Each call that changes it is an event, which happens as a whole or not at all: where it raises, it is as it was.
    """

    def __init__(self, id: int, filter: str = "all", event_limit: int = MAX_EVENTS) -> None:
        """A device to which nothing has happened.

        ``id``, 0 to 63, is given to no other device, ever. ``filter`` says what it keeps, as ``label:inbox & !flag:deleted``. ``event_limit``, 1
        to 1,000,000, says how many events it takes. VersionFault, then FilterFault, then ReplayFault for the limit.
        """
        super().__init__()
        self._open(id, filter, event_limit, b"")

    def _open(self, id: int, filter: str, event_limit: int, log: bytes) -> None:
        answer(self._library.mr_replay(self._at, *setup_of(id, filter, event_limit), log, len(log)))

    @classmethod
    def replay(cls, id: int, filter: str, event_limit: int, log: Iterable[bytes]) -> Device:
        """The device whose log has these events: those of ``log_since()``. As a new one, and behind FilterFault: EventFault where the bytes are
        none of events, ReplayFault where one is refused."""
        device = cls.__new__(cls)
        Base.__init__(device)
        device._open(id, filter, event_limit, b"".join(log))
        return device

    def create(self, message: Message) -> Version:
        """Writes a message. MessageFault, then Refused."""
        return self._write(message)

    def edit(self, bases: Sequence[Version], message: Message) -> Version:
        """Puts a message in the place of held versions of one item: of one, or of all that conflict. MessageFault, VersionFault, Refused."""
        return self._edit(bases, message)

    def merge(self, item: Version) -> Version:
        """Merges the heads of an item that differ in labels and flags alone, by an edit of all of them, and gives its version.

        VersionFault; MergeFault where the contents differ, so that the user has to look, or there are too many labels together; MailrepError
        of ``Code.NO_CONFLICT`` where the heads say the same, or there is one or none; then Refused.
        """
        return self._merge(item)

    def pull(self) -> tuple[int, bytes]:
        """Asks for what the device lacks: the number of a session that waits for it, and the request's frame. Refused."""
        with self._lock:
            return self._pull(), self.frame()

    def next(self, stream: int) -> bytes:
        """The frame of the stream's next record. Refused by ``Code.REFUSED_NO_STREAM`` behind the last one, which closed the stream."""
        with self._lock:
            self._next(stream)
            return self.frame()

    def vouch(self, version: Version) -> bytes:
        """The frame of a receipt for a head. VersionFault, then Refused."""
        with self._lock:
            self._do(self._library.mr_vouch, raw_version(version))
            return self.frame()

    def frame(self) -> bytes:
        """The frame that the last event gave that was not refused, and nothing where it gave none."""
        return self._filled(self._library.mr_frame)


def frame_len(begun: bytes) -> int | None:
    """How many bytes the frame takes that these begin; None where fewer than four are there. WireFault: give up the connection."""
    length = c_size_t()
    code = library().mr_frame_len(begun, len(begun), addressof(length))
    if code == Code.WIRE_TRUNCATED:
        return None
    answer(code)
    return length.value


def claim(frame: bytes) -> Claim:
    """What a frame is, and who it claims to come from: to be compared with who is at the other end, before a device takes it. WireFault."""
    claimed = RawClaimed()
    answer(library().mr_frame_claim(frame, len(frame), addressof(claimed)))
    return Claim(FrameKind(claimed.kind), claimed.author)
