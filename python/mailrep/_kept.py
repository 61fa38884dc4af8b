"""A device with a file of its own."""

from __future__ import annotations

import fcntl
import os
from collections.abc import Sequence
from ctypes import addressof, c_size_t
from pathlib import Path

from ._device import Base, answer, raw_version, setup_of, version_of
from ._errors import Code, MailrepError, OpenFault
from ._library import RawAct, RawBorn, RawTold, RawVersion
from ._values import MAX_EVENTS, Asked, Born, Gave, HandedOut, Issued, Message, Version, Vouched

_WRITE, _CUT = 0, 1
_ISSUED, _ASKED, _GAVE = 0, 1, 2
_NOT_THERE = int(Code.NOT_THERE)


def mark_of(file: int | str | os.PathLike[str]) -> bytes:
    """Where a file is, as the mark of a kept device: the machine's id, as ``/etc/machine-id`` has it, and the file's inode. A copy has another
    inode, and so has a backup that was restored as another file."""
    machine = bytes.fromhex(Path("/etc/machine-id").read_text(encoding="ascii").strip())
    return (machine[:16] + os.stat(file).st_ino.to_bytes(8, "big")).ljust(32, b"\0")


class KeptDevice(Base):
    """A device whose file is written before anything that came of its events is shown or handed out.

    ``begin`` and ``open`` make one. The file is locked while the device is open. Killed at any moment once it is begun, the program finds a file
    that ``open`` takes: with all that was committed before the last commit, and of the last one all or nothing. Readers raise Unsettled
    while an event or a note waits for a commit; once the file has failed, every call raises Failed.
    """

    def __init__(self) -> None:
        raise TypeError("KeptDevice.begin or KeptDevice.open makes one")

    @classmethod
    def _of(cls, path: str | os.PathLike[str], flags: int) -> KeptDevice:
        """A closed one of a file that is locked."""
        device = cls.__new__(cls)
        Base.__init__(device)
        device._file = os.open(path, os.O_RDWR | os.O_CLOEXEC | flags, 0o600)
        try:
            fcntl.flock(device._file, fcntl.LOCK_EX | fcntl.LOCK_NB)
        except OSError as error:
            device.close()
            if isinstance(error, BlockingIOError):
                raise MailrepError(Code.IN_USE) from None
            raise
        return device

    @classmethod
    def begin(
        cls,
        path: str | os.PathLike[str],
        id: int,
        filter: str = "all",
        event_limit: int = MAX_EVENTS,
        *,
        birth: bytes | None = None,
        mark: bytes | None = None,
    ) -> KeptDevice:
        """Begins a device in a file that is not there or has no byte; ``id``, ``filter`` and ``event_limit`` are those of a Device.

        ``birth``: 16 random bytes, else drawn here. ``mark``: 32 bytes, else those of ``mark_of``. MailrepError of ``Code.IN_USE`` where another
        device has the file open, OpenFault of ``Code.OPEN_NOT_EMPTY`` where it has a byte, and it has all of them still; VersionFault, FilterFault,
        ReplayFault for the limit; OSError.
        """
        device = cls._of(path, os.O_CREAT)
        try:
            if os.fstat(device._file).st_size:
                raise OpenFault(Code.OPEN_NOT_EMPTY)
            birth = os.urandom(16) if birth is None else birth
            mark = mark_of(device._file) if mark is None else mark
            setup = setup_of(id, filter, event_limit)
            answer(device._library.mr_kept_begin(device._at, *setup, birth, len(birth), mark, len(mark)))
            device._settle()
            # So that the file's name outlives a crash.
            folder = os.open(os.path.dirname(os.path.realpath(path)), os.O_RDONLY | os.O_DIRECTORY)
            try:
                os.fsync(folder)
            finally:
                os.close(folder)
        except BaseException:
            device.close()
            raise
        return device

    @classmethod
    def open(cls, path: str | os.PathLike[str], *, birth: bytes = b"", mark: bytes | None = None) -> KeptDevice:
        """Opens the device of a file. What a crash left behind is cut off, and sessions and streams that were open are closed.

        ``birth``: the one that the file has to be of, if any. MailrepError of ``Code.IN_USE`` where another device has the file open. OpenFault of
        ``Code.OPEN_NO_REPLICA`` where it is empty or a begin was cut off: empty it and begin. JournalFault, OpenFault, FilterFault and ReplayFault
        where it is none of a device, OpenFault also of another place or birth; OSError.
        """
        device = cls._of(path, 0)
        try:
            os.fdatasync(device._file)
            with os.fdopen(os.dup(device._file), "rb") as file:
                content = file.read()
            mark = mark_of(device._file) if mark is None else mark
            answer(device._library.mr_kept_open(device._at, content, len(content), mark, len(mark), birth, len(birth)))
            device._settle()
        except BaseException:
            device.close()
            raise
        return device

    def close(self) -> None:
        """Closes the device, and its file with it; what was not committed is gone."""
        with self._lock:
            super().close()
            if self._file >= 0:
                os.close(self._file)
                self._file = -1

    _file = -1

    def _settle(self) -> None:
        """Does all acts that are left, in their order, and tells the device how that went."""
        well = 0
        try:
            self._do_acts()
            well = 1
        finally:
            self._read(self._library.mr_settle, well)

    def _do_acts(self) -> None:
        act, place = RawAct(), 0
        while (code := self._library.mr_act_at(self._at, place, addressof(act))) != _NOT_THERE:
            answer(code)
            if act.kind == _WRITE:
                self._put(act.at, self._filled(self._library.mr_act_bytes, place))
            elif act.kind == _CUT:
                os.ftruncate(self._file, act.at)
            else:
                os.fdatasync(self._file)
            place += 1

    def _put(self, at: int, content: bytes) -> None:
        left = memoryview(content)
        while left:
            done = os.pwrite(self._file, left, at)
            left, at = left[done:], at + done

    def commit(self) -> list[HandedOut]:
        """Has the file take all events and notes that wait, and hands out what was held back, in the order of the events.

        MailrepError of ``Code.TOO_LARGE`` or OutOfMemory: what waits waits still. Failed where the file failed before; OSError where it does now.
        """
        with self._lock:
            self._do(self._library.mr_commit)
            self._settle()
            return self.handed_out()

    def handed_out(self) -> list[HandedOut]:
        """What the last commit handed out, once more. Unsettled behind the next event or note."""
        told: list[HandedOut] = []
        raw = RawTold()
        with self._lock:
            while (code := self._library.mr_told_at(self._at, len(told), addressof(raw))) != _NOT_THERE:
                answer(code)
                if raw.kind == _ISSUED:
                    told.append(Issued(version_of(raw.version)))
                    continue
                number, kind, frame = raw.number, raw.kind, self._filled(self._library.mr_told_frame, len(told))
                told.append(Asked(number, frame) if kind == _ASKED else Gave(frame) if kind == _GAVE else Vouched(frame))
        return told

    def note(self, content: bytes) -> None:
        """Has a note wait: bytes of the program's own. The next commit keeps it in one batch with the events that wait, all or nothing."""
        self._do(self._library.mr_note, content, len(content))

    def notes(self) -> list[bytes]:
        """The notes that opening the file found, in the order in which they were written; none that was written since."""
        count = c_size_t()
        self._read(self._library.mr_notes, addressof(count))
        return [self._filled(self._library.mr_note_at, place) for place in range(count.value)]

    def birth(self) -> bytes:
        """What was drawn when the file was begun."""
        return self._filled(self._library.mr_birth)

    def check_peer(self, highest: Sequence[Version], births: Sequence[Born] = ()) -> None:
        """Raises PeerFault where what another device tells doesn't go with this one: the highest version that it knows of each author, and the
        files that it has met. Ask before you send it anything or take anything of it."""
        versions = (RawVersion * len(highest))(*map(raw_version, highest))
        born = (RawBorn * len(births))()
        for raw, (author, birth) in zip(born, births, strict=True):
            if len(birth) != 16:
                raise MailrepError(Code.BAD_LENGTH)
            raw.author = author if 0 <= author < 64 else 64
            raw.birth[:] = birth
        self._read(self._library.mr_check_peer, addressof(versions), len(highest), addressof(born), len(births))

    def create(self, message: Message) -> None:
        """Writes a message, whose version the next commit hands out. As ``Device.create``, and so for the events below; Failed."""
        self._write(message)

    def edit(self, bases: Sequence[Version], message: Message) -> None:
        """Puts a message in the place of held versions of one item; the next commit hands out its version."""
        self._edit(bases, message)

    def merge(self, item: Version) -> None:
        """Merges the heads of an item; the next commit hands out the version. It looks at the heads: so neither an event nor a note may wait."""
        self._merge(item)

    def pull(self) -> None:
        """Asks for what the device lacks. The next commit hands out the session and the request."""
        self._pull()

    def next(self, stream: int) -> None:
        """Has the stream give its next record, which the next commit hands out. Refused by ``Code.REFUSED_NO_STREAM`` behind the last one."""
        self._next(stream)

    def vouch(self, version: Version) -> None:
        """Gives a receipt for a head, which the next commit hands out."""
        self._do(self._library.mr_vouch, raw_version(version))
