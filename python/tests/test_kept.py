"""A device with a file of its own: killed in each act, locked, and told of a failure."""

import os
import shutil
import tempfile
import unittest
from pathlib import Path
from unittest import mock

from mailrep import (
    Asked,
    Born,
    Code,
    Failed,
    FilterFault,
    Gave,
    Issued,
    KeptDevice,
    MailrepError,
    Message,
    OpenFault,
    PeerFault,
    Received,
    Refused,
    Unsettled,
    Version,
    VersionFault,
    Vouched,
    mark_of,
)

LUNCH = Message("ann@example.org", "lunch", b"See you there.", ("inbox",), day=20_000)


class Killed(BaseException):
    """The program's end."""


class Killer:
    """Kills the program in its act of this number; of a write so many bytes are done."""

    def __init__(self, act: int, torn: int) -> None:
        self.left, self.torn = act, torn
        self.real = {name: getattr(os, name) for name in ("pwrite", "ftruncate", "fdatasync")}

    def dies(self) -> bool:
        self.left -= 1
        return self.left < 0

    def pwrite(self, file: int, content: memoryview, at: int) -> int:
        if self.dies():
            self.real["pwrite"](file, content[: self.torn], at)
            raise Killed
        # Now and then fewer bytes than were given.
        return self.real["pwrite"](file, content[: max(1, len(content) // 2)], at) if self.left % 2 else self.real["pwrite"](file, content, at)

    def ftruncate(self, file: int, length: int) -> None:
        if self.dies():
            raise Killed
        self.real["ftruncate"](file, length)

    def fdatasync(self, file: int) -> None:
        if self.dies():
            raise Killed
        self.real["fdatasync"](file)

    def __enter__(self) -> None:
        self.patches = [mock.patch.object(os, name, getattr(self, name)) for name in self.real]
        for patch in self.patches:
            patch.start()

    def __exit__(self, *_: object) -> None:
        for patch in self.patches:
            patch.stop()


class Kept(unittest.TestCase):
    def setUp(self) -> None:
        self.folder = Path(tempfile.mkdtemp(prefix="mailrep-"))
        self.addCleanup(shutil.rmtree, self.folder)
        self.path = self.folder / "phone"

    def refused(self, code: Code, kind: type, call, *arguments, **named) -> None:
        with self.assertRaises(kind) as caught:
            call(*arguments, **named)
        self.assertIs(caught.exception.code, code)

    def test_what_was_handed_out_is_kept_in_whichever_act_the_program_is_killed(self) -> None:
        for torn in (0, 1, 30, 10_000):
            act, ended = 0, False
            while not ended:
                self.path.unlink(missing_ok=True)
                handed_out: list[Version] = []
                phone = None
                try:
                    with Killer(act, torn):
                        phone = KeptDevice.begin(self.path, 0)
                        for size in (1, 2, 1):
                            for number in range(size):
                                phone.create(LUNCH)
                                phone.note(bytes([number]) * 600)
                            handed_out += [out.version for out in phone.commit()]
                    ended = True
                except Killed:
                    pass
                if phone:
                    phone.close()
                try:
                    phone = KeptDevice.open(self.path)
                except OpenFault as error:
                    self.assertIs(error.code, Code.OPEN_NO_REPLICA)
                    self.assertEqual(handed_out, [])
                    os.truncate(self.path, 0)
                    phone = KeptDevice.begin(self.path, 0)
                with phone:
                    for version in handed_out:
                        self.assertEqual(phone.message(version), LUNCH)
                    heads = phone.counts().heads
                    # All of a batch or nothing, and its notes with it.
                    self.assertIn(heads, (0, 1, 3, 4))
                    self.assertEqual([note[0] for note in phone.notes()], [0, 0, 1, 0][:heads])
                    self.assertGreaterEqual(heads, len(handed_out))
                    phone.create(LUNCH)
                    (issued,) = phone.commit()
                    self.assertNotIn(issued.version, handed_out)
                act += 1
            self.assertEqual(len(handed_out), 4)
            self.assertGreater(act, 8)

    def test_a_begin_erases_nothing(self) -> None:
        with KeptDevice.begin(self.path, 0) as phone:
            phone.create(LUNCH)
            phone.commit()
        content = self.path.read_bytes()
        self.refused(Code.OPEN_NOT_EMPTY, OpenFault, KeptDevice.begin, self.path, 0)
        self.assertEqual(self.path.read_bytes(), content)
        self.refused(Code.FILTER_BAD_FILTER, FilterFault, KeptDevice.begin, self.folder / "other", 0, "label:")
        self.assertEqual((self.folder / "other").stat().st_size, 0)
        with self.assertRaises(FileNotFoundError):
            KeptDevice.open(self.folder / "none")
        with self.assertRaises(TypeError):
            KeptDevice()

    def test_of_a_file_one_device_is_open(self) -> None:
        with KeptDevice.begin(self.path, 0):
            self.refused(Code.IN_USE, MailrepError, KeptDevice.open, self.path)
            self.refused(Code.IN_USE, MailrepError, KeptDevice.begin, self.path, 0)
        KeptDevice.open(self.path).close()
        # A device that nobody has any more lets go of its file.
        KeptDevice.open(self.path)
        KeptDevice.open(self.path).close()

    def test_a_copy_and_another_birth_are_refused(self) -> None:
        birth = bytes(range(16))
        with KeptDevice.begin(self.path, 0, birth=birth) as phone:
            self.assertEqual(phone.birth(), birth)
        copy = self.folder / "copy"
        shutil.copy(self.path, copy)
        self.refused(Code.OPEN_COPIED, OpenFault, KeptDevice.open, copy)
        self.refused(Code.OPEN_COPIED, OpenFault, KeptDevice.open, copy, mark=bytes(32))
        KeptDevice.open(copy, mark=mark_of(self.path)).close()
        self.refused(Code.OPEN_OTHER_BIRTH, OpenFault, KeptDevice.open, self.path, birth=bytes(16))
        self.refused(Code.BAD_LENGTH, MailrepError, KeptDevice.open, self.path, birth=bytes(15))
        # A file that was begun with no mark is opened at any place, with none.
        with KeptDevice.begin(self.folder / "anywhere", 1, mark=bytes(32)):
            pass
        shutil.copy(self.folder / "anywhere", copy)
        KeptDevice.open(copy, mark=bytes(32)).close()
        self.refused(Code.OPEN_COPIED, OpenFault, KeptDevice.open, copy)

    def test_a_file_that_failed_has_to_be_opened_again(self) -> None:
        with KeptDevice.begin(self.path, 0) as phone:
            phone.create(LUNCH)
            self.refused(Code.UNSETTLED, Unsettled, phone.counts)
            with mock.patch.object(os, "pwrite", side_effect=OSError(28, "No space left on device")), self.assertRaises(OSError):
                phone.commit()
            self.refused(Code.FAILED, Failed, phone.create, LUNCH)
            self.refused(Code.FAILED, Failed, phone.counts)
        with KeptDevice.open(self.path) as phone:
            self.assertEqual(phone.counts().heads, 0)

    def test_two_kept_devices_come_into_step(self) -> None:
        with KeptDevice.begin(self.path, 0) as phone, KeptDevice.begin(self.folder / "office", 1) as office:
            phone.create(LUNCH)
            (issued,) = phone.commit()
            self.assertEqual(issued, Issued(Version(0, 1)))
            office.pull()
            (asked,) = office.commit()
            self.assertIsInstance(asked, Asked)
            stream = phone.answer(asked.frame)
            # The answering side has done once the stream is closed.
            with self.assertRaises(Refused) as ended:
                while True:
                    phone.next(stream)
            self.assertIs(ended.exception.code, Code.REFUSED_NO_STREAM)
            records = phone.commit()
            self.assertTrue(all(isinstance(record, Gave) for record in records))
            outcomes = [office.receive(record.frame) for record in records]
            self.assertEqual(outcomes.index(Received.FINISHED), len(records) - 1)
            self.assertEqual(office.commit(), [])
            self.assertEqual(office.message(issued.version), LUNCH)
            office.vouch(issued.version)
            self.assertIsInstance(office.commit()[0], Vouched)
            self.assertEqual(office.handed_out()[0].frame, office.handed_out()[0].frame)

    def test_an_old_copy_and_another_file_of_its_id_are_told_by_a_peer(self) -> None:
        with KeptDevice.begin(self.path, 0) as phone:
            phone.create(LUNCH)
            phone.commit()
            backup = self.path.read_bytes()
            phone.create(LUNCH)
            self.refused(Code.UNSETTLED, Unsettled, phone.check_peer, [])
            phone.commit()
            told, met = Version(0, phone.highest(0) or 0), Born(0, phone.birth())
            phone.check_peer([told], [met])
        old_path = self.folder / "old"
        old_path.write_bytes(backup)
        with KeptDevice.open(old_path, mark=mark_of(self.path)) as old:
            self.refused(Code.PEER_OLD_COPY, PeerFault, old.check_peer, [told], [met])
            self.refused(Code.PEER_OTHER_BIRTH, PeerFault, old.check_peer, [], [met, Born(0, bytes(16))])
            self.refused(Code.VERSION_NO_SUCH_AUTHOR, VersionFault, old.check_peer, [], [Born(1 << 32, met.birth)])
            self.refused(Code.BAD_LENGTH, MailrepError, old.check_peer, [], [Born(0, b"")])


if __name__ == "__main__":
    unittest.main()
