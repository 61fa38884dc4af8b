"""Two devices, and what they refuse."""

import pickle
import threading
import unittest

from mailrep import (
    MAX_EVENTS,
    Change,
    Claim,
    Code,
    Counts,
    Device,
    EventFault,
    FilterFault,
    Flag,
    FrameKind,
    Held,
    MailrepError,
    MergeFault,
    Message,
    MessageFault,
    NotThere,
    Received,
    Refused,
    ReplayFault,
    Version,
    VersionFault,
    WireFault,
    claim,
    frame_len,
)

LUNCH = Message("ann@example.org", "lunch", b"See you\0 there.", ("work", "inbox"), Flag.SEEN, 20_000)


def sync(to: Device, source: Device) -> int:
    """``to`` takes all that ``source`` has for it; tells how many records that were."""
    _, request = to.pull()
    stream = source.answer(request)
    count = 1
    while to.receive(source.next(stream)) != Received.FINISHED:
        count += 1
    return count


class TwoDevices(unittest.TestCase):
    def refused(self, code: Code, kind: type, call, *arguments) -> None:
        with self.assertRaises(kind) as caught:
            call(*arguments)
        self.assertIs(caught.exception.code, code)
        self.assertEqual(str(caught.exception), code.text)

    def test_a_message_goes_over_and_back(self) -> None:
        with Device(0, "label:inbox", 100) as phone, Device(1, "all", 100) as office:
            lunch = phone.create(LUNCH)
            self.assertEqual(str(lunch), "0.1")
            self.assertGreater(sync(office, phone), 1)
            self.assertEqual(office.message(lunch), LUNCH._replace(labels=("inbox", "work")))
            moved = office.edit([lunch], LUNCH._replace(labels=("work",), subject="Mittag \u00fcber \U0001f96a"))
            sync(phone, office)
            self.assertEqual(list(phone.heads()), [])
            self.assertEqual(list(phone.changes_since()), [Change(True, lunch, lunch), Change(False, lunch, lunch)])
            self.assertEqual(list(phone.changes_since(2)), [])
            self.assertTrue(phone.knows(lunch, moved))
            self.assertEqual(office.message(moved).subject, "Mittag \u00fcber \U0001f96a")
            self.assertEqual(list(office.heads()), [Held(lunch, moved)])
            self.assertEqual((office.highest(0), office.highest(1), office.highest(2)), (1, 1, None))

    def test_a_push_out_is_let_go_of(self) -> None:
        with Device(0, "label:inbox", 100) as phone, Device(1, "all", 100) as office:
            version = phone.create(LUNCH._replace(labels=()))
            self.assertEqual(list(phone.push_outs()), [Held(version, version)])
            self.refused(Code.REFUSED_PUSH_OUTS_LEFT, Refused, phone.retire)
            sync(office, phone)
            phone.release(office.vouch(version))
            self.assertEqual(list(phone.push_outs()), [])
            phone.retire()
            self.assertTrue(phone.is_retired())
            self.refused(Code.REFUSED_RETIRED, Refused, phone.create, LUNCH)

    def test_two_edits_are_merged(self) -> None:
        with Device(0) as phone, Device(1) as office:
            lunch = phone.create(LUNCH)
            sync(office, phone)
            self.refused(Code.NO_CONFLICT, MailrepError, phone.merge, lunch)
            here = phone.edit([lunch], LUNCH._replace(flags=Flag.SEEN | Flag.FLAGGED))
            there = office.edit([lunch], LUNCH._replace(labels=("archive",)))
            sync(phone, office)
            self.assertEqual(phone.conflicts(), [lunch])
            self.assertEqual(phone.heads_of(lunch), [here, there])
            merged = phone.merge(lunch)
            self.assertEqual(phone.message(merged), LUNCH._replace(labels=("archive",), flags=Flag.SEEN | Flag.FLAGGED))
            self.assertEqual(phone.conflicts(), [])
            sync(office, phone)
            phone.edit([merged], LUNCH)
            office.edit([merged], LUNCH._replace(subject="lunch at noon"))
            sync(office, phone)
            self.refused(Code.MERGE_CONTENTS_DIFFER, MergeFault, office.merge, lunch)

    def test_many_conflicts_and_long_bodies_find_their_room(self) -> None:
        with Device(0) as phone, Device(1) as office:
            items = [phone.create(LUNCH._replace(body=bytes([n]) * 65_536)) for n in range(20)]
            sync(office, phone)
            for item in items:
                phone.edit([item], LUNCH)
                office.edit([item], LUNCH._replace(flags=0))
            self.assertEqual(office.message(office.heads_of(items[7])[0]).flags, 0)
            sync(phone, office)
            self.assertEqual(phone.conflicts(), items)
            with Device(2) as third:
                sync(third, phone)
                self.assertEqual(third.conflicts(), items)
            body = b"x" * 65_536
            self.assertEqual(phone.message(phone.create(LUNCH._replace(body=body))).body, body)

    def test_a_device_is_its_log(self) -> None:
        with Device(0, "all", 100) as phone:
            phone.create(LUNCH)
            phone.pull()
            log = list(phone.log_since())
            self.assertEqual(list(phone.log_since(1)), log[1:])
            with Device.replay(0, "all", 100, log) as again:
                self.assertEqual(list(again.heads()), list(phone.heads()))
                self.assertEqual((again.sessions(), again.streams(), again.frame()), ([1], [], b""))
            self.refused(Code.EVENT_TRUNCATED, EventFault, Device.replay, 0, "all", 100, [b"".join(log)[:-1]])

    def test_what_is_refused_changes_nothing(self) -> None:
        with Device(0, "all", 100) as phone:
            session, request = phone.pull()
            self.refused(Code.REFUSED_OWN_ASK, Refused, phone.answer, request)
            self.refused(Code.WIRE_TRUNCATED, WireFault, phone.answer, b"abc")
            self.refused(Code.BEHIND, MailrepError, phone.answer, request + b"x")
            self.refused(Code.OTHER_FRAME, MailrepError, phone.release, request)
            for number in (session + 1, -1, 1 << 64, session + (1 << 64)):
                self.refused(Code.REFUSED_NO_SESSION, Refused, phone.cut_in, number)
                self.refused(Code.REFUSED_NO_STREAM, Refused, phone.cut_out, number)
                self.refused(Code.REFUSED_NO_STREAM, Refused, phone.next, number)
            self.refused(Code.NOT_THERE, NotThere, phone.message, Version(0, 1))
            self.assertEqual(phone.frame(), request)
            self.assertEqual(phone.counts(), Counts(0, 0, 0, 1))

    def test_a_number_that_does_not_fit_is_refused(self) -> None:
        wide = 1 << 32
        for id in (64, -1, 1 << 16, wide):
            self.refused(Code.VERSION_NO_SUCH_AUTHOR, VersionFault, Device, id, "label:", 0)
        for limit in (0, MAX_EVENTS + 1, wide + 1, -1):
            self.refused(Code.FILTER_BAD_FILTER, FilterFault, Device, 0, "label:", limit)
            self.refused(Code.REPLAY_BAD_LIMIT, ReplayFault, Device, 0, "all", limit)
        with Device(0) as phone:
            lunch = phone.create(LUNCH)
            for version in (Version(wide, 1), Version(64, 1), Version(-1, 1)):
                self.refused(Code.VERSION_NO_SUCH_AUTHOR, VersionFault, phone.message, version)
            for version in (Version(0, wide + 1), Version(0, 0), Version(0, -1), Version(0, MAX_EVENTS + 1)):
                self.refused(Code.VERSION_BAD_VERSION, VersionFault, phone.edit, [lunch, version], LUNCH)
            self.refused(Code.VERSION_NO_SUCH_AUTHOR, VersionFault, phone.highest, wide)
            for flags in (32, 256, -1, 257):
                self.refused(Code.MESSAGE_BAD_FLAGS, MessageFault, phone.create, LUNCH._replace(flags=flags))
            for day in (-1, 65_536):
                with self.assertRaises(ValueError):
                    phone.create(LUNCH._replace(day=day))
            with self.assertRaises(ValueError):
                next(phone.changes_since(-1))
            self.assertEqual(phone.counts().events, 1)

    def test_labels_are_those_that_are_given(self) -> None:
        with Device(0) as phone:
            for labels in (("a,b",), ("",), ("", "a"), ("a", ""), ("In Box",), ("a,b", "c")):
                self.refused(Code.MESSAGE_BAD_LABEL, MessageFault, phone.create, LUNCH._replace(labels=labels))
            self.assertEqual(phone.message(phone.create(LUNCH._replace(labels=["b", "a"]))).labels, ("a", "b"))
            for wrong in (LUNCH._replace(labels="inbox"), LUNCH._replace(body="text"), LUNCH._replace(body=5)):
                with self.assertRaises(TypeError):
                    phone.create(wrong)
            self.assertEqual(phone.message(phone.create(LUNCH._replace(body=bytearray(b"bytes")))).body, b"bytes")
            self.assertEqual(phone.message(phone.create(Message())), Message())

    def test_a_device_that_is_closed_says_so(self) -> None:
        phone = Device(0)
        phone.close()
        phone.close()
        self.refused(Code.CLOSED, MailrepError, phone.create, LUNCH)
        self.refused(Code.CLOSED, MailrepError, phone.counts)

    def test_heads_end_where_the_device_changes(self) -> None:
        with Device(0) as phone:
            for _ in range(3):
                phone.create(LUNCH)
            subjects = [phone.message(head.version).subject for head in phone.heads()]
            self.assertEqual(subjects, ["lunch"] * 3)
            heads = phone.heads()
            next(heads)
            phone.create(LUNCH)
            with self.assertRaises(RuntimeError):
                next(heads)
            changes = phone.changes_since(3)
            next(changes)
            phone.create(LUNCH)
            self.assertEqual(next(changes).version, Version(0, 5))

    def test_a_version_is_its_text(self) -> None:
        for version in (Version(0, 1), Version(63, 1_000_000), Version(7, 10)):
            self.assertEqual(Version.parse(str(version)), version)
        for text in ("", ".", "1", "1.", ".1", "64.1", "0.0", "0.1000001", "00.1", "0.01", "+1.1", "1.1 ", "1.1.1", "\u0661.1", "1.\u00b2"):
            self.refused(Code.VERSION_BAD_VERSION, VersionFault, Version.parse, text)

    def test_frames_tell_their_length_and_their_sender(self) -> None:
        with Device(5) as phone:
            _, request = phone.pull()
        self.assertEqual(frame_len(request[:4]), len(request))
        self.assertIsNone(frame_len(request[:3]))
        self.refused(Code.WIRE_TOO_LONG, WireFault, frame_len, b"\xff" * 4)
        self.assertEqual(claim(request), Claim(FrameKind.ASK, 5))

    def test_threads_wait_for_one_another(self) -> None:
        with Device(0) as phone:
            def write() -> None:
                for _ in range(200):
                    self.assertEqual(phone.message(phone.create(LUNCH)).subject, "lunch")
            threads = [threading.Thread(target=write) for _ in range(4)]
            for thread in threads:
                thread.start()
            for thread in threads:
                thread.join()
            self.assertEqual(sorted(head.version.counter for head in phone.heads()), list(range(1, 801)))

    def test_errors_have_their_families(self) -> None:
        kinds = {code >> 8: None for code in Code}
        self.assertEqual(sorted(kinds), list(range(12)))
        error = Refused(Code.REFUSED_GAP)
        again = pickle.loads(pickle.dumps(error))
        self.assertEqual((type(again), again.code, str(again)), (Refused, Code.REFUSED_GAP, str(error)))
        self.assertEqual(str(MailrepError(0xF01)), "an answer of another interface, 0xf01")


if __name__ == "__main__":
    unittest.main()
