"""Why a call did nothing."""

from __future__ import annotations

import enum


class Code(enum.IntEnum):
    """What a call answers that did nothing, as ``mailrep.h`` numbers it; ``text`` says it in words."""

    text: str

    def __new__(cls, number: int, text: str) -> Code:
        code = int.__new__(cls, number)
        code._value_ = number
        code.text = text
        return code

    NO_MEMORY = 0x001, "out of memory"
    CLOSED = 0x002, "the device is closed"
    IN_USE = 0x003, "the device is open already"
    NOT_TEXT = 0x004, "a text is not UTF-8"
    TOO_SMALL = 0x005, "the buffer is too small"
    NOT_THERE = 0x006, "nothing is there"
    BEHIND = 0x007, "bytes stand behind the frame"
    OTHER_FRAME = 0x008, "the frame is of another kind"
    UNSETTLED = 0x009, "events wait for a commit, or acts are left to be done"
    FAILED = 0x00a, "an act failed: open the file again"
    OTHER_DEVICE = 0x00b, "the call is for a device of the other kind"
    TOO_LARGE = 0x00c, "the event or the file is too large"
    BAD_LENGTH = 0x00d, "a birth has 16 bytes, and a mark 32"
    NO_CONFLICT = 0x00e, "the item has no heads that differ"
    # no such id or version: VersionFault
    VERSION_NO_SUCH_AUTHOR = 0x101, "an id is 0 to 63"
    VERSION_BAD_VERSION = 0x102, "a counter is 1 to 1,000,000"
    # the parts make no message: MessageFault
    MESSAGE_FROM_TOO_LONG = 0x201, "a sender has at most 254 bytes"
    MESSAGE_SUBJECT_TOO_LONG = 0x202, "a subject has at most 998 bytes"
    MESSAGE_BODY_TOO_LONG = 0x203, "a body has at most 65,536 bytes"
    MESSAGE_BAD_LABEL = 0x204, "a label is 1 to 32 bytes of a-z, 0-9 and -"
    MESSAGE_TOO_MANY_LABELS = 0x205, "a message has at most 16 labels"
    MESSAGE_BAD_FLAGS = 0x206, "flags are 0 to 31"
    # the text is no filter: FilterFault
    FILTER_BAD_FILTER = 0x301, "the text is no filter"
    FILTER_TOO_MANY_CLAUSES = 0x302, "a filter has at most 16 clauses"
    FILTER_TOO_MANY_LABELS = 0x303, "a clause has at most 8 labels"
    # the bytes are no frame: WireFault
    WIRE_TRUNCATED = 0x401, "the frame continues beyond the bytes"
    WIRE_TOO_LONG = 0x402, "the frame is too long"
    WIRE_BAD_FORMAT = 0x403, "no such format of frames"
    WIRE_BAD_KIND = 0x404, "no such kind of frame"
    WIRE_BAD_BODY = 0x405, "the bytes are none of a frame of that kind"
    # the bytes are no event: EventFault
    EVENT_TRUNCATED = 0x501, "the event continues beyond the bytes"
    EVENT_TOO_LONG = 0x502, "the event is too long"
    EVENT_BAD_FORM = 0x503, "no such form of events"
    EVENT_BAD_KIND = 0x504, "no such kind of event"
    EVENT_BAD_BODY = 0x505, "the bytes are none of an event of that kind"
    # no device comes of the log: ReplayFault
    REPLAY_BAD_LIMIT = 0x601, "an event limit is 1 to 1,000,000"
    REPLAY_REFUSED = 0x602, "an event of the log is refused"
    # the device refuses the event: Refusal
    REFUSED_RETIRED = 0x701, "the device has retired"
    REFUSED_NO_BASE = 0x702, "the edit names no base"
    REFUSED_NOT_HELD = 0x703, "a version is not held"
    REFUSED_MIXED_ITEMS = 0x704, "the bases are versions of several items"
    REFUSED_OWN_HEAD_LEFT = 0x705, "an own version of the item is held and not among the bases"
    REFUSED_TOO_MANY_HOLES = 0x706, "a vector of the knowledge would have too many holes"
    REFUSED_TOO_MANY_ITEMS = 0x707, "the knowledge would list too many items"
    REFUSED_LOG_FULL = 0x708, "the log is full"
    REFUSED_TOO_MANY_SESSIONS = 0x709, "eight sessions are open"
    REFUSED_TOO_MANY_STREAMS = 0x70a, "eight streams are open"
    REFUSED_NOT_FOR_ME = 0x70b, "the record is for another device"
    REFUSED_NO_SESSION = 0x70c, "no session of that number is open"
    REFUSED_NOT_START = 0x70d, "the session waits for a start"
    REFUSED_OTHER_STREAM = 0x70e, "the session takes another stream"
    REFUSED_REPEATED = 0x70f, "the session has taken the record"
    REFUSED_GAP = 0x710, "the session has not taken the record before"
    REFUSED_NOT_A_RECORD = 0x711, "the frame is no record"
    REFUSED_NO_STREAM = 0x712, "no stream of that number is open"
    REFUSED_OWN_ASK = 0x713, "the request is the device's own"
    REFUSED_NOT_PUSHED_OUT = 0x714, "the receipt is for no push-out that is held"
    REFUSED_PUSH_OUTS_LEFT = 0x715, "push-outs are left"
    REFUSED_FORGED = 0x716, "no device gave the record"
    # the file isn't opened: OpenFault, or the fault of another family that it carries
    OPEN_NO_REPLICA = 0x803, "no device was begun in the file"
    OPEN_NOT_EMPTY = 0x804, "the file has entries already"
    OPEN_BAD_ENTRY = 0x805, "an entry of the file is none"
    OPEN_MISPLACED = 0x806, "an entry of the file doesn't belong there"
    OPEN_OTHER_COUNTER = 0x807, "an entry of the file has another's counter"
    OPEN_TOO_MANY_EVENTS = 0x808, "the file has more events than a device takes"
    OPEN_COPIED = 0x809, "the file was begun at another place: it was copied or restored"
    OPEN_OTHER_BIRTH = 0x80a, "the file was begun at another time"
    # the file is no journal: JournalFault
    JOURNAL_FAILED = 0x901, "no memory to note what is to be done to the file"
    JOURNAL_NOT_A_JOURNAL = 0x902, "the file doesn't begin as a journal"
    JOURNAL_OTHER_FORMAT = 0x903, "the file is a journal of another format"
    JOURNAL_DAMAGED = 0x904, "the file is damaged as no crash leaves it"
    JOURNAL_TOO_LARGE = 0x905, "the file would be too large"
    # the heads of an item make no message together: MergeFault
    MERGE_CONTENTS_DIFFER = 0xa01, "the heads differ in more than labels and flags"
    MERGE_TOO_MANY_LABELS = 0xa02, "more than 16 labels together"
    # what another device tells doesn't go with this one: PeerFault
    PEER_OLD_COPY = 0xb01, "an old copy: the other device knows more versions than this one gave"
    PEER_OTHER_BIRTH = 0xb02, "the other device knows another file of this id"


class MailrepError(Exception):
    """Why a call did nothing. ``code`` is a Code, or a number that only a later library answers."""

    def __init__(self, code: int) -> None:
        try:
            code = Code(code)
        except ValueError:
            super().__init__(f"an answer of another interface, {code:#x}")
        else:
            super().__init__(code.text)
        self.code: int = code

    def __reduce__(self) -> tuple[type[MailrepError], tuple[int]]:
        return type(self), (int(self.code),)


class OutOfMemory(MailrepError, MemoryError):
    """Memory ran out; nothing has changed."""


class NotThere(MailrepError, LookupError):
    """Nothing is at that place, or the version is not held."""


class Unsettled(MailrepError):
    """Events or notes of a kept device wait for a commit."""


class Failed(MailrepError):
    """An act of a kept device failed: open its file again."""


class VersionFault(MailrepError):
    """An id or a version is none."""


class MessageFault(MailrepError):
    """The parts make no message."""


class FilterFault(MailrepError):
    """The text is no filter."""


class WireFault(MailrepError):
    """The bytes are no frame."""


class EventFault(MailrepError):
    """The bytes are no event."""


class ReplayFault(MailrepError):
    """No device comes of the log."""


class Refused(MailrepError):
    """The device refuses the event."""


class OpenFault(MailrepError):
    """The file isn't that of a device, or not of this one."""


class JournalFault(MailrepError):
    """The file is no journal that is read here."""


class MergeFault(MailrepError):
    """The heads of an item make no message together."""


class PeerFault(MailrepError):
    """What another device tells doesn't go with this one: send it nothing and take nothing of it."""


_FAMILIES: tuple[type[MailrepError], ...] = (
    MailrepError,
    VersionFault,
    MessageFault,
    FilterFault,
    WireFault,
    EventFault,
    ReplayFault,
    Refused,
    OpenFault,
    JournalFault,
    MergeFault,
    PeerFault,
)
_OWN: dict[int, type[MailrepError]] = {
    Code.NO_MEMORY: OutOfMemory,
    Code.NOT_THERE: NotThere,
    Code.UNSETTLED: Unsettled,
    Code.FAILED: Failed,
}


def error_of(code: int) -> MailrepError:
    """The error of a code that is not 0: of the class of its family, and else of its own or of MailrepError."""
    family = code >> 8
    kind = _FAMILIES[family] if 0 < family < len(_FAMILIES) else _OWN.get(code, MailrepError)
    return kind(code)
