"""Devices that keep one mailbox in step.

A Device holds messages, writes and edits them offline, and comes into step with others by frames, which are bytes that a program carries
however it likes. A KeptDevice has a file of its own. The engine behind them is proved; this package is a wrapper of its C library, by
ctypes: MAILREP_LIB names the folder that ``tools/c-library`` made, or the system finds ``libmailrep.so``.

    with Device(0, "label:inbox") as phone, Device(1) as office:
        lunch = phone.create(Message("ann@example.org", "lunch", b"See you there.", ("inbox",)))
        session, request = office.pull()
        stream = phone.answer(request)
        while office.receive(phone.next(stream)) != Received.FINISHED:
            pass
        assert office.message(lunch).subject == "lunch"

A call that is refused changes nothing, and raises a MailrepError: of the class of its family, with a Code.
"""

from ._device import Device, claim, frame_len
from ._errors import (
    Code,
    EventFault,
    Failed,
    FilterFault,
    JournalFault,
    MailrepError,
    MergeFault,
    MessageFault,
    NotThere,
    OpenFault,
    OutOfMemory,
    PeerFault,
    Refused,
    ReplayFault,
    Unsettled,
    VersionFault,
    WireFault,
)
from ._kept import KeptDevice, mark_of
from ._values import (
    MAX_EVENTS,
    Asked,
    Born,
    Change,
    Claim,
    Counts,
    Flag,
    FrameKind,
    Gave,
    HandedOut,
    Held,
    Issued,
    Message,
    Received,
    Version,
    Vouched,
)

__all__ = [
    "MAX_EVENTS",
    "Asked",
    "Born",
    "Change",
    "Claim",
    "Code",
    "Counts",
    "Device",
    "EventFault",
    "Failed",
    "FilterFault",
    "Flag",
    "FrameKind",
    "Gave",
    "HandedOut",
    "Held",
    "Issued",
    "JournalFault",
    "KeptDevice",
    "MailrepError",
    "MergeFault",
    "Message",
    "MessageFault",
    "NotThere",
    "OpenFault",
    "OutOfMemory",
    "PeerFault",
    "Received",
    "Refused",
    "ReplayFault",
    "Unsettled",
    "Version",
    "VersionFault",
    "Vouched",
    "WireFault",
    "claim",
    "frame_len",
    "mark_of",
]
