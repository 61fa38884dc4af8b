//! Why a call did nothing.

use std::error;
use std::fmt;

/// A result whose error is this crate's.
pub type Result<T> = std::result::Result<T, Error>;

/// Why a call did nothing.
#[derive(Clone, Copy, Debug, PartialEq, Eq, Hash)]
#[non_exhaustive]
pub enum Error {
    /// Memory ran out.
    OutOfMemory,
    /// Nothing is at that place, or the version is not held.
    NotThere,
    /// Bytes stand behind the frame.
    BytesBehind,
    /// The frame is of another kind than the call takes.
    OtherFrame,
    /// Of a kept device: events or notes wait for a commit, or acts are left to be done.
    Unsettled,
    /// An act of a kept device failed: read its file and open it again.
    Failed,
    /// The event or the note has more bytes than one may have, or the file would get more than it may have.
    TooLarge,
    /// The item has no heads that differ: there is nothing to merge.
    NoConflict,
    /// An id or a version is none.
    Version(VersionFault),
    /// The parts make no message.
    Message(MessageFault),
    /// The text is no filter.
    Filter(FilterFault),
    /// The bytes are no frame.
    Wire(WireFault),
    /// The bytes are no event.
    Event(EventFault),
    /// No device comes of the log.
    Replay(ReplayFault),
    /// The device refuses the event.
    Refused(Refusal),
    /// The file isn't that of a device, or not of this one.
    Open(OpenFault),
    /// The file is no journal that is read here.
    Journal(JournalFault),
    /// The heads of an item make no message together.
    Merge(MergeFault),
    /// What another device tells doesn't go with this one: send it nothing and take nothing of it.
    Peer(PeerFault),
    /// An answer that this crate doesn't know, as one of a later library, or that can't come of its calls.
    Unknown(i32),
}

/// Enums of a family's faults, each with the number that `docs/API.md` has in the family's table.
macro_rules! families {
    ($($(#[doc = $about:literal])* $family:ident { $($name:ident = $number:literal, $text:literal;)* })*) => {$(
        $(#[doc = $about])*
        #[derive(Clone, Copy, Debug, PartialEq, Eq, Hash)]
        #[non_exhaustive]
        pub enum $family {
            $(#[doc = $text] $name = $number,)*
        }

        impl $family {
            /// The number of the fault in its family.
            pub fn number(self) -> u8 {
                self as u8
            }

            fn of(number: u8) -> Option<$family> {
                match number {
                    $($number => Some($family::$name),)*
                    _ => None,
                }
            }
        }

        impl fmt::Display for $family {
            fn fmt(&self, f: &mut fmt::Formatter<'_>) -> fmt::Result {
                f.write_str(match self {
                    $($family::$name => $text,)*
                })
            }
        }

        impl error::Error for $family {}
    )*};
}

families! {
    /// Why an id or a version is none.
    VersionFault {
        NoSuchAuthor = 1, "an id is 0 to 63";
        BadVersion = 2, "a counter is 1 to 1,000,000";
    }

    /// Why parts make no message.
    MessageFault {
        FromTooLong = 1, "a sender has at most 254 bytes";
        SubjectTooLong = 2, "a subject has at most 998 bytes";
        BodyTooLong = 3, "a body has at most 65,536 bytes";
        BadLabel = 4, "a label is 1 to 32 bytes of a-z, 0-9 and -";
        TooManyLabels = 5, "a message has at most 16 labels";
        BadFlags = 6, "flags are 0 to 31";
    }

    /// Why a text is no filter.
    FilterFault {
        BadFilter = 1, "the text is no filter";
        TooManyClauses = 2, "a filter has at most 16 clauses";
        TooManyLabels = 3, "a clause has at most 8 labels";
    }

    /// Why bytes are no frame.
    WireFault {
        Truncated = 1, "the frame continues beyond the bytes";
        TooLong = 2, "the frame is too long";
        BadFormat = 3, "no such format of frames";
        BadKind = 4, "no such kind of frame";
        BadBody = 5, "the bytes are none of a frame of that kind";
    }

    /// Why bytes are no event, or an event has none.
    EventFault {
        Truncated = 1, "the event continues beyond the bytes";
        TooLong = 2, "the event is too long";
        BadForm = 3, "no such form of events";
        BadKind = 4, "no such kind of event";
        BadBody = 5, "the bytes are none of an event of that kind";
    }

    /// Why no device comes of a log.
    ReplayFault {
        BadLimit = 1, "an event limit is 1 to 1,000,000";
        Refused = 2, "an event of the log is refused";
    }

    /// Why a device refuses an event.
    Refusal {
        Retired = 1, "the device has retired";
        NoBase = 2, "the edit names no base";
        NotHeld = 3, "a version is not held";
        MixedItems = 4, "the bases are versions of several items";
        OwnHeadLeft = 5, "an own version of the item is held and not among the bases";
        TooManyHoles = 6, "a vector of the knowledge would have too many holes";
        TooManyItems = 7, "the knowledge would list too many items";
        LogFull = 8, "the log is full";
        TooManySessions = 9, "eight sessions are open";
        TooManyStreams = 10, "eight streams are open";
        NotForMe = 11, "the record is for another device";
        NoSession = 12, "no session of that number is open";
        NotStart = 13, "the session waits for a start";
        OtherStream = 14, "the session takes another stream";
        Repeated = 15, "the session has taken the record";
        Gap = 16, "the session has not taken the record before";
        NotARecord = 17, "the frame is no record";
        NoStream = 18, "no stream of that number is open";
        OwnAsk = 19, "the request is the device's own";
        NotPushedOut = 20, "the receipt is for no push-out that is held";
        PushOutsLeft = 21, "push-outs are left";
        Forged = 22, "no device gave the record";
    }

    /// Why a file isn't opened, or isn't begun.
    OpenFault {
        NoReplica = 3, "no device was begun in the file";
        NotEmpty = 4, "the file has entries already";
        BadEntry = 5, "an entry of the file is none";
        Misplaced = 6, "an entry of the file doesn't belong there";
        OtherCounter = 7, "an entry of the file has another's counter";
        TooManyEvents = 8, "the file has more events than a device takes";
        Copied = 9, "the file was begun at another place: it was copied or restored";
        OtherBirth = 10, "the file was begun at another time";
    }

    /// Why a file is no journal.
    JournalFault {
        Failed = 1, "no memory to note what is to be done to the file";
        NotAJournal = 2, "the file doesn't begin as a journal";
        OtherFormat = 3, "the file is a journal of another format";
        Damaged = 4, "the file is damaged as no crash leaves it";
        TooLarge = 5, "the file would be too large";
    }

    /// Why the heads of an item make no message together.
    MergeFault {
        ContentsDiffer = 1, "the heads differ in more than labels and flags";
        TooManyLabels = 2, "more than 16 labels together";
    }

    /// Why what another device tells doesn't go with this one.
    PeerFault {
        OldCopy = 1, "an old copy: the other device knows more versions than this one gave";
        OtherBirth = 2, "the other device knows another file of this id";
    }
}

impl Error {
    /// The error of a code that is not 0.
    pub(crate) fn of(code: i32) -> Error {
        let number = (code & 0xff) as u8;
        let known = match code >> 8 {
            0 => match number {
                1 => Some(Error::OutOfMemory),
                6 => Some(Error::NotThere),
                7 => Some(Error::BytesBehind),
                8 => Some(Error::OtherFrame),
                9 => Some(Error::Unsettled),
                10 => Some(Error::Failed),
                12 => Some(Error::TooLarge),
                14 => Some(Error::NoConflict),
                _ => None,
            },
            1 => VersionFault::of(number).map(Error::Version),
            2 => MessageFault::of(number).map(Error::Message),
            3 => FilterFault::of(number).map(Error::Filter),
            4 => WireFault::of(number).map(Error::Wire),
            5 => EventFault::of(number).map(Error::Event),
            6 => ReplayFault::of(number).map(Error::Replay),
            7 => Refusal::of(number).map(Error::Refused),
            8 => OpenFault::of(number).map(Error::Open),
            9 => JournalFault::of(number).map(Error::Journal),
            10 => MergeFault::of(number).map(Error::Merge),
            11 => PeerFault::of(number).map(Error::Peer),
            _ => None,
        };
        known.unwrap_or(Error::Unknown(code))
    }

    /// The number that `mailrep.h` has for it, which is never 0: the family by `code() >> 8`, as `docs/API.md` numbers them.
    pub fn code(self) -> i32 {
        let (family, number) = match self {
            Error::OutOfMemory => (0, 1),
            Error::NotThere => (0, 6),
            Error::BytesBehind => (0, 7),
            Error::OtherFrame => (0, 8),
            Error::Unsettled => (0, 9),
            Error::Failed => (0, 10),
            Error::TooLarge => (0, 12),
            Error::NoConflict => (0, 14),
            Error::Version(fault) => (1, fault.number()),
            Error::Message(fault) => (2, fault.number()),
            Error::Filter(fault) => (3, fault.number()),
            Error::Wire(fault) => (4, fault.number()),
            Error::Event(fault) => (5, fault.number()),
            Error::Replay(fault) => (6, fault.number()),
            Error::Refused(refusal) => (7, refusal.number()),
            Error::Open(fault) => (8, fault.number()),
            Error::Journal(fault) => (9, fault.number()),
            Error::Merge(fault) => (10, fault.number()),
            Error::Peer(fault) => (11, fault.number()),
            Error::Unknown(code) => return code,
        };
        family << 8 | i32::from(number)
    }
}

impl fmt::Display for Error {
    fn fmt(&self, f: &mut fmt::Formatter<'_>) -> fmt::Result {
        match self {
            Error::OutOfMemory => f.write_str("out of memory"),
            Error::NotThere => f.write_str("nothing is there"),
            Error::BytesBehind => f.write_str("bytes stand behind the frame"),
            Error::OtherFrame => f.write_str("the frame is of another kind"),
            Error::Unsettled => {
                f.write_str("events wait for a commit, or acts are left to be done")
            }
            Error::Failed => f.write_str("an act failed: open the file again"),
            Error::TooLarge => f.write_str("the event or the file is too large"),
            Error::NoConflict => f.write_str("the item has no heads that differ"),
            Error::Version(fault) => fault.fmt(f),
            Error::Message(fault) => fault.fmt(f),
            Error::Filter(fault) => fault.fmt(f),
            Error::Wire(fault) => fault.fmt(f),
            Error::Event(fault) => fault.fmt(f),
            Error::Replay(fault) => fault.fmt(f),
            Error::Refused(refusal) => refusal.fmt(f),
            Error::Open(fault) => fault.fmt(f),
            Error::Journal(fault) => fault.fmt(f),
            Error::Merge(fault) => fault.fmt(f),
            Error::Peer(fault) => fault.fmt(f),
            Error::Unknown(code) => write!(f, "an answer of another interface, 0x{code:x}"),
        }
    }
}

impl error::Error for Error {}

/// A code's answer.
pub(crate) fn answer(code: i32) -> Result<()> {
    match code {
        0 => Ok(()),
        _ => Err(Error::of(code)),
    }
}

#[cfg(test)]
mod tests {
    use super::*;

    #[test]
    fn each_code_is_that_of_its_error() {
        assert_eq!(Error::Refused(Refusal::NoSession).code(), 0x70c);
        let known = (1..0x1000).filter(|code| {
            assert_eq!(Error::of(*code).code(), *code);
            !matches!(Error::of(*code), Error::Unknown(_))
        });
        assert_eq!(known.count(), 8 + 62);
    }
}
