//! What a device takes and tells.

use crate::error::VersionFault;
use std::fmt;
use std::str::FromStr;

/// The flags of a message, to be joined by `|`.
pub mod flag {
    /// It has been read.
    pub const SEEN: u8 = 1;
    /// It has been answered.
    pub const ANSWERED: u8 = 2;
    /// It is marked for attention.
    pub const FLAGGED: u8 = 4;
    /// It is not finished.
    pub const DRAFT: u8 = 8;
    /// It counts as deleted; it is still there.
    pub const DELETED: u8 = 16;
}

/// A version of a message: its author's id, and its number among that author's. It names it on all devices, for ever.
///
/// A message through all its versions is an item, named by its first version.
#[repr(C)]
#[derive(Clone, Copy, Debug, Default, PartialEq, Eq, PartialOrd, Ord, Hash)]
pub struct Version {
    /// 0 to 63.
    pub author: u32,
    /// 1 to 1,000,000.
    pub counter: u32,
}

/// As `0.17`.
impl fmt::Display for Version {
    fn fmt(&self, f: &mut fmt::Formatter<'_>) -> fmt::Result {
        write!(f, "{}.{}", self.author, self.counter)
    }
}

/// Of just what `Display` writes of a version: no sign, no zero in front.
impl FromStr for Version {
    type Err = VersionFault;

    fn from_str(text: &str) -> Result<Version, VersionFault> {
        let parts = text.split_once('.').ok_or(VersionFault::BadVersion)?;
        let (Ok(author), Ok(counter)) = (parts.0.parse(), parts.1.parse()) else {
            return Err(VersionFault::BadVersion);
        };
        let version = Version { author, counter };
        if author > 63 || !(1..=1_000_000).contains(&counter) || version.to_string() != text {
            return Err(VersionFault::BadVersion);
        }
        Ok(version)
    }
}

/// A version that is held, and its item.
#[repr(C)]
#[derive(Clone, Copy, Debug, Default, PartialEq, Eq, Hash)]
pub struct Held {
    /// The item's first version.
    pub item: Version,
    /// The version that is held.
    pub version: Version,
}

/// A file of a device, as another device knows it.
#[repr(C)]
#[derive(Clone, Copy, Debug, Default, PartialEq, Eq, Hash)]
pub struct Born {
    /// The device's id, 0 to 63.
    pub author: u32,
    /// What was drawn when the file was begun.
    pub birth: [u8; 16],
}

/// A change of what is held.
#[repr(C)]
#[derive(Clone, Copy, Debug, Default, PartialEq, Eq, Hash)]
pub struct Change {
    entered: u32,
    /// The item's first version.
    pub item: Version,
    /// The version that entered or left.
    pub version: Version,
}

impl Change {
    /// Whether the version entered; else it left.
    pub fn entered(&self) -> bool {
        self.entered == 1
    }
}

/// How much there is.
#[repr(C)]
#[derive(Clone, Copy, Debug, Default, PartialEq, Eq, Hash)]
pub struct Counts {
    /// Messages that the filter selects.
    pub heads: usize,
    /// Messages written here that it doesn't, held until another device has them.
    pub push_outs: usize,
    /// Changes of the heads, since the device was opened for the first time.
    pub changes: usize,
    /// Events of the log.
    pub events: usize,
}

/// What a frame is.
#[derive(Clone, Copy, Debug, PartialEq, Eq, Hash)]
pub enum FrameKind {
    /// A request, of [`Device::pull`](crate::Device::pull).
    Ask,
    /// A record of a stream, of [`Device::next`](crate::Device::next).
    Record,
    /// A receipt, of [`Device::vouch`](crate::Device::vouch).
    Receipt,
}

/// What a frame is, and who it claims to come from.
#[derive(Clone, Copy, Debug, PartialEq, Eq, Hash)]
pub struct Claim {
    /// What the frame is.
    pub kind: FrameKind,
    /// The id of who it claims to come from.
    pub author: u32,
}

/// A message to be written.
#[derive(Clone, Copy, Debug, Default)]
pub struct Draft<'a> {
    /// The sender, at most 254 bytes.
    pub from: &'a str,
    /// The subject, at most 998 bytes.
    pub subject: &'a str,
    /// The body, at most 65,536 bytes.
    pub body: &'a [u8],
    /// The labels, with commas between: at most 16, each 1 to 32 bytes of a-z, 0-9 and `-`.
    pub labels: &'a str,
    /// Those of [`flag`].
    pub flags: u8,
    /// Days since 1970-01-01.
    pub day: u16,
}

/// A message that is held.
#[derive(Clone, Debug, PartialEq, Eq)]
pub struct Message {
    /// The sender.
    pub from: String,
    /// The subject.
    pub subject: String,
    /// The body.
    pub body: Vec<u8>,
    /// The labels, in rising order, with commas between, as a [`Draft`] has them; [`Message::each_label`] gives one by one.
    pub labels: String,
    /// Those of [`flag`].
    pub flags: u8,
    /// Days since 1970-01-01.
    pub day: u16,
}

impl Message {
    /// The labels, one by one, in rising order.
    pub fn each_label(&self) -> impl Iterator<Item = &str> {
        self.labels.split(',').filter(|label| !label.is_empty())
    }

    /// The same message, to be written: for an edit that changes a part of it.
    pub fn as_draft(&self) -> Draft<'_> {
        Draft {
            from: &self.from,
            subject: &self.subject,
            body: &self.body,
            labels: &self.labels,
            flags: self.flags,
            day: self.day,
        }
    }
}

/// What came of a record.
#[derive(Clone, Copy, Debug, PartialEq, Eq, Hash)]
pub enum Received {
    /// It was taken, and what it tells was not known.
    Took,
    /// It was taken, and tells of a version that is known already.
    Known,
    /// The stream's last one was taken, and the session is closed.
    Finished,
}
