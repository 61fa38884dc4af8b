//! Devices that keep one mailbox in step.
//!
//! A [`Device`] holds messages, writes and edits them offline, and comes into step with others by frames, which are bytes that a
//! program carries however it likes. The engine behind it is proved; this crate is a safe wrapper of its C library.
//!
//! ```
//! use mailrep::{Device, Draft, Received};
//!
//! # fn main() -> mailrep::Result<()> {
//! let mut phone = Device::open(0, "label:inbox", 1_000)?;
//! let mut office = Device::open(1, "all", 1_000)?;
//! let lunch = phone.create(&Draft {
//!     from: "ann@example.org",
//!     subject: "lunch",
//!     body: b"See you there.",
//!     labels: "inbox,work",
//!     ..Draft::default()
//! })?;
//!
//! // The office asks, and the phone gives it record by record.
//! let (_session, request) = office.pull()?;
//! let stream = phone.answer(&request)?;
//! while office.receive(&phone.next(stream)?)? != Received::Finished {}
//! assert_eq!(office.message(lunch)?.subject, "lunch");
//!
//! // A device is its log: kept, it is there again.
//! let log: Vec<u8> = office.log_since(0).collect::<mailrep::Result<Vec<_>>>()?.concat();
//! drop(office);
//! let office = Device::replay(1, "all", 1_000, &log)?;
//! for head in office.heads() {
//!     assert_eq!(office.message(head.version)?.each_label().collect::<Vec<_>>(), ["inbox", "work"]);
//! }
//! assert_eq!(office.heads().len(), 1);
//! # Ok(())
//! # }
//! ```
//!
//! A call that is refused changes nothing, and says why: an [`Error`].
//!
//! ```
//! use mailrep::{Device, Error, Refusal};
//!
//! let mut phone = Device::open(0, "all", 1_000).unwrap();
//! assert_eq!(phone.cut_in(7), Err(Error::Refused(Refusal::NoSession)));
//! ```
//!
//! A [`KeptDevice`] has a file of its own, and shows and hands out nothing that isn't in it:
//!
//! ```
//! use mailrep::{Draft, HandedOut, KeptDevice, mark_of};
//! use std::fs::File;
//!
//! # fn main() -> Result<(), Box<dyn std::error::Error>> {
//! # let folder = std::env::temp_dir().join(format!("mailrep-{}", std::process::id()));
//! # std::fs::create_dir_all(&folder)?;
//! # let path = folder.join("phone");
//! let file = File::options().read(true).write(true).create_new(true).open(&path)?;
//! let (birth, mark) = ([7; 16], mark_of(&file)?); // random bytes, and the file's place
//! let mut phone = KeptDevice::begin(file, 0, "all", 1_000, &birth, &mark)?;
//! File::open(&folder)?.sync_all()?; // so that the file's name outlives a crash
//! phone.create(&Draft { from: "ann@example.org", subject: "lunch", ..Draft::default() })?;
//! let [HandedOut::Issued(lunch)] = phone.commit()?[..] else { panic!() };
//! drop(phone);
//!
//! // Killed at any moment, the program finds what was handed out.
//! let file = File::options().read(true).write(true).open(&path)?;
//! let mark = mark_of(&file)?;
//! let phone = KeptDevice::open(file, &mark, None)?;
//! assert_eq!(phone.shown()?.message(lunch)?.subject, "lunch");
//! # std::fs::remove_dir_all(&folder)?;
//! # Ok(())
//! # }
//! ```
//!
//! A device goes to another thread, and is not shared:
//!
//! ```compile_fail
//! fn share<T: Sync>(_: &T) {}
//! share(&mailrep::Device::open(0, "all", 1_000).unwrap());
//! ```

mod device;
mod error;
mod frames;
mod kept;
mod sys;
mod values;

pub use device::Device;
pub use error::{
    Error, EventFault, FilterFault, JournalFault, MergeFault, MessageFault, OpenFault, PeerFault,
    Refusal, ReplayFault, Result, VersionFault, WireFault,
};
pub use frames::{claim, frame_len};
pub use kept::{HandedOut, KeptDevice, KeptError, Shown, Storage, mark_of};
pub use values::{
    Born, Change, Claim, Counts, Draft, FrameKind, Held, Message, Received, Version, flag,
};
