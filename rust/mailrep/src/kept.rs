//! A device with a file of its own.

use crate::device::Device;
use crate::error::{Error, OpenFault, Result, answer};
use crate::sys;
use crate::values::{Born, Change, Counts, Draft, Held, Message, Received, Version};
use std::fs::File;
use std::io::{self, Read, Seek, SeekFrom};
use std::os::fd::AsRawFd;
use std::os::unix::fs::MetadataExt;
use std::{error, fmt, fs};

/// The file of a kept device, which nothing else touches.
///
/// What [`Storage::write_at`] and [`Storage::cut`] did may be undone or torn by a crash until [`Storage::sync`] has returned, and must not be
/// after.
pub trait Storage {
    /// Takes the file for one device alone, for as long as the storage is there. A [`File`] is locked by `flock`.
    ///
    /// # Errors
    ///
    /// `WouldBlock` where another has it; and as the system says.
    fn lock(&mut self) -> io::Result<()>;

    /// All bytes of the file, synced before they are read.
    ///
    /// # Errors
    ///
    /// As the system says.
    fn read_all(&mut self) -> io::Result<Vec<u8>>;

    /// Writes all bytes at this place, over what is there and past the end.
    ///
    /// # Errors
    ///
    /// Where not all of them were written.
    fn write_at(&mut self, at: u64, bytes: &[u8]) -> io::Result<()>;

    /// Cuts off what is behind this length.
    ///
    /// # Errors
    ///
    /// As the system says.
    fn cut(&mut self, len: u64) -> io::Result<()>;

    /// Waits until all that was written and cut is where a crash doesn't undo it.
    ///
    /// # Errors
    ///
    /// As the system says.
    fn sync(&mut self) -> io::Result<()>;
}

unsafe extern "C" {
    // As on each system that Rust's own `File::try_lock` calls it on, which is later than this crate's oldest Rust.
    safe fn flock(fd: i32, operation: i32) -> i32;
}

// A lock for one alone; and none rather than to wait.
const LOCK_EX: i32 = 2;
const LOCK_NB: i32 = 4;

impl Storage for File {
    fn lock(&mut self) -> io::Result<()> {
        match flock(self.as_raw_fd(), LOCK_EX | LOCK_NB) {
            0 => Ok(()),
            _ => Err(io::Error::last_os_error()),
        }
    }

    fn read_all(&mut self) -> io::Result<Vec<u8>> {
        self.sync_data()?;
        let mut bytes = Vec::new();
        self.seek(SeekFrom::Start(0))?;
        self.read_to_end(&mut bytes)?;
        Ok(bytes)
    }

    fn write_at(&mut self, at: u64, bytes: &[u8]) -> io::Result<()> {
        self.seek(SeekFrom::Start(at))?;
        io::Write::write_all(self, bytes)
    }

    fn cut(&mut self, len: u64) -> io::Result<()> {
        self.set_len(len)
    }

    fn sync(&mut self) -> io::Result<()> {
        self.sync_data()
    }
}

/// Where a file is, as the mark of a kept device: the machine's id, as `/etc/machine-id` has it, and the file's inode. A copy has another
/// inode, and so has a backup that was restored as another file; so has, mostly, a file that was moved to another disk.
///
/// # Errors
///
/// As the system says; `InvalidData` where the machine's id is none.
pub fn mark_of(file: &File) -> io::Result<[u8; 32]> {
    let machine = fs::read_to_string("/etc/machine-id")?;
    let machine = u128::from_str_radix(machine.trim(), 16).map_err(|_| {
        io::Error::new(
            io::ErrorKind::InvalidData,
            "/etc/machine-id has no machine's id",
        )
    })?;
    let mut mark = [0; 32];
    mark[..16].copy_from_slice(&machine.to_be_bytes());
    mark[16..24].copy_from_slice(&file.metadata()?.ino().to_be_bytes());
    Ok(mark)
}

/// Why a kept device isn't opened, or keeps nothing.
#[derive(Debug)]
#[non_exhaustive]
pub enum KeptError {
    /// Another device has the file open.
    InUse,
    /// The device says so.
    Device(Error),
    /// The file does. Of an open device the next call answers `Failed`: open the file again.
    File(io::Error),
}

impl From<Error> for KeptError {
    fn from(error: Error) -> KeptError {
        KeptError::Device(error)
    }
}

impl From<io::Error> for KeptError {
    fn from(error: io::Error) -> KeptError {
        KeptError::File(error)
    }
}

impl fmt::Display for KeptError {
    fn fmt(&self, f: &mut fmt::Formatter<'_>) -> fmt::Result {
        match self {
            KeptError::InUse => f.write_str("another device has the file open"),
            KeptError::Device(error) => error.fmt(f),
            KeptError::File(error) => error.fmt(f),
        }
    }
}

impl error::Error for KeptError {
    fn source(&self) -> Option<&(dyn error::Error + 'static)> {
        match self {
            KeptError::InUse => None,
            KeptError::Device(error) => Some(error),
            KeptError::File(error) => Some(error),
        }
    }
}

/// What a commit hands out of an event, which is in the file then.
#[derive(Clone, Debug, PartialEq, Eq)]
pub enum HandedOut {
    /// The version of a create or an edit.
    Issued(Version),
    /// Of a pull the number of its session, and the request's frame.
    Asked(u64, Vec<u8>),
    /// Of a next the record's frame.
    Gave(Vec<u8>),
    /// Of a vouch the receipt's frame.
    Vouched(Vec<u8>),
}

/// A device whose file is written before anything that came of its events is shown or handed out.
///
/// Killed at any moment once it is begun, also in the middle of a write, the program finds a file that [`KeptDevice::open`] takes: with all
/// that was committed before the last commit, and of the last one all or nothing. Once the file has failed, every call answers `Failed`.
#[derive(Debug)]
pub struct KeptDevice<F: Storage> {
    device: Device,
    file: F,
}

// What kinds there are of acts, and of what is handed out.
const WRITE: u32 = 0;
const CUT: u32 = 1;
const ISSUED: u32 = 0;
const ASKED: u32 = 1;
const GAVE: u32 = 2;

// Takes the file for one device, and reads it.
fn taken<F: Storage>(file: &mut F) -> std::result::Result<Vec<u8>, KeptError> {
    match file.lock() {
        Err(error) if error.kind() == io::ErrorKind::WouldBlock => return Err(KeptError::InUse),
        locked => locked?,
    }
    Ok(file.read_all()?)
}

impl<F: Storage> KeptDevice<F> {
    /// Begins a device in a file that has no byte.
    ///
    /// `id`, `filter` and `event_limit` are those of [`Device::open`]. `birth`: random bytes, drawn for this file alone. `mark`: bytes that
    /// tell where the file is, as [`mark_of`] does, so that a copy, and a backup that was restored as another file, which would give versions
    /// again, are refused; or zeros, and then a copy with that mark isn't told from the file.
    ///
    /// # Errors
    ///
    /// `InUse` where another device has the file open; `Open(NotEmpty)` where it has a byte, and it has all of them still; `Version`, `Filter`,
    /// `Replay` for the limit; and what the file says.
    ///
    /// # Panics
    ///
    /// Where the library is of another interface than this crate.
    pub fn begin(
        mut file: F,
        id: u16,
        filter: &str,
        event_limit: u32,
        birth: &[u8; 16],
        mark: &[u8; 32],
    ) -> std::result::Result<KeptDevice<F>, KeptError> {
        if !taken(&mut file)?.is_empty() {
            return Err(Error::Open(OpenFault::NotEmpty).into());
        }
        let mut device = Device::closed();
        // Safety: the pointers are those of slices of these lengths, and the device is closed.
        answer(unsafe {
            sys::mr_kept_begin(
                device.handle(),
                id,
                filter.as_ptr(),
                filter.len(),
                event_limit,
                birth.as_ptr(),
                birth.len(),
                mark.as_ptr(),
                mark.len(),
            )
        })?;
        let mut begun = KeptDevice { device, file };
        begun.settle()?;
        Ok(begun)
    }

    /// Opens the device of a file. What a crash left behind is cut off, and sessions and streams that were open are closed.
    ///
    /// # Errors
    ///
    /// `InUse` where another device has the file open. `Open(NoReplica)` where it is empty or a begin was cut off: empty it and begin.
    /// `Journal`, `Open`, `Filter` and `Replay` where it is none of a device, `Open` also of another place or, where a birth is given, of
    /// another birth; and what the file says.
    ///
    /// # Panics
    ///
    /// Where the library is of another interface than this crate.
    pub fn open(
        mut file: F,
        mark: &[u8; 32],
        birth: Option<&[u8; 16]>,
    ) -> std::result::Result<KeptDevice<F>, KeptError> {
        let mut device = Device::closed();
        let bytes = taken(&mut file)?;
        let birth: &[u8] = birth.map_or(&[], |birth| birth);
        // Safety: the pointers are those of slices of these lengths, and the device is closed.
        answer(unsafe {
            sys::mr_kept_open(
                device.handle(),
                bytes.as_ptr(),
                bytes.len(),
                mark.as_ptr(),
                mark.len(),
                birth.as_ptr(),
                birth.len(),
            )
        })?;
        let mut opened = KeptDevice { device, file };
        opened.settle()?;
        Ok(opened)
    }

    /// The file, whose device is closed; what wasn't committed is gone.
    pub fn into_storage(self) -> F {
        self.file
    }

    // Does all acts that are left, in their order, and tells the device how that went.
    fn settle(&mut self) -> std::result::Result<(), KeptError> {
        let done = self.do_acts();
        let well = u32::from(done.is_ok());
        answer(sys::mr_settle(self.device.handle(), well))?;
        done
    }

    fn do_acts(&mut self) -> std::result::Result<(), KeptError> {
        for place in 0.. {
            let mut act = sys::Act::default();
            match sys::mr_act_at(self.device.handle(), place, &mut act) {
                sys::NOT_THERE => break,
                code => answer(code)?,
            }
            match act.kind {
                WRITE => {
                    let bytes = self.act_bytes(place)?;
                    self.file.write_at(act.at, &bytes)?;
                }
                CUT => self.file.cut(act.at)?,
                _ => self.file.sync()?,
            }
        }
        Ok(())
    }

    fn act_bytes(&self, place: usize) -> Result<Vec<u8>> {
        // Safety: `filled` hands over a buffer of its own, and the room that it has.
        self.device.filled(|device, to, room, len| unsafe {
            sys::mr_act_bytes(device, place, to, room, len)
        })
    }

    /// Has the file take all events and notes that wait, and hands out what was held back, in the order of the events.
    ///
    /// # Errors
    ///
    /// `TooLarge` or `OutOfMemory`: what waits waits still. `Failed` where the file failed before or there was no memory to note what is
    /// to be done to it; or what the file says.
    pub fn commit(&mut self) -> std::result::Result<Vec<HandedOut>, KeptError> {
        answer(sys::mr_commit(self.device.handle()))?;
        self.settle()?;
        Ok(self.handed_out()?)
    }

    /// What the last commit handed out, once more: for whom `commit` had no memory to give it. `Unsettled` behind the next event or note.
    ///
    /// # Errors
    ///
    /// `Unsettled`, `Failed` or `OutOfMemory`.
    pub fn handed_out(&self) -> Result<Vec<HandedOut>> {
        let mut all = Vec::new();
        for place in 0.. {
            let mut told = sys::Told::default();
            match self
                .device
                .read(|device| sys::mr_told_at(device, place, &mut told))
            {
                sys::NOT_THERE => break,
                code => answer(code)?,
            }
            all.push(match told.kind {
                ISSUED => HandedOut::Issued(told.version),
                ASKED => HandedOut::Asked(told.number, self.frame(place)?),
                GAVE => HandedOut::Gave(self.frame(place)?),
                _ => HandedOut::Vouched(self.frame(place)?),
            });
        }
        Ok(all)
    }

    fn frame(&self, place: usize) -> Result<Vec<u8>> {
        // Safety: `filled` hands over a buffer of its own, and the room that it has.
        self.device.filled(|device, to, room, len| unsafe {
            sys::mr_told_frame(device, place, to, room, len)
        })
    }

    /// Has a note wait: bytes of the program's own, which mean nothing to the device. The next commit keeps it in one batch with the events
    /// that wait, all or nothing, behind the notes that waited before it; [`KeptDevice::notes`] has it whenever the file is opened again.
    ///
    /// So a program keeps what it has done about the events, as how many changes it has announced:
    ///
    /// ```
    /// use mailrep::{Draft, KeptDevice};
    /// use std::fs::File;
    ///
    /// # fn main() -> Result<(), Box<dyn std::error::Error>> {
    /// # let folder = std::env::temp_dir().join(format!("mailrep-note-{}", std::process::id()));
    /// # std::fs::create_dir_all(&folder)?;
    /// # let path = folder.join("phone");
    /// # let file = File::options().read(true).write(true).create_new(true).open(&path)?;
    /// # let mark = [0; 32];
    /// # let mut phone = KeptDevice::begin(file, 0, "all", 1_000, &[7; 16], &mark)?;
    /// # phone.create(&Draft { from: "ann@example.org", subject: "lunch", ..Draft::default() })?;
    /// # phone.commit()?;
    /// // The note is in the file before anything is announced, so that nothing is announced twice.
    /// let changes = phone.shown()?.counts().changes as u64;
    /// phone.note(&changes.to_le_bytes())?;
    /// phone.commit()?;
    /// drop(phone);
    ///
    /// let file = File::options().read(true).write(true).open(&path)?;
    /// let phone = KeptDevice::open(file, &mark, None)?;
    /// let announced = match phone.notes()?.pop() {
    ///     Some(note) => u64::from_le_bytes(note[..].try_into()?),
    ///     None => 0,
    /// };
    /// assert_eq!(announced, 1);
    /// # std::fs::remove_dir_all(&folder)?;
    /// # Ok(())
    /// # }
    /// ```
    ///
    /// # Errors
    ///
    /// `Failed`; `TooLarge` of 2^32 bytes or more; `OutOfMemory`.
    pub fn note(&mut self, bytes: &[u8]) -> Result<()> {
        // Safety: the pointer is that of a slice of this length.
        answer(unsafe { sys::mr_note(self.device.handle(), bytes.as_ptr(), bytes.len()) })
    }

    /// The notes that opening the file found, in the order in which they were written: of all commits, and none that was written since. A
    /// device that was begun has found none.
    ///
    /// # Errors
    ///
    /// `Failed`.
    pub fn notes(&self) -> Result<Vec<Vec<u8>>> {
        let mut count = 0;
        answer(self.device.read(|device| sys::mr_notes(device, &mut count)))?;
        (0..count).map(|place| self.note_at(place)).collect()
    }

    fn note_at(&self, place: usize) -> Result<Vec<u8>> {
        // Safety: `filled` hands over a buffer of its own, and the room that it has.
        self.device.filled(|device, to, room, len| unsafe {
            sys::mr_note_at(device, place, to, room, len)
        })
    }

    /// What was drawn when the file was begun.
    ///
    /// # Errors
    ///
    /// `Unsettled` while an event or a note waits for a commit; `Failed`.
    pub fn birth(&self) -> Result<[u8; 16]> {
        let (mut birth, mut len) = ([0; 16], 0);
        // Safety: the buffer has this length.
        answer(self.device.read(|device| unsafe {
            sys::mr_birth(device, birth.as_mut_ptr(), birth.len(), &mut len)
        }))?;
        Ok(birth)
    }

    /// Whether what another device tells goes with this one: the highest version that it knows of each author, as [`Shown::highest`]
    /// finds it there, and the files that it has met. Ask before you send it anything or take anything of it.
    ///
    /// An `Ok` proves nothing of the other device: an old copy that meets only those who know no more of it than it does isn't noticed.
    ///
    /// # Errors
    ///
    /// `Unsettled` while an event or a note waits for a commit; `Failed`; `Version`; then `Peer`, where this is an older state of its device, or
    /// where another file was begun under its id.
    pub fn check_peer(&self, highest: &[Version], births: &[Born]) -> Result<()> {
        // Safety: the pointers are those of slices of these lengths.
        answer(self.device.read(|device| unsafe {
            sys::mr_check_peer(
                device,
                highest.as_ptr(),
                highest.len(),
                births.as_ptr(),
                births.len(),
            )
        }))
    }

    /// What the device has, which is all in its file.
    ///
    /// # Errors
    ///
    /// `Unsettled` while an event or a note waits for a commit; `Failed`.
    pub fn shown(&self) -> Result<Shown<'_>> {
        let mut counts = Counts::default();
        answer(
            self.device
                .read(|device| sys::mr_counts(device, &mut counts)),
        )?;
        Ok(Shown {
            device: &self.device,
        })
    }

    /// Writes a message, whose version the next commit hands out.
    ///
    /// # Errors
    ///
    /// As [`Device::create`]; `TooLarge`, `Failed`. So too for the events below.
    pub fn create(&mut self, draft: &Draft<'_>) -> Result<()> {
        self.device.create(draft).map(|_| ())
    }

    /// Puts a message in the place of held versions of one item; the next commit hands out its version.
    ///
    /// # Errors
    ///
    /// As [`Device::edit`].
    pub fn edit(&mut self, bases: &[Version], draft: &Draft<'_>) -> Result<()> {
        self.device.edit(bases, draft).map(|_| ())
    }

    /// Merges the heads of an item; the next commit hands out the version. It looks at the heads, so that neither an event nor a note may
    /// wait for a commit.
    ///
    /// # Errors
    ///
    /// `Failed`, `Unsettled`; then as [`Device::merge`].
    pub fn merge(&mut self, item: Version) -> Result<()> {
        self.device.merge(item).map(|_| ())
    }

    /// Writes, asks and takes nothing more; it still answers.
    ///
    /// # Errors
    ///
    /// As [`Device::retire`].
    pub fn retire(&mut self) -> Result<()> {
        self.device.retire()
    }

    /// Asks for what the device lacks. The next commit hands out the session and the request.
    ///
    /// # Errors
    ///
    /// As [`Device::pull`].
    pub fn pull(&mut self) -> Result<()> {
        self.device.ask().map(|_| ())
    }

    /// Opens a stream for a request, and gives its number.
    ///
    /// # Errors
    ///
    /// As [`Device::answer`].
    pub fn answer(&mut self, frame: &[u8]) -> Result<u64> {
        self.device.answer(frame)
    }

    /// Has the stream give its next record, which the next commit hands out.
    ///
    /// # Errors
    ///
    /// As [`Device::next`].
    pub fn next(&mut self, stream: u64) -> Result<()> {
        answer(sys::mr_next(self.device.handle(), stream))
    }

    /// Takes a record.
    ///
    /// # Errors
    ///
    /// As [`Device::receive`].
    pub fn receive(&mut self, frame: &[u8]) -> Result<Received> {
        self.device.receive(frame)
    }

    /// Gives up a session; what it took stays.
    ///
    /// # Errors
    ///
    /// As [`Device::cut_in`].
    pub fn cut_in(&mut self, session: u64) -> Result<()> {
        self.device.cut_in(session)
    }

    /// Gives up a stream.
    ///
    /// # Errors
    ///
    /// As [`Device::cut_out`].
    pub fn cut_out(&mut self, stream: u64) -> Result<()> {
        self.device.cut_out(stream)
    }

    /// Gives a receipt for a head, which the next commit hands out.
    ///
    /// # Errors
    ///
    /// As [`Device::vouch`].
    pub fn vouch(&mut self, version: Version) -> Result<()> {
        answer(sys::mr_vouch(self.device.handle(), version))
    }

    /// Lets go of the push-outs that a receipt frees.
    ///
    /// # Errors
    ///
    /// As [`Device::release`].
    pub fn release(&mut self, frame: &[u8]) -> Result<()> {
        self.device.release(frame)
    }
}

/// What a kept device has. While it is there no event happens.
#[derive(Clone, Copy, Debug)]
pub struct Shown<'a> {
    device: &'a Device,
}

impl<'a> Shown<'a> {
    /// As [`Device::counts`].
    pub fn counts(self) -> Counts {
        self.device.counts()
    }

    /// As [`Device::heads`].
    pub fn heads(self) -> impl ExactSizeIterator<Item = Held> + DoubleEndedIterator {
        self.device.heads()
    }

    /// As [`Device::push_outs`].
    pub fn push_outs(self) -> impl ExactSizeIterator<Item = Held> + DoubleEndedIterator {
        self.device.push_outs()
    }

    /// As [`Device::conflicts`].
    ///
    /// # Errors
    ///
    /// `OutOfMemory` alone.
    pub fn conflicts(self) -> Result<Vec<Version>> {
        self.device.conflicts()
    }

    /// As [`Device::heads_of`].
    ///
    /// # Errors
    ///
    /// `Version`.
    pub fn heads_of(self, item: Version) -> Result<Vec<Version>> {
        self.device.heads_of(item)
    }

    /// As [`Device::changes_since`].
    pub fn changes_since(
        self,
        seen: usize,
    ) -> impl ExactSizeIterator<Item = Change> + DoubleEndedIterator {
        self.device.changes_since(seen)
    }

    /// As [`Device::message`].
    ///
    /// # Errors
    ///
    /// `Version`, then `NotThere`.
    pub fn message(self, version: Version) -> Result<Message> {
        self.device.message(version)
    }

    /// As [`Device::knows`].
    ///
    /// # Errors
    ///
    /// `Version`.
    pub fn knows(self, item: Version, version: Version) -> Result<bool> {
        self.device.knows(item, version)
    }

    /// As [`Device::highest`].
    ///
    /// # Errors
    ///
    /// `Version`; `Refused`, where what is known has too many holes.
    pub fn highest(self, author: u32) -> Result<Option<u32>> {
        self.device.highest(author)
    }

    /// As [`Device::is_retired`].
    pub fn is_retired(self) -> bool {
        self.device.is_retired()
    }

    /// As [`Device::sessions`].
    ///
    /// # Errors
    ///
    /// `OutOfMemory` alone.
    pub fn sessions(self) -> Result<Vec<u64>> {
        self.device.sessions()
    }

    /// As [`Device::streams`].
    ///
    /// # Errors
    ///
    /// `OutOfMemory` alone.
    pub fn streams(self) -> Result<Vec<u64>> {
        self.device.streams()
    }
}
