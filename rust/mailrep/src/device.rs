//! A device.

use crate::error::{Error, Result, answer};
use crate::sys;
use crate::values::{Change, Counts, Draft, Held, Message, Received, Version};
use std::cell::Cell;
use std::fmt;

/// How many bytes, or versions, a buffer has room for at first.
const ROOM: usize = 512;

/// The most sessions and streams that are open.
const MAX_OPEN: usize = 8;

/// A device: one end of a mailbox that is kept in step. It may go to another thread, and two threads can't share it.
///
/// Readers take `&self`, so that one is asked while another one's iterator is there. Each call that changes the device is an event, which
/// happens as a whole or not at all: at an `Err` it is as it was. The lists of errors mostly leave out `OutOfMemory`.
pub struct Device {
    handle: Cell<sys::Device>,
}

impl fmt::Debug for Device {
    fn fmt(&self, f: &mut fmt::Formatter<'_>) -> fmt::Result {
        f.debug_struct("Device").finish_non_exhaustive()
    }
}

// Safety: the library proves that what an open device owns may go to another thread. It has no `Sync`, since its readers take the
// device out of the handle while they read.
unsafe impl Send for Device {}

impl Drop for Device {
    fn drop(&mut self) {
        sys::mr_close(self.handle.get_mut());
    }
}

// The text that bytes of the library are, which gives none but UTF-8.
fn text_of(bytes: Vec<u8>) -> Result<String> {
    String::from_utf8(bytes).map_err(|_| Error::Unknown(sys::NOT_TEXT))
}

impl Device {
    // A closed one, of the library that this crate is for.
    pub(crate) fn closed() -> Device {
        let abi = sys::mr_abi();
        assert!(
            abi >> 16 == sys::ABI >> 16 && abi >= sys::ABI,
            "libmailrep has interface 0x{abi:x}"
        );
        Device {
            handle: Cell::new(sys::Device::CLOSED),
        }
    }

    // The handle, for what changes the device.
    pub(crate) fn handle(&mut self) -> &mut sys::Device {
        self.handle.get_mut()
    }

    // Has a reader read. The handle is taken out meanwhile: it may be moved, and a call of the library doesn't come back here.
    pub(crate) fn read<T>(&self, reader: impl FnOnce(&mut sys::Device) -> T) -> T {
        let mut handle = self.handle.replace(sys::Device::CLOSED);
        let read = reader(&mut handle);
        self.handle.set(handle);
        read
    }

    /// A device to which nothing has happened.
    ///
    /// `id`, 0 to 63, is given to no other device, ever. `filter` says what it keeps, as `all` or `label:inbox & !flag:deleted`.
    /// `event_limit`, 1 to 1,000,000, says how many events it takes.
    ///
    /// # Errors
    ///
    /// `Version`, then `Filter`, then `Replay` for the limit.
    ///
    /// # Panics
    ///
    /// Where the library is of another interface than this crate.
    pub fn open(id: u16, filter: &str, event_limit: u32) -> Result<Device> {
        Device::replay(id, filter, event_limit, &[])
    }

    /// The device whose log has these bytes: those of [`log_since`](Device::log_since) from 0 on, one behind the other.
    ///
    /// # Errors
    ///
    /// As [`open`](Device::open), and behind `Filter`: `Event` where the bytes are none of events, `Replay` where one is refused.
    ///
    /// # Panics
    ///
    /// Where the library is of another interface than this crate.
    pub fn replay(id: u16, filter: &str, event_limit: u32, log: &[u8]) -> Result<Device> {
        let mut opened = Device::closed();
        // Safety: the pointers are those of slices of these lengths, and the device is closed.
        answer(unsafe {
            sys::mr_replay(
                opened.handle(),
                id,
                filter.as_ptr(),
                filter.len(),
                event_limit,
                log.as_ptr(),
                log.len(),
            )
        })?;
        Ok(opened)
    }

    /// Writes a message.
    ///
    /// # Errors
    ///
    /// `Message`, then `Refused`.
    pub fn create(&mut self, draft: &Draft<'_>) -> Result<Version> {
        let Draft {
            from,
            subject,
            body,
            labels,
            flags,
            day,
        } = *draft;
        let mut version = Version::default();
        // Safety: the pointers are those of slices of these lengths.
        answer(unsafe {
            sys::mr_create(
                self.handle(),
                from.as_ptr(),
                from.len(),
                subject.as_ptr(),
                subject.len(),
                body.as_ptr(),
                body.len(),
                labels.as_ptr(),
                labels.len(),
                flags,
                day,
                &mut version,
            )
        })?;
        Ok(version)
    }

    /// Puts a message in the place of held versions of one item: of one, or of all that conflict.
    ///
    /// # Errors
    ///
    /// `Message`, then `Version`, then `Refused`.
    pub fn edit(&mut self, bases: &[Version], draft: &Draft<'_>) -> Result<Version> {
        let Draft {
            from,
            subject,
            body,
            labels,
            flags,
            day,
        } = *draft;
        let mut version = Version::default();
        // Safety: the pointers are those of slices of these lengths.
        answer(unsafe {
            sys::mr_edit(
                self.handle(),
                bases.as_ptr(),
                bases.len(),
                from.as_ptr(),
                from.len(),
                subject.as_ptr(),
                subject.len(),
                body.as_ptr(),
                body.len(),
                labels.as_ptr(),
                labels.len(),
                flags,
                day,
                &mut version,
            )
        })?;
        Ok(version)
    }

    /// Merges the heads of an item that differ in labels and flags alone, by an edit of all of them, and gives its version.
    ///
    /// The last version that came to the device and that all of them replace decides: a label or a flag of it stays if each head has
    /// it, another one comes if some head has it; the message counts as deleted only where each head says so.
    ///
    /// # Errors
    ///
    /// `Version`; `Merge` where the contents differ, so that the user has to look, or there are too many labels together; `NoConflict`
    /// where the heads say the same, or there is one or none; then `Refused`.
    pub fn merge(&mut self, item: Version) -> Result<Version> {
        let mut version = Version::default();
        answer(sys::mr_merge(self.handle(), item, &mut version))?;
        Ok(version)
    }

    /// Writes, asks and takes nothing more; it still answers.
    ///
    /// # Errors
    ///
    /// `Refused`, as while it keeps messages for others.
    pub fn retire(&mut self) -> Result<()> {
        answer(sys::mr_retire(self.handle()))
    }

    /// Asks for what the device lacks: the number of a session that waits for it, and the request's frame.
    ///
    /// # Errors
    ///
    /// `Refused`, as where eight sessions are open.
    pub fn pull(&mut self) -> Result<(u64, Vec<u8>)> {
        let session = self.ask()?;
        Ok((session, self.frame()?))
    }

    // The same, without the frame.
    pub(crate) fn ask(&mut self) -> Result<u64> {
        let mut session = 0;
        answer(sys::mr_pull(self.handle(), &mut session))?;
        Ok(session)
    }

    /// Opens a stream for a request, and gives its number.
    ///
    /// # Errors
    ///
    /// `Wire`, `BytesBehind`, `OtherFrame`, then `Refused`.
    pub fn answer(&mut self, frame: &[u8]) -> Result<u64> {
        let mut stream = 0;
        // Safety: the pointer is that of a slice of this length.
        answer(unsafe { sys::mr_answer(self.handle(), frame.as_ptr(), frame.len(), &mut stream) })?;
        Ok(stream)
    }

    /// The frame of the stream's next record.
    ///
    /// # Errors
    ///
    /// `Refused`, where no such stream is open.
    pub fn next(&mut self, stream: u64) -> Result<Vec<u8>> {
        answer(sys::mr_next(self.handle(), stream))?;
        self.frame()
    }

    /// Takes a record.
    ///
    /// # Errors
    ///
    /// `Wire`, `BytesBehind`, then `Refused`.
    pub fn receive(&mut self, frame: &[u8]) -> Result<Received> {
        let mut outcome = 0;
        // Safety: the pointer is that of a slice of this length.
        answer(unsafe {
            sys::mr_receive(self.handle(), frame.as_ptr(), frame.len(), &mut outcome)
        })?;
        Ok(match outcome {
            0 => Received::Took,
            1 => Received::Known,
            _ => Received::Finished,
        })
    }

    /// Gives up a session; what it took stays.
    ///
    /// # Errors
    ///
    /// `Refused`, where no such session is open.
    pub fn cut_in(&mut self, session: u64) -> Result<()> {
        answer(sys::mr_cut_in(self.handle(), session))
    }

    /// Gives up a stream.
    ///
    /// # Errors
    ///
    /// `Refused`, where no such stream is open.
    pub fn cut_out(&mut self, stream: u64) -> Result<()> {
        answer(sys::mr_cut_out(self.handle(), stream))
    }

    /// The frame of a receipt for a head.
    ///
    /// # Errors
    ///
    /// `Version`, then `Refused`.
    pub fn vouch(&mut self, version: Version) -> Result<Vec<u8>> {
        answer(sys::mr_vouch(self.handle(), version))?;
        self.frame()
    }

    /// Lets go of the push-outs that a receipt frees.
    ///
    /// # Errors
    ///
    /// `Wire`, `BytesBehind`, `OtherFrame`, then `Refused`.
    pub fn release(&mut self, frame: &[u8]) -> Result<()> {
        // Safety: the pointer is that of a slice of this length.
        answer(unsafe { sys::mr_release(self.handle(), frame.as_ptr(), frame.len()) })
    }

    // What a reader writes to a buffer, which grows to the length that it tells.
    pub(crate) fn filled<T: Copy + Default>(
        &self,
        reader: impl Fn(&mut sys::Device, *mut T, usize, &mut usize) -> i32,
    ) -> Result<Vec<T>> {
        let mut items = vec![T::default(); ROOM];
        let mut len = 0;
        let mut code = self.read(|it| reader(it, items.as_mut_ptr(), items.len(), &mut len));
        if code == sys::TOO_SMALL {
            items.resize(len, T::default());
            code = self.read(|it| reader(it, items.as_mut_ptr(), items.len(), &mut len));
        }
        answer(code)?;
        items.truncate(len);
        Ok(items)
    }

    // What a reader that is never refused writes, of a device that is open and of a place where something is.
    fn there<T: Default>(&self, reader: impl FnOnce(&mut sys::Device, &mut T) -> i32) -> T {
        let mut value = T::default();
        let code = self.read(|it| reader(it, &mut value));
        debug_assert_eq!(code, 0);
        value
    }

    /// The frame that the last event gave that was not refused, and nothing where it gave none. `pull`, `next` and `vouch` give it
    /// themselves; here it is once more.
    ///
    /// # Errors
    ///
    /// None of an open device.
    pub fn frame(&self) -> Result<Vec<u8>> {
        // Safety: `filled` hands over a buffer of its own, and the room that it has.
        self.filled(|device, to, room, len| unsafe { sys::mr_frame(device, to, room, len) })
    }

    /// How much there is.
    pub fn counts(&self) -> Counts {
        self.there(|device, counts| sys::mr_counts(device, counts))
    }

    /// The messages that the filter selects, in version order.
    pub fn heads(&self) -> impl ExactSizeIterator<Item = Held> + DoubleEndedIterator {
        (0..self.counts().heads)
            .map(|place| self.there(|device, head| sys::mr_head(device, place, head)))
    }

    /// The messages that wait for another device to have them, in version order.
    pub fn push_outs(&self) -> impl ExactSizeIterator<Item = Held> + DoubleEndedIterator {
        (0..self.counts().push_outs)
            .map(|place| self.there(|device, held| sys::mr_push_out(device, place, held)))
    }

    /// The items that have two or more heads, in rising order: they are in conflict until an edit of all their heads, as
    /// [`merge`](Device::merge) makes one.
    ///
    /// # Errors
    ///
    /// `OutOfMemory` alone.
    pub fn conflicts(&self) -> Result<Vec<Version>> {
        // Safety: `filled` hands over a buffer of its own, and the room that it has.
        self.filled(|device, to, room, len| unsafe { sys::mr_conflicts(device, to, room, len) })
    }

    /// The versions of an item that are heads, in version order.
    ///
    /// # Errors
    ///
    /// `Version`.
    pub fn heads_of(&self, item: Version) -> Result<Vec<Version>> {
        // Safety: `filled` hands over a buffer of its own, and the room that it has.
        self.filled(|device, to, room, len| unsafe {
            sys::mr_heads_of(device, item, to, room, len)
        })
    }

    /// The changes of the heads, in order of time, behind the first so many. Keep how many you have seen.
    pub fn changes_since(
        &self,
        seen: usize,
    ) -> impl ExactSizeIterator<Item = Change> + DoubleEndedIterator {
        (seen..self.counts().changes)
            .map(|place| self.there(|device, change| sys::mr_change(device, place, change)))
    }

    /// The events of the log behind the first so many, each as the bytes to be kept for [`replay`](Device::replay).
    pub fn log_since(
        &self,
        kept: usize,
    ) -> impl ExactSizeIterator<Item = Result<Vec<u8>>> + DoubleEndedIterator {
        (kept..self.counts().events).map(|place| {
            // Safety: `filled` hands over a buffer of its own, and the room that it has.
            self.filled(|device, to, room, len| unsafe {
                sys::mr_event(device, place, to, room, len)
            })
        })
    }

    // A part of a message, as text.
    fn text(&self, version: Version, part: u32) -> Result<String> {
        text_of(self.part(version, part)?)
    }

    fn part(&self, version: Version, part: u32) -> Result<Vec<u8>> {
        // Safety: `filled` hands over a buffer of its own, and the room that it has.
        self.filled(|device, to, room, len| unsafe {
            sys::mr_part(device, version, part, to, room, len)
        })
    }

    fn label(&self, version: Version, place: usize) -> Result<String> {
        // Safety: `filled` hands over a buffer of its own, and the room that it has.
        let bytes = self.filled(|device, to, room, len| unsafe {
            sys::mr_label(device, version, place, to, room, len)
        })?;
        text_of(bytes)
    }

    /// The message of a held version.
    ///
    /// # Errors
    ///
    /// `Version` where there is no such version, then `NotThere`.
    pub fn message(&self, version: Version) -> Result<Message> {
        let mut card = sys::Placed::default();
        answer(self.read(|device| sys::mr_card(device, version, &mut card)))?;
        let labels = (0..card.labels).map(|place| self.label(version, place));
        Ok(Message {
            labels: labels.collect::<Result<Vec<_>>>()?.join(","),
            from: self.text(version, 0)?,
            subject: self.text(version, 1)?,
            body: self.part(version, 2)?,
            // At most 31, and at most 65,535.
            flags: card.flags as u8,
            day: card.day as u16,
        })
    }

    /// Whether a version of an item is known, held or not.
    ///
    /// # Errors
    ///
    /// `Version`.
    pub fn knows(&self, item: Version, version: Version) -> Result<bool> {
        let mut is_known = 0;
        answer(self.read(|device| sys::mr_knows(device, item, version, &mut is_known)))?;
        Ok(is_known == 1)
    }

    /// The highest counter of an author's versions that the device knows, of whatever item, and `None` where it knows none: to be told
    /// to that author, for [`KeptDevice::check_peer`](crate::KeptDevice::check_peer) there. Of its own id it is that of the last version
    /// that it gave.
    ///
    /// # Errors
    ///
    /// `Version`; `Refused`, where what is known has too many holes.
    pub fn highest(&self, author: u32) -> Result<Option<u32>> {
        let mut counter = 0;
        match answer(self.read(|device| sys::mr_highest(device, author, &mut counter))) {
            Ok(()) => Ok(Some(counter)),
            Err(Error::NotThere) => Ok(None),
            Err(error) => Err(error),
        }
    }

    /// Whether it has retired.
    pub fn is_retired(&self) -> bool {
        self.there(|device, is_retired| sys::mr_is_retired(device, is_retired)) == 1
    }

    // The numbers that a reader writes.
    fn numbers(
        &self,
        reader: unsafe extern "C" fn(&mut sys::Device, *mut u64, usize, &mut usize) -> i32,
    ) -> Result<Vec<u64>> {
        let mut numbers = [0; MAX_OPEN];
        let mut len = 0;
        // Safety: the buffer has this length.
        answer(self.read(|device| unsafe {
            reader(device, numbers.as_mut_ptr(), numbers.len(), &mut len)
        }))?;
        Ok(numbers[..len].to_vec())
    }

    /// The numbers of the open sessions, rising.
    ///
    /// # Errors
    ///
    /// `OutOfMemory` alone.
    pub fn sessions(&self) -> Result<Vec<u64>> {
        self.numbers(sys::mr_sessions)
    }

    /// The numbers of the open streams, rising.
    ///
    /// # Errors
    ///
    /// `OutOfMemory` alone.
    pub fn streams(&self) -> Result<Vec<u64>> {
        self.numbers(sys::mr_streams)
    }
}
