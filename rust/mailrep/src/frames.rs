//! Frames in a stream of bytes.

use crate::error::{Error, Result, WireFault, answer};
use crate::sys;
use crate::values::{Claim, FrameKind};

/// How many bytes the frame takes that these begin. `None` where fewer than four are there.
///
/// # Errors
///
/// `Wire(TooLong)`: give up the connection.
pub fn frame_len(bytes: &[u8]) -> Result<Option<usize>> {
    let mut len = 0;
    // Safety: the pointer is that of a slice of this length.
    match answer(unsafe { sys::mr_frame_len(bytes.as_ptr(), bytes.len(), &mut len) }) {
        Ok(()) => Ok(Some(len)),
        Err(Error::Wire(WireFault::Truncated)) => Ok(None),
        Err(error) => Err(error),
    }
}

/// What a frame is, and who it claims to come from: to be compared with who is at the other end, before a device takes it.
///
/// # Errors
///
/// `Wire`, then `BytesBehind`.
pub fn claim(frame: &[u8]) -> Result<Claim> {
    let mut claimed = sys::Claimed::default();
    // Safety: the pointer is that of a slice of this length.
    answer(unsafe { sys::mr_frame_claim(frame.as_ptr(), frame.len(), &mut claimed) })?;
    let kind = match claimed.kind {
        0 => FrameKind::Ask,
        1 => FrameKind::Record,
        _ => FrameKind::Receipt,
    };
    Ok(Claim {
        kind,
        author: claimed.author,
    })
}
