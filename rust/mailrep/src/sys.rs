//! The declarations of `mailrep.h`.

use crate::{Born, Change, Counts, Held, Version};
use std::ffi::c_void;

/// `mr_device`: all zeros is closed.
#[repr(C)]
pub struct Device {
    inner: *mut c_void,
    live: u64,
}

impl Device {
    pub const CLOSED: Device = Device {
        inner: std::ptr::null_mut(),
        live: 0,
    };
}

/// `mr_placed`.
#[repr(C)]
#[derive(Clone, Copy, Debug, Default)]
pub struct Placed {
    pub labels: usize,
    pub flags: u32,
    pub day: u32,
}

/// `mr_claimed`.
#[repr(C)]
#[derive(Clone, Copy, Debug, Default)]
pub struct Claimed {
    pub kind: u32,
    pub author: u32,
}

/// `mr_act`.
#[repr(C)]
#[derive(Clone, Copy, Debug, Default)]
pub struct Act {
    pub kind: u32,
    pub at: u64,
    pub len: usize,
}

/// `mr_told`.
#[repr(C)]
#[derive(Clone, Copy, Debug, Default)]
pub struct Told {
    pub kind: u32,
    pub number: u64,
    pub version: Version,
}

/// The code of a place at which nothing is.
pub const NOT_THERE: i32 = 6;

/// The code of a text that is none.
pub const NOT_TEXT: i32 = 4;

/// The code of a buffer that is too small.
pub const TOO_SMALL: i32 = 5;

/// The number of the interface that these declarations are of.
pub const ABI: u32 = 0x0001_0004;

#[rustfmt::skip]
unsafe extern "C" {
    pub safe fn mr_abi() -> u32;
    pub fn mr_replay(device: &mut Device, id: u16, filter: *const u8, filter_len: usize, event_limit: u32, log: *const u8, log_len: usize) -> i32;
    pub safe fn mr_close(device: &mut Device);
    pub fn mr_create(device: &mut Device, from: *const u8, from_len: usize, subject: *const u8, subject_len: usize, body: *const u8, body_len: usize, labels: *const u8, labels_len: usize, flags: u8, day: u16, version: &mut Version) -> i32;
    pub fn mr_edit(device: &mut Device, bases: *const Version, bases_len: usize, from: *const u8, from_len: usize, subject: *const u8, subject_len: usize, body: *const u8, body_len: usize, labels: *const u8, labels_len: usize, flags: u8, day: u16, version: &mut Version) -> i32;
    pub safe fn mr_merge(device: &mut Device, item: Version, version: &mut Version) -> i32;
    pub safe fn mr_retire(device: &mut Device) -> i32;
    pub safe fn mr_pull(device: &mut Device, session: &mut u64) -> i32;
    pub fn mr_answer(device: &mut Device, frame: *const u8, frame_len: usize, stream: &mut u64) -> i32;
    pub safe fn mr_next(device: &mut Device, stream: u64) -> i32;
    pub fn mr_receive(device: &mut Device, frame: *const u8, frame_len: usize, outcome: &mut u32) -> i32;
    pub safe fn mr_cut_in(device: &mut Device, session: u64) -> i32;
    pub safe fn mr_cut_out(device: &mut Device, stream: u64) -> i32;
    pub safe fn mr_vouch(device: &mut Device, version: Version) -> i32;
    pub fn mr_release(device: &mut Device, frame: *const u8, frame_len: usize) -> i32;
    pub fn mr_kept_begin(device: &mut Device, id: u16, filter: *const u8, filter_len: usize, event_limit: u32, birth: *const u8, birth_len: usize, mark: *const u8, mark_len: usize) -> i32;
    pub fn mr_kept_open(device: &mut Device, file: *const u8, file_len: usize, mark: *const u8, mark_len: usize, birth: *const u8, birth_len: usize) -> i32;
    pub safe fn mr_commit(device: &mut Device) -> i32;
    pub safe fn mr_act_at(device: &mut Device, place: usize, act: &mut Act) -> i32;
    pub fn mr_act_bytes(device: &mut Device, place: usize, to: *mut u8, room: usize, len: &mut usize) -> i32;
    pub safe fn mr_settle(device: &mut Device, went_well: u32) -> i32;
    pub safe fn mr_told_at(device: &mut Device, place: usize, told: &mut Told) -> i32;
    pub fn mr_told_frame(device: &mut Device, place: usize, to: *mut u8, room: usize, len: &mut usize) -> i32;
    pub fn mr_note(device: &mut Device, bytes: *const u8, bytes_len: usize) -> i32;
    pub safe fn mr_notes(device: &mut Device, count: &mut usize) -> i32;
    pub fn mr_note_at(device: &mut Device, place: usize, to: *mut u8, room: usize, len: &mut usize) -> i32;
    pub fn mr_birth(device: &mut Device, to: *mut u8, room: usize, len: &mut usize) -> i32;
    pub fn mr_check_peer(device: &mut Device, highest: *const Version, highest_len: usize, births: *const Born, births_len: usize) -> i32;
    pub fn mr_frame(device: &mut Device, to: *mut u8, room: usize, len: &mut usize) -> i32;
    pub safe fn mr_counts(device: &mut Device, counts: &mut Counts) -> i32;
    pub safe fn mr_head(device: &mut Device, place: usize, head: &mut Held) -> i32;
    pub safe fn mr_push_out(device: &mut Device, place: usize, push_out: &mut Held) -> i32;
    pub fn mr_conflicts(device: &mut Device, to: *mut Version, room: usize, len: &mut usize) -> i32;
    pub fn mr_heads_of(device: &mut Device, item: Version, to: *mut Version, room: usize, len: &mut usize) -> i32;
    pub safe fn mr_change(device: &mut Device, place: usize, change: &mut Change) -> i32;
    pub fn mr_event(device: &mut Device, place: usize, to: *mut u8, room: usize, len: &mut usize) -> i32;
    pub fn mr_part(device: &mut Device, version: Version, part: u32, to: *mut u8, room: usize, len: &mut usize) -> i32;
    pub safe fn mr_card(device: &mut Device, version: Version, card: &mut Placed) -> i32;
    pub fn mr_label(device: &mut Device, version: Version, place: usize, to: *mut u8, room: usize, len: &mut usize) -> i32;
    pub safe fn mr_knows(device: &mut Device, item: Version, version: Version, is_known: &mut u32) -> i32;
    pub safe fn mr_highest(device: &mut Device, author: u32, counter: &mut u32) -> i32;
    pub safe fn mr_is_retired(device: &mut Device, is_retired: &mut u32) -> i32;
    pub fn mr_sessions(device: &mut Device, to: *mut u64, room: usize, len: &mut usize) -> i32;
    pub fn mr_streams(device: &mut Device, to: *mut u64, room: usize, len: &mut usize) -> i32;
    pub fn mr_frame_len(bytes: *const u8, bytes_len: usize, len: &mut usize) -> i32;
    pub fn mr_frame_claim(frame: *const u8, frame_len: usize, claim: &mut Claimed) -> i32;
}
