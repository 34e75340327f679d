//! The two questions about a register, and the step from one entry to the next.

use super::{UNWRITTEN, UNWRITTEN_NUMBER};
use crate::ffi::{self, gelmuszta_handle, HANDLE_MAX};
use model::handle::HandleBytes;
use model::register::{Finding, Inquiry};

/// Puts an inquiry to the library. What it only reads is lent so that it could be written to, and has to stay. Behind
/// the length of the handle there is something.
pub fn look_up(inquiry: &Inquiry, buffer: &mut [u8]) -> Finding {
    let handle = gelmuszta_handle::of(&inquiry.handle, &[UNWRITTEN; HANDLE_MAX]);
    let (mut lent, mut entries) = (handle, inquiry.entries.clone());
    let (mut count, mut entry) = (UNWRITTEN_NUMBER, UNWRITTEN_NUMBER);
    let told = (&mut count, &mut entry);
    // SAFETY: see the head of `guard`.
    let number = unsafe { where_it_lies(&mut lent, inquiry.segment, &mut entries[..], buffer, told) };
    assert!(lent == handle && entries == inquiry.entries, "what is only read is written to");
    Finding { number, entry, count: if inquiry.segment.is_some() { count } else { 0 } }
}

/// The same of what lies anywhere; gives the number. Told are how many open the segment, and the entry.
///
/// # Safety
///
/// Whatever is lent may be read, and the buffer may be written to.
pub unsafe fn where_it_lies(
    handle: *const gelmuszta_handle,
    segment: Option<usize>,
    entries: *const [u8],
    buffer: *mut [u8],
    (count, entry): (&mut usize, &mut usize),
) -> u8 {
    let (entries, length) = (entries.cast::<u8>(), entries.len());
    let (bytes, room) = (buffer.cast::<u8>(), buffer.len());
    match segment {
        None => ffi::gelmuszta_register(handle, entries, length, bytes, room, entry),
        Some(segment) => ffi::gelmuszta_openers(handle, segment, entries, length, bytes, room, count, entry),
    }
}

/// A weakening: its number, and the bytes of the handle given.
pub fn weaken(handle: &[u8], mask: u16) -> (u8, HandleBytes) {
    let (mut given, mut count) = (gelmuszta_handle::UNWRITTEN, UNWRITTEN);
    let handle = gelmuszta_handle::of(handle, &[UNWRITTEN; HANDLE_MAX]);
    // SAFETY: see the head of `guard`.
    let number = unsafe { ffi::gelmuszta_weaken(&handle, mask, &mut given, &mut count) };
    (number, given.told())
}
