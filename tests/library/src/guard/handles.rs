//! Handles as the library takes and gives them: 27 bytes, and how many of them are the handle's.

use super::UNWRITTEN;
use crate::ffi::{gelmuszta_handle, HANDLE_MAX};
use model::words::*;

/// What lies behind the length of the handles that a call is lent, from there on.
pub type Behind = [u8; HANDLE_MAX];

impl gelmuszta_handle {
    /// As it is before the call, so that what is not written is seen.
    pub const UNWRITTEN: gelmuszta_handle = gelmuszta_handle { bytes: [UNWRITTEN; HANDLE_MAX], length: UNWRITTEN };

    /// As a refusal leaves it.
    pub const NONE: gelmuszta_handle = gelmuszta_handle { bytes: [0; HANDLE_MAX], length: 0 };

    /// The first of these bytes, as many as there is room for, what lies behind them, and how many they are.
    pub fn of(bytes: &[u8], behind: &Behind) -> gelmuszta_handle {
        let mut held =
            gelmuszta_handle { bytes: *behind, length: u8::try_from(bytes.len()).expect("a length is a byte") };
        let own = bytes.len().min(HANDLE_MAX);
        held.bytes[..own].copy_from_slice(&bytes[..own]);
        held
    }

    /// The bytes of the handle, none where none is given. Where what comes after the length is not zero, or where the
    /// length is more than there is room for, all 28 are told, which is no handle.
    pub fn told(&self) -> HandleBytes {
        match self.bytes.split_at_checked(self.length.into()) {
            Some((handle, rest)) if rest.iter().all(|byte| *byte == 0) => handle.to_vec(),
            _ => [&self.bytes[..], &[self.length]].concat(),
        }
    }
}

/// The handles that a call presents, as the library takes them; [`gelmuszta_handle::NONE`] for those that it does not.
pub struct Presented {
    pub handle: gelmuszta_handle,
    pub other: gelmuszta_handle,
}

impl Presented {
    pub fn of(call: &Call, behind: &Behind) -> Presented {
        let mut handles = call.presented_bytes().map(|bytes| gelmuszta_handle::of(bytes, behind));
        let mut next = || handles.next().unwrap_or(gelmuszta_handle::NONE);
        Presented { handle: next(), other: next() }
    }
}
