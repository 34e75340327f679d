//! Every call that presents a handle, looks and validation.
#![allow(dead_code)] // each test file uses its own part

use super::*;

/// What the calls are asked with beside the handle.
#[derive(Clone, Copy)]
pub struct Rest {
    pub node: u32,
    pub segment: u32,
    /// None: the one that fits, to read for validation, to write for the others.
    pub mode: Option<u32>,
}

/// All but a new cluster. A read handle is needed by a read, a look and validation.
pub fn every(handle: &HandleBytes, other: &HandleBytes, Rest { node, segment, mode }: Rest) -> Vec<Call> {
    let (handle, other, password) = (handle.clone(), other.clone(), [9; 16]);
    let mut fields = Fields { node, segment, size: 4, mask: 1, handle, other, password, ..Fields::default() };
    let call = |kind: &Kind| {
        let right = if *kind == Kind::Validate { READ_MODE } else { WRITE_MODE };
        fields.mode = mode.unwrap_or(right);
        fields.call(*kind)
    };
    Kind::ALL[1..].iter().map(call).collect()
}

/// Those that look at the store: all but weakening.
pub fn looking(handle: &HandleBytes, other: &HandleBytes, rest: Rest) -> Vec<Call> {
    let mut calls = every(handle, other, rest);
    calls.retain(|call| call.kind() != Kind::Weaken);
    calls
}
