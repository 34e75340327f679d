//! A call with everything it is asked with, what it is asked of, and what is answered.

use crate::ffi::HANDLE_MAX;
use crate::guard::handles::Behind;
use crate::image::{encode, Image};
use model::words::*;
use std::fmt;

/// The number of a call's argument that stands for [`Question::beyond`].
pub const BEYOND: u32 = u32::MAX;
/// The modes as callers name them.
pub const READ_MODE: u32 = 1;
pub const WRITE_MODE: u32 = 2;
/// Validation has no code, nor has that of many, nor a look; in tables they stand below the eleven calls.
pub const VALIDATION: u8 = 101;
pub const BATCH: u8 = 102;
pub const LOOK: u8 = 103;
/// What validates handles.
#[rustfmt::skip]
pub const VALIDATING: [u8; 11] = [
    DELETE_CLUSTER, NEW_SEGMENT, DELETE_SEGMENT, READ, WRITE, REDUCE, NEW_PASSWORD, FREEZE, JOIN, VALIDATION, LOOK,
];
/// The rows of tables.
pub const CODES: [u8; 14] = [1, 2, 3, 4, 5, 6, 7, 8, 9, 10, 11, VALIDATION, BATCH, LOOK];

pub fn name(code: u8) -> &'static str {
    let call = CALLS.iter().find(|call| call.0 == code);
    match code {
        VALIDATION => "validation",
        BATCH => "batch",
        LOOK => "look",
        _ => call.expect("the eleven calls have names").1,
    }
}

/// A number as the model takes it.
pub fn narrow(number: usize) -> u32 {
    u32::try_from(number).unwrap_or(BEYOND)
}

pub type Memory = [u8; MEMORY_BYTES];

/// What a caller keeps and lends to calls.
#[derive(Clone, PartialEq, Eq)]
pub struct Held {
    pub image: Image,
    pub memory: Memory,
}

impl Held {
    /// The same memory with the records of a store.
    pub fn with(&self, store: &Store) -> Held {
        Held { image: encode(store), memory: self.memory.clone() }
    }
}

#[derive(Clone, PartialEq, Eq)]
pub struct Question {
    /// The call as the model gets it.
    pub call: Call,
    /// What the library gets for an argument that is [`BEYOND`] in the model's call. Both are out
    /// of every range; the library's numbers are wider.
    pub beyond: usize,
    /// A read's buffer or a write's data.
    pub buffer: Vec<u8>,
    /// What the library gets in a handle behind its length; the model's have no such bytes.
    pub behind: Behind,
}

impl Question {
    pub fn of(call: Call) -> Question {
        Question { call, beyond: BEYOND as usize, buffer: Vec::new(), behind: [0; HANDLE_MAX] }
    }

    /// The call's code, or [`VALIDATION`], or [`LOOK`].
    pub fn code(&self) -> u8 {
        match self.call {
            Call::NewCluster { .. } => NEW_CLUSTER,
            Call::DeleteCluster { .. } => DELETE_CLUSTER,
            Call::NewSegment { .. } => NEW_SEGMENT,
            Call::DeleteSegment { .. } => DELETE_SEGMENT,
            Call::Read { .. } => READ,
            Call::Write { .. } => WRITE,
            Call::Weaken { .. } => WEAKEN,
            Call::Reduce { .. } => REDUCE,
            Call::NewPassword { .. } => NEW_PASSWORD,
            Call::Freeze { .. } => FREEZE,
            Call::Join { .. } => JOIN,
            Call::Look { .. } => LOOK,
            Call::Validate { .. } => VALIDATION,
        }
    }

    /// Node and local number of the cluster that the call is about; there may be no such place.
    pub fn place(&self) -> Option<(usize, usize)> {
        match self.call {
            Call::NewCluster { node, local, .. } => Some((node as usize, local as usize)),
            _ => self.call.handle().map(|handle| (handle.node.into(), handle.local.into())),
        }
    }

    /// The bytes of the handle that the call presents; of the first, where it presents two.
    pub fn handle_mut(&mut self) -> Option<&mut HandleBytes> {
        self.call.presented_mut().into_iter().next()
    }

    /// Current node, segment and mode of a call by handles, those of them that it has.
    pub fn numbers_mut(&mut self) -> [Option<&mut u32>; 3] {
        match &mut self.call {
            Call::NewCluster { .. } | Call::Weaken { .. } => [None, None, None],
            Call::DeleteCluster { node, .. } => [Some(node), None, None],
            Call::NewSegment { node, segment, .. }
            | Call::DeleteSegment { node, segment, .. }
            | Call::Freeze { node, segment, .. }
            | Call::Look { node, segment, .. } => [Some(node), Some(segment), None],
            Call::Read { segment, .. } | Call::Write { segment, .. } => [None, Some(segment), None],
            Call::Reduce { mode, .. }
            | Call::NewPassword { mode, .. }
            | Call::Join { mode, .. }
            | Call::Validate { mode, .. } => [None, None, Some(mode)],
        }
    }

    /// The same with every handle changed that the call presents.
    pub fn with_handles(&self, mut change: impl FnMut(&mut Handle)) -> Question {
        let mut changed = self.clone();
        changed.call.presented_mut().into_iter().for_each(|bytes| change_handle(bytes, &mut change));
        changed
    }
}

/// Changes the handle that these bytes are of. Where their length is none of a handle's they stay.
pub fn change_handle(bytes: &mut HandleBytes, change: impl FnOnce(&mut Handle)) {
    if let Some(mut handle) = Handle::from_bytes(bytes) {
        change(&mut handle);
        *bytes = handle.to_bytes();
    }
}

impl fmt::Display for Question {
    fn fmt(&self, to: &mut fmt::Formatter) -> fmt::Result {
        let Question { call, beyond, buffer, behind } = self;
        let bytes = buffer.len();
        write!(to, "{call:?}, {BEYOND} standing for {beyond}, buffer of {bytes} bytes, {behind:02x?} behind the length")
    }
}

/// The reply, and with it all bytes of the buffer (or the data) afterwards.
#[derive(Clone, PartialEq, Eq)]
pub struct Answer {
    pub reply: Reply,
    pub buffer: Vec<u8>,
}

impl Answer {
    /// The bytes that a look shows, in the memory that it was lent; none where it was refused, and
    /// with other calls. `None` where the part is not one of this memory.
    pub fn shown<'a>(&self, held: &'a Held) -> Option<&'a [u8]> {
        self.reply.shown.of(&held.memory)
    }

    /// The handles that a call done has given.
    pub fn handles(&self, question: &Question) -> Vec<Handle> {
        let count = match question.code() {
            _ if !self.reply.is_done() => 0,
            NEW_CLUSTER => 2,
            WEAKEN | REDUCE | NEW_PASSWORD | JOIN => 1,
            _ => 0,
        };
        let handles = [&self.reply.first, &self.reply.second].into_iter().take(count);
        handles.filter_map(|bytes| Handle::from_bytes(bytes)).collect()
    }
}

impl fmt::Display for Answer {
    fn fmt(&self, to: &mut fmt::Formatter) -> fmt::Result {
        let Reply { number, first, second, count, length, shown: Part { from, length: shown } } = &self.reply;
        let [first, second] = [first, second].map(|handle| model::hexadecimal::encode(handle));
        write!(to, "number {number}, handles {first} {second}, count {count}, length {length}, ")?;
        write!(to, "shown {shown} from {from}")
    }
}
