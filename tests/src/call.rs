//! What can be asked of the guard, with its arguments, and what it replies.
//!
//! A look and validation have no code: lists do not ask for them.

use crate::{table::numbered, words::*};
use std::ops::Range;

numbered! {
    /// The codes with the calls' names, in order.
    CALLS:
    NEW_CLUSTER = 1 "new cluster",
    DELETE_CLUSTER = 2 "delete cluster",
    NEW_SEGMENT = 3 "new segment",
    DELETE_SEGMENT = 4 "delete segment",
    READ = 5 "read",
    WRITE = 6 "write",
    WEAKEN = 7 "weaken",
    REDUCE = 8 "reduce",
    NEW_PASSWORD = 9 "new password",
    FREEZE = 10 "freeze",
    JOIN = 11 "join",
}

/// One call, a look, or validation asked for by itself. Numbers are as the caller gave them, right
/// or wrong, and handles have any length; `node` is the current node. A read's buffer and a write's
/// data are handed over beside the call.
#[derive(Clone, Debug, PartialEq, Eq)]
pub enum Call {
    NewCluster { node: u32, local: u32, width: usize, read: Password, write: Password },
    DeleteCluster { node: u32, handle: HandleBytes },
    NewSegment { node: u32, segment: u32, size: u32, handle: HandleBytes },
    DeleteSegment { node: u32, segment: u32, handle: HandleBytes },
    Read { segment: u32, handle: HandleBytes },
    Write { segment: u32, handle: HandleBytes },
    Weaken { mask: u16, handle: HandleBytes },
    Reduce { mode: u32, handle: HandleBytes },
    NewPassword { mode: u32, handle: HandleBytes, password: Password },
    Freeze { node: u32, segment: u32, handle: HandleBytes },
    Join { mode: u32, handle: HandleBytes, other: HandleBytes },
    Look { node: u32, segment: u32, handle: HandleBytes },
    Validate { mode: u32, handle: HandleBytes },
}

/// One of these, with the field that they have in common.
macro_rules! any_of {
    (_: $($one:ident),*) => { $(Call::$one { .. })|* };
    ($field:ident: $($one:ident),*) => { $(Call::$one { $field, .. })|* };
}

impl Call {
    /// The bytes of every handle that the call presents, to be changed.
    pub fn presented_mut(&mut self) -> Vec<&mut HandleBytes> {
        match self {
            Call::NewCluster { .. } => vec![],
            Call::Join { handle, other, .. } => vec![handle, other],
            any_of!(handle: DeleteCluster, NewSegment, DeleteSegment, Read, Write, Freeze, Look) => vec![handle],
            any_of!(handle: Weaken, Reduce, NewPassword, Validate) => vec![handle],
        }
    }

    /// The bytes of the handle that the call presents; the first, where it presents two.
    pub fn handle_bytes(&self) -> Option<&[u8]> {
        match self {
            Call::NewCluster { .. } => None,
            any_of!(handle: DeleteCluster, NewSegment, DeleteSegment, Read, Write, Freeze, Look) => Some(handle),
            any_of!(handle: Weaken, Reduce, NewPassword, Join, Validate) => Some(handle),
        }
    }

    /// The bytes of every handle that the call presents: none, one, or the two of a join.
    pub fn presented_bytes(&self) -> impl Iterator<Item = &[u8]> {
        let other = match self {
            Call::Join { other, .. } => Some(other.as_slice()),
            _ => None,
        };
        self.handle_bytes().into_iter().chain(other)
    }

    /// The handle that the call presents, or the first; `None` also where its length is none of a
    /// handle's.
    pub fn handle(&self) -> Option<Handle> {
        Handle::from_bytes(self.handle_bytes()?)
    }

    /// Every handle that the call presents, but for those whose length is none of a handle's.
    pub fn presented(&self) -> impl Iterator<Item = Handle> + '_ {
        self.presented_bytes().filter_map(Handle::from_bytes)
    }

    pub fn current_node(&self) -> Option<u32> {
        match *self {
            any_of!(node: NewCluster, DeleteCluster, NewSegment, DeleteSegment, Freeze, Look) => Some(node),
            _ => None,
        }
    }

    pub fn segment(&self) -> Option<u32> {
        match *self {
            any_of!(segment: NewSegment, DeleteSegment, Read, Write, Freeze, Look) => Some(segment),
            _ => None,
        }
    }

    /// The mode that the call names, as it was given.
    pub fn named_mode(&self) -> Option<u32> {
        match *self {
            any_of!(mode: Reduce, NewPassword, Join, Validate) => Some(mode),
            _ => None,
        }
    }

    /// The mode in which each handle of the call has to validate; none where nothing is validated.
    pub fn needed_mode(&self) -> Option<Mode> {
        match self {
            Call::NewCluster { .. } | Call::Weaken { .. } => None,
            any_of!(_: DeleteCluster, NewSegment, DeleteSegment, Write, Freeze) => Some(Mode::Write),
            Call::Read { .. } | Call::Look { .. } => Some(Mode::Read),
            any_of!(mode: Reduce, NewPassword, Join, Validate) => Mode::from_number(*mode),
        }
    }

    pub fn needs_primary(&self) -> bool {
        numbers_of(self).contains(&NOT_PRIMARY)
    }

    /// Calls that move bytes between a segment and the buffer.
    pub fn moves_bytes(&self) -> bool {
        matches!(self, Call::Read { .. } | Call::Write { .. })
    }
}

/// A part of the lent memory: where it begins in there, and its length.
#[derive(Clone, Copy, Debug, PartialEq, Eq)]
pub struct Part {
    pub from: usize,
    pub length: usize,
}

impl Part {
    pub const NONE: Part = Part { from: 0, length: 0 };

    /// The bytes themselves; `None` where the part is not one of this memory.
    pub fn of<'a>(&self, memory: &'a [u8]) -> Option<&'a [u8]> {
        let end = self.from.checked_add(self.length)?;
        memory.get(self.from..end)
    }
}

impl From<Range<usize>> for Part {
    fn from(range: Range<usize>) -> Part {
        Part { from: range.start, length: range.len() }
    }
}

/// What a call gives back; fields that it does not give are zero, and handles have no bytes.
#[derive(Clone, Debug, PartialEq, Eq)]
pub struct Reply {
    pub number: u8,
    pub first: HandleBytes,
    pub second: HandleBytes,
    pub count: u32,
    pub length: u32,
    /// What a look shows.
    pub shown: Part,
}

impl Reply {
    /// A call done that gives nothing.
    pub const DONE: Reply = Reply::refused(DONE);

    pub const fn refused(number: u8) -> Reply {
        Reply { number, first: HandleBytes::new(), second: HandleBytes::new(), count: 0, length: 0, shown: Part::NONE }
    }

    pub fn with_handle(handle: &Handle) -> Reply {
        Reply { first: handle.to_bytes(), ..Reply::DONE }
    }

    pub fn is_done(&self) -> bool {
        self.number == DONE
    }
}
