//! A register of handles given out: the handles of its entries, and which of them reference a segment. Each entry is
//! worked out by itself, from the handle supplied.

use crate::{cuts, words::*};

/// The entry that it was weakened from, then the mask.
pub const ENTRY_BYTES: usize = 2;
pub const MOST_ENTRIES: usize = 255;
/// That of all handles of a register.
pub const WIDTH: Width = Width::Eight;

/// One of the two questions: for all handles, or, where it names a segment, for those who open that.
#[derive(Clone, Debug, PartialEq, Eq)]
pub struct Inquiry {
    /// The handle supplied.
    pub handle: HandleBytes,
    pub segment: Option<usize>,
    pub entries: Vec<u8>,
}

/// What is told beside the bytes of the buffer: the entry that the number is about, 0 for the call as a whole, and how
/// many entries open the segment.
#[derive(Clone, Copy, Debug, PartialEq, Eq)]
pub struct Finding {
    pub number: u8,
    pub entry: usize,
    pub count: usize,
}

impl Finding {
    pub const fn refused(number: u8, entry: usize) -> Finding {
        Finding { number, entry, count: 0 }
    }

    pub const fn done(count: usize) -> Finding {
        Finding { number: DONE, entry: 0, count }
    }
}

type Row = (u8, fn(&Inquiry, usize) -> bool);

/// What the call as a whole is refused with, in the order looked at; the number beside the inquiry is how many bytes
/// the buffer has. Each test is judged by itself.
const ROWS: [Row; 6] = [
    (LENGTH, |asked, _| asked.handle.len() != WIDTH.handle_bytes()),
    (NO_SUCH_PLACE, |asked, _| asked.supplied().is_some_and(|handle| handle.node > 3 || handle.local > 7)),
    (FIELD, |asked, _| asked.segment.is_some_and(|segment| segment > 7)),
    (GAPPED, |asked, _| asked.supplied().is_some_and(|handle| handle.selector.is_gapped())),
    (LIST_LENGTH, |asked, _| asked.entries.len() % ENTRY_BYTES != 0 || asked.count() > MOST_ENTRIES),
    (SHORT, |asked, bytes| bytes < asked.needed()),
];

/// What an entry is refused with: two by its way, and two by a step.
pub const OF_ENTRIES: [u8; 4] = [LINK, LOOP, EMPTY, SPENT];

impl Inquiry {
    /// The numbers of its question, in the order looked at.
    pub fn numbers(&self) -> Vec<u8> {
        let all = ROWS.iter().map(|(number, _)| *number).chain(OF_ENTRIES);
        all.filter(|number| *number != FIELD || self.segment.is_some()).collect()
    }

    /// `None` where the length is none of a handle's.
    pub fn supplied(&self) -> Option<Handle> {
        Handle::from_bytes(&self.handle)
    }

    /// How many entries there are whole.
    pub fn count(&self) -> usize {
        self.entries.len() / ENTRY_BYTES
    }

    /// An entry by its number, from 1: the number of the one that it was weakened from, and the mask.
    pub fn entry(&self, number: usize) -> (usize, u8) {
        let at = ENTRY_BYTES * (number - 1);
        (self.entries[at].into(), self.entries[at + 1])
    }

    /// How many bytes the buffer needs, whatever the answer is.
    pub fn needed(&self) -> usize {
        match self.segment {
            None => WIDTH.handle_bytes() * self.count(),
            Some(_) => self.count(),
        }
    }

    /// The numbers that apply to the call as a whole, in the order looked at.
    pub fn applying(&self, buffer_bytes: usize) -> impl Iterator<Item = u8> + '_ {
        ROWS.iter().filter(move |(_, applies)| applies(self, buffer_bytes)).map(|(number, _)| *number)
    }

    /// The entries from this one to the one that was weakened from the handle supplied, as far as the way goes, and
    /// what ends it before.
    pub fn way(&self, entry: usize) -> (Vec<usize>, Option<u8>) {
        let (mut way, mut at) = (Vec::new(), entry);
        let mut met = vec![false; self.count() + 1];
        while at != 0 {
            if at > self.count() {
                return (way, Some(LINK));
            }
            if met[at] {
                return (way, Some(LOOP));
            }
            met[at] = true;
            way.push(at);
            at = self.entry(at).0;
        }
        (way, None)
    }

    /// The handle supplied, weakened along a way from there downwards; or the number of the first step that is refused.
    pub fn steps(&self, way: &[usize]) -> Result<Handle, u8> {
        let supplied = self.supplied().ok_or(LENGTH)?;
        way.iter().rev().try_fold(supplied, |handle, entry| step(handle, self.entry(*entry).1))
    }

    /// The handle of an entry, or the number that it fails with.
    pub fn handle_of(&self, entry: usize) -> Result<Handle, u8> {
        match self.way(entry) {
            (_, Some(number)) => Err(number),
            (way, None) => self.steps(&way),
        }
    }

    /// All handles, or the number of the refusal and the entry.
    fn handles(&self, buffer_bytes: usize) -> Result<Vec<Handle>, (u8, usize)> {
        if let Some(number) = self.applying(buffer_bytes).next() {
            return Err((number, 0));
        }
        (1..=self.count()).map(|entry| self.handle_of(entry).map_err(|number| (number, entry))).collect()
    }
}

/// One weakening, with the number of call 7 where that is refused.
pub fn step(handle: Handle, mask: u8) -> Result<Handle, u8> {
    cuts::step(handle, mask.into())
}

/// Answers an inquiry. A refusal leaves the buffer as it is; else its first bytes are written.
pub fn run(inquiry: &Inquiry, buffer: &mut [u8]) -> Finding {
    let handles = match inquiry.handles(buffer.len()) {
        Err((number, entry)) => return Finding::refused(number, entry),
        Ok(handles) => handles,
    };
    let (given, count) = match inquiry.segment {
        None => (handles.iter().flat_map(Handle::to_bytes).collect(), 0),
        Some(segment) => {
            let entries = (1..=u8::MAX).zip(&handles).filter(|(_, handle)| handle.selector.references(segment));
            let openers: Vec<u8> = entries.map(|(entry, _)| entry).collect();
            let count = openers.len();
            (openers, count)
        }
    };
    buffer[..given.len()].copy_from_slice(&given);
    Finding::done(count)
}
