//! Memory that was the cluster's when it was given back, and what is made there afterwards.

use super::count::Deed;
use crate::pairs::{names, parts_of};
use model::words::*;

/// A segment as node, local number and segment.
type Named = (usize, usize, usize);

pub(super) struct Freed {
    apart: (usize, usize),
    /// Whether each byte was the cluster's when it was given back, and is no segment's since.
    bytes: Vec<bool>,
    /// Segments of other clusters that were made there, and to which nothing was written.
    made: Vec<Named>,
}

impl Freed {
    pub fn new(apart: (usize, usize)) -> Freed {
        Freed { apart, bytes: vec![false; MEMORY_BYTES], made: Vec::new() }
    }

    /// What a call that was done comes to in such memory, if anything. A read or a look has shown these bytes.
    pub fn note(&mut self, [before, after]: [&Store; 2], call: &Call, shown: &[u8]) -> Option<Deed> {
        let kept = parts_of(after, self.apart);
        for part in parts_of(before, self.apart) {
            if !kept.contains(&part) {
                self.bytes[part].fill(true);
            }
        }
        let handle = call.handle()?;
        match (call, named(&handle, call.segment())) {
            (Call::NewSegment { .. }, Some(named)) => self.note_new(after, named),
            (Call::Write { .. } | Call::DeleteSegment { .. }, Some(named)) => {
                self.made.retain(|made| *made != named);
                None
            }
            (Call::DeleteCluster { .. }, _) => {
                let deleted = |made: &Named| names(&handle, (made.0, made.1));
                self.made.retain(|made| !deleted(made));
                None
            }
            (Call::Read { .. } | Call::Look { .. }, Some(named)) => {
                (shown.iter().all(|byte| *byte == 0) && self.made.contains(&named)).then_some("ReadByAnother")
            }
            _ => None,
        }
    }

    fn note_new(&mut self, after: &Store, (node, local, segment): Named) -> Option<Deed> {
        let segments = &after.cluster(node, local)?.segments;
        let part = segments.get(segment)?.extent()?.in_memory(node);
        let again = self.bytes[part.clone()].contains(&true);
        self.bytes[part].fill(false);
        if !again {
            return None;
        }
        if (node, local) == self.apart {
            return Some("MadeAgain");
        }
        self.made.push((node, local, segment));
        Some("MadeByAnother")
    }
}

fn named(handle: &Handle, segment: Option<u32>) -> Option<Named> {
    Some((handle.node.into(), handle.local.into(), segment? as usize))
}
