//! Calls by chance for a list: half of them by those who write to the cluster, many about others of its node.

use crate::pairs::{does, names, validates, Pair};
use crate::words::*;
use std::ops::Range;

/// What writers do at any time.
const WRITING: [u8; 14] = [3, 3, 3, 4, 4, 6, 6, 6, 7, 8, 9, 9, 11, VALIDATION];
/// What asks for reading, or does so in one of the modes.
const READING: [u8; 6] = [5, LOOK, 8, 9, 11, VALIDATION];
/// What the others of the node do, by whom memory changes hands.
const BESIDE: [u8; 11] = [3, 3, 3, 4, 4, 5, 5, 5, 6, LOOK, LOOK];
/// The call from which on late freezes come.
const LATE: u64 = 80;
const TRIES: usize = 4;

/// What the writers of a list do beside the rest. A cluster of which something is frozen is never deleted, so that few
/// freeze from the start on; and copies differ little in one that was made anew, so that not all delete it.
#[derive(Clone, Copy, PartialEq, Eq)]
pub(super) enum Asking {
    Freezing,
    FreezingLate,
    Deleting,
}

/// What a question is made from: the store is one of the copies, and `given` are handles that earlier calls gave.
struct Made<'a> {
    random: &'a mut Random,
    pair: &'a Pair,
    store: &'a Store,
    given: &'a [Handle],
}

impl Asking {
    pub fn by_chance(random: &mut Random) -> Asking {
        match random.below(4) {
            0 => Asking::Freezing,
            1 => Asking::FreezingLate,
            _ => Asking::Deleting,
        }
    }

    /// The codes of what writers do in the list's call of this number.
    fn codes(self, at: u64) -> Vec<u8> {
        let more: &[u8] = match self {
            Asking::Freezing => &[FREEZE, DELETE_CLUSTER],
            Asking::FreezingLate if at >= LATE => &[FREEZE],
            Asking::FreezingLate => &[],
            Asking::Deleting => &[DELETE_CLUSTER],
        };
        [&WRITING, more].concat()
    }

    /// A question that a list may have: where it asks for reading, no handle of the cluster that it presents validates
    /// for reading, in either copy.
    pub fn question(
        self,
        random: &mut Random,
        pair: &Pair,
        stores: &[Store; 2],
        given: &[Handle],
        at: u64,
    ) -> Question {
        let reads = |handle: Handle| pair.is_apart(&handle) && validates(stores, &handle, &[Mode::Read]);
        loop {
            let store = &stores[below(random, stores.len())];
            let question = Made { random, pair, store, given }.question(&self.codes(at));
            let call = &question.call;
            if call.needed_mode() != Some(Mode::Read) || !call.presented().any(reads) {
                return question;
            }
        }
    }
}

impl Made<'_> {
    fn question(mut self, writing: &[u8]) -> Question {
        let active = self.pair.cluster(self.store).active;
        match self.random.below(16) {
            0 => self.anew(),
            1 | 2 if !active => self.anew(),
            1..=7 => {
                let mut question = self.likely(self.pair.apart, writing);
                if self.random.one_in(4) {
                    self.guess(&mut question);
                }
                question
            }
            8 | 9 => self.as_if_to_read(),
            10..=14 => {
                let beside = self.beside();
                self.likely(beside, &BESIDE)
            }
            _ => Maker { random: self.random, store: self.store, given: self.given }.question(&FILLING),
        }
    }

    /// Call 1 for the cluster, at any width.
    fn anew(&mut self) -> Question {
        let (node, local) = self.pair.apart;
        let (read, write) = passwords(self.random);
        let width = width(self.random).segments();
        Question::of(Call::NewCluster { node: node as u32, local: local as u32, width, read, write })
    }

    /// A question of those who know one cluster alone; one that is done, if a few tries come to it.
    fn likely(&mut self, place: (usize, usize), codes: &[u8]) -> Question {
        let mut question = self.of(place, codes);
        for _ in 0..below(self.random, TRIES) {
            if does(self.store, &question.call, question.buffer.len()) {
                break;
            }
            question = self.of(place, codes);
        }
        question
    }

    /// A question of those who know one cluster alone.
    fn of(&mut self, place: (usize, usize), codes: &[u8]) -> Question {
        let mut known = Store::starting();
        known.clusters[place.0][place.1] = self.store.clusters[place.0][place.1];
        let given: Vec<Handle> = self.given.iter().filter(|handle| names(handle, place)).copied().collect();
        let mut question = Maker { random: self.random, store: &known, given: &given }.question(codes);
        if let (Call::NewSegment { size, .. }, true) = (&mut question.call, self.random.one_in(2)) {
            let gap = self.random.pick(&gaps(self.store, place.0)).copied();
            *size = gap.map_or(*size, |gap| gap.length as u32);
        }
        question
    }

    /// Makes the data of a write what lies there in one of the copies.
    fn guess(&mut self, question: &mut Question) {
        if let Some(part) = written_part(self.store, self.pair, question) {
            let copy = &self.pair.copies[below(self.random, 2)];
            question.buffer = copy.memory[part].to_vec();
        }
    }

    /// One that may ask for reading by handles that write, by passwords that are one bit off, or by handles that would
    /// read if they were as wide as the cluster.
    fn as_if_to_read(&mut self) -> Question {
        let cluster = self.pair.cluster(self.store);
        let question = self.of(self.pair.apart, &READING);
        let (random, store) = (&mut *self.random, self.store);
        let other_width = random.one_in(4);
        question.with_handles(|handle| {
            if other_width {
                handle.password = derive(&cluster.read, &handle.selector);
                *handle = of_another_width(random, store, *handle);
                return;
            }
            handle.password = match random.below(4) {
                0 => handle.password,
                1 => near(random, handle.password),
                _ => derive(&cluster.write, &handle.selector),
            };
        })
    }

    /// Another cluster of the node, an active one if there is one.
    fn beside(&mut self) -> (usize, usize) {
        let (node, local) = self.pair.apart;
        let active = |other: &usize| *other != local && self.store.clusters[node][*other].active;
        let others: Vec<usize> = (0..CLUSTERS).filter(active).collect();
        (node, self.random.pick(&others).copied().unwrap_or((local + 1) % CLUSTERS))
    }
}

/// The part of the memory that a write to a segment of the cluster is about.
pub(super) fn written_part(store: &Store, pair: &Pair, question: &Question) -> Option<Range<usize>> {
    let Call::Write { segment, handle } = &question.call else { return None };
    let handle = Handle::from_bytes(handle).filter(|handle| pair.is_apart(handle))?;
    let segments = &store.cluster_of(&handle)?.segments;
    Some(segments.get(*segment as usize)?.extent()?.in_memory(handle.node.into()))
}
