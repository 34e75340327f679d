//! Two copies of a store and the cluster that is set apart in them: what comparisons of copies share.

use crate::words::*;
use std::ops::Range;

/// A pair of copies and the place of the cluster that is set apart.
pub struct Pair {
    pub copies: [Held; 2],
    pub apart: (usize, usize),
}

impl Pair {
    /// The copies as they are.
    pub fn stores(&self) -> Result<[Store; 2], String> {
        match self.copies.each_ref().map(|copy| decode(&copy.image)) {
            [Some(first), Some(second)] => Ok([first, second]),
            _ => Err("a copy is damaged".to_string()),
        }
    }

    /// Whether the handle names the cluster set apart.
    pub fn is_apart(&self, handle: &Handle) -> bool {
        names(handle, self.apart)
    }

    /// The same of its bytes.
    pub fn is_named_by(&self, bytes: &[u8]) -> bool {
        Handle::from_bytes(bytes).is_some_and(|handle| self.is_apart(&handle))
    }

    /// Whether some handle of the call does.
    pub fn names_apart(&self, call: &Call) -> bool {
        call.presented().any(|handle| self.is_apart(&handle))
    }

    /// The cluster set apart in a store.
    pub fn cluster<'a>(&self, store: &'a Store) -> &'a Cluster {
        &store.clusters[self.apart.0][self.apart.1]
    }

    /// Whether this is so of it in one of the stores and not in the other.
    pub fn in_one(&self, stores: &[Store; 2], is_so: impl Fn(&Cluster) -> bool) -> bool {
        let [one, other] = stores.each_ref().map(|store| is_so(self.cluster(store)));
        one != other
    }
}

pub fn names(handle: &Handle, place: (usize, usize)) -> bool {
    (usize::from(handle.node), usize::from(handle.local)) == place
}

/// A cluster to be set apart: one that has segments, if there is one, and else one that is active.
pub fn set_apart(random: &mut Random, store: &Store) -> (usize, usize) {
    let with_segments = handles::place(random, store, |cluster| cluster.has_segments());
    let active = handles::place(random, store, |cluster| cluster.active);
    with_segments.or(active).expect("some cluster is active")
}

/// The parts of the memory that are the segments of a cluster.
pub fn parts_of(store: &Store, (node, local): (usize, usize)) -> Vec<Range<usize>> {
    let extents = store.clusters[node][local].segments.iter().filter_map(Segment::extent);
    extents.map(|extent| extent.in_memory(node)).collect()
}

/// Whether the store does the call, as the model judges; it has a buffer of so many bytes.
pub fn does(store: &Store, call: &Call, buffer_bytes: usize) -> bool {
    refusal(call, &Found::whole(store, buffer_bytes)).is_none()
}

/// Whether the handle validates in one of the modes in one of the stores, as the model judges. One of another width
/// than its cluster's does not.
pub fn validates(stores: &[Store; 2], handle: &Handle, modes: &[Mode]) -> bool {
    let validates = |store: &Store, mode: &Mode| does(store, &Call::validate(mode.number(), *handle), 0);
    stores.iter().any(|store| modes.iter().any(|mode| validates(store, mode)))
}

/// Puts the question to both copies. Gives the answer that both get, or tells in what they differ: in the answer, in
/// the bytes shown, or in what `agree` looks at afterwards.
pub fn ask_both(
    guard: Guard,
    copies: &mut [Held; 2],
    question: &Question,
    agree: impl FnOnce(&[Held; 2]) -> Result<(), String>,
) -> Result<Answer, String> {
    let [first, second] = copies.each_mut().map(|copy| guard(copy, question));
    let [one, other] = &*copies;
    let same = same_answer(&first, &second)
        .and_then(|()| same_shown([(&first, one), (&second, other)]))
        .and_then(|()| agree(copies));
    match same {
        Ok(()) => Ok(first),
        Err(what) => Err(format!("{what}\n  asked:  {question}\n  first:  {first}\n  second: {second}")),
    }
}
