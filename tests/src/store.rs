//! The records of all clusters, when they are sound, and where a new segment goes.
//!
//! The types hold damaged stores too: any base, any length, a mark on an absent segment, an inactive
//! cluster with secrets, any width.

use crate::{listed, words::*};
use std::ops::Range;

/// Where a segment is in its node's memory, if it is there.
#[derive(Clone, Copy, Debug, PartialEq, Eq)]
pub enum Place {
    Absent,
    Present { base: u16, length: u16 },
}

/// A segment's place and, beside it, its mark.
#[derive(Clone, Copy, Debug, PartialEq, Eq)]
pub struct Segment {
    pub place: Place,
    pub frozen: bool,
}

impl Segment {
    pub const ABSENT: Segment = Segment { place: Place::Absent, frozen: false };

    /// Present and not frozen, as new ones are.
    pub const fn present(base: u16, length: u16) -> Segment {
        Segment { place: Place::Present { base, length }, frozen: false }
    }

    /// The same with its mark set.
    pub const fn marked(self) -> Segment {
        Segment { frozen: true, ..self }
    }

    pub fn is_present(&self) -> bool {
        self.place != Place::Absent
    }

    /// An absent segment is never frozen.
    fn is_sound(&self) -> bool {
        self.is_present() || !self.frozen
    }

    /// The bytes of its node's memory that a present segment has.
    pub fn extent(&self) -> Option<Extent> {
        match self.place {
            Place::Absent => None,
            Place::Present { base, length } => Some(Extent { base: usize::from(base), length: usize::from(length) }),
        }
    }
}

/// A part of one node's memory, in a width in which base plus length cannot wrap.
#[derive(Clone, Copy, Debug, Default, PartialEq, Eq, PartialOrd, Ord)]
pub struct Extent {
    pub base: usize,
    pub length: usize,
}

impl Extent {
    pub fn end(&self) -> usize {
        self.base + self.length
    }

    fn is_inside_a_node(&self) -> bool {
        self.base < NODE_BYTES && self.length >= 1 && self.end() <= NODE_BYTES
    }

    /// The same bytes as places of the slice that joins the four memories.
    pub fn in_memory(&self, node: usize) -> Range<usize> {
        let start = node * NODE_BYTES + self.base;
        start..start + self.length
    }
}

listed! {
    pub enum Mode { Read, Write }
}

impl Mode {
    pub fn from_number(number: u32) -> Option<Mode> {
        Mode::ALL.into_iter().find(|mode| mode.number() == number)
    }

    /// 1 or 2.
    pub fn number(self) -> u32 {
        self as u32 + 1
    }

    pub fn other(self) -> Mode {
        match self {
            Mode::Read => Mode::Write,
            Mode::Write => Mode::Read,
        }
    }
}

#[derive(Clone, Copy, Debug, PartialEq, Eq)]
pub struct Cluster {
    pub active: bool,
    /// How many segments it has; 0 where it is inactive.
    pub width: u8,
    pub read: Password,
    pub write: Password,
    pub segments: [Segment; SEGMENTS],
}

impl Cluster {
    /// A cluster as it is in the starting store.
    pub const INACTIVE: Cluster = Cluster {
        active: false,
        width: 0,
        read: [0; PASSWORD_BYTES],
        write: [0; PASSWORD_BYTES],
        segments: [Segment::ABSENT; SEGMENTS],
    };

    /// An active cluster as call 1 makes it.
    pub fn new(width: Width, read: Password, write: Password) -> Cluster {
        Cluster { active: true, width: width.number(), read, write, ..Cluster::INACTIVE }
    }

    pub fn has_segments(&self) -> bool {
        any_present(&self.segments)
    }

    pub fn has_frozen(&self) -> bool {
        self.segments.iter().any(|segment| segment.frozen)
    }

    /// The width, where it is one that an active cluster may have.
    pub fn known_width(&self) -> Option<Width> {
        Width::of_segments(self.width.into())
    }

    pub fn has_width(&self, width: Width) -> bool {
        self.known_width() == Some(width)
    }

    /// An active cluster has one of the three widths, and no segment at or above it. An inactive one has
    /// width 0, and keeps no passwords and no segments.
    fn is_sound(&self) -> bool {
        let zero = [0; PASSWORD_BYTES];
        let fits = match (self.active, self.known_width()) {
            (true, Some(width)) => !any_present(&self.segments[width.segments()..]),
            (true, None) => false,
            (false, _) => {
                let keeps_nothing = self.read == zero && self.write == zero;
                self.width == 0 && keeps_nothing && !self.has_segments()
            }
        };
        fits && self.segments.iter().all(Segment::is_sound)
    }

    /// Whether it is active and one handle opens both its modes: call 1 makes no such cluster, but
    /// call 9 may leave one.
    pub fn has_equal_passwords(&self) -> bool {
        self.active && self.read == self.write
    }

    pub fn primary(&self, mode: Mode) -> &Password {
        match mode {
            Mode::Read => &self.read,
            Mode::Write => &self.write,
        }
    }

    pub fn primary_mut(&mut self, mode: Mode) -> &mut Password {
        match mode {
            Mode::Read => &mut self.read,
            Mode::Write => &mut self.write,
        }
    }
}

/// The present segments of one node's active clusters in the order of their bases. Each is one
/// word, its base above its length, so that sorting compares words.
struct Extents {
    list: [u32; NODE_SEGMENTS],
    count: usize,
}

impl Extents {
    fn of(clusters: &[Cluster; CLUSTERS]) -> Extents {
        let mut list = [0; NODE_SEGMENTS];
        let mut count = 0;
        let active = clusters.iter().filter(|cluster| cluster.active);
        for segment in active.flat_map(|cluster| &cluster.segments) {
            if let Place::Present { base, length } = segment.place {
                list[count] = u32::from(base) << 16 | u32::from(length);
                count += 1;
            }
        }
        list[..count].sort_unstable();
        Extents { list, count }
    }

    fn iter(&self) -> impl Iterator<Item = Extent> + '_ {
        self.list[..self.count]
            .iter()
            .map(|word| Extent { base: (word >> 16) as usize, length: (word & 0xffff) as usize })
    }

    /// Each inside the node, and each ended where the next begins: then no two share a byte.
    fn are_sound(&self) -> bool {
        let mut free_from = 0;
        self.iter().all(|extent| {
            let sound = extent.is_inside_a_node() && free_from <= extent.base;
            free_from = extent.end();
            sound
        })
    }
}

#[derive(Clone, Debug, PartialEq, Eq)]
pub struct Store {
    pub clusters: [[Cluster; CLUSTERS]; NODES],
}

impl Store {
    /// The starting store: every cluster inactive.
    pub fn starting() -> Store {
        Store { clusters: [[Cluster::INACTIVE; CLUSTERS]; NODES] }
    }

    pub fn cluster(&self, node: usize, local: usize) -> Option<&Cluster> {
        self.clusters.get(node)?.get(local)
    }

    /// The cluster that the handle names, if there is such a place.
    pub fn cluster_of(&self, handle: &Handle) -> Option<&Cluster> {
        self.cluster(handle.node.into(), handle.local.into())
    }

    /// Soundness, for a memory slice of `memory_bytes` bytes.
    pub fn is_sound(&self, memory_bytes: usize) -> bool {
        memory_bytes == MEMORY_BYTES && self.clusters.iter().all(node_is_sound)
    }

    /// The smallest base at which `size` bytes are free in the node; asked of sound stores alone.
    pub fn place(&self, node: usize, size: usize) -> Option<usize> {
        let mut base = 0;
        for extent in Extents::of(&self.clusters[node]).iter() {
            if extent.base - base >= size {
                return Some(base);
            }
            base = extent.end();
        }
        (NODE_BYTES - base >= size).then_some(base)
    }
}

fn any_present(segments: &[Segment]) -> bool {
    segments.iter().any(Segment::is_present)
}

fn node_is_sound(clusters: &[Cluster; CLUSTERS]) -> bool {
    clusters.iter().all(Cluster::is_sound) && Extents::of(clusters).are_sound()
}
