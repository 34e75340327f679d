//! Sound stores by chance, from empty ones to ones in which nothing is left, with clusters of every width.

use super::words::WORD;
use crate::words::*;
use std::{collections::BTreeSet, ops::Range};

/// How many of so many segments are frozen is chosen for a store.
const FROZEN_OF: u64 = 8;
/// About the borders of words a node is cut into so many parts at most: there are not many more of these places.
const MOST_AT_WORDS: usize = 120;

listed! {
    pub enum Fill {
        /// The starting store's records.
        Empty,
        /// Some clusters are active and some segments present.
        Partial,
        /// Segments take every byte of every node; some are absent.
        NoByteFree,
        /// Every cluster is active and every segment of its width present.
        NoSegmentAbsent,
        /// Segments begin and end about the borders of words, one where the other ends.
        AtWords,
    }
}

impl Fill {
    /// One of them, the partial one most often.
    pub fn by_chance(random: &mut Random) -> Fill {
        match random.below(16) {
            0 => Fill::Empty,
            1..=3 => Fill::NoByteFree,
            4 | 5 => Fill::NoSegmentAbsent,
            6 | 7 => Fill::AtWords,
            _ => Fill::Partial,
        }
    }
}

pub fn store(random: &mut Random, fill: Fill) -> Store {
    let mut store = Store::starting();
    for clusters in &mut store.clusters {
        fill_node(random, clusters, fill);
    }
    freeze_some(random, &mut store);
    store
}

/// Marks no present segment, all of them, one of each cluster, or some.
fn freeze_some(random: &mut Random, store: &mut Store) {
    let share = match random.below(9) {
        0 | 1 => 0,
        2 => FROZEN_OF,
        3 => return freeze_one_of_each(random, store),
        _ => 1 + random.below(FROZEN_OF / 2),
    };
    let segments = store.clusters.as_flattened_mut().iter_mut().flat_map(|cluster| &mut cluster.segments);
    for segment in segments.filter(|segment| segment.is_present()) {
        segment.frozen = random.below(FROZEN_OF) < share;
    }
}

/// Often the last that the cluster has.
fn freeze_one_of_each(random: &mut Random, store: &mut Store) {
    for cluster in store.clusters.as_flattened_mut() {
        let mut present: Vec<&mut Segment> = cluster.segments.iter_mut().filter(|own| own.is_present()).collect();
        let chosen = match (present.len(), random.one_in(2)) {
            (0, _) => continue,
            (count, true) => count - 1,
            (count, false) => below(random, count),
        };
        present[chosen].frozen = true;
    }
}

/// The store with a memory that has any bytes.
pub fn held(random: &mut Random, store: &Store) -> Held {
    let mut memory = [0; MEMORY_BYTES];
    fill(random, &mut memory);
    Held { image: encode(store), memory }
}

fn fill_node(random: &mut Random, clusters: &mut [Cluster; CLUSTERS], fill: Fill) {
    let wanted = match fill {
        Fill::Empty => return,
        Fill::Partial | Fill::AtWords => CLUSTERS * 2 / 3,
        Fill::NoByteFree => CLUSTERS / 2,
        Fill::NoSegmentAbsent => CLUSTERS,
    };
    activate(random, clusters, wanted);
    let mut places = places(random, clusters);
    let all = places.len();
    places.truncate(match fill {
        Fill::Partial if random.one_in(4) => below(random, all + 1),
        Fill::Partial => below(random, 12 + 1),
        Fill::NoByteFree => 1 + below(random, all.min(12)),
        Fill::AtWords if random.one_in(2) => (1 + below(random, all)).min(MOST_AT_WORDS),
        Fill::AtWords => 1 + below(random, 4),
        _ => all,
    });
    let taken = places.len();
    // As many parts are left free as are taken, or none, or up to as many.
    let count = match fill {
        Fill::Partial => 2 * taken,
        Fill::NoSegmentAbsent => taken + below(random, 2) * taken,
        Fill::AtWords => (taken + below(random, taken + 1)).min(MOST_AT_WORDS),
        _ => taken,
    };
    let mut parts = parts(random, count, if fill == Fill::AtWords { about_a_word } else { anywhere });
    if fill != Fill::NoByteFree {
        random.shuffle(&mut parts);
    }
    for ((local, segment), part) in places.into_iter().zip(parts) {
        clusters[local].segments[segment] = present(part.base, part.length);
    }
}

/// Makes about `wanted` clusters active, and at least one.
fn activate(random: &mut Random, clusters: &mut [Cluster; CLUSTERS], wanted: usize) {
    let certain = below(random, CLUSTERS);
    for (local, cluster) in clusters.iter_mut().enumerate() {
        if local == certain || below(random, CLUSTERS) < wanted {
            *cluster = active(random);
        }
    }
}

/// An active cluster without segments, of any width.
pub fn active(random: &mut Random) -> Cluster {
    let width = width(random);
    active_of(random, width)
}

pub fn active_of(random: &mut Random, width: Width) -> Cluster {
    let (read, write) = passwords(random);
    Cluster::new(width, read, write)
}

/// The active clusters' segments, as local number and segment, in any order.
fn places(random: &mut Random, clusters: &[Cluster; CLUSTERS]) -> Vec<(usize, usize)> {
    let mut places: Vec<(usize, usize)> =
        (0..CLUSTERS).flat_map(|local| segments_of(&clusters[local]).map(move |segment| (local, segment))).collect();
    random.shuffle(&mut places);
    places
}

/// A place to cut a node's memory at, often near its ends.
fn anywhere(random: &mut Random) -> usize {
    match random.below(8) {
        0 => 1 + below(random, 3),
        1 => NODE_BYTES - 1 - below(random, 3),
        _ => 1 + below(random, NODE_BYTES - 1),
    }
}

/// A place to cut it at that is at the border of a word, or one byte off.
fn about_a_word(random: &mut Random) -> usize {
    let border = WORD * (1 + below(random, NODE_BYTES / WORD - 1));
    border - 1 + below(random, 3)
}

/// A node's memory cut into `count` parts, of one byte at least.
fn parts(random: &mut Random, count: usize, cut: fn(&mut Random) -> usize) -> Vec<Extent> {
    let mut ends = BTreeSet::new();
    while ends.len() + 1 < count {
        ends.insert(cut(random));
    }
    ends.extend([0, NODE_BYTES]);
    let ends: Vec<usize> = ends.into_iter().collect();
    ends.windows(2).map(|two| Extent { base: two[0], length: two[1] - two[0] }).collect()
}

pub fn present(base: usize, length: usize) -> Segment {
    Segment::present(base as u16, length as u16)
}

/// The segments that a cluster can have; none where it is inactive.
pub fn segments_of(cluster: &Cluster) -> Range<usize> {
    0..cluster.known_width().map_or(0, Width::segments)
}

/// The present segments of a node in the order of their bases.
pub fn extents(store: &Store, node: usize) -> Vec<Extent> {
    let segments = store.clusters[node].iter().flat_map(|cluster| &cluster.segments);
    let mut extents: Vec<Extent> = segments.filter_map(Segment::extent).collect();
    extents.sort();
    extents
}

/// The parts of a sound store's node that no segment takes.
pub fn gaps(store: &Store, node: usize) -> Vec<Extent> {
    let mut base = 0;
    let mut gaps = Vec::new();
    let end = Extent { base: NODE_BYTES, length: 0 };
    for taken in extents(store, node).into_iter().chain([end]) {
        if base < taken.base {
            gaps.push(Extent { base, length: taken.base - base });
        }
        base = taken.end();
    }
    gaps
}
