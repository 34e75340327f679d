//! The stores that calls are measured on.

use library::words::*;

/// The cluster that calls are about, and one that a call can make.
pub const PLACE: (usize, usize) = (2, 3);
pub const FREE_PLACE: (usize, usize) = (2, 6);
/// The segment that is read, looked at, written, frozen and deleted.
pub const SEGMENT: usize = 1;

pub const TYPICAL_CLUSTERS: usize = 5;
const TYPICAL_SEGMENTS: usize = 2;
const TYPICAL_LENGTH: usize = 400;

/// No byte is free where every segment of clusters of this width has so many.
pub const fn full_length(width: Width) -> usize {
    NODE_BYTES / (CLUSTERS * width.segments())
}

/// The memory's bytes repeat after so many.
const PERIOD: usize = 251;

/// What every side begins with; no two nodes have the same bytes.
pub fn memory() -> Memory {
    std::array::from_fn(|at| (at % PERIOD) as u8)
}

pub fn held(store: &Store) -> Held {
    Held { image: encode(store), memory: memory() }
}

/// Every node has `clusters` active clusters of this width with `segments` segments each, one after the other. No two
/// have the same passwords.
fn store(width: Width, clusters: usize, segments: usize, length: usize) -> Store {
    let mut store = Store::starting();
    for (node, local) in everywhere().filter(|(_, local)| *local < clusters) {
        let number = (node * CLUSTERS + local) as u8;
        let cluster = &mut store.clusters[node][local];
        *cluster = Cluster::new(width, [0x10 + number; 16], [0x80 + number; 16]);
        for (at, segment) in cluster.segments[..segments].iter_mut().enumerate() {
            *segment = present((local * segments + at) * length, length);
        }
    }
    store
}

pub fn typical(width: Width) -> Store {
    store(width, TYPICAL_CLUSTERS, TYPICAL_SEGMENTS, TYPICAL_LENGTH)
}

/// The starting store with the one cluster of the typical one that calls are about.
pub fn lone() -> Store {
    let mut store = Store::starting();
    let (node, local) = PLACE;
    store.clusters[node][local] = typical(Width::Eight).clusters[node][local];
    store
}

/// The typical store, but one node has a single segment, of all its bytes.
pub fn one_large() -> Store {
    let mut store = typical(Width::Eight);
    for cluster in &mut store.clusters[PLACE.0] {
        cluster.segments = Cluster::INACTIVE.segments;
    }
    store.clusters[PLACE.0][PLACE.1].segments[SEGMENT] = present(0, NODE_BYTES);
    store
}

/// No segment of the width is absent and no byte is free.
pub fn full(width: Width) -> Store {
    store(width, CLUSTERS, width.segments(), full_length(width))
}

/// The full store without the cluster that a call makes.
pub fn full_but_a_cluster(width: Width) -> Store {
    let mut store = full(width);
    store.clusters[FREE_PLACE.0][FREE_PLACE.1] = Cluster::INACTIVE;
    store
}

/// The full store without the last segment of the cluster that calls are about.
pub fn full_but_a_segment(width: Width) -> Store {
    let mut store = full(width);
    store.clusters[PLACE.0][PLACE.1].segments[width.segments() - 1] = Segment::ABSENT;
    store
}

/// The same with segments from the highest base down, as the records go, and the free bytes highest.
pub fn falling(width: Width) -> Store {
    let mut store = full_but_a_segment(width);
    let length = full_length(width);
    for clusters in &mut store.clusters {
        let segments = clusters.iter_mut().rev().flat_map(|cluster| cluster.segments.iter_mut().rev());
        for (at, segment) in segments.filter(|segment| segment.is_present()).enumerate() {
            *segment = present(at * length, length);
        }
    }
    store
}
