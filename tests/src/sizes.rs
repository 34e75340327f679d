//! How many there are of everything.

pub const NODES: usize = 4;
/// Clusters of one node.
pub const CLUSTERS: usize = 8;
/// Segments that a cluster's record has room for; how many the cluster has is its width.
pub const SEGMENTS: usize = 16;
/// Segments that one node can hold at most.
pub const NODE_SEGMENTS: usize = CLUSTERS * SEGMENTS;
/// Bytes of one node's memory; also the greatest length of a segment.
pub const NODE_BYTES: usize = 4096;
/// Bytes of the four memories together.
pub const MEMORY_BYTES: usize = NODES * NODE_BYTES;

pub const PASSWORD_BYTES: usize = 16;
pub const SUBSELECTORS: usize = 4;
