//! What is frozen and has to stay, for those who watch a row of calls; and what calls come to where something
//! is frozen.

use crate::{met::Row, words::*};
use std::collections::BTreeMap;
use Kind::*;

/// Node, local number and segment.
type Name = (usize, usize, usize);
type Met = BTreeMap<Name, (Place, Vec<u8>)>;

/// Every frozen segment that was met, with its place and its bytes as they were then.
#[derive(Clone, Default)]
pub struct Watch(Met);

impl Watch {
    /// `Err` where a segment that was met is no longer frozen in an active cluster, or has another place or
    /// other bytes. What is frozen now is met by this.
    pub fn see(&mut self, store: &Store, memory: &[u8]) -> Result<(), String> {
        let mut now = frozen(store, memory);
        if let Some(((node, local, segment), _)) = self.0.iter().find(|(name, met)| now.get(name) != Some(met)) {
            let which = format!("segment {segment} of cluster {local} of node {node}");
            return Err(format!("a frozen segment does not stay: {which}"));
        }
        self.0.append(&mut now);
        Ok(())
    }

    /// How many were met.
    pub fn met(&self) -> usize {
        self.0.len()
    }
}

fn frozen(store: &Store, memory: &[u8]) -> Met {
    let mut met = Met::new();
    for (at, cluster) in store.clusters.as_flattened().iter().enumerate().filter(|(_, cluster)| cluster.active) {
        let (node, local) = (at / CLUSTERS, at % CLUSTERS);
        for (at, segment) in cluster.segments.iter().enumerate().filter(|(_, segment)| segment.frozen) {
            let bytes = segment.extent().and_then(|extent| memory.get(extent.in_memory(node)));
            met.extend(bytes.map(|bytes| ((node, local, at), (segment.place, bytes.to_vec()))));
        }
    }
    met
}

/// The marks that a call finds.
pub struct Marks {
    /// The segment that the call is about is frozen.
    own: bool,
    /// The buffer or the data is shorter than it.
    short: bool,
    /// The frozen segments of its cluster as a set of bits, and the bit of the last one that the width allows.
    all: u32,
    last: u32,
    /// Some cluster of the node has a frozen segment.
    in_node: bool,
}

impl Marks {
    pub fn of(found: &Found, call: &Call) -> Option<Marks> {
        let handle = call.handle()?;
        let cluster = found.store.cluster_of(&handle)?;
        let segment = call.segment().and_then(|segment| cluster.segments.get(segment as usize));
        let extent = segment.and_then(Segment::extent);
        let marks = cluster.segments.iter().enumerate().map(|(at, segment)| u32::from(segment.frozen) << at);
        Some(Marks {
            own: segment.is_some_and(|segment| segment.frozen),
            short: extent.is_some_and(|extent| found.buffer_bytes < extent.length),
            all: marks.sum(),
            last: cluster.known_width().map_or(0, |width| 1 << (width.segments() - 1)),
            in_node: found.store.clusters[usize::from(handle.node)].iter().any(Cluster::has_frozen),
        })
    }
}

/// What calls come to where something is frozen. What is made by chance has to come to each.
pub const CASES: [Row<Marks>; 18] = [
    // A freeze of a segment that is frozen is done.
    ("Again", &[Freeze], DONE, |marks| marks.own),
    // 22 for call 2: by segment 0 alone, by the last of its width alone, by others and not by segment 0.
    ("FirstAlone", &[DeleteCluster], FROZEN, |marks| marks.all == 1),
    ("LastAlone", &[DeleteCluster], FROZEN, |marks| marks.all == marks.last),
    ("NotTheFirst", &[DeleteCluster], FROZEN, |marks| marks.all & 1 == 0 && marks.all != marks.last),
    // Something of the cluster is frozen, and for call 2 there is 9 or 10 before 22.
    ("ClusterViolatedFirst", &[DeleteCluster], VIOLATED_PROTECTION, |marks| marks.all != 0),
    ("ClusterNotPrimaryFirst", &[DeleteCluster], NOT_PRIMARY, |marks| marks.all != 0),
    // Call 2 is done, and another cluster of the node has a frozen segment.
    ("OtherClusterDeleted", &[DeleteCluster], DONE, |marks| marks.in_node),
    ("Present", &[NewSegment], PRESENT, |marks| marks.own),
    // The segment is frozen, and there is 9, 10 or 11 before 22.
    ("ViolatedFirst", &[DeleteSegment, Write], VIOLATED_PROTECTION, |marks| marks.own),
    ("NotPrimaryFirst", &[DeleteSegment], NOT_PRIMARY, |marks| marks.own),
    ("NotReferencedFirst", &[Write], NOT_REFERENCED, |marks| marks.own),
    // 22 for call 6 with data that is short, and with data that is not.
    ("Short", &[Write], FROZEN, |marks| marks.short),
    ("LongEnough", &[Write], FROZEN, |marks| !marks.short),
    // Done beside a frozen segment of the same cluster.
    ("OtherDeleted", &[DeleteSegment], DONE, |marks| marks.all != 0),
    ("OtherWritten", &[Write], DONE, |marks| marks.all != 0),
    // Done with a frozen one as with any other.
    ("Read", &[Read], DONE, |marks| marks.own),
    ("Shown", &[Look], DONE, |marks| marks.own),
    // Call 9 is done, and something of the cluster is frozen.
    ("Renewed", &[NewPassword], DONE, |marks| marks.all != 0),
];
