//! When a row of the table applies, where it takes more to say than the row has room for.

use super::Asked;
use crate::words::*;

/// 25 at its first place: by the length alone, and so also where nothing else can be judged.
pub fn no_length(asked: &Asked) -> bool {
    let mut lengths = asked.call.presented_bytes().map(<[u8]>::len);
    lengths.any(|length| Width::of_handle_bytes(length).is_none())
}

pub fn no_such_place(asked: &Asked) -> bool {
    let no_node = |node: u32| node as usize >= NODES;
    let no_local = |local: u32| local as usize >= CLUSTERS;
    asked.call.current_node().is_some_and(no_node)
        || matches!(*asked.call, Call::NewCluster { local, .. } if no_local(local))
        || asked.handles().any(|handle| no_node(handle.node.into()) || no_local(handle.local.into()))
}

/// A mode, a size, the width of a new cluster, or a segment, which goes by the handle's width.
pub fn field(asked: &Asked) -> bool {
    let no_mode = |mode| Mode::from_number(mode).is_none();
    let no_segment = |(handle, segment): (Handle, u32)| segment as usize >= handle.width().segments();
    asked.handle_and_segment().is_some_and(no_segment)
        || asked.call.named_mode().is_some_and(no_mode)
        || match *asked.call {
            Call::NewCluster { width, .. } => Width::of_segments(width).is_none(),
            Call::NewSegment { size, .. } => size == 0 || size as usize > NODE_BYTES,
            _ => false,
        }
}

pub fn elsewhere(asked: &Asked) -> bool {
    let both = asked.call.current_node().zip(asked.handle);
    both.is_some_and(|(node, handle)| node != u32::from(handle.node))
}

pub fn in_use(asked: &Asked) -> bool {
    let Call::NewCluster { node, local, .. } = *asked.call else { return false };
    asked.found.store.cluster(node as usize, local as usize).is_some_and(|cluster| cluster.active)
}

/// 25 at its second place.
pub fn other_width(asked: &Asked) -> bool {
    asked.any_judged(|handle, cluster, _| !cluster.has_width(handle.width()))
}

pub fn violated_protection(asked: &Asked) -> bool {
    asked.any_judged(|handle, cluster, mode| !handle.validates(cluster, mode))
}

/// The two are of one width: the cluster's.
pub fn whole(asked: &Asked) -> bool {
    asked.both().is_some_and(|(handle, other)| handle.union(&other) == handle.width().flat())
}

pub fn not_primary(asked: &Asked) -> bool {
    asked.handles().any(|handle| !handle.selector.is_primary())
}

pub fn not_referenced(asked: &Asked) -> bool {
    asked.handle_and_segment().is_some_and(|(handle, segment)| !handle.selector.references(segment as usize))
}

/// By the current password of the mode that the call names alone: whoever changes one mode's learns
/// nothing of the other's.
pub fn old_password(asked: &Asked) -> bool {
    let Call::NewPassword { password, .. } = asked.call else { return false };
    let both = asked.call.needed_mode().zip(asked.named_cluster());
    both.is_some_and(|(mode, cluster)| password == cluster.primary(mode))
}

pub fn absent(asked: &Asked) -> bool {
    asked.named_segment().is_some_and(|segment| !segment.is_present())
}

pub fn short(asked: &Asked) -> bool {
    let extent = asked.named_segment().and_then(Segment::extent);
    extent.is_some_and(|extent| asked.found.buffer_bytes < extent.length)
}

pub fn no_room(asked: &Asked) -> bool {
    let Call::NewSegment { node, size, .. } = *asked.call else { return false };
    node as usize >= NODES || asked.found.store.place(node as usize, size as usize).is_none()
}

pub fn spent(asked: &Asked) -> bool {
    let is_spent = |handle: Handle, mask| handle.excluded(mask) != 0 && handle.selector.first_flat().is_none();
    asked.handle_and_mask().is_some_and(|(handle, mask)| is_spent(handle, mask))
}
