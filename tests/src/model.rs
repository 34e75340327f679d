//! The eleven calls, looks and validation, carried out on a store, a memory and a buffer that are lent.

use crate::words::*;
use std::ops::Range;

/// Runs one call. `buffer` is a read's buffer or a write's data, and is not looked at otherwise.
/// A refused call changes nothing.
pub fn run(store: &mut Store, memory: &mut [u8], buffer: &mut [u8], call: &Call) -> Reply {
    let found = Found { store, memory_bytes: memory.len(), buffer_bytes: buffer.len() };
    match refusal(call, &found) {
        Some(number) => Reply::refused(number),
        None => carry_out(store, memory, buffer, call),
    }
}

/// What a call does to which no refusal applies.
fn carry_out(store: &mut Store, memory: &mut [u8], buffer: &mut [u8], call: &Call) -> Reply {
    let mut handles = call.presented();
    let mut handle = || handles.next().expect("row 25 refuses every other length");
    let mode = || call.needed_mode().expect("row 3 refuses every other mode");
    match *call {
        Call::NewCluster { node, local, width, read, write } => {
            let width = Width::of_segments(width).expect("row 3 refuses every other width");
            store.clusters[node as usize][local as usize] = Cluster::new(width, read, write);
            let primary = |password| Handle::primary(width, node as u16, local as u8, password).to_bytes();
            return Reply { first: primary(read), second: primary(write), ..Reply::DONE };
        }
        Call::DeleteCluster { .. } => *cluster_mut(store, &handle()) = Cluster::INACTIVE,
        Call::NewSegment { segment, size, .. } => new_segment(store, memory, segment, size as usize, &handle()),
        Call::DeleteSegment { segment, .. } => *segment_mut(store, &handle(), segment) = Segment::ABSENT,
        Call::Read { segment, .. } => {
            let part = &memory[part(store, &handle(), segment)];
            buffer[..part.len()].copy_from_slice(part);
            return Reply { length: part.len() as u32, ..Reply::DONE };
        }
        Call::Write { segment, .. } => {
            let part = &mut memory[part(store, &handle(), segment)];
            part.copy_from_slice(&buffer[..part.len()]);
        }
        Call::Weaken { mask, .. } => {
            let weaker = handle().weaken(mask).expect("rows 21 and 17 refuse what cannot be weakened");
            return Reply { count: weaker.selector.count(), ..Reply::with_handle(&weaker) };
        }
        Call::Reduce { .. } => {
            let handle = handle();
            return Reply::with_handle(&handle.reduce(cluster_mut(store, &handle).primary(mode())));
        }
        Call::NewPassword { password, .. } => {
            let handle = handle();
            *cluster_mut(store, &handle).primary_mut(mode()) = password;
            return Reply::with_handle(&Handle { password, ..handle });
        }
        // Where the mark is set already, nothing changes.
        Call::Freeze { segment, .. } => segment_mut(store, &handle(), segment).frozen = true,
        Call::Join { .. } => {
            let (handle, other) = (handle(), handle());
            return Reply::with_handle(&handle.join(&other, cluster_mut(store, &handle).primary(mode())));
        }
        // No byte is copied: the reply tells where in the memory the segment is.
        Call::Look { segment, .. } => return Reply { shown: part(store, &handle(), segment).into(), ..Reply::DONE },
        Call::Validate { .. } => {}
    }
    Reply::DONE
}

fn cluster_mut<'a>(store: &'a mut Store, handle: &Handle) -> &'a mut Cluster {
    &mut store.clusters[usize::from(handle.node)][usize::from(handle.local)]
}

fn segment_mut<'a>(store: &'a mut Store, handle: &Handle, segment: u32) -> &'a mut Segment {
    &mut cluster_mut(store, handle).segments[segment as usize]
}

/// The part of the memory that is the segment.
fn part(store: &Store, handle: &Handle, segment: u32) -> Range<usize> {
    let cluster = store.cluster_of(handle).expect("row 2 refuses what is no place");
    let extent = cluster.segments[segment as usize].extent();
    extent.expect("row 14 refuses absent segments").in_memory(handle.node.into())
}

/// At its base, with its bytes zero.
fn new_segment(store: &mut Store, memory: &mut [u8], segment: u32, size: usize, handle: &Handle) {
    let base = store.place(handle.node.into(), size).expect("row 16 refuses what has no base");
    *segment_mut(store, handle, segment) = Segment::present(base as u16, size as u16);
    memory[part(store, handle, segment)].fill(0);
}
