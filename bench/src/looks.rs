//! A read of a segment that fills its node, and a look at it, on records: the proved ones beside those of access.rs.
//! Both sides make the store of two tables in the same call, so that is in every figure.

use crate::codec::HandleBytes;
use crate::handle::Handle;
use crate::store::{self, Table, CLUSTERS, MEMORY, NODES, NODE_MEMORY, SEGMENTS};
use crate::{access, beside, report, report_making};
use std::hint::black_box;
use std::slice::{from_raw_parts, from_raw_parts_mut};
use Side::{Proved, Rust};

extern "C" {
    /// The length told, 0 when refused.
    fn measured_read(
        bases: *const Table,
        lengths: *const Table,
        memory: *const u8,
        memory_length: usize,
        segment: usize,
        handle: *const u8,
        handle_length: usize,
        buffer: *mut u8,
        buffer_length: usize,
    ) -> usize;
    /// The length of the part shown.
    fn measured_look(
        bases: *const Table,
        lengths: *const Table,
        memory: *const u8,
        memory_length: usize,
        current: usize,
        segment: usize,
        handle: *const u8,
        handle_length: usize,
    ) -> usize;
}

// The Rust text behind the same boundary as the proved one.

#[inline(never)]
unsafe extern "C" fn rust_read(
    bases: *const Table,
    lengths: *const Table,
    memory: *const u8,
    memory_length: usize,
    segment: usize,
    handle: *const u8,
    handle_length: usize,
    buffer: *mut u8,
    buffer_length: usize,
) -> usize {
    let store = store::store_from(&*bases, &*lengths);
    let memory = from_raw_parts(memory, memory_length);
    let buffer = from_raw_parts_mut(buffer, buffer_length);
    let handle = from_raw_parts(handle, handle_length);
    access::read(store, memory, buffer, segment, handle)
}

#[inline(never)]
unsafe extern "C" fn rust_look(
    bases: *const Table,
    lengths: *const Table,
    memory: *const u8,
    memory_length: usize,
    current: usize,
    segment: usize,
    handle: *const u8,
    handle_length: usize,
) -> usize {
    let store = store::store_from(&*bases, &*lengths);
    let memory = from_raw_parts(memory, memory_length);
    let handle = from_raw_parts(handle, handle_length);
    access::look(store, memory, current, segment, handle).len()
}

/// What a read or a look gets, a read's buffer apart.
#[derive(Clone)]
struct Asked {
    bases: Table,
    lengths: Table,
    memory: Vec<u8>,
    current: usize,
    segment: usize,
    handle: HandleBytes,
}

enum Side {
    Proved,
    Rust,
}

impl Asked {
    fn read(&self, side: Side, buffer: &mut [u8]) -> usize {
        let by = [measured_read, rust_read][side as usize];
        let asked = black_box(self);
        unsafe {
            by(
                &asked.bases,
                &asked.lengths,
                asked.memory.as_ptr(),
                asked.memory.len(),
                asked.segment,
                asked.handle.bytes.as_ptr(),
                asked.handle.length.into(),
                buffer.as_mut_ptr(),
                buffer.len(),
            )
        }
    }

    fn look(&self, side: Side) -> usize {
        let by = [measured_look, rust_look][side as usize];
        let asked = black_box(self);
        unsafe {
            by(
                &asked.bases,
                &asked.lengths,
                asked.memory.as_ptr(),
                asked.memory.len(),
                asked.current,
                asked.segment,
                asked.handle.bytes.as_ptr(),
                asked.handle.length.into(),
            )
        }
    }
}

const NODE: usize = 2;
const LOCAL: usize = 3;
const SEGMENT: usize = 1;

/// On each node ten segments of 400 bytes, but on one a single segment of all its bytes, with its primary handle.
fn large() -> Asked {
    let (bases, mut lengths) = store::tables(10, 400);
    let first = NODE * CLUSTERS * SEGMENTS;
    lengths[first..first + CLUSTERS * SEGMENTS].fill(0);
    lengths[first + LOCAL * SEGMENTS + SEGMENT] = NODE_MEMORY as u16;
    let mut handle = HandleBytes {
        length: 27,
        bytes: [0; 27],
    };
    handle.bytes[1..3].copy_from_slice(&[NODE as u8, LOCAL as u8]);
    handle.bytes[19..].fill(255);
    Asked {
        bases,
        lengths,
        memory: (0..MEMORY).map(|at| (at % 251) as u8).collect(),
        current: NODE,
        segment: SEGMENT,
        handle,
    }
}

/// One thing wrong at a time: nothing is shown, nothing is copied. The first two are of the current node, a look's alone;
/// with 23 bytes the handle is one of eight segments, and the cluster has sixteen.
fn refusals(right: &Asked) {
    let changes: [fn(&mut Asked); 12] = [
        |asked| asked.current = NODES,
        |asked| asked.current += 1,
        |asked| asked.memory.truncate(MEMORY - 1),
        |asked| asked.handle.length = 0,
        |asked| asked.handle.length = 22,
        |asked| asked.handle.length = 23,
        |asked| asked.handle.bytes[2] = CLUSTERS as u8,
        |asked| asked.segment = SEGMENTS,
        |asked| asked.handle.bytes[26] = 0,
        |asked| asked.handle.bytes[3] = 1,
        |asked| asked.handle = without(asked.handle, SEGMENT),
        |asked| asked.segment += 1,
    ];
    for (i, change) in changes.iter().enumerate() {
        let mut wrong = right.clone();
        change(&mut wrong);
        assert_eq!((wrong.look(Proved), wrong.look(Rust)), (0, 0));
        if i >= 2 {
            copies_nothing(&wrong, NODE_MEMORY);
        }
    }
    copies_nothing(right, NODE_MEMORY - 1);
}

fn without(handle: HandleBytes, segment: usize) -> HandleBytes {
    let weaker = Handle::decode(handle.held()).weaken(!(1 << segment));
    weaker.handle.encode()
}

fn copies_nothing(asked: &Asked, room: usize) {
    for side in [Proved, Rust] {
        let mut buffer = vec![7; room];
        assert_eq!(asked.read(side, &mut buffer), 0);
        assert!(buffer.iter().all(|&byte| byte == 7));
    }
}

pub fn looks() {
    let asked = large();
    refusals(&asked);
    let segment = &asked.memory[NODE * NODE_MEMORY..(NODE + 1) * NODE_MEMORY];
    let mut told = (0, 0);
    let mut buffers = ([0; NODE_MEMORY], [0; NODE_MEMORY]);
    let times = beside(
        || told.0 = asked.read(Proved, &mut buffers.0),
        || told.1 = asked.read(Rust, &mut buffers.1),
    );
    assert_eq!(told, (NODE_MEMORY, NODE_MEMORY), "all of it is read");
    assert!(buffers.0 == segment && buffers.1 == segment);
    report("read of 4,096 bytes, on records", times);
    report_making(&asked.bases, &asked.lengths);
    let mut shown = (0, 0);
    let times = beside(
        || shown.0 = asked.look(Proved),
        || shown.1 = asked.look(Rust),
    );
    assert_eq!(shown, (NODE_MEMORY, NODE_MEMORY), "all of it is shown");
    report("look at 4,096 bytes, on records", times);
    report_making(&asked.bases, &asked.lengths);
}
