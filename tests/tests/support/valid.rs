//! Calls by handles that open the cluster they name, and what comes of them.
#![allow(dead_code)] // each test file uses its own part

use super::*;
use std::collections::BTreeMap;

/// As long as any segment.
pub const BUFFER_BYTES: usize = 40;
const LIST_CALLS: usize = 60;
/// A cluster that is set apart, and one beside it, both of node 0.
pub const SET_APART: usize = 0;
pub const BESIDE: usize = 1;

/// The two, each of a width by chance and with two segments, the first and the last, in a memory of bytes by chance;
/// some are frozen, if they may be.
pub fn two_clusters(random: &mut Random, frozen: bool) -> Bench {
    let mut start = Bench::starting();
    start.memory.fill_with(|| random.byte());
    for local in [SET_APART, BESIDE] {
        let width = random.one_of(&Width::ALL);
        let mut cluster = Cluster::new(width, random.bytes(), random.bytes());
        for (at, segment) in [0, width.segments() - 1].into_iter().enumerate() {
            let base = (2 * at + local) * BUFFER_BYTES;
            let length = 1 + random.below(BUFFER_BYTES as u64);
            cluster.segments[segment] = Segment::present(base as u16, length as u16);
            cluster.segments[segment].frozen = frozen && random.one_in(3);
        }
        start.store.clusters[0][local] = cluster;
    }
    start
}

/// A call about cluster 0 or 1 of node 0, by a handle that opens it; few segments and small sizes, so that calls
/// meet. A new password is often the other mode's, so that one handle opens both. Now and then the handle has another
/// width, and opens nothing.
pub fn valid_call(random: &mut Random, bench: &Bench) -> Call {
    let local = random.below(2) as u8;
    let cluster = bench.store.clusters[0][usize::from(local)];
    let any = random.one_of(&Width::ALL);
    let known = cluster.known_width().filter(|_| !random.one_in(25));
    let width = known.unwrap_or(any);
    let primary = |mode| Handle::primary(width, 0, local, *cluster.primary(mode));
    let (reader, handle) = (primary(Mode::Read), primary(Mode::Write));
    let mut mask = || random.number() as u16;
    let weaker = handle.weaken(mask() | 1).expect("all are flat");
    let other = handle.weaken(mask() | 2).expect("all are flat");
    let mask = mask();
    // One of the first three, or the last.
    let segment = match random.below(4) as u32 {
        3 => u32::from(width.number()) - 1,
        first => first,
    };
    let password: Password = random.bytes();
    let [read, write] = [cluster.write, cluster.read].map(|other| if random.one_in(2) { other } else { password });
    let size = 1 + random.below(40) as u32;
    match random.below(42) {
        0..=3 => Call::new_cluster(0, local.into(), any.segments(), random.bytes(), password),
        4..=7 => Call::delete_cluster(0, handle),
        8..=17 => Call::new_segment(0, segment, size, handle),
        18..=23 => Call::delete_segment(0, segment, handle),
        24..=29 => Call::write(segment, handle),
        30 | 31 => Call::write(segment, weaker),
        32 => Call::new_password(WRITE_MODE, handle, write),
        33 => Call::new_password(READ_MODE, reader, read),
        34 => Call::reduce(WRITE_MODE, weaker),
        35 => Call::weaken(mask, handle),
        36 => Call::read(segment, reader),
        37 => Call::look(0, segment, reader),
        38 => Call::validate(WRITE_MODE, handle),
        39 => Call::join(WRITE_MODE, weaker, other),
        _ => Call::freeze(0, segment, handle),
    }
}

/// Where the segments of a cluster of node 0 are.
pub fn parts(state: &Bench, local: usize) -> Vec<Range<usize>> {
    let segments = state.store.clusters[0][local].segments.iter();
    let extents = segments.filter_map(Segment::extent);
    extents.map(|extent| extent.in_memory(0)).collect()
}

/// The reply, the buffer afterwards, and the bytes that a look shows.
fn answer(state: &mut Bench, call: &Call, data: &[u8]) -> (Reply, Vec<u8>, Vec<u8>) {
    let mut buffer = data.to_vec();
    let reply = state.ask(call, &mut buffer);
    let shown = reply.shown.of(&state.memory).expect("a part of it");
    (reply, buffer, shown.to_vec())
}

/// How often calls about each of the two clusters came to each number.
pub type Met = BTreeMap<(usize, Kind, u8), usize>;

/// Runs a list of calls, each free to be in it, on both states. Both reply the same to each, and `each` is told of it.
pub fn run_list(
    random: &mut Random,
    states: &mut [Bench; 2],
    met: &mut Met,
    free_call: fn(&mut Random, &[Bench; 2]) -> Call,
    mut each: impl FnMut(&[Bench; 2], &Call, usize, u8),
) {
    for _ in 0..LIST_CALLS {
        let call = free_call(random, states);
        let data: [u8; BUFFER_BYTES] = random.bytes();
        let [one, two] = states.each_mut().map(|state| answer(state, &call, &data));
        assert_eq!(one, two, "{call:?}");
        let local = match call {
            Call::NewCluster { local, .. } => local as usize,
            _ => call.handle().map_or(0, |handle| handle.local.into()),
        };
        *met.entry((local, call.kind(), one.0.number)).or_default() += 1;
        each(states, &call, local, one.0.number);
    }
}
