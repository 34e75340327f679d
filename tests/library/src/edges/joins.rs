//! Joins where an argument comes to an end: modes, and the node and the local number of either handle.

use super::{around, each, put, Asked};
use crate::words::*;

/// Modes are numbered from 1.
const MODES: usize = WRITE_MODE as usize + 1;
/// What the two handles reference, as far as they have room: some each, the same, nothing, and all but one.
const SEGMENTS: [[u16; 2]; 5] =
    [[0x1803, 0x6018], [0x3c3c, 0x0f0c], [0x2022, 0x2022], [0x0000, 0x0000], [0x7f76, 0x8081]];

/// Each node, each mode and each width, with every argument where it changes: in each join all but one are right.
pub fn joins(guard: Guard, seed: u64) -> Result<Asked, String> {
    let places = (0..NODES).flat_map(|node| Mode::ALL.map(|mode| (node, mode)));
    let all = places.flat_map(|place| SEGMENTS.map(|segments| (place, segments)));
    let all = all.flat_map(|pair| Width::ALL.map(|width| (pair, width)));
    each(seed, all, |random, ((place, segments), width), asked| {
        let (held, handles) = by_chance(random, place, width, segments);
        let right = place.1.number() as usize;
        let modes = around(right, MODES).map(|mode| (mode, handles));
        for (mode, [handle, other]) in modes.chain(named(handles).map(|handles| (right, handles))) {
            let question = Question { beyond: mode, ..Question::of(Call::join(narrow(mode), handle, other)) };
            put(guard, &mut Sides::both(held.clone()), &question, asked)?;
        }
        Ok(())
    })
}

/// Two valid handles of one cluster.
fn by_chance(random: &mut Random, place: (usize, Mode), width: Width, segments: [u16; 2]) -> (Held, [Handle; 2]) {
    let mut store = stores::store(random, Fill::Partial);
    let ((node, mode), local) = (place, below(random, CLUSTERS));
    let cluster = &mut store.clusters[node][local];
    // Passwords that no other cluster has.
    (cluster.active, cluster.read, cluster.write) = (true, random.bytes(), random.bytes());
    cluster.width = width.number();
    let there = segments_of(cluster).end;
    cluster.segments[there..].fill(Segment::ABSENT);
    let (primary, flat) = (*cluster.primary(mode), width.flat());
    let handles = segments.map(|segments| {
        let selector = Selector::new(width, [segments & flat, flat, flat, flat]);
        Handle::converted(node as u16, local as u8, &primary, selector)
    });
    (stores::held(random, &store), handles)
}

/// The two handles with other nodes and other local numbers: of the first, of the second, and of both.
fn named([first, second]: [Handle; 2]) -> impl Iterator<Item = [Handle; 2]> {
    let (node, local) = first.name();
    let nodes = (0..16).map(move |bit| (node ^ 1 << bit, local));
    let locals = (0..8).map(move |bit| (node, local ^ 1 << bit));
    let ends = [(NODES as u16, local), (node, CLUSTERS as u8)];
    nodes.chain(locals).chain(ends).flat_map(move |(node, local)| {
        let named = |handle| Handle { node, local, ..handle };
        [[named(first), second], [first, named(second)], [named(first), named(second)]]
    })
}
