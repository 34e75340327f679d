//! The text of crates/refusals, crates/cluster and crates/guard in Rust, as far as reads and looks need it.

use crate::aes::{self, Tables};
use crate::handle::{Handle, LENGTH};
use crate::store::{self, Cluster, Place, Store, CLUSTERS, NODES, NODE_MEMORY};

const UNSOUND: u8 = 1;
const NO_SUCH_PLACE: u8 = 2;
const FIELD: u8 = 3;
const GAPPED: u8 = 4;
const ELSEWHERE: u8 = 5;
const INACTIVE: u8 = 8;
const VIOLATED: u8 = 9;
const NOT_REFERENCED: u8 = 11;
const ABSENT: u8 = 14;
const SHORT: u8 = 15;

struct Part {
    from: usize,
    to: usize,
}

struct Opened {
    handle: Handle,
    cluster: Cluster,
    sound: bool,
}

fn first_refusal(
    tables: &Tables,
    sound: bool,
    handle: Handle,
    cluster: Cluster,
    far: bool,
    field: bool,
    away: bool,
    mode: usize,
) -> u8 {
    let width = handle.width;
    let bits = width.bits();
    if bits == 0 {
        return LENGTH;
    }
    if !sound {
        return UNSOUND;
    }
    if NODES <= handle.node() {
        return NO_SUCH_PLACE;
    }
    if CLUSTERS <= handle.local as usize {
        return NO_SUCH_PLACE;
    }
    if far {
        return NO_SUCH_PLACE;
    }
    if field {
        return FIELD;
    }
    if handle.gapped() {
        return GAPPED;
    }
    if away {
        return ELSEWHERE;
    }
    let active = cluster.active;
    if !active {
        return INACTIVE;
    }
    if cluster.width != bits {
        return LENGTH;
    }
    let password = store::primary(cluster, mode);
    if !handle.validates_with(tables, password) {
        return VIOLATED;
    }
    0
}

/// The refusals that reads and looks share, up to 14; `far` and `away` judge a look's current node.
fn reach(o: &Opened, place: Place, segment: usize, far: bool, away: bool) -> u8 {
    let tables = aes::tables();
    let width = o.handle.width;
    let number = first_refusal(
        &tables,
        o.sound,
        o.handle,
        o.cluster,
        far,
        width.bits() as usize <= segment,
        away,
        store::READ_MODE,
    );
    if number != 0 {
        return number;
    }
    if !o.handle.references(segment) {
        return NOT_REFERENCED;
    }
    if store::absent(place) {
        return ABSENT;
    }
    0
}

fn access(o: &Opened, place: Place, segment: usize, room: usize) -> u8 {
    let number = reach(o, place, segment, false, false);
    if number != 0 {
        return number;
    }
    if room < store::length_of(place) as usize {
        return SHORT;
    }
    0
}

fn start_of(handle: Handle, place: Place) -> usize {
    handle.node() * NODE_MEMORY + store::base_of(place) as usize
}

fn lacks(all: usize, from: usize, size: usize) -> bool {
    if all < size {
        return true;
    }
    all - size < from
}

fn copy(to: &mut [u8], from: &[u8]) {
    let mut i: usize = 0;
    while i < to.len() {
        to[i] = from[i];
        i += 1;
    }
}

fn look_up(store: Store, size: usize, bytes: &[u8]) -> Opened {
    let handle = Handle::decode(bytes);
    let at = store::record_at(handle.node(), handle.local as usize);
    let cluster = store.clusters[at];
    let sound = store::sound(store, size);
    Opened {
        handle,
        cluster,
        sound,
    }
}

/// Of a read's answer the length alone, which is what the boundary has: 0 where it is refused.
pub fn read(store: Store, memory: &[u8], buffer: &mut [u8], segment: usize, bytes: &[u8]) -> usize {
    let o = look_up(store, memory.len(), bytes);
    let place = store::place_of(o.cluster, segment);
    if access(&o, place, segment, buffer.len()) != 0 {
        return 0;
    }
    let from = start_of(o.handle, place);
    let size = store::length_of(place) as usize;
    if lacks(memory.len(), from, size) {
        return 0;
    }
    let to = from + size;
    copy(&mut buffer[0..size], &memory[from..to]);
    size
}

fn part_of(handle: Handle, place: Place) -> Part {
    let from = start_of(handle, place);
    let to = from + store::length_of(place) as usize;
    Part { from, to }
}

fn look_part(store: Store, size: usize, current: usize, segment: usize, bytes: &[u8]) -> Part {
    let o = look_up(store, size, bytes);
    let place = store::place_of(o.cluster, segment);
    let node = o.handle.node();
    if reach(&o, place, segment, NODES <= current, current != node) != 0 {
        return Part { from: 0, to: 0 };
    }
    part_of(o.handle, place)
}

pub fn look<'a>(
    store: Store,
    memory: &'a [u8],
    current: usize,
    segment: usize,
    bytes: &[u8],
) -> &'a [u8] {
    let part = look_part(store, memory.len(), current, segment, bytes);
    &memory[part.from..part.to]
}
