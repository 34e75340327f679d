//! The text of crates/store in Rust, as far as soundness, reads and looks need it, and of the stores that are measured.

use crate::spans;

pub const NODES: usize = 4;
pub const CLUSTERS: usize = 8;
pub const SEGMENTS: usize = 16;
pub const MAP_WORDS: usize = 64;
const RECORDS: usize = 32;
pub const NODE_MEMORY: usize = 4096;
pub const MEMORY: usize = 16384;
const PASSWORD_BYTES: usize = 16;
pub const READ_MODE: usize = 1;

#[derive(Clone, Copy)]
pub enum Place {
    Absent,
    Present { base: u16, length: u16 },
}

#[derive(Clone, Copy)]
pub struct Segment {
    pub place: Place,
    pub frozen: bool,
}

#[derive(Clone, Copy)]
pub struct Cluster {
    pub active: bool,
    pub width: u8,
    pub read: [u8; PASSWORD_BYTES],
    pub write: [u8; PASSWORD_BYTES],
    pub segments: [Segment; SEGMENTS],
}

#[derive(Clone, Copy)]
pub struct Store {
    pub clusters: [Cluster; RECORDS],
}

fn claim(segment: Segment, map: &mut [u64]) -> bool {
    match segment.place {
        Place::Absent => !segment.frozen,
        Place::Present { base, length } => {
            let from = base as usize;
            let size = length as usize;
            let to = from + size;
            spans::mark(map, from, to)
        }
    }
}

fn claim_all(cluster: Cluster, map: &mut [u64]) -> bool {
    let mut ok = true;
    let mut i: usize = 0;
    while i < SEGMENTS {
        let segment = cluster.segments[i];
        ok = claim(segment, map) & ok;
        i += 1;
    }
    ok
}

fn zero(password: [u8; PASSWORD_BYTES]) -> bool {
    let mut ok = true;
    let mut i: usize = 0;
    while i < PASSWORD_BYTES {
        ok = (password[i] == 0) & ok;
        i += 1;
    }
    ok
}

pub fn absent(place: Place) -> bool {
    match place {
        Place::Absent => true,
        Place::Present { base: _, length: _ } => false,
    }
}

fn empty(cluster: Cluster) -> bool {
    let mut ok = true;
    let mut i: usize = 0;
    while i < SEGMENTS {
        let segment = cluster.segments[i];
        let place = segment.place;
        ok = absent(place) & ok;
        i += 1;
    }
    ok
}

pub fn is_width(width: usize) -> bool {
    (width == 4) | ((width == 8) | (width == 16))
}

fn allowed(place: Place, i: usize, width: usize) -> bool {
    (i < width) | absent(place)
}

fn below(cluster: Cluster) -> bool {
    let width = cluster.width as usize;
    let mut ok = true;
    let mut i: usize = 0;
    while i < SEGMENTS {
        let segment = cluster.segments[i];
        let place = segment.place;
        ok = allowed(place, i, width) & ok;
        i += 1;
    }
    ok
}

fn sound_width(active: bool, width: usize) -> bool {
    if active {
        return is_width(width);
    }
    width == 0
}

fn sized(cluster: Cluster) -> bool {
    let active = cluster.active;
    let width = cluster.width as usize;
    sound_width(active, width) & below(cluster)
}

fn settled(cluster: Cluster) -> bool {
    let read = cluster.read;
    let write = cluster.write;
    (cluster.active | ((zero(read) & zero(write)) & empty(cluster))) & sized(cluster)
}

pub fn sound(store: Store, size: usize) -> bool {
    let mut ok = true;
    let mut node: usize = 0;
    while node < NODES {
        let mut map = [0u64; MAP_WORDS];
        let mut taken = true;
        let mut local: usize = 0;
        while local < CLUSTERS {
            let cluster = store.clusters[node * CLUSTERS + local];
            taken = (settled(cluster) & claim_all(cluster, &mut map)) & taken;
            local += 1;
        }
        ok = taken & ok;
        node += 1;
    }
    (size == MEMORY) & ok
}

pub fn record_at(node: usize, local: usize) -> usize {
    if NODES <= node {
        return 0;
    }
    if CLUSTERS <= local {
        return 0;
    }
    node * CLUSTERS + local
}

pub fn base_of(place: Place) -> u16 {
    match place {
        Place::Absent => 0,
        Place::Present { base, length: _ } => base,
    }
}

pub fn length_of(place: Place) -> u16 {
    match place {
        Place::Absent => 0,
        Place::Present { base: _, length } => length,
    }
}

pub fn place_of(cluster: Cluster, segment: usize) -> Place {
    if SEGMENTS <= segment {
        return Place::Absent;
    }
    let found = cluster.segments[segment];
    found.place
}

pub fn primary(cluster: Cluster, mode: usize) -> [u8; PASSWORD_BYTES] {
    if mode == READ_MODE {
        return cluster.read;
    }
    cluster.write
}

/// A number for each segment, in the order of the records.
pub type Table = [u16; RECORDS * SEGMENTS];

/// The width of every cluster that is made of two tables.
const WIDTH: u8 = 16;

/// Bases and lengths of `each` segments on every node, of `length` bytes, one after the other.
pub fn tables(each: usize, length: u16) -> (Table, Table) {
    let (mut bases, mut lengths) = ([0; RECORDS * SEGMENTS], [0; RECORDS * SEGMENTS]);
    for node in 0..NODES {
        for i in 0..each {
            let at = node * CLUSTERS * SEGMENTS + i;
            bases[at] = i as u16 * length;
            lengths[at] = length;
        }
    }
    (bases, lengths)
}

fn place_from(base: u16, length: u16) -> Place {
    if length == 0 {
        return Place::Absent;
    }
    Place::Present { base, length }
}

fn segments_from(bases: &Table, lengths: &Table, n: usize) -> [Segment; SEGMENTS] {
    let absent = Segment {
        place: Place::Absent,
        frozen: false,
    };
    let mut r = [absent; SEGMENTS];
    for i in 0..SEGMENTS {
        let at = n * SEGMENTS + i;
        r[i] = Segment {
            place: place_from(bases[at], lengths[at]),
            frozen: false,
        };
    }
    r
}

pub fn store_from(bases: &Table, lengths: &Table) -> Store {
    let inactive = Cluster {
        active: false,
        width: 0,
        read: [0; PASSWORD_BYTES],
        write: [0; PASSWORD_BYTES],
        segments: [Segment {
            place: Place::Absent,
            frozen: false,
        }; SEGMENTS],
    };
    let mut clusters = [inactive; RECORDS];
    for n in 0..RECORDS {
        let segments = segments_from(bases, lengths, n);
        clusters[n] = Cluster {
            active: true,
            width: WIDTH,
            read: [0; PASSWORD_BYTES],
            write: [0; PASSWORD_BYTES],
            segments,
        };
    }
    Store { clusters }
}
