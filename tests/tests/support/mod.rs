//! A store, a memory and shorthands for asking it things.
#![allow(dead_code, unused_imports)] // each test file uses its own part

pub use model::words::*;

#[cfg(of_the_library)]
use library::guard::run;
#[cfg(not(of_the_library))]
use model::model::run;
use std::{borrow::Borrow, ops::Range};

pub mod every;
pub mod faults;
pub mod joint;
pub mod naive;
pub mod valid;

/// New passwords with every set of faults.
pub mod renewed {
    use super::faults::{self, Faulty, Kind};

    pub fn all() -> impl Iterator<Item = Faulty> {
        faults::all(Kind::NewPassword)
    }
}

pub const READ_SECRET: Password = [0x11; 16];
pub const WRITE_SECRET: Password = [0x22; 16];
pub const READ_MODE: u32 = 1;
pub const WRITE_MODE: u32 = 2;

#[derive(Clone, Debug, PartialEq, Eq)]
pub struct Bench {
    pub store: Store,
    pub memory: Vec<u8>,
}

impl Bench {
    pub fn starting() -> Bench {
        Bench { store: Store::starting(), memory: vec![0; MEMORY_BYTES] }
    }

    /// Cluster 2 of node 0 is active; its handles are [`reader`] and [`writer`].
    pub fn with_cluster() -> Bench {
        Bench::with_cluster_of(Width::Eight)
    }

    /// Its segment 5 is there too, and says "abcd".
    pub fn with_segment() -> Bench {
        Bench::with_segment_of(Width::Eight)
    }

    /// The same cluster with another width; its handles are [`reader_of`] and [`writer_of`].
    pub fn with_cluster_of(width: Width) -> Bench {
        let mut bench = Bench::starting();
        assert_eq!(bench.number(new_cluster_of(width, 0, 2)), 0);
        bench
    }

    /// Its segment [`own`] says "abcd".
    pub fn with_segment_of(width: Width) -> Bench {
        let mut bench = Bench::with_cluster_of(width);
        assert_eq!(bench.number(new_segment_of(width, own(width), 4)), 0);
        assert_eq!(bench.write(own(width), b"abcd", writer_of(width)), 0);
        bench
    }

    pub fn ask(&mut self, call: impl Borrow<Call>, buffer: &mut [u8]) -> Reply {
        run(&mut self.store, &mut self.memory, buffer, call.borrow())
    }

    /// The number of a call with a buffer that nothing is too long for.
    pub fn number(&mut self, call: impl Borrow<Call>) -> u8 {
        self.reply(call).number
    }

    pub fn reply(&mut self, call: impl Borrow<Call>) -> Reply {
        self.ask(call, &mut [0; NODE_BYTES])
    }

    /// The call is refused, and changes nothing, not even a buffer.
    pub fn refuses(&self, call: &Call, number: u8) {
        let (mut left, mut buffer) = (self.clone(), [0xee; 4]);
        let reply = left.ask(call, &mut buffer);
        assert_eq!(reply, Reply::refused(number), "{call:?}");
        assert!(left == *self && buffer == [0xee; 4], "{call:?}");
    }

    pub fn write(&mut self, segment: u32, data: &[u8], handle: impl Into<HandleBytes>) -> u8 {
        self.ask(Call::write(segment, handle), &mut data.to_vec()).number
    }

    /// The bytes of a segment, or the number of the refusal.
    pub fn read(&mut self, segment: u32, handle: impl Into<HandleBytes>) -> Result<Vec<u8>, u8> {
        let mut buffer = vec![0xee; NODE_BYTES];
        let reply = self.ask(Call::read(segment, handle), &mut buffer);
        let (told, rest) = buffer.split_at(reply.length as usize);
        assert!(rest.iter().all(|&byte| byte == 0xee));
        match reply.number {
            0 => Ok(told.to_vec()),
            number => Err(number),
        }
    }

    /// The bytes that a look shows, or the number of the refusal. It changes nothing, not even a
    /// buffer beside it, and gives nothing but the part.
    pub fn look(&mut self, node: u32, segment: u32, handle: impl Into<HandleBytes>) -> Result<Vec<u8>, u8> {
        let (before, mut buffer) = (self.clone(), [0xee; 3]);
        let call = Call::look(node, segment, handle);
        let reply = self.ask(&call, &mut buffer);
        assert!(*self == before && buffer == [0xee; 3], "{call:?}");
        let Reply { number, shown, .. } = reply;
        let shown = if number == 0 { shown } else { Part::NONE };
        assert_eq!(reply, Reply { shown, ..Reply::refused(number) });
        match number {
            0 => Ok(shown.of(&self.memory).expect("a part of it").to_vec()),
            _ => Err(number),
        }
    }
}

/// Cluster 2 of node 0 with its segment, at each width.
pub fn benches() -> impl Iterator<Item = (Width, Bench)> {
    Width::ALL.into_iter().map(|width| (width, Bench::with_segment_of(width)))
}

/// A store with cluster 3 of node 1, which has one segment.
pub fn store_of(width: Width) -> Store {
    let mut store = Store::starting();
    let cluster = &mut store.clusters[1][3];
    *cluster = Cluster::new(width, READ_SECRET, WRITE_SECRET);
    cluster.segments[0] = Segment::present(10, 20);
    store
}

/// A segment in an inactive cluster that goes beyond its node, marks where no segment is, and what widths do: a width
/// that is none, one that an inactive cluster has, a segment at or above it, and a cluster's own made another.
pub fn damaged(width: Width) -> Vec<Store> {
    let put = |(node, local): (usize, usize), at: usize, segment| {
        let mut store = store_of(width);
        store.clusters[node][local].segments[at] = segment;
        store
    };
    let resized = |(node, local): (usize, usize), number| {
        let mut store = store_of(width);
        store.clusters[node][local].width = number;
        store
    };
    let mut damaged = vec![
        put((3, 7), 3, Segment::present(4000, 97)),
        put((3, 7), 3, Segment::ABSENT.marked()),
        put((3, 7), 15, Segment::ABSENT.marked()),
        put((1, 3), 3, Segment::ABSENT.marked()),
        resized((3, 7), 4),
        resized((3, 7), 8),
        resized((3, 7), 255),
        resized((1, 3), 0),
        resized((1, 3), 5),
        resized((1, 3), 17),
    ];
    if width != Width::Sixteen {
        let at = width.segments();
        damaged.push(put((1, 3), at, Segment::present(100, 1)));
        damaged.push(put((1, 3), 15, Segment::present(100, 1)));
    }
    damaged
}

/// Makes a store unsound where no call of these tests is about: an inactive cluster has a width.
pub fn make_unsound(store: &mut Store) {
    store.clusters[1][7].width = Width::Eight.number();
}

/// A selector of width 8.
pub fn eight(subselectors: [u16; 4]) -> Selector {
    Selector::new(Width::Eight, subselectors)
}

/// A handle of cluster 2 of node 0 to read, with the password that goes with its subselectors.
pub fn reading(width: Width, subselectors: [u16; 4]) -> Handle {
    Handle::converted(0, 2, &READ_SECRET, Selector::new(width, subselectors))
}

/// The cluster's handle for these segments in the form of a reduced one, by a single conversion.
pub fn noted(width: Width, primary: &Password, segments: u16) -> Handle {
    let mut handle = Handle::primary(width, 0, 2, convert(primary, segments));
    handle.selector.subselectors[0] = segments;
    handle
}

/// The segment of [`Bench::with_segment_of`]: 1, 5 or 13.
pub fn own(width: Width) -> u32 {
    u32::from(width.number()) - 3
}

/// The numbers of the segments that a cluster of this width has.
pub fn segments(width: Width) -> Range<u32> {
    0..u32::from(width.number())
}

/// The other two.
pub fn others(width: Width) -> impl Iterator<Item = Width> {
    Width::ALL.into_iter().filter(move |other| *other != width)
}

/// Lengths that no handle has.
pub const WRONG: [usize; 12] = [0, 1, 2, 19, 20, 22, 24, 25, 26, 28, 31, 46];

/// The bytes of a handle with such a length: cut, or with bytes after them.
pub fn cut(handle: Handle, choice: usize) -> HandleBytes {
    let mut bytes = handle.to_bytes();
    bytes.resize(WRONG[choice % WRONG.len()], 0xff);
    bytes
}

pub fn reader() -> Handle {
    reader_of(Width::Eight)
}

pub fn writer() -> Handle {
    writer_of(Width::Eight)
}

pub fn reader_of(width: Width) -> Handle {
    Handle::primary(width, 0, 2, READ_SECRET)
}

pub fn writer_of(width: Width) -> Handle {
    Handle::primary(width, 0, 2, WRITE_SECRET)
}

/// The handle that a reply gives.
pub fn given(reply: &Reply) -> Handle {
    Handle::from_bytes(&reply.first).expect("it has a width")
}

pub fn new_cluster(node: u32, local: u32) -> Call {
    new_cluster_of(Width::Eight, node, local)
}

pub fn new_cluster_of(width: Width, node: u32, local: u32) -> Call {
    Call::NewCluster { node, local, width: width.segments(), read: READ_SECRET, write: WRITE_SECRET }
}

pub fn new_segment(segment: u32, size: u32) -> Call {
    new_segment_of(Width::Eight, segment, size)
}

pub fn new_segment_of(width: Width, segment: u32, size: u32) -> Call {
    Call::new_segment(0, segment, size, writer_of(width))
}

pub fn delete_segment(segment: u32) -> Call {
    delete_segment_of(Width::Eight, segment)
}

pub fn delete_segment_of(width: Width, segment: u32) -> Call {
    Call::delete_segment(0, segment, writer_of(width))
}

pub fn freeze(segment: u32) -> Call {
    freeze_of(Width::Eight, segment)
}

pub fn freeze_of(width: Width, segment: u32) -> Call {
    Call::freeze(0, segment, writer_of(width))
}
