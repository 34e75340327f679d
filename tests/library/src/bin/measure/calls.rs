//! The calls that are measured, all of them done, each with the store it is done on.

use crate::stores::{
    falling, full, full_but_a_cluster, full_but_a_segment, full_length, lone, one_large, typical, FREE_PLACE, PLACE,
    SEGMENT, TYPICAL_CLUSTERS,
};
use library::words::*;

/// The segment that is made where the cluster has two.
const THIRD: usize = 2;
/// Keeps all but one segment, which is not the one that calls are about.
const MASK: u16 = !0x08;

/// One line of the table.
pub struct Row {
    pub name: &'static str,
    pub store: Store,
    pub call: Call,
    /// The cluster that the call changes.
    pub place: (usize, usize),
}

fn width_of(store: &Store) -> Width {
    primary(store, PLACE, Mode::Read).width()
}

/// The handle with no subselector that is flat; two segments are taken away.
fn weakest(primary: Handle) -> Handle {
    let flat = primary.width().flat();
    let selector = Selector::new(primary.width(), [flat & !0x08, flat & !0x04, flat & !0x08, flat & !0x04]);
    Handle::converted(primary.node, primary.local, &primary.password, selector)
}

/// Handles of all active clusters in turn, with no subselector that is flat, as a batch takes them.
pub fn many_handles(store: &Store, count: usize) -> Vec<u8> {
    let places = (0..NODES).flat_map(|node| (0..TYPICAL_CLUSTERS).map(move |local| (node, local)));
    let all: Vec<_> = places.map(|place| weakest(primary(store, place, Mode::Read)).to_bytes()).collect();
    all.into_iter().cycle().take(count).flatten().collect()
}

/// The lines of each store, under its name.
pub fn groups() -> [(&'static str, Vec<Row>); 8] {
    let falling = |width: Width| new_segment(falling(width), width.segments() - 1);
    [
        ("empty store", vec![new_cluster(Store::starting(), Width::Eight)]),
        ("one cluster with two segments of 400 bytes, all others inactive", when_there_is_room(lone())),
        ("typical store", when_there_is_room(typical(Width::Eight))),
        ("the same with clusters of sixteen", when_there_is_room(typical(Width::Sixteen))),
        ("full store; for calls 1 and 3 one cluster or one segment short of it", when_full(Width::Eight)),
        ("full store with clusters of sixteen, likewise", when_full(Width::Sixteen)),
        (
            "the two full ones, segments from the highest base down and the free bytes highest",
            [Width::Eight, Width::Sixteen].map(falling).into(),
        ),
        (
            "a look beside a read of 4,096 bytes: one segment fills the node, the rest is typical",
            on_a_large_segment(&one_large()).into(),
        ),
    ]
}

fn when_there_is_room(store: Store) -> Vec<Row> {
    rows(&store, store.clone(), store.clone(), THIRD)
}

fn when_full(width: Width) -> Vec<Row> {
    rows(&full(width), full_but_a_cluster(width), full_but_a_segment(width), width.segments() - 1)
}

/// Calls on a store; those that make something are done on stores that have room for it.
fn rows(store: &Store, for_cluster: Store, for_segment: Store, segment: usize) -> Vec<Row> {
    let made = [new_cluster(for_cluster, width_of(store)), new_segment(for_segment, segment)];
    made.into_iter().chain(on_what_is_there(store)).collect()
}

fn new_cluster(store: Store, width: Width) -> Row {
    let (node, local) = FREE_PLACE;
    let (node, local, width) = (node as u32, local as u32, width.segments());
    let call = Call::NewCluster { node, local, width, read: [1; 16], write: [2; 16] };
    Row { name: "1 new cluster", store, call, place: FREE_PLACE }
}

/// As long as those that a full store has.
fn new_segment(store: Store, segment: usize) -> Row {
    let (width, handle) = (width_of(&store), primary(&store, PLACE, Mode::Write));
    let name = match width {
        Width::Four => "3 new segment, 128 bytes",
        Width::Eight => "3 new segment, 64 bytes",
        Width::Sixteen => "3 new segment, 32 bytes",
    };
    let call = Call::new_segment(PLACE.0 as u32, segment as u32, full_length(width) as u32, handle);
    Row { name, store, call, place: PLACE }
}

fn on_what_is_there(store: &Store) -> impl Iterator<Item = Row> + '_ {
    let (node, segment, mode) = (PLACE.0 as u32, SEGMENT as u32, READ_MODE);
    let reader = primary(store, PLACE, Mode::Read);
    let handle = primary(store, PLACE, Mode::Write).to_bytes();
    let (weak, password) = (weakest(reader).to_bytes(), [3; 16]);
    let other = reader.weaken(MASK).expect("all are flat").to_bytes();
    let reader = reader.to_bytes();
    #[rustfmt::skip]
    let calls = [
        ("2 delete cluster", Call::DeleteCluster { node, handle: handle.clone() }),
        ("4 delete segment", Call::DeleteSegment { node, segment, handle: handle.clone() }),
        ("10 freeze", Call::Freeze { node, segment, handle: handle.clone() }),
        ("5 read, primary", Call::Read { segment, handle: reader.clone() }),
        ("look, primary", Call::Look { node, segment, handle: reader.clone() }),
        ("6 write, primary", Call::Write { segment, handle }),
        ("9 new password", Call::NewPassword { mode, handle: reader.clone(), password }),
        ("validation, primary", Call::Validate { mode, handle: reader }),
        ("validation, 4 not flat", Call::Validate { mode, handle: weak.clone() }),
        ("8 reduce, 4 not flat", Call::Reduce { mode, handle: weak.clone() }),
        ("11 join, 4 and 1 not flat", Call::Join { mode, handle: weak, other }),
    ];
    calls.into_iter().map(|named| row(store, named))
}

/// The same segment read and looked at: the one copies its bytes, the other does not.
fn on_a_large_segment(store: &Store) -> [Row; 2] {
    let (node, segment) = (PLACE.0 as u32, SEGMENT as u32);
    let handle = primary(store, PLACE, Mode::Read).to_bytes();
    #[rustfmt::skip]
    let calls = [
        ("5 read, 4,096 bytes", Call::Read { segment, handle: handle.clone() }),
        ("look, 4,096 bytes", Call::Look { node, segment, handle }),
    ];
    calls.map(|named| row(store, named))
}

fn row(store: &Store, (name, call): (&'static str, Call)) -> Row {
    Row { name, store: store.clone(), call, place: PLACE }
}

/// It sees no store.
pub fn weakening(name: &'static str, width: Width) -> Row {
    let store = typical(width);
    let call = Call::weaken(MASK, primary(&store, PLACE, Mode::Read));
    Row { name, store, call, place: PLACE }
}
