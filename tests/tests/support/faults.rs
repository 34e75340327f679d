//! Calls with every set of faults that can meet, at each width: what each of them has to be refused with is known
//! from the set alone.
#![allow(dead_code)] // each test file uses its own part

use super::*;

pub use model::made::Kind;

/// The cluster's passwords: that of the mode which the call needs, and the other mode's.
pub const OWN: Password = [0x11; 16];
const OTHER: Password = [0x22; 16];
/// Neither of the cluster's, but both of another's.
const THIRD: Password = [0x33; 16];
/// The cluster that the calls are about where nothing else is wrong with them.
pub const NODE: usize = 2;
pub const LOCAL: usize = 6;
/// Where the segment begins in its node, and its length.
pub const BASE: usize = 100;
pub const LENGTH: usize = 4;
/// The length of the other segments.
const OTHER_LENGTH: usize = 10;
/// 25 at its second place.
pub const OTHER_WIDTH: u8 = 125;

/// The numbers of a kind, in the order in which they are looked at.
fn numbers(kind: Kind) -> &'static [u8] {
    match kind {
        Kind::DeleteCluster => &[25, 1, 2, 4, 5, 8, OTHER_WIDTH, 9, 10, 22],
        Kind::NewSegment => &[25, 1, 2, 3, 4, 5, 8, OTHER_WIDTH, 9, 10, 13, 16],
        Kind::DeleteSegment => &[25, 1, 2, 3, 4, 5, 8, OTHER_WIDTH, 9, 10, 14, 22],
        Kind::Read => &[25, 1, 2, 3, 4, 8, OTHER_WIDTH, 9, 11, 14, 15],
        Kind::Write => &[25, 1, 2, 3, 4, 8, OTHER_WIDTH, 9, 11, 14, 22, 15],
        Kind::Reduce | Kind::Validate => &[25, 1, 2, 3, 4, 8, OTHER_WIDTH, 9],
        Kind::NewPassword => &[25, 1, 2, 3, 4, 8, OTHER_WIDTH, 9, 10, 12],
        Kind::Freeze => &[25, 1, 2, 3, 4, 5, 8, OTHER_WIDTH, 9, 10, 14],
        Kind::Look => &[25, 1, 2, 3, 4, 5, 8, OTHER_WIDTH, 9, 11, 14],
        Kind::NewCluster | Kind::Weaken | Kind::Join => panic!("{kind:?} is asked with other faults"),
    }
}

/// A call, and what it is put to.
#[derive(Debug)]
pub struct Faulty {
    pub faults: Vec<u8>,
    pub width: Width,
    /// The segment that the call is about where nothing is wrong with it.
    pub segment: usize,
    pub store: Store,
    pub buffer_bytes: usize,
    pub call: Call,
}

impl Faulty {
    /// The first number that applies, or 0.
    pub fn number(&self) -> u8 {
        match self.faults.first() {
            Some(&OTHER_WIDTH) => 25,
            first => first.copied().unwrap_or(0),
        }
    }

    /// The store, with a memory in which no byte is zero.
    pub fn put_to(&self) -> Bench {
        Bench { store: self.store.clone(), memory: vec![0x77; MEMORY_BYTES] }
    }
}

/// What else a call can find.
#[derive(Clone, Copy)]
struct Beside {
    frozen: bool,
    mode: Mode,
    /// The other mode's password, and the new one.
    other: Password,
    new: Password,
}

/// One for every set of the kind's numbers and each width. Where 22 is none of them, each is there twice: with the
/// segment frozen and not. No absent segment is frozen, so that 14 and 22 do not meet.
pub fn all(kind: Kind) -> impl Iterator<Item = Faulty> {
    Width::ALL.into_iter().flat_map(move |width| of(kind, width))
}

pub fn of(kind: Kind, width: Width) -> impl Iterator<Item = Faulty> {
    let numbers = numbers(kind);
    let sets = (0..1_u32 << numbers.len()).map(move |set| {
        let chosen = numbers.iter().enumerate();
        let chosen = chosen.filter(move |(at, _)| set >> at & 1 == 1);
        chosen.map(|(_, number)| *number).collect::<Vec<u8>>()
    });
    let can_meet = |set: &Vec<u8>| !(set.contains(&14) && set.contains(&22));
    sets.filter(can_meet).flat_map(move |set| {
        let all = beside(kind, &set);
        all.into_iter().map(move |beside| with(kind, width, set.clone(), beside))
    })
}

/// A new password is asked for in either mode, where the cluster's two passwords differ and where they are equal.
fn beside(kind: Kind, faults: &[u8]) -> Vec<Beside> {
    let is_renewal = kind == Kind::NewPassword;
    let mode = if matches!(kind, Kind::Look | Kind::Read | Kind::Validate) { Mode::Read } else { Mode::Write };
    let modes = if is_renewal { &Mode::ALL } else { &[mode][..] };
    let marks = if numbers(kind).contains(&22) { &[faults.contains(&22)][..] } else { &[false, true] };
    let passwords: &[[Password; 2]] = match (is_renewal, faults.contains(&12)) {
        (true, true) => &[[OTHER, OWN], [OWN, OWN]],
        (true, false) => &[[OTHER, THIRD], [OTHER, OTHER], [OWN, THIRD]],
        (false, _) => &[[OTHER, THIRD]],
    };
    let mut all = Vec::new();
    for &mode in modes {
        for &[other, new] in passwords {
            all.extend(marks.iter().map(|&frozen| Beside { frozen, mode, other, new }));
        }
    }
    all
}

/// Four segments, counted from `low`: 3 and 2 are present, 1 and 0 are absent. Where 3 is frozen, so is 2. The cluster
/// beside it has a frozen segment in any case, and this one has another where its width leaves room for one, unless
/// the call is about all of them.
fn store(kind: Kind, width: Width, low: usize, beside: Beside) -> Store {
    let mut store = Store::starting();
    store.clusters[0][0] = Cluster::new(width, THIRD, THIRD);
    for cluster in &mut store.clusters[NODE][LOCAL..=LOCAL + 1] {
        *cluster = Cluster::new(width, OWN, OWN);
        *cluster.primary_mut(beside.mode.other()) = beside.other;
    }
    let other = |at: usize| {
        let base = BASE + LENGTH + at * OTHER_LENGTH;
        Segment::present(base as u16, OTHER_LENGTH as u16)
    };
    store.clusters[NODE][LOCAL + 1].segments[3] = other(2).marked();
    let segments = &mut store.clusters[NODE][LOCAL].segments;
    if width != Width::Four {
        let another = &mut segments[(low + 4) % width.segments()];
        *another = other(1);
        another.frozen = kind != Kind::DeleteCluster;
    }
    segments[low + 3] = Segment::present(BASE as u16, LENGTH as u16);
    segments[low + 2] = other(0);
    for segment in &mut segments[low + 2..=low + 3] {
        segment.frozen = beside.frozen;
    }
    store
}

/// A call with the faults that stand for these numbers, each of them something of its own.
fn with(kind: Kind, width: Width, faults: Vec<u8>, beside: Beside) -> Faulty {
    let has = |number: u8| faults.contains(&number);
    let own = if has(OTHER_WIDTH) { others(width).nth(faults.len() % 2).expect("there are two") } else { width };
    let low = own.segments().min(width.segments()) - 4;
    let is_absent = has(14) || kind == Kind::NewSegment && !has(13);
    let segment = match (has(11), is_absent) {
        (false, false) => low + 3,
        (true, false) => low + 2,
        (false, true) => low + 1,
        (true, true) => low,
    };
    let mut store = store(kind, width, low, beside);
    if has(1) {
        make_unsound(&mut store);
    }
    let fields = Fields {
        node: match (has(2), has(5)) {
            (true, _) => 4,
            (_, true) => NODE as u32 + 1,
            _ => NODE as u32,
        },
        segment: if has(3) { own.number().into() } else { segment as u32 },
        size: if has(16) { 4096 } else { LENGTH as u32 },
        mode: if has(3) { 3 * (faults.len() as u32 % 2) } else { beside.mode.number() },
        handle: handle(kind, own, low, &faults),
        password: beside.new,
        ..Fields::default()
    };
    let buffer_bytes = if has(15) { LENGTH - 1 } else { OTHER_LENGTH };
    Faulty { store, buffer_bytes, call: fields.call(kind), width, segment, faults }
}

/// Where it is not primary it references 3 and 1, counted from `low`. Its own place is none where the call names no
/// current node that could be none.
fn handle(kind: Kind, width: Width, low: usize, faults: &[u8]) -> HandleBytes {
    let has = |number: u8| faults.contains(&number);
    let [is_local, needs_primary] = [5, 10].map(|number| numbers(kind).contains(&number));
    let (flat, some) = (width.flat(), 0b1010 << low);
    let selector = match needs_primary && !has(10) {
        true => Selector::primary(width),
        false => Selector::new(width, [some, flat, flat, flat]),
    };
    let mut handle = Handle::converted(NODE as u16, LOCAL as u8, &OWN, selector);
    if has(4) {
        handle.selector = Selector::new(width, [flat, some, flat, flat]);
    }
    handle.local -= u8::from(has(8));
    let cut_off = has(25).then(|| faults.iter().map(|fault| usize::from(*fault)).sum());
    spoiled(handle, has(9), has(2) && !is_local, cut_off)
}

/// The handle with another password, at a node that there is not, with a length that no handle has.
pub fn spoiled(mut handle: Handle, violated: bool, nowhere: bool, cut_off: Option<usize>) -> HandleBytes {
    handle.password[15] ^= u8::from(violated);
    handle.node += 4 * u16::from(nowhere);
    match cut_off {
        Some(choice) => cut(handle, choice),
        None => handle.into(),
    }
}
