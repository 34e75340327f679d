//! Handles by chance: right ones for the store as it is, old ones, and ones with something wrong, of every width.

use crate::words::*;
use model::generate::to_nothing;

/// Bytes that are presented for a handle mostly have at most so many; a length byte tells up to 255.
pub const MOST_BYTES: usize = 40;
/// Lengths beside those that handles have.
const NEAR_LENGTHS: [usize; 7] = [0, 20, 22, 24, 25, 26, 28];

/// What the call that a handle is made for would like.
#[derive(Clone, Copy)]
pub struct Wish {
    pub mode: Mode,
    pub primary: bool,
    /// A cluster that has segments.
    pub segments: bool,
    /// A cluster of this width, or of any.
    pub width: Option<Width>,
}

/// A handle for a call that would like `wish`; `given` are handles that calls gave before.
pub fn handle(random: &mut Random, store: &Store, given: &[Handle], wish: Wish) -> Handle {
    let chosen = if random.below(10) < 3 { random.pick(given).copied() } else { None };
    let handle = chosen.unwrap_or_else(|| right(random, store, wish));
    match random.one_in(4) {
        true => wrong(random, store, handle),
        false => handle,
    }
}

/// What is presented for a handle: its bytes, and sometimes such as no handle has.
pub fn presented(random: &mut Random, handle: &Handle) -> HandleBytes {
    match random.one_in(16) {
        true => of_no_length(random, handle.to_bytes()),
        false => handle.to_bytes(),
    }
}

/// Bytes of a length that no handle has: cut, or with more bytes after them.
pub fn of_no_length(random: &mut Random, mut handle: HandleBytes) -> HandleBytes {
    let length = loop {
        let length = match random.below(4) {
            0 => random.byte().into(),
            1 => below(random, MOST_BYTES + 1),
            _ => NEAR_LENGTHS[below(random, NEAR_LENGTHS.len())],
        };
        if Width::of_handle_bytes(length).is_none() {
            break length;
        }
    };
    let more = bytes(random, length.saturating_sub(handle.len()));
    handle.truncate(length);
    handle.extend(more);
    handle
}

/// Node and local number of every cluster.
pub fn everywhere() -> impl Iterator<Item = (usize, usize)> {
    (0..NODES).flat_map(|node| (0..CLUSTERS).map(move |local| (node, local)))
}

/// Those of one of the clusters that `fits` is true of, if there are any.
pub fn place(random: &mut Random, store: &Store, fits: impl Fn(&Cluster) -> bool) -> Option<(usize, usize)> {
    let fitting = everywhere().filter(|&(node, local)| fits(&store.clusters[node][local]));
    random.pick(&fitting.collect::<Vec<_>>()).copied()
}

/// The primary handle of an active cluster.
pub fn primary(store: &Store, (node, local): (usize, usize), mode: Mode) -> Handle {
    let cluster = &store.clusters[node][local];
    Handle::primary(cluster.known_width().expect("it is active"), node as u16, local as u8, *cluster.primary(mode))
}

/// A handle that validates, mostly in the mode that is wished for, if any cluster is active.
fn right(random: &mut Random, store: &Store, wish: Wish) -> Handle {
    let fits = |cluster: &Cluster| {
        let is_wide = wish.width.is_none_or(|width| cluster.has_width(width));
        cluster.active && is_wide && cluster.has_segments() == wish.segments
    };
    // Sometimes one that a single handle opens in both modes.
    let both = random.one_in(12);
    let chosen = place(random, store, |cluster| if both { cluster.has_equal_passwords() } else { fits(cluster) });
    let Some(place) = chosen.or_else(|| place(random, store, |cluster| cluster.active)) else {
        return nowhere_active(random);
    };
    let mode = match (wish.mode, random.one_in(10)) {
        (Mode::Read, true) | (Mode::Write, false) => Mode::Write,
        _ => Mode::Read,
    };
    let handle = primary(store, place, mode);
    if wish.primary && !random.one_in(6) {
        return handle;
    }
    let weaker = weakened(random, handle);
    match random.one_in(6) {
        true => weaker.reduce(&handle.password),
        false => weaker,
    }
}

/// What can be presented to a store without active clusters.
fn nowhere_active(random: &mut Random) -> Handle {
    let (node, local) = (below(random, NODES) as u16, below(random, CLUSTERS) as u8);
    if random.one_in(4) {
        return any(random);
    }
    let (width, password) = (width(random), password(random));
    weakened(random, Handle::primary(width, node, local, password))
}

/// A handle of bytes without any sense.
fn any(random: &mut Random) -> Handle {
    let length = width(random).handle_bytes();
    Handle::from_bytes(&bytes(random, length)).expect("it is the length of one")
}

/// A primary handle weakened up to four times; mostly one segment at a time, so that some are left.
/// Or one that references nothing, which no weakening gives, and whose password is right.
fn weakened(random: &mut Random, mut handle: Handle) -> Handle {
    let width = handle.width();
    if random.one_in(8) {
        let (node, local, primary) = (handle.node, handle.local, handle.password);
        return Handle::converted(node, local, &primary, to_nothing(random, width));
    }
    for _ in 0..below(random, SUBSELECTORS + 1) {
        let mask = match random.below(16) {
            0..=3 => bits(random, width) | bits(random, width),
            4 => half(random, width),
            _ => !bit(random, width),
        };
        handle = handle.weaken(mask).unwrap_or(handle);
    }
    handle
}

/// The lower half of the segments, which are all of a smaller width, or the upper one.
fn half(random: &mut Random, width: Width) -> u16 {
    let lower = width.flat() >> (width.segments() / 2);
    match random.one_in(2) {
        true => lower,
        false => width.flat() - lower,
    }
}

/// The handle with one thing changed, or another one.
fn wrong(random: &mut Random, store: &Store, mut handle: Handle) -> Handle {
    match random.below(14) {
        0 => handle.password = near(random, handle.password),
        1 => handle.password = password(random),
        2 => handle.node = random.number() as u16,
        3 => handle.node = (NODES + below(random, 2)) as u16,
        // Right in the lower byte, or in the lower three bits, alone.
        4 => handle.node |= 1 << (8 + random.below(8)),
        5 => handle.local = (CLUSTERS + below(random, 2)) as u8,
        6 => handle.local |= 1 << (3 + random.below(5)),
        7 => handle.selector = gapped(random, handle.width()),
        8 => handle.selector.subselectors.reverse(),
        9 => {
            let at = below(random, SUBSELECTORS);
            handle.selector.subselectors[at] = bits(random, handle.width());
        }
        10 => return elsewhere(random, store, handle),
        11 | 12 => {
            handle = of_another_width(random, store, handle);
            if random.one_in(6) {
                handle.selector = gapped(random, handle.width());
            }
        }
        _ => return any(random),
    }
    handle
}

/// The handle as if it were another cluster's: one that is inactive, or any.
fn elsewhere(random: &mut Random, store: &Store, handle: Handle) -> Handle {
    let inactive = place(random, store, |cluster| !cluster.active);
    match inactive.filter(|_| random.one_in(2)) {
        // Its passwords are zero, so that nothing but its being inactive speaks against this.
        Some((node, local)) => Handle::primary(handle.width(), node as u16, local as u8, [0; PASSWORD_BYTES]),
        None => Handle { node: below(random, NODES) as u16, local: below(random, CLUSTERS) as u8, ..handle },
    }
}

/// The handle at one of the two widths that it does not have. Where its password is right it mostly is again.
pub fn of_another_width(random: &mut Random, store: &Store, handle: Handle) -> Handle {
    let others: Vec<Width> = Width::ALL.into_iter().filter(|own| *own != handle.width()).collect();
    let mut other = at_width(&handle, others[below(random, others.len())]);
    let primaries = store.cluster_of(&handle).map(|cluster| [cluster.read, cluster.write]);
    let made_from = primaries.into_iter().flatten().find(|primary| handle.is_made_from(primary));
    if let Some(primary) = made_from.filter(|_| !random.one_in(4)) {
        other.password = derive(&primary, &other.selector);
    }
    other
}

/// The handle with its subselectors at this width: those that are flat stay so, and of the others there is left what
/// has room, but for segment 0, so that none becomes flat.
pub fn at_width(handle: &Handle, width: Width) -> Handle {
    let at = |part: u16| if part == handle.width().flat() { width.flat() } else { part & width.flat() & !1 };
    Handle { selector: Selector::new(width, handle.selector.subselectors.map(at)), ..*handle }
}
