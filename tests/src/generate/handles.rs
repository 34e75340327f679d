//! Handles by chance: right ones for the store as it is, old ones, and ones with something wrong.

use crate::{list, words::*};

/// What the call that a handle is made for would like.
#[derive(Clone, Copy)]
pub struct Wish {
    pub mode: Mode,
    pub primary: bool,
    /// A cluster that has segments.
    pub segments: bool,
}

/// Node and local number of one of the clusters that `fits` is true of, if there are any.
pub fn place(random: &mut Random, store: &Store, fits: impl Fn(&Cluster) -> bool) -> Option<(u16, u8)> {
    let all = (0..NODES).flat_map(|node| (0..CLUSTERS).map(move |local| (node, local)));
    let fitting = all.filter(|&(node, local)| fits(&store.clusters[node][local]));
    let places: Vec<(u16, u8)> = fitting.map(|(node, local)| (node as u16, local as u8)).collect();
    random.pick(&places).copied()
}

pub fn is_inactive(cluster: &Cluster) -> bool {
    !cluster.active
}

/// An active cluster, mostly as it is wished for; sometimes one that a single handle opens in both modes.
fn active_place(random: &mut Random, store: &Store, wish: Wish) -> Option<(u16, u8)> {
    let wished = |cluster: &Cluster| cluster.active && cluster.has_segments() == wish.segments;
    let chosen = match random.below(20) {
        0..=3 => None,
        4..=6 => place(random, store, Cluster::has_equal_passwords),
        _ => place(random, store, wished),
    };
    chosen.or_else(|| place(random, store, |cluster| cluster.active))
}

/// A handle for a call that would like `wish`; `given` are handles that calls gave before.
pub fn handle(random: &mut Random, store: &Store, given: &[Handle], wish: Wish) -> Handle {
    let chosen = match random.below(10) {
        0 | 1 => random.pick(given).copied(),
        _ => None,
    };
    let handle = chosen.unwrap_or_else(|| right(random, store, wish));
    if random.one_in(5) {
        wrong(random, store, handle)
    } else {
        handle
    }
}

/// A handle of a list, of bytes without any sense.
pub fn any(random: &mut Random) -> Handle {
    let bytes: [u8; list::HANDLE_BYTES] = random.bytes();
    Handle::from_bytes(&bytes).expect("a list's handles have a width")
}

/// The cluster's width; that of lists where the cluster is inactive.
pub fn width_of(cluster: &Cluster) -> Width {
    cluster.known_width().unwrap_or(list::WIDTH)
}

/// The bits of a subselector, or a mask, by chance.
pub fn bits(random: &mut Random, width: Width) -> u16 {
    random.number() as u16 & width.flat()
}

/// One of these bits.
pub fn bit(random: &mut Random, width: Width) -> u16 {
    1 << random.below(width.segments() as u64)
}

/// A handle that validates, mostly in the mode that is wished for, if any cluster is active.
fn right(random: &mut Random, store: &Store, wish: Wish) -> Handle {
    let Some((node, local)) = active_place(random, store, wish) else { return any(random) };
    let cluster = &store.clusters[usize::from(node)][usize::from(local)];
    let width = width_of(cluster);
    let mode = if random.one_in(10) { wish.mode.other() } else { wish.mode };
    let primary = *cluster.primary(mode);
    let mut handle = Handle::primary(width, node, local, primary);
    let times = if wish.primary && !random.one_in(6) { 0 } else { random.below(6) };
    if times > 0 && random.one_in(8) {
        return Handle::converted(node, local, &primary, to_nothing(random, width));
    }
    for _ in 0..times {
        let mask = bits(random, width) | bits(random, width) | bits(random, width);
        handle = handle.weaken(mask).unwrap_or(handle);
    }
    if random.one_in(6) {
        handle.reduce(&primary)
    } else {
        handle
    }
}

/// A handle with one thing changed.
fn wrong(random: &mut Random, store: &Store, mut handle: Handle) -> Handle {
    let width = handle.width();
    match random.below(9) {
        0 => handle.password[random.below(16) as usize] ^= 1 << random.below(8),
        1 => handle.password = random.bytes(),
        2 => handle.node = random.number() as u16,
        3 => handle.node = random.below(6) as u16,
        4 => handle.local = random.below(10) as u8,
        5 => handle.selector = gapped(random, width),
        6 => handle.selector.subselectors.reverse(),
        7 => {
            let at = random.below(SUBSELECTORS as u64) as usize;
            handle.selector.subselectors[at] = bits(random, width);
        }
        _ => {
            if let Some((node, local)) = place(random, store, is_inactive) {
                handle = Handle::primary(width, node, local, [0; 16]);
            }
        }
    }
    handle
}

/// A selector without gaps that references nothing; one to four subselectors are not flat.
pub fn to_nothing(random: &mut Random, width: Width) -> Selector {
    let mut selector = Selector::primary(width);
    let last = random.below(SUBSELECTORS as u64) as usize;
    for subselector in &mut selector.subselectors[..=last] {
        *subselector = (bits(random, width) | bits(random, width)) & !bit(random, width);
    }
    selector.subselectors[last] &= !selector.referenced();
    selector
}

pub fn gapped(random: &mut Random, width: Width) -> Selector {
    let mut selector = Selector::primary(width);
    let at = 1 + random.below(SUBSELECTORS as u64 - 1) as usize;
    selector.subselectors[at] = bits(random, width) & !1;
    if random.one_in(2) {
        selector.subselectors[0] = bits(random, width);
    }
    selector
}

/// A selector without gaps that references just these segments; one to four subselectors are not flat, but none where
/// it references all.
pub fn noting(random: &mut Random, width: Width, segments: u16) -> Selector {
    let mut selector = Selector::primary(width);
    if segments == width.flat() {
        return selector;
    }
    let last = random.below(SUBSELECTORS as u64) as usize;
    for subselector in &mut selector.subselectors[..=last] {
        let taken = not_of(random, width, segments);
        *subselector = (segments | bits(random, width) | bits(random, width)) & !taken;
    }
    selector.subselectors[last] &= segments | !selector.referenced();
    selector
}

/// The bit of one segment that is none of these.
fn not_of(random: &mut Random, width: Width, segments: u16) -> u16 {
    let bits = (0..width.segments()).map(|segment| 1 << segment);
    let others: Vec<u16> = bits.filter(|bit| segments & bit == 0).collect();
    random.pick(&others).copied().unwrap_or(0)
}

/// Bytes of a length that no handle has: cut, or with more bytes after them.
pub fn of_no_length(random: &mut Random, mut bytes: HandleBytes) -> HandleBytes {
    let lengths = [0, 1, 2, 16, 19, 20, 22, 24, 25, 26, 28, 31, 46, 64];
    let length = random.one_of(&lengths);
    bytes.resize_with(length, || random.byte());
    bytes
}
