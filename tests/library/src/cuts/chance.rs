//! Handles that validate in a mode, and the masks that they are cut by, made by chance such that the ways end in all the
//! ways that there are.

use crate::guard::handles::Behind;
use crate::words::*;
use model::cuts::Masks;
use model::generate::{noting, to_nothing};
use model::hexadecimal::encode as hex;
use std::fmt;

listed! {
    /// How the handle came about. Those from elsewhere may be such as no weakening gives: with more subselectors that are
    /// not flat than it takes, or for nothing.
    pub enum Origin { Primary, Once, Twice, Thrice, Reduced, Joined, Elsewhere }
}

/// A store, a handle that validates there in the mode, and the masks.
pub struct Case {
    pub held: Held,
    pub mode: Mode,
    pub handle: Handle,
    pub origin: Origin,
    /// Whether it validates in the other mode, too.
    pub in_both: bool,
    pub masks: Masks,
    pub behind: Behind,
}

impl Case {
    pub fn by_chance(random: &mut Random) -> Case {
        // Mostly with nothing but the cluster: the rest of the store takes time, and does not matter.
        let full = if random.one_in(4) { Fill::by_chance(random) } else { Fill::Empty };
        let mut store = stores::store(random, full);
        let chosen = handles::place(random, &store, |cluster| cluster.active);
        let place = chosen.unwrap_or((below(random, NODES), below(random, CLUSTERS)));
        let cluster = &mut store.clusters[place.0][place.1];
        if !cluster.active {
            *cluster = active(random);
        }
        let in_both = cluster.has_equal_passwords();
        let mode = random.one_of(&Mode::ALL);
        // Those from elsewhere come as often as all others: some ends of the ways need one.
        let origin = if random.one_in(2) { Origin::Elsewhere } else { random.one_of(&Origin::ALL) };
        let handle = made(random, origin, handles::primary(&store, place, mode));
        let masks = masks(random, &handle);
        let behind = random.bytes();
        Case { held: stores::held(random, &store), mode, handle, origin, in_both, masks, behind }
    }
}

impl fmt::Display for Case {
    fn fmt(&self, to: &mut fmt::Formatter) -> fmt::Result {
        let Masks { first, second, shared } = self.masks;
        let (handle, mode) = (hex(&self.handle.to_bytes()), self.mode.number());
        write!(to, "handle {handle} in mode {mode}, masks {first:04x} and {second:04x}, shared {shared:04x}")
    }
}

/// A handle made from the primary one.
fn made(random: &mut Random, origin: Origin, primary: Handle) -> Handle {
    match origin {
        Origin::Primary => primary,
        Origin::Once => weakened(random, primary, 1),
        Origin::Twice => weakened(random, primary, 2),
        Origin::Thrice => weakened(random, primary, 3),
        Origin::Reduced => often_weakened(random, primary).reduce(&primary.password),
        Origin::Joined => joined(random, primary),
        Origin::Elsewhere => elsewhere(random, primary),
    }
}

/// Weakened so often; each time something is taken away, and as much left as the next times need.
fn weakened(random: &mut Random, mut handle: Handle, times: u32) -> Handle {
    for next in (0..times).rev() {
        let mask = loop {
            let one = !bit(random, handle.width());
            let mask = if random.one_in(3) { one & random.number() as u16 } else { one };
            if handle.excluded(mask) != 0 && handle.kept(mask).count_ones() > next {
                break mask;
            }
        };
        handle = handle.weaken(mask).expect("a subselector is flat");
    }
    handle
}

/// Once to three times.
fn often_weakened(random: &mut Random, handle: Handle) -> Handle {
    let times = random.one_of(&[1, 2, 3]);
    weakened(random, handle, times)
}

fn joined(random: &mut Random, primary: Handle) -> Handle {
    loop {
        let [one, other] = [(); 2].map(|()| often_weakened(random, primary));
        if one.union(&other) != primary.width().flat() {
            return one.join(&other, &primary.password);
        }
    }
}

/// Mostly for all segments but one, whatever the number of subselectors that are flat.
fn elsewhere(random: &mut Random, primary: Handle) -> Handle {
    let width = primary.width();
    let selector = match random.below(12) {
        0 => to_nothing(random, width),
        1..5 => {
            let segments = bits(random, width) | bits(random, width);
            noting(random, width, segments)
        }
        _ => {
            let one = bit(random, width);
            noting(random, width, width.flat() - one)
        }
    };
    Handle::converted(primary.node, primary.local, &primary.password, selector)
}

/// A segment that is referenced may be kept by neither mask, by the first alone, by the second alone, or by both. Some of
/// the four are chosen, and each of these comes, if there are as many segments. All other bits of the masks are any.
fn masks(random: &mut Random, handle: &Handle) -> Masks {
    let chosen = 1 + random.below(15);
    let keeping: Vec<u16> = (0..4).filter(|keeping| chosen >> keeping & 1 == 1).collect();
    let mut segments: Vec<usize> =
        (0..handle.width().segments()).filter(|segment| handle.selector.references(*segment)).collect();
    random.shuffle(&mut segments);
    let [mut first, mut second] = [random.number() as u16, random.number() as u16];
    for (at, segment) in segments.into_iter().enumerate() {
        let keeping = keeping.get(at).copied().unwrap_or_else(|| random.one_of(&keeping));
        for (mask, bit) in [(&mut first, keeping & 1), (&mut second, keeping >> 1)] {
            *mask = *mask & !(1 << segment) | bit << segment;
        }
    }
    if random.one_in(12) {
        second = first;
    }
    let above = !handle.width().flat();
    let other = if random.one_in(2) { random.number() as u16 & above } else { 0 };
    Masks { first, second, shared: first & second ^ other }
}
