//! Joins with every set of faults, each of them to the first handle, to the second or to both, at one width or another:
//! what each has to be refused with is known from the set alone.
#![allow(dead_code)] // each test file uses its own part

use super::faults::{spoiled, Faulty, OTHER_WIDTH};
use super::*;

/// The cluster that the first handle names, where that is a place.
pub const NODE: u16 = 2;
pub const LOCAL: u8 = 6;
/// What the two reference together where nothing is wrong: all segments but the last.
pub fn union(width: Width) -> u16 {
    width.flat() >> 1
}

const PAIRS: usize = 5;

/// Subselectors of the two: the first pair is not whole, the others are.
fn pairs(width: Width) -> [[[u16; 4]; 2]; PAIRS] {
    let flat = width.flat();
    let (all, one) = ([flat; 4], [0b0011, flat, flat, flat]);
    let two = [flat - 1, union(width), flat, flat];
    [[one, two], [[flat - 1, flat, flat, flat], [flat - 2, union(width), flat, flat]], [all, two], [one, all], [all; 2]]
}

/// How the second handle's name differs, and which of the two clusters are inactive: bit 0 stands for the first, bit 1
/// for the second.
const NAMES: [((u16, u8), usize); 10] = [
    ((0, 0), 0),
    ((0, 0), 3),
    ((1, 0), 0),
    ((1, 0), 1),
    ((1, 0), 2),
    ((1, 0), 3),
    ((0, 1), 0),
    ((0, 1), 1),
    ((0, 1), 2),
    ((0, 1), 3),
];

/// How many ways there are for: 25, 1, 2, 3, 4, the names, 25 again, 9, the selectors, the mode.
const WAYS: [usize; 10] = [4, 2, 4, 2, 4, NAMES.len(), 4, 4, PAIRS, 2];

/// The first is one that is done. Each set of faults is there once, at one of the widths.
pub fn all() -> impl Iterator<Item = Faulty> {
    (0..WAYS.iter().product()).map(|at| {
        let mut rest = at;
        let choices = WAYS.map(|ways| {
            let choice = rest % ways;
            rest /= ways;
            choice
        });
        with(choices, Width::ALL[at % 3])
    })
}

fn with(choices: [usize; 10], width: Width) -> Faulty {
    let [cut_off, unsound, nowhere, field, gapped, names, wide, violated, selectors, write] = choices;
    let ((more_nodes, more_locals), inactive) = NAMES[names];
    let apart = usize::from(NAMES[names].0 != (0, 0));
    let applying = [cut_off, unsound, nowhere, field, gapped, apart, inactive, wide, violated, selectors];
    let applying = applying.into_iter().zip([25, 1, 2, 3, 4, 24, 8, OTHER_WIDTH, 9, 23]);
    let mode = Mode::ALL[write];
    let places = [(NODE, LOCAL), (NODE + more_nodes, LOCAL + more_locals)];
    let mut store = store(places, width, inactive);
    let handle = |at: usize| -> HandleBytes {
        let has = |fault: usize| fault >> at & 1 == 1;
        let (node, local) = places[at];
        let cluster = &store.clusters[usize::from(node)][usize::from(local)];
        let other = others(width).nth((selectors + write) % 2);
        let own = other.filter(|_| has(wide)).unwrap_or(width);
        let selector = match has(gapped) {
            true => [own.flat(), pairs(own)[0][at][0], own.flat(), own.flat()],
            false => pairs(own)[selectors][at],
        };
        let handle = Handle::converted(node, local, cluster.primary(mode), Selector::new(own, selector));
        spoiled(handle, has(violated), has(nowhere), has(cut_off).then(|| choices.iter().sum()))
    };
    let call = Call::join([1, 2, 0, 3][2 * field + write], handle(0), handle(1));
    if unsound == 1 {
        make_unsound(&mut store);
    }
    let faults = applying.filter(|(fault, _)| *fault != 0).map(|(_, number)| number).collect();
    Faulty { faults, store, call, width, segment: 0, buffer_bytes: 0 }
}

/// Both places are active but for those that are not to be; the passwords are the same everywhere, so that the names
/// alone tell the clusters from one another.
fn store(places: [(u16, u8); 2], width: Width, inactive: usize) -> Store {
    let mut store = Store::starting();
    let active = Cluster::new(width, READ_SECRET, WRITE_SECRET);
    store.clusters[0][0] = active;
    store.clusters[0][0].segments[3] = Segment::present(0, 9).marked();
    for (at, (node, local)) in places.into_iter().enumerate() {
        let cluster = &mut store.clusters[usize::from(node)][usize::from(local)];
        if inactive >> at & 1 == 0 {
            *cluster = active;
            cluster.segments[0] = Segment::present(at as u16, 1);
        }
    }
    store
}
