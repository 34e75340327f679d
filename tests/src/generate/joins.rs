//! Joins by chance. What speaks against a join seldom meets by itself, so that most of them are made from two handles
//! of one cluster, each of them valid: none, one or two things are made wrong in them.

use super::handles::{bits, gapped, is_inactive, noting, of_no_length, place, width_of};
use crate::{listed, words::*};

/// What a join is asked with.
pub struct Join {
    pub mode: Mode,
    /// False where it has to be asked with a number that is no mode's.
    pub is_a_mode: bool,
    pub handles: [HandleBytes; 2],
}

listed! {
    /// In the order in which two of them are put into one join.
    enum Fault {
        Inactive, Apart, OtherWidth, Gapped, NotValid, Nowhere, NoMode, NoLength,
    }
}

/// Which of the two handles it is done to; one of them more often than both.
const TO: [&[usize]; 5] = [&[0], &[1], &[0], &[1], &[0, 1]];

/// What lists can have; they have one width.
const IN_LISTS: [Fault; 6] =
    [Fault::Inactive, Fault::Apart, Fault::Gapped, Fault::NotValid, Fault::Nowhere, Fault::NoMode];

/// A join of a list; none where no cluster is active. Sometimes the cluster is one whose handles open both modes.
pub fn join(random: &mut Random, store: &Store) -> Option<Join> {
    join_with(random, store, &IN_LISTS)
}

/// The same with handles of every width, of another width than their cluster's and of lengths that no handle has.
pub fn join_of_widths(random: &mut Random, store: &Store) -> Option<Join> {
    join_with(random, store, &Fault::ALL)
}

fn join_with(random: &mut Random, store: &Store, faults: &[Fault]) -> Option<Join> {
    let equal = if random.one_in(5) { place(random, store, Cluster::has_equal_passwords) } else { None };
    let (node, local) = equal.or_else(|| place(random, store, |cluster| cluster.active))?;
    let mode = random.one_of(&Mode::ALL);
    let mut handles = two(random, store, (node, local), mode);
    // None, one or two, and one of them may be there twice.
    let count = random.below(4).min(2);
    let mut faults: Vec<(Fault, &[usize])> = (0..count).map(|_| (random.one_of(faults), random.one_of(&TO))).collect();
    faults.sort_by_key(|(fault, _)| *fault);
    for (fault, to) in &faults {
        spoil(random, store, mode, &mut handles, *fault, to);
    }
    let has = |fault: Fault, at: usize| faults.iter().any(|(own, to)| *own == fault && to.contains(&at));
    let mut bytes = |at: usize| match has(Fault::NoLength, at) {
        true => of_no_length(random, handles[at].to_bytes()),
        false => handles[at].to_bytes(),
    };
    let is_a_mode = !has(Fault::NoMode, 0) && !has(Fault::NoMode, 1);
    Some(Join { mode, is_a_mode, handles: [bytes(0), bytes(1)] })
}

/// Two handles of an active cluster, in either order.
fn two(random: &mut Random, store: &Store, place: (u16, u8), mode: Mode) -> [Handle; 2] {
    let cluster = &store.clusters[usize::from(place.0)][usize::from(place.1)];
    let width = width_of(cluster);
    let flat = width.flat();
    let one = match random.below(8) {
        0 => flat,
        1 => 0,
        _ => bits(random, width),
    };
    let valid = |random: &mut Random, segments| {
        let selector = noting(random, width, segments);
        Handle::converted(place.0, place.1, cluster.primary(mode), selector)
    };
    let handle = valid(random, one);
    let two = match random.below(8) {
        0 => return [handle; 2],
        1 => flat & !one,
        2 => !one & bits(random, width),
        3 => one & bits(random, width),
        4 => one,
        5 => flat,
        6 => 0,
        _ => bits(random, width),
    };
    let mut both = [handle, valid(random, two)];
    random.shuffle(&mut both);
    both
}

fn spoil(random: &mut Random, store: &Store, mode: Mode, handles: &mut [Handle; 2], fault: Fault, to: &[usize]) {
    match fault {
        Fault::NoMode | Fault::NoLength => {}
        Fault::Inactive => {
            if let Some(inactive) = place(random, store, is_inactive) {
                *handles = handles.map(|handle| moved(store, &handle, inactive, mode));
            }
        }
        Fault::Apart => {
            let handle = &mut handles[to[0]];
            let elsewhere = apart(random, store, handle);
            *handle = moved(store, handle, elsewhere, mode);
        }
        _ => {
            let choice = random.number();
            for at in to {
                let handle = &mut handles[*at];
                match fault {
                    Fault::Gapped => *handle = with_a_gap(random, store, handle, mode),
                    Fault::NotValid => *handle = not_valid(random, store, handle, mode),
                    Fault::OtherWidth => *handle = of_other_width(choice, store, handle, mode),
                    _ => to_no_place(choice, handle),
                }
            }
        }
    }
}

/// The handle as if it were given for another cluster, but for its width.
fn moved(store: &Store, handle: &Handle, (node, local): (u16, u8), mode: Mode) -> Handle {
    let cluster = &store.clusters[usize::from(node)][usize::from(local)];
    Handle::converted(node, local, cluster.primary(mode), handle.selector)
}

/// Another cluster of the same node, or the one with the same number of another node; every second time an inactive
/// one, where there is one.
fn apart(random: &mut Random, store: &Store, handle: &Handle) -> (u16, u8) {
    let (node, local) = (usize::from(handle.node), usize::from(handle.local));
    let nodes = (0..NODES).filter(|other| *other != node);
    let locals = (0..CLUSTERS).filter(|other| *other != local);
    let mut places: Vec<(usize, usize)> = match random.one_in(2) {
        true => nodes.map(|other| (other, local)).collect(),
        false => locals.map(|other| (node, other)).collect(),
    };
    let inactive = |&(node, local): &(usize, usize)| !store.clusters[node][local].active;
    if random.one_in(2) && places.iter().any(inactive) {
        places.retain(inactive);
    }
    let (node, local) = random.one_of(&places);
    (node as u16, local as u8)
}

/// The handle with a selector that is gapped, and mostly with the password that would go with it.
fn with_a_gap(random: &mut Random, store: &Store, handle: &Handle, mode: Mode) -> Handle {
    let gapped = Handle { selector: gapped(random, handle.width()), ..*handle };
    match random.one_in(4) {
        true => gapped,
        false => moved(store, &gapped, gapped.name(), mode),
    }
}

/// The handle as if it were given for the other mode, or with another password; always the latter where the two modes
/// have equal passwords.
fn not_valid(random: &mut Random, store: &Store, handle: &Handle, mode: Mode) -> Handle {
    let other = moved(store, handle, handle.name(), mode.other());
    if random.one_in(2) && other != *handle {
        return other;
    }
    let mut forged = *handle;
    forged.password[random.below(PASSWORD_BYTES as u64) as usize] ^= 1 << random.below(8);
    forged
}

/// A node or a local number that there is not, often one that is right in its lowest bits alone. Equal choices take
/// handles with equal names to the same.
fn to_no_place(choice: u64, handle: &mut Handle) {
    let further = choice / 4 % 5;
    match choice % 4 {
        0 => handle.node = NODES as u16 + further as u16,
        1 => handle.node |= 1 << (8 + further),
        2 => handle.local = CLUSTERS as u8 + further as u8,
        _ => handle.local |= 1 << (3 + further),
    }
}

/// The handle with the same subselectors at another width, those that were flat being flat again, and with the
/// password that goes with them. Equal choices take handles of one width to the same.
fn of_other_width(choice: u64, store: &Store, handle: &Handle, mode: Mode) -> Handle {
    let own = handle.width();
    let mut others = Width::ALL.into_iter().filter(|width| *width != own);
    let other = others.nth(choice as usize % 2).expect("there are two");
    let subselectors = handle.selector.subselectors;
    let subselectors = subselectors.map(|part| match part == own.flat() {
        true => other.flat(),
        false => part & other.flat() & !1,
    });
    let changed = Handle { selector: Selector::new(other, subselectors), ..*handle };
    moved(store, &changed, changed.name(), mode)
}
