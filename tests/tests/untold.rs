//! What the reply to a new password does not tell: stores that differ in the other mode's password alone get the same
//! reply, and are left differing in that password alone. Nothing here says which reply it has to be.

mod support;

use std::collections::BTreeSet;
use support::{naive::sets, *};

const NEAR: Password = [1, 1, 1, 1, 1, 1, 1, 1, 1, 1, 1, 1, 1, 1, 1, 0];
/// Few passwords, two of them equal in all bits but one.
const FEW: [Password; 5] = [[0; 16], [1; 16], NEAR, [2; 16], [3; 16]];

/// Cluster 2 of node 0 with a segment, and with these passwords for `mode` and for the other one.
fn state(width: Width, mode: Mode, own: Password, other: Password) -> Bench {
    let mut state = Bench::with_segment_of(width);
    let cluster = &mut state.store.clusters[0][2];
    (*cluster.primary_mut(mode), *cluster.primary_mut(mode.other())) = (own, other);
    state
}

/// The number that both give; their replies are equal. Afterwards each has the other mode's password that it had, and
/// but for these nothing differs.
fn number(width: Width, mode: Mode, own: Password, others: [Password; 2], call: Call) -> u8 {
    let mut states = others.map(|other| state(width, mode, own, other));
    let [one, two] = states.each_mut().map(|state| state.reply(&call));
    assert_eq!(one, two, "{own:?} {others:?} {call:?}");
    let left = states.each_mut().map(|state| {
        let cluster = &mut state.store.clusters[0][2];
        std::mem::take(cluster.primary_mut(mode.other()))
    });
    assert_eq!(left, others, "{own:?} {call:?}");
    assert!(states[0] == states[1], "{own:?} {others:?} {call:?}");
    one.number
}

/// Every four of the few passwords: the mode's own, the other mode's in either store, and the new one. The handle is
/// that of the mode, primary and not, or one made from the other mode's password in either store.
#[test]
fn whatever_the_four_passwords_are() {
    let mut numbers = BTreeSet::new();
    for at in 0..2 * FEW.len().pow(4) {
        let mode = Mode::ALL[at % 2];
        let [own, one, two, password] = [0, 1, 2, 3].map(|place| FEW[at / 2 / 5_usize.pow(place) % 5]);
        let width = Width::ALL[at % 3];
        let flat = width.flat();
        let weaker = Selector::new(width, [flat - 9, flat, flat, flat]);
        for made_from in [own, one, two] {
            for selector in [Selector::primary(width), weaker] {
                let handle = Handle::converted(0, 2, &made_from, selector);
                let call = Call::new_password(mode.number(), handle, password);
                numbers.insert(number(width, mode, own, [one, two], call));
            }
        }
    }
    assert!(numbers.iter().eq(&[0, 9, 10, 12]), "{numbers:?}");
}

/// Handles with every set of segments, right and wrong ones, some of another width than the cluster's, and passwords by
/// chance.
#[test]
fn whatever_the_handle_is() {
    let random = &mut Random::from_seed(1);
    for width in Width::ALL {
        let flat = width.flat();
        let selectors = sets(width).into_iter().chain([[flat; 4]; 400]).chain([[flat, 0, flat, flat]; 9]);
        let selectors = selectors.map(|parts| Selector::new(width, parts));
        let wide = others(width).flat_map(|other| [Selector::primary(other); 40]);
        let mut numbers = BTreeSet::new();
        for selector in selectors.chain(wide) {
            let passwords: [Password; 4] = std::array::from_fn(|_| random.bytes());
            let [own, one, two, third] = passwords;
            let mode = Mode::ALL[random.below(2) as usize];
            let made_from = *random.pick(&[own, own, own, one, two, third]).unwrap();
            let handle = Handle::converted(0, 2, &made_from, selector);
            // Either store may have equal passwords, or neither.
            let others = *random.pick(&[[one, two], [own, two], [one, own]]).unwrap();
            for password in passwords {
                let call = Call::new_password(mode.number(), handle, password);
                numbers.insert(number(width, mode, own, others, call));
            }
        }
        assert!(numbers.iter().eq(&[0, 4, 9, 10, 12, 25]), "{numbers:?}");
    }
}
