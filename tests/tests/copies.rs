//! Nothing of a cluster is told to those who have no handle of it. Two states begin alike but for the bytes of one
//! cluster's segments and its two passwords, and no call presents a handle that opens it in either state; one of
//! another width does not. Then both reply the same, stay alike in all else, and each keeps that cluster as it was.

mod support;

use std::collections::BTreeMap;
use support::{valid::*, *};

const LISTS: usize = 300;

/// Some segments are frozen.
fn pair(random: &mut Random) -> [Bench; 2] {
    let start = two_clusters(random, true);
    let mut other = start.clone();
    let cluster = &mut other.store.clusters[0][SET_APART];
    (cluster.read, cluster.write) = (random.bytes(), random.bytes());
    for part in parts(&start, SET_APART) {
        other.memory[part].fill_with(|| random.byte());
    }
    [start, other]
}

/// Whether the handle opens the cluster set apart, in either mode and in either state.
fn opens(states: &[Bench; 2], handle: &Handle) -> bool {
    let validates = |state: &Bench| {
        let cluster = &state.store.clusters[0][SET_APART];
        Mode::ALL.iter().any(|mode| handle.validates(cluster, *mode))
    };
    handle.name() == (0, SET_APART as u8) && states.iter().any(validates)
}

/// The handle with another password, or with the right one at another width.
fn shut(random: &mut Random, cluster: &Cluster, handle: &Handle) -> Handle {
    let mut shut = *handle;
    if random.one_in(2) {
        shut.password[random.below(16) as usize] ^= 1 << random.below(8);
        return shut;
    }
    let width = others(handle.width()).nth(random.below(2) as usize).unwrap();
    let primary = random.one_of(&[cluster.read, cluster.write]);
    let (node, local) = handle.name();
    let handle = Handle::primary(width, node, local, primary);
    let cut = handle.weaken(random.number() as u16 | 1);
    cut.filter(|_| random.one_in(2)).unwrap_or(handle)
}

/// A call that the list may have; handles that open the cluster are made such that they do not, but for weakening.
fn free_call(random: &mut Random, states: &[Bench; 2]) -> Call {
    loop {
        let state = &states[random.below(2) as usize];
        let cluster = state.store.clusters[0][SET_APART];
        let mut call = valid_call(random, state);
        let close = |handle: &mut HandleBytes| {
            let presented = Handle::from_bytes(handle).expect("it has a width");
            if opens(states, &presented) {
                *handle = shut(random, &cluster, &presented).into();
            }
        };
        if let Call::Weaken { .. } | Call::NewCluster { .. } = call {
            return call;
        }
        call.presented_mut().into_iter().for_each(close);
        // What is frozen would soon be all that there is.
        let kept = matches!(call, Call::Freeze { .. }) && !random.one_in(4);
        if !kept && !call.presented().any(|handle| opens(states, &handle)) {
            return call;
        }
    }
}

/// The cluster set apart, and the bytes of its segments.
fn held(state: &Bench) -> (Cluster, Vec<Vec<u8>>) {
    let bytes = parts(state, SET_APART).into_iter();
    let bytes = bytes.map(|part| state.memory[part].to_vec());
    (state.store.clusters[0][SET_APART], bytes.collect())
}

/// The state without that cluster's passwords and bytes.
fn without(state: &Bench) -> Bench {
    let mut state = state.clone();
    for part in parts(&state, SET_APART) {
        state.memory[part].fill(0);
    }
    let cluster = &mut state.store.clusters[0][SET_APART];
    (cluster.read, cluster.write) = (Password::default(), Password::default());
    state
}

#[test]
fn the_same_is_told_whatever_it_holds() {
    let random = &mut Random::from_seed(1);
    let mut met = Met::new();
    let mut widths: BTreeMap<(u8, Option<Width>, u8), usize> = BTreeMap::new();
    for _ in 0..LISTS {
        let mut states = pair(random);
        let start = states.each_ref().map(held);
        let width = start[0].0.width;
        run_list(random, &mut states, &mut met, free_call, |states, call, local, number| {
            assert!(without(&states[0]) == without(&states[1]), "{call:?}");
            assert_eq!(states.each_ref().map(held), start, "{call:?}");
            if local == SET_APART && call.kind() != Kind::Weaken {
                let by = call.handle().map(|handle| handle.width());
                *widths.entry((width, by, number)).or_default() += 1;
            }
        });
    }
    use Kind::{Join, Look, NewPassword, NewSegment, Read, Reduce, Weaken, Write};
    for kind in [NewSegment, Read, Look, Write, Reduce, NewPassword, Join] {
        for (local, number, fewest) in [(SET_APART, 25, 30), (SET_APART, 9, 30), (BESIDE, 0, 5)] {
            let count = met.get(&(local, kind, number));
            assert!(count.is_some_and(|count| *count > fewest), "{kind:?} {number} {met:?}");
        }
    }
    // Of each width, by handles of each.
    for width in Width::ALL {
        for by in Width::ALL {
            let number = if by == width { 9 } else { 25 };
            let count = widths.get(&(width.number(), Some(by), number));
            assert!(count.is_some_and(|count| *count > 100), "{widths:?}");
        }
    }
    assert!(met.keys().all(|(local, kind, number)| *local == BESIDE || *number != 0 || *kind == Weaken));
}
