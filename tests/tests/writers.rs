//! Those who write learn nothing of what lies there. Two states begin alike but for the bytes of one cluster's
//! segments, its read password, and memory that is no segment's; no call reads by a handle of that cluster. Then both
//! reply the same, and stay alike but for these.

mod support;

use support::{valid::*, *};

const LISTS: usize = 400;

/// Between the segments is memory of none.
fn pair(random: &mut Random) -> [Bench; 2] {
    let start = two_clusters(random, false);
    let mut other = start.clone();
    other.store.clusters[0][SET_APART].read = random.bytes();
    other.memory.fill_with(|| random.byte());
    for part in parts(&start, BESIDE) {
        other.memory[part.clone()].copy_from_slice(&start.memory[part]);
    }
    [start, other]
}

/// Whether no handle of the cluster reads by this call, in either state.
fn is_free(states: &[Bench; 2], call: &Call) -> bool {
    let reads = |handle: Handle| {
        let validation = Call::validate(READ_MODE, handle);
        states.iter().any(|state| state.clone().number(&validation) == 0)
    };
    let mut own = call.presented().filter(|handle| handle.name() == (0, SET_APART as u8));
    call.needed_mode() != Some(Mode::Read) || !own.any(reads)
}

/// A call that the list may have. Some ask for reading by handles that write, some weaken handles that read, and few
/// delete the cluster, in which nothing differs afterwards.
fn free_call(random: &mut Random, states: &[Bench; 2]) -> Call {
    loop {
        let state = &states[random.below(2) as usize];
        let mut call = valid_call(random, state);
        let cluster = &state.store.clusters[0][SET_APART];
        if let Call::Read { handle, .. } | Call::Look { handle, .. } = &mut call {
            let mut read_by = Handle::from_bytes(handle).expect("it has a width");
            if usize::from(read_by.local) == SET_APART {
                read_by.password = derive(&cluster.write, &read_by.selector);
                *handle = read_by.into();
            }
        }
        if let (Call::Weaken { handle, .. }, true) = (&mut call, random.one_in(2)) {
            let width = cluster.known_width().unwrap_or(Width::Eight);
            *handle = Handle::primary(width, 0, SET_APART as u8, cluster.read).into();
        }
        let deletes = matches!(call, Call::DeleteCluster { .. });
        if is_free(states, &call) && (!deletes || random.one_in(8)) {
            return call;
        }
    }
}

/// Equal are the records but for the cluster's read password, and the bytes of the other's segments.
fn agree(states: &[Bench; 2]) -> bool {
    let [one, two] = states.each_ref().map(|state| {
        let mut store = state.store.clone();
        store.clusters[0][SET_APART].read = [0; 16];
        let bytes = parts(state, BESIDE).into_iter();
        (store, bytes.map(|part| &state.memory[part]).collect::<Vec<_>>())
    });
    one == two
}

/// Gives the cluster's width where the states differ to the end in what they may.
fn list(random: &mut Random, met: &mut Met) -> Option<u8> {
    let mut states = pair(random);
    run_list(random, &mut states, met, free_call, |states, call, _, _| assert!(agree(states), "{call:?}"));
    let [one, two] = &states;
    let mut own = parts(one, SET_APART).into_iter();
    let bytes_differ = own.any(|part| one.memory[part.clone()] != two.memory[part]);
    let [one, two] = [one, two].map(|state| state.store.clusters[0][SET_APART]);
    (bytes_differ && one.read != two.read).then_some(one.width)
}

#[test]
fn whoever_writes_gets_the_same() {
    let random = &mut Random::from_seed(1);
    let mut met = Met::new();
    let differing: Vec<u8> = (0..LISTS).filter_map(|_| list(random, &mut met)).collect();
    for width in [4, 8, 16] {
        let lists = differing.iter().filter(|of| **of == width);
        assert!(lists.count() > LISTS / 30, "{differing:?}");
    }
    use Kind::*;
    let done = [NewCluster, DeleteCluster, NewSegment, DeleteSegment, Write, Weaken, Reduce, NewPassword, Freeze, Join];
    let due: [(usize, u8, &[Kind]); 8] = [
        (SET_APART, 0, &done),
        (SET_APART, 0, &[Validate]),
        (SET_APART, 8, &[Write]),
        (SET_APART, 9, &[Read, Look]),
        (SET_APART, 22, &[Write]),
        (SET_APART, 25, &[Write, NewSegment]),
        (BESIDE, 25, &[Write]),
        (BESIDE, 0, &[NewSegment, Read, Look]),
    ];
    for (local, number, kinds) in due {
        for kind in kinds {
            let count = met.get(&(local, *kind, number));
            assert!(count.is_some_and(|count| *count > 9), "{kind:?} {number} {met:?}");
        }
    }
    assert!([Read, Look].iter().all(|kind| !met.contains_key(&(SET_APART, *kind, 0))));
}

/// What a list may not have: by the read handle of one state, a read gives what lies there, and 9 in the other state;
/// and other bytes where the read passwords are the same.
#[test]
fn whoever_reads_does_not() {
    let random = &mut Random::from_seed(2);
    let mut differing = 0;
    for _ in 0..LISTS {
        let mut states = pair(random);
        let [one, two] = states.each_ref().map(|state| state.store.clusters[0][SET_APART]);
        let width = one.known_width().expect("it is active");
        let reader = Handle::primary(width, 0, SET_APART as u8, one.read);
        let last = u32::from(width.number()) - 1;
        let read = |states: &mut [Bench; 2]| states.each_mut().map(|state| state.read(last, reader));
        let there = states.each_ref().map(|state| {
            let part = parts(state, SET_APART).swap_remove(1);
            state.memory[part].to_vec()
        });
        let [first, second] = there.map(Ok);
        assert_ne!(one.read, two.read);
        assert_eq!(read(&mut states), [first.clone(), Err(9)]);
        states[1].store.clusters[0][SET_APART].read = one.read;
        differing += usize::from(first != second);
        assert_eq!(read(&mut states), [first, second]);
        assert!(agree(&states));
    }
    // One byte may be the same in both.
    assert!(differing > LISTS * 9 / 10, "{differing}");
}
