//! 25, for a length that no handle has before everything else, for a handle of another width than its cluster's after 8
//! and before 9; and 3 for widths and for segments that the handle's width does not have.

mod support;

use support::every::{every, looking, Rest};
use support::*;

/// What goes with cluster 2 of node 0.
fn right(width: Width) -> Rest {
    Rest { node: 0, segment: own(width), mode: None }
}

/// Nothing of it is right.
const WRONG_REST: Rest = Rest { node: 99, segment: 99, mode: Some(0) };

/// The bytes of the last handle with another length.
fn of_length(handle: Handle, length: usize) -> HandleBytes {
    let mut bytes = handle.to_bytes();
    bytes.resize(length, 0xff);
    bytes
}

// A length that no handle has.

/// Whatever else is wrong: every call, every length, sound stores and damaged ones.
#[test]
fn before_everything_else() {
    let sound = Bench::with_segment_of(Width::Eight);
    let mut short = sound.clone();
    short.memory.pop();
    let damaged = Width::ALL.into_iter().flat_map(damaged).map(|store| Bench { store, ..sound.clone() });
    let states: Vec<Bench> = damaged.chain([sound.clone(), short]).collect();
    let lengths = (0..=40).filter(|length| ![21, 23, 27].contains(length));
    for length in lengths.chain([64, 255, 256, 277, 279, 4096]) {
        for writer in [writer(), Handle { node: 9, ..writer() }] {
            let wrong = of_length(writer, length);
            for rest in [right(Width::Eight), WRONG_REST] {
                for call in every(&wrong, &wrong, rest) {
                    states.iter().for_each(|state| state.refuses(&call, 25));
                }
            }
        }
    }
}

/// A call on damage answers 1 with a handle of any width, and what stands above 1 is 25 alone.
#[test]
fn and_nothing_else_stands_above_1() {
    let mut damaged = Bench::with_segment();
    damaged.store.clusters[3][7].write[0] = 1;
    let found = Found::whole(&damaged.store, 0);
    for width in Width::ALL {
        let handle = writer_of(width).to_bytes();
        for call in looking(&handle, &handle, WRONG_REST) {
            damaged.refuses(&call, 1);
            assert_eq!(refusal_above(UNSOUND, &call, &found), None);
        }
        let wrong = handle[..20].to_vec();
        for call in looking(&wrong, &handle, WRONG_REST) {
            assert_eq!(refusal_above(UNSOUND, &call, &found), Some(25));
            assert_eq!(refusal_below(LENGTH, &call, &found), Some(1));
        }
    }
}

// A handle of another width than its cluster's.

/// All but weakening, with a handle that would be right in all else.
#[test]
fn not_the_cluster_s_width() {
    for (width, state) in benches() {
        for other in others(width) {
            let least = width.min(other);
            let rest = Rest { segment: own(least), ..right(width) };
            for handle in [writer_of(other), reader_of(other)] {
                let joined = handle.weaken(6).unwrap().to_bytes();
                for call in looking(&handle.into(), &joined, rest) {
                    state.refuses(&call, 25);
                    // Somewhere else, or with a node that is no node, the numbers above it are given.
                    if let Call::Look { .. } = call {
                        let handle = handle.to_bytes();
                        let look = |node, segment| Call::Look { node, segment, handle: handle.clone() };
                        state.refuses(&look(1, 0), 5);
                        state.refuses(&look(4, 0), 2);
                        state.refuses(&look(0, other.number().into()), 3);
                    }
                }
            }
        }
    }
}

/// A handle of another width does not validate, whatever its password: not even where all its conversions are those of
/// the cluster's width.
#[test]
fn does_not_validate() {
    for (width, state) in benches() {
        let cluster = &state.store.clusters[0][2];
        for other in others(width) {
            let least = width.min(other);
            for parts in [[1; 4], [least.flat() - 1; 4], [0; 4]] {
                let at = |width| reading(width, parts);
                assert_eq!(at(width).password, at(other).password);
                let mode = Mode::Read;
                assert!(at(width).validates(cluster, mode));
                assert!(!at(other).validates(cluster, mode));
                let validate = |handle: Handle| Call::Validate { mode: READ_MODE, handle: handle.into() };
                assert_eq!(state.clone().number(validate(at(width))), 0);
                state.refuses(&validate(at(other)), 25);
            }
        }
    }
}

/// It never looks at the store, and so at no cluster's width.
#[test]
fn not_for_weakening() {
    for (_, mut state) in benches() {
        for other in Width::ALL {
            let weaken = |mask| Call::Weaken { mask, handle: reader_of(other).into() };
            let reply = state.reply(weaken(0xfff1));
            let expected = reader_of(other).weaken(0xfff1).unwrap();
            assert_eq!(reply.first, expected.to_bytes());
            assert_eq!(reply.count, u32::from(other.number()) - 3);
            assert_eq!(state.reply(weaken(!other.flat())), Reply::refused(21));
        }
    }
}
