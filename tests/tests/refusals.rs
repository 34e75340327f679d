//! Arguments and handles that are refused, beside the sets of numbers that `orders` and `join_numbers` have: values out
//! of range, other nodes, memories of another length, handles of the other mode, and a password of zeros. Everything is
//! asked of every call that it concerns.

mod support;

use support::every::{every, looking, Rest};
use support::*;

/// What goes with the segment of cluster 2 of node 0.
const RIGHT: Rest = Rest { node: 0, segment: 5, mode: None };
/// What speaks against a call after its places.
const WRONG_FIELDS: Rest = Rest { node: 0, segment: 8, mode: Some(9) };

/// Every call with its handle at this place, and joins in which the second is there, or both are.
fn calls_at(node: u16, local: u8, rest: Rest) -> Vec<Call> {
    let (right, far) = (writer().to_bytes(), Handle { node, local, ..writer() }.to_bytes());
    let second = Call::join(rest.mode.unwrap_or(WRITE_MODE), right.clone(), far.clone());
    [every(&far, &right, rest), every(&far, &far, rest), vec![second]].concat()
}

#[test]
fn words_and_places_of_the_numbers() {
    let words = ["unsound", "empty", "frozen", "whole", "apart", "length"].map(Some);
    assert_eq!([1, 21, 22, 23, 24, 25].map(word), words);
    assert_eq!(word(26), None);
    let places = [25, 1, 2, 3, 4, 24, 5, 6, 7, 8, 25, 9, 23, 10, 22, 11, 12, 13, 14, 22, 15, 16, 21, 17];
    assert!(numbers_of_calls().eq(places));
}

#[test]
fn places_out_of_range() {
    let (bench, handle) = (Bench::with_segment(), writer().to_bytes());
    bench.refuses(&new_cluster(4, 0), 2);
    bench.refuses(&new_cluster(0, 8), 2);
    for node in [4, 5, 7, 8, 255, 256, 65_536, u32::MAX] {
        for rest in [RIGHT, WRONG_FIELDS] {
            let calls = every(&handle, &handle, Rest { node, ..rest }).into_iter();
            calls.filter(|call| call.current_node().is_some()).for_each(|call| bench.refuses(&call, 2));
        }
    }
    for (node, local) in [(4, 2), (256, 2), (0x8000, 2), (0, 8), (0, 255)] {
        for rest in [RIGHT, WRONG_FIELDS, Rest { node: node.into(), ..WRONG_FIELDS }] {
            calls_at(node, local, rest).iter().for_each(|call| bench.refuses(call, 2));
        }
    }
}

/// Modes and sizes; segments are in `fields`. A gap does not matter: 3 comes before.
#[test]
fn fields_out_of_range() {
    let bench = Bench::with_segment();
    let gapped = Handle { selector: eight([255, 254, 255, 255]), ..writer() }.to_bytes();
    for handle in [writer().to_bytes(), gapped] {
        let calls = |rest| every(&handle, &writer().to_bytes(), rest).into_iter();
        for mode in [0, 3, 4, 255, 256, 257, 258, 65_537, u32::MAX] {
            let named = calls(Rest { mode: Some(mode), ..RIGHT }).filter(|call| call.named_mode().is_some());
            let second = Call::join(mode, writer(), handle.clone());
            named.chain([second]).for_each(|call| bench.refuses(&call, 3));
        }
        for size in [0, 4097] {
            bench.refuses(&Call::new_segment(0, 1, size, handle.clone()), 3);
        }
    }
}

/// By a handle that opens the cluster, and by one that does not.
#[test]
fn elsewhere_is_every_other_node() {
    for node in 0..NODES as u32 {
        let mut bench = Bench::starting();
        assert_eq!(bench.number(new_cluster(node, 2)), 0);
        for secret in [READ_SECRET, WRITE_SECRET, [9; 16]] {
            let handle = Handle::primary(Width::Eight, node as u16, 2, secret).to_bytes();
            for current in 0..NODES as u32 {
                let calls = every(&handle, &handle, Rest { node: current, ..RIGHT }).into_iter();
                for call in calls.filter(|call| call.current_node().is_some()) {
                    let number = bench.clone().number(&call);
                    assert_eq!(number == 5, current != node, "{call:?}");
                    assert!(number == 5 || number == 9 || secret != [9; 16], "{call:?}");
                }
            }
        }
    }
}

#[test]
fn memories_of_another_length() {
    for bytes in [0, 4, MEMORY_BYTES - 1, MEMORY_BYTES + 1] {
        let mut bench = Bench::with_segment();
        bench.memory.resize(bytes, 0);
        for handle in [reader().to_bytes(), writer().to_bytes()] {
            looking(&handle, &handle, RIGHT).iter().for_each(|call| bench.refuses(call, 1));
        }
    }
}

#[test]
fn a_zero_password_opens_no_inactive_cluster() {
    let zero = Handle::primary(Width::Eight, 0, 2, [0; 16]).to_bytes();
    for segment in 0..8 {
        let calls = looking(&zero, &zero, Rest { segment, ..RIGHT });
        calls.iter().for_each(|call| Bench::starting().refuses(call, 8));
    }
}

/// Whatever the tables hold: 9 comes first.
#[test]
fn handles_of_the_other_mode() {
    let bench = Bench::with_segment();
    for (primary, mode) in [(reader(), Mode::Write), (writer(), Mode::Read)] {
        let weakened = primary.weaken(0x20).expect("all are flat");
        for handle in [primary, weakened, weakened.reduce(&primary.password)].map(HandleBytes::from) {
            for segment in [0, 5] {
                let calls = looking(&handle, &handle, Rest { segment, ..RIGHT }).into_iter();
                calls.filter(|call| call.needed_mode() == Some(mode)).for_each(|call| bench.refuses(&call, 9));
            }
            let secret = [READ_SECRET, WRITE_SECRET][mode as usize];
            bench.refuses(&Call::new_password(mode.number(), handle, secret), 9);
        }
    }
}
