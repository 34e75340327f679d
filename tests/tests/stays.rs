//! From the freeze on, base, length, mark and bytes of a segment are the same after any calls at all, and its
//! cluster is active: long rows of calls, all of them by handles that open the cluster.

mod support;

use model::frozen::Watch;
use std::collections::BTreeMap;
use support::{valid::valid_call, *};

const ROWS: usize = 60;
const ROW_CALLS: usize = 500;

/// Counts the calls that came to 22, by what they are, by the width of the handle, and where it opens both modes; gives
/// how many segments were frozen.
fn row(random: &mut Random, refused: &mut BTreeMap<String, usize>) -> usize {
    let (mut bench, mut watch) = (Bench::starting(), Watch::default());
    for _ in 0..ROW_CALLS {
        let call = valid_call(random, &bench);
        let equal = bench.store.clusters[0].map(|cluster| cluster.has_equal_passwords());
        let mut buffer: [u8; 40] = random.bytes();
        let reply = bench.ask(&call, &mut buffer);
        assert_eq!(watch.see(&bench.store, &bench.memory), Ok(()), "{call:?}");
        assert!(bench.store.is_sound(MEMORY_BYTES));
        if let (22, Some(handle)) = (reply.number, call.handle()) {
            let both = equal[usize::from(handle.local)].then(|| "by both".to_string());
            for what in [format!("{:?}", call.kind()), format!("by {:?}", handle.width())].into_iter().chain(both) {
                *refused.entry(what).or_default() += 1;
            }
        }
    }
    watch.met()
}

#[test]
fn long_rows_by_handles_that_open_the_cluster() {
    let random = &mut Random::from_seed(1);
    let mut refused = BTreeMap::new();
    let met: usize = (0..ROWS).map(|_| row(random, &mut refused)).sum();
    assert!(met > 2 * ROWS, "{met}");
    let met = ["DeleteCluster", "DeleteSegment", "Write", "by Eight", "by Four", "by Sixteen", "by both"];
    assert!(refused.keys().eq(met.iter()), "{refused:?}");
    assert!(refused.values().all(|&count| count > ROWS), "{refused:?}");
}

/// A segment that is frozen again and again stays, too.
#[test]
fn a_freeze_between_all_other_calls() {
    let mut bench = Bench::with_segment();
    assert_eq!(bench.reply(freeze(5)), Reply::DONE);
    let before = bench.clone();
    let delete = Call::delete_cluster(0, writer());
    for call in [delete, delete_segment(5), new_segment(5, 4), new_cluster(0, 2)] {
        assert_ne!(bench.number(call), 0);
        assert_ne!(bench.write(5, b"efgh", writer()), 0);
        assert_eq!(bench.number(freeze(5)), 0);
        assert_eq!(bench, before);
    }
}

/// The watch tells each thing that may not change.
#[test]
fn what_does_not_stay_is_told() {
    let mut start = Bench::with_segment();
    start.memory[4] = b'e';
    assert_eq!(start.number(freeze(5)), 0);
    let changes: [fn(&mut Bench); 7] = [
        |bench| bench.memory[3] = b'e',
        |bench| bench.store.clusters[0][2].segments[5].frozen = false,
        |bench| bench.store.clusters[0][2].segments[5] = Segment::present(1, 4).marked(),
        |bench| bench.store.clusters[0][2].segments[5] = Segment::present(0, 5).marked(),
        |bench| bench.store.clusters[0][2].segments[5] = Segment::ABSENT,
        |bench| bench.store.clusters[0][2].active = false,
        |bench| bench.memory.truncate(3),
    ];
    for (at, change) in changes.into_iter().enumerate() {
        let (mut bench, mut watch) = (start.clone(), Watch::default());
        assert_eq!(watch.see(&bench.store, &bench.memory), Ok(()));
        change(&mut bench);
        let told = watch.see(&bench.store, &bench.memory).unwrap_err();
        assert!(told.ends_with("segment 5 of cluster 2 of node 0"), "{at}");
    }
    let (mut bench, mut watch) = (start.clone(), Watch::default());
    assert_eq!(watch.see(&bench.store, &bench.memory), Ok(()));
    (bench.memory[4], bench.store.clusters[0][2].write) = (b'f', [9; 16]);
    assert_eq!(watch.see(&bench.store, &bench.memory), Ok(()));
}
