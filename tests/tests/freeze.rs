//! Freezing: the mark and nothing else, and 22 for calls 2, 4 and 6 at its two places.

mod support;

use support::*;

/// Cluster 2 of node 0 with all segments of its width, of four bytes each, those of `marks` frozen.
fn bench_of(width: Width, marks: u16) -> Bench {
    let mut bench = Bench::with_cluster_of(width);
    for segment in segments(width) {
        assert_eq!(bench.number(new_segment_of(width, segment, 4)), 0);
        assert_eq!(bench.write(segment, b"abcd", writer_of(width)), 0);
    }
    for segment in segments(width).filter(|segment| marks >> segment & 1 == 1) {
        assert_eq!(bench.reply(freeze_of(width, segment)), Reply::DONE);
    }
    bench
}

fn bench(marks: u16) -> Bench {
    bench_of(Width::Eight, marks)
}

/// Every set of segments at widths 4 and 8; at width 16 each alone, all but each, and some others.
fn marks(width: Width) -> Vec<u16> {
    if width != Width::Sixteen {
        return (0..=width.flat()).collect();
    }
    let alone = (0..16).flat_map(|bit| [1 << bit, !(1 << bit)]);
    let others = (0..20).map(|at| 0x9e37_u16.wrapping_mul(at));
    alone.chain(others).chain([0xffff]).collect()
}

// What is done.

#[test]
fn the_mark_and_nothing_else() {
    for width in Width::ALL {
        for segment in segments(width) {
            let mut bench = bench_of(width, 0);
            let mut expected = bench.clone();
            expected.store.clusters[0][2].segments[segment as usize].frozen = true;
            let mut buffer = [0xee; 3];
            let reply = bench.ask(freeze_of(width, segment), &mut buffer);
            assert_eq!((reply, buffer), (Reply::DONE, [0xee; 3]));
            assert_eq!(bench, expected);
        }
    }
}

#[test]
fn twice_is_done_and_alters_nothing() {
    for width in Width::ALL {
        for marks in marks(width) {
            let mut bench = bench_of(width, marks);
            let before = bench.clone();
            for segment in segments(width).filter(|segment| marks >> segment & 1 == 1) {
                assert_eq!(bench.reply(freeze_of(width, segment)), Reply::DONE);
                assert_eq!(bench, before);
            }
        }
    }
}

#[test]
fn new_ones_are_not_frozen() {
    let mut bench = bench(0x0f);
    assert_eq!(bench.number(delete_segment(5)), 0);
    assert_eq!(bench.store.clusters[0][2].segments[5], Segment::ABSENT);
    assert_eq!(bench.number(new_segment(5, 3)), 0);
    assert_eq!(bench.store.clusters[0][2].segments[5], Segment::present(20, 3));
    assert_eq!(bench.write(5, b"efg", writer()), 0);
    assert_eq!(bench.number(delete_segment(5)), 0);
    assert_eq!(bench.number(new_cluster(0, 3)), 0);
    assert!(!bench.store.clusters[0][3].has_frozen());
}

/// A frozen segment takes its room, and is read, looked at, weakened, reduced and revoked as any other.
#[test]
fn everything_else_is_as_with_any_other() {
    let (mut frozen, mut free) = (bench(0xff), bench(0));
    let weaker = reader().weaken(0x11).unwrap();
    let renewed = |mode, handle: Handle| Call::NewPassword { mode, handle: handle.into(), password: [0x33; 16] };
    let calls = [
        Call::reduce(READ_MODE, weaker),
        Call::validate(WRITE_MODE, writer()),
        Call::weaken(0x0f, weaker),
        new_segment(4, 4096),
        new_segment(4, 0),
        renewed(READ_MODE, writer()),
        renewed(WRITE_MODE, weaker),
    ];
    for bench in [&mut frozen, &mut free] {
        for handle in [reader(), weaker] {
            assert_eq!(bench.read(4, handle), Ok(b"abcd".to_vec()));
            assert_eq!(bench.look(0, 4, handle), Ok(b"abcd".to_vec()));
        }
    }
    for call in calls {
        assert_eq!(frozen.reply(&call), free.reply(&call), "{call:?}");
    }
    for (mode, handle) in [(READ_MODE, reader()), (WRITE_MODE, writer())] {
        let mut revoked = frozen.clone();
        let given = Reply::with_handle(&Handle::primary(Width::Eight, 0, 2, [0x33; 16]));
        assert_eq!(revoked.reply(renewed(mode, handle)), given);
        let [before, after] = [&frozen, &revoked].map(|bench| bench.store.clusters[0][2].segments);
        assert_eq!(after, before);
    }
}

// The numbers.

/// Whichever they are, one of them is enough; what is not primary is told first, and another width before that.
#[test]
fn no_cluster_is_deleted_of_which_any_segment_is_frozen() {
    for width in Width::ALL {
        let weaker = writer_of(width).weaken(!1).unwrap();
        let forged = Handle { password: WRITE_SECRET, ..weaker };
        for marks in marks(width) {
            let mut bench = bench_of(width, marks);
            let before = bench.clone();
            for other in others(width) {
                assert_eq!(bench.number(Call::delete_cluster(0, writer_of(other))), 25);
            }
            assert_eq!(bench.number(Call::delete_cluster(0, reader_of(width))), 9);
            assert_eq!(bench.number(Call::delete_cluster(0, forged)), 9);
            assert_eq!(bench.number(Call::delete_cluster(0, weaker)), 10);
            let delete = Call::delete_cluster(0, writer_of(width));
            if marks != 0 {
                assert_eq!(bench.reply(delete), Reply::refused(22));
                assert_eq!(bench, before);
            } else {
                assert_eq!(bench.number(delete), 0);
            }
        }
    }
}

#[test]
fn a_frozen_segment_elsewhere_does_not_keep_a_cluster() {
    let mut bench = bench(0xff);
    for (node, local) in [(0, 3), (1, 2)] {
        assert_eq!(bench.number(new_cluster(node, local)), 0);
        let handle = Handle::primary(Width::Eight, node as u16, local as u8, WRITE_SECRET);
        assert_eq!(bench.number(Call::delete_cluster(node, handle)), 0);
    }
}

#[test]
fn each_segment_by_its_own_mark() {
    for width in Width::ALL {
        for marks in marks(width) {
            let bench = bench_of(width, marks);
            for segment in segments(width) {
                let number = if marks >> segment & 1 == 1 { 22 } else { 0 };
                let delete = delete_segment_of(width, segment);
                assert_eq!(bench.clone().number(delete), number);
                let written = bench.clone().write(segment, b"efgh", writer_of(width));
                assert_eq!(written, number);
            }
        }
    }
}

#[test]
fn frozen_before_short_and_after_all_else() {
    let mut bench = bench(0x20);
    for data in [b"".as_slice(), b"efg", b"efgh", b"efghi"] {
        assert_eq!(bench.write(5, data, writer()), 22);
        assert_eq!(bench.write(5, data, reader()), 9);
        assert_eq!(bench.write(5, data, writer().weaken(0xdf).unwrap()), 11);
        assert_eq!(bench.write(5, data, writer().weaken(0x20).unwrap()), 22);
    }
    assert_eq!(bench.write(4, b"efg", writer()), 15);
    assert_eq!(bench.number(delete_segment(4)), 0);
    assert_eq!(bench.write(4, b"", writer()), 14);
    assert_eq!(bench.number(freeze(4)), 14);
    assert_eq!(bench.read(5, reader()), Ok(b"abcd".to_vec()));
}
