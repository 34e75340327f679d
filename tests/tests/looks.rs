//! Looks: the part of the lent memory that is the segment, and where it is.

mod support;

use support::*;

fn shown(from: usize, length: usize) -> Reply {
    Reply { shown: Part { from, length }, ..Reply::DONE }
}

/// The node's cluster 2 with these segments, a base and a length each, in a memory of bytes by chance.
fn bench(width: Width, node: usize, segments: &[(u16, u16)]) -> Bench {
    let mut bench = Bench::starting();
    let mut random = Random::from_seed(1);
    bench.memory.fill_with(|| random.byte());
    let cluster = &mut bench.store.clusters[node][2];
    *cluster = Cluster::new(width, READ_SECRET, WRITE_SECRET);
    for (segment, &(base, length)) in cluster.segments.iter_mut().zip(segments) {
        *segment = Segment::present(base, length);
    }
    bench
}

#[test]
fn the_segment_and_where_it_is() {
    for (width, mut bench) in benches() {
        let (reader, segment) = (reader_of(width), own(width));
        assert_eq!(bench.reply(Call::look(0, segment, reader)), shown(0, 4));
        assert_eq!(bench.look(0, segment, reader), Ok(b"abcd".to_vec()));
        let last = u32::from(width.number()) - 1;
        assert_eq!(bench.number(new_segment_of(width, last, 9)), 0);
        assert_eq!(bench.reply(Call::look(0, last, reader)), shown(4, 9));
    }
}

/// Of one byte, of all bytes, at either end, in each node; what lies beside it is not shown.
#[test]
fn all_of_the_segment_and_no_other_byte() {
    let extents = [(0, 1), (0, 4095), (0, 4096), (1, 4095), (1234, 321), (4094, 2), (4095, 1)];
    for node in 0..NODES {
        let handle = Handle::primary(Width::Eight, node as u16, 2, READ_SECRET);
        for (base, length) in extents {
            let mut bench = bench(Width::Eight, node, &[(base, length)]);
            let (base, length) = (usize::from(base), usize::from(length));
            let from = node * 4096 + base;
            assert_eq!(bench.reply(Call::look(node as u32, 0, handle)), shown(from, length));
            let expected = bench.memory[from..from + length].to_vec();
            assert_eq!(bench.look(node as u32, 0, handle), Ok(expected));
        }
    }
}

/// Primary, weakened once to four times, reduced, to nothing, and some that do not validate.
fn handles(width: Width, node: u16) -> Vec<Handle> {
    let (mut handles, flat) = (Vec::new(), width.flat());
    for secret in [READ_SECRET, WRITE_SECRET] {
        let mut handle = Handle::primary(width, node, 2, secret);
        handles.push(handle);
        // Without segment 0, without the last, and without others where there are.
        for mask in [flat - 1, flat >> 1, !8 | 4, !0x30 | 4] {
            handle = handle.weaken(mask).expect("one is flat");
            handles.push(handle);
            handles.push(handle.reduce(&secret));
            handles.push(handle.reduce(&[7; 16]));
        }
        let nothing = Selector::new(width, [0b1100, 0b0011, flat, flat]);
        handles.push(Handle::converted(node, 2, &secret, nothing));
        handles.push(Handle::primary(width, node, 3, secret));
        handles.extend(others(width).map(|other| Handle::primary(other, node, 2, secret)));
    }
    handles
}

/// In the handle's node a look is a read whose buffer is never too short.
#[test]
fn what_a_read_gives() {
    let segments = [(0, 7), (4000, 96), (7, 1), (100, 900), (8, 92), (1000, 3000)];
    // Of four segments or six, the primary handle references all, the weakened ones with their reductions fewer.
    let done_by = [
        (Width::Four, 4 + 2 * (3 + 2 + 2 + 2)),
        (Width::Eight, 6 + 2 * (5 + 5 + 4 + 2)),
        (Width::Sixteen, 6 + 2 * (5 + 5 + 4 + 2)),
    ];
    for (width, expected) in done_by {
        let mut done = 0;
        for node in 0..NODES {
            let mut bench = bench(width, node, &segments[..width.segments().min(6)]);
            for handle in handles(width, node as u16) {
                for segment in 0..18 {
                    let looked = bench.look(node as u32, segment, handle);
                    done += usize::from(looked.is_ok());
                    assert_eq!(looked, bench.read(segment, handle), "{handle:?} {segment}");
                }
            }
        }
        assert_eq!(done, NODES * expected, "{width:?}");
    }
}

/// Each segment of a cluster of sixteen, and of one of four.
#[test]
fn every_segment_of_the_width() {
    for width in Width::ALL {
        let extents: Vec<(u16, u16)> =
            (0..width.number()).map(|at| (4090 - 7 * u16::from(at), 1 + u16::from(at % 7))).collect();
        let mut bench = bench(width, 2, &extents);
        let handle = Handle::primary(width, 2, 2, READ_SECRET);
        for (segment, (base, length)) in extents.iter().enumerate() {
            let from = 2 * NODE_BYTES + usize::from(*base);
            let reply = bench.reply(Call::look(2, segment as u32, handle));
            assert_eq!(reply, shown(from, (*length).into()));
        }
    }
}

#[test]
fn whatever_the_buffer() {
    let mut bench = bench(Width::Sixteen, 1, &[(10, 100)]);
    let handle = Handle::primary(Width::Sixteen, 1, 2, READ_SECRET);
    for bytes in [0, 1, 99, 100, 101, NODE_BYTES] {
        let mut buffer = vec![0xee; bytes];
        let reply = bench.ask(Call::look(1, 0, handle), &mut buffer);
        assert_eq!(reply, shown(NODE_BYTES + 10, 100));
        assert_eq!(buffer, vec![0xee; bytes]);
    }
}

#[test]
fn what_the_calls_before_it_left() {
    let mut bench = Bench::with_segment();
    assert_eq!(bench.write(5, b"efgh", writer()), 0);
    assert_eq!(bench.look(0, 5, reader()), Ok(b"efgh".to_vec()));
    assert_eq!(bench.number(delete_segment(5)), 0);
    assert_eq!(bench.look(0, 5, reader()), Err(14));
    assert_eq!(bench.number(new_segment(6, 3)), 0);
    assert_eq!(bench.look(0, 6, reader()), Ok(vec![0; 3]));
    let renew = Call::new_password(READ_MODE, reader(), [0x33; 16]);
    assert_eq!(bench.number(renew), 0);
    assert_eq!(bench.look(0, 6, reader()), Err(9));
}
