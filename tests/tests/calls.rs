//! What each call does when nothing speaks against it.

mod support;

use support::*;

#[test]
fn delete_cluster_leaves_the_starting_record_and_all_bytes() {
    for (width, mut bench) in benches() {
        let memory = bench.memory.clone();
        let delete = Call::delete_cluster(0, writer_of(width));
        assert_eq!(bench.reply(delete), Reply::DONE);
        assert_eq!(bench.store, Bench::starting().store);
        assert_eq!(bench.memory, memory);
        assert_eq!(&memory[..4], b"abcd");
        // It may get another width then.
        for other in others(width) {
            let mut bench = bench.clone();
            assert_eq!(bench.number(new_cluster_of(other, 0, 2)), 0);
            assert_eq!(bench.number(new_segment_of(other, 3, 4)), 0);
            assert_eq!(bench.number(new_segment_of(width, 3, 4)), 25);
        }
    }
}

#[test]
fn new_segment_hands_out_zeros() {
    for width in Width::ALL {
        for segment in segments(width).filter(|segment| *segment != own(width)) {
            let mut bench = Bench::with_segment_of(width);
            bench.memory[4] = 0x77;
            assert_eq!(bench.number(delete_segment_of(width, own(width))), 0);
            assert_eq!(&bench.memory[..5], b"abcd\x77");
            let reply = bench.reply(new_segment_of(width, segment, 4));
            assert_eq!(reply, Reply::DONE);
            assert_eq!(&bench.memory[..5], b"\0\0\0\0\x77");
            let mut placed = [Segment::ABSENT; 16];
            placed[segment as usize] = Segment::present(0, 4);
            assert_eq!(bench.store.clusters[0][2].segments, placed);
        }
    }
}

#[test]
fn placement_looks_at_every_cluster_of_the_node() {
    for (_, mut bench) in benches() {
        for (at, other) in Width::ALL.into_iter().enumerate() {
            let local = 3 + at as u8;
            assert_eq!(bench.number(new_cluster_of(other, 0, local.into())), 0);
            let segment = u32::from(other.number()) - 1;
            let call = Call::new_segment(0, segment, 9, Handle::primary(other, 0, local, WRITE_SECRET));
            assert_eq!(bench.number(call), 0);
            let placed = Segment::present(4 + 9 * at as u16, 9);
            let segments = bench.store.clusters[0][usize::from(local)].segments;
            assert_eq!(segments[segment as usize], placed);
        }
    }
}

#[test]
fn read_fills_the_front_of_the_buffer() {
    for (width, mut bench) in benches() {
        let mut buffer = *b"........";
        let read = Call::read(own(width), reader_of(width));
        let reply = bench.ask(read, &mut buffer);
        let expected = Reply { length: 4, ..Reply::DONE };
        assert_eq!(reply, expected);
        assert_eq!(&buffer, b"abcd....");
    }
}

#[test]
fn write_takes_the_front_of_the_data() {
    for (width, mut bench) in benches() {
        bench.memory[4] = 0x77;
        let mut data = *b"efghijkl";
        let write = Call::write(own(width), writer_of(width));
        assert_eq!(bench.ask(write, &mut data), Reply::DONE);
        assert_eq!(&bench.memory[..5], b"efgh\x77");
        assert_eq!(&data, b"efghijkl");
    }
}

#[test]
fn weaken_looks_at_no_store() {
    for width in Width::ALL {
        let (mut bench, flat) = (Bench::starting(), width.flat());
        let reply = bench.reply(Call::weaken(0xff09, Handle::primary(width, 3, 7, READ_SECRET)));
        let weaker = given(&reply);
        let noted = 0xff09 & flat;
        let selector = Selector::new(width, [noted, flat, flat, flat]);
        assert_eq!(weaker.selector, selector);
        assert_eq!(weaker.password, convert(&READ_SECRET, noted));
        let count = if width == Width::Sixteen { 10 } else { 2 };
        assert_eq!((reply.number, reply.count, reply.length), (0, count, 0));
        assert_eq!(reply.first.len(), width.handle_bytes());
        assert!(reply.second.is_empty());
    }
}

#[test]
fn reduce_gives_a_handle_that_opens_the_same() {
    for width in Width::ALL {
        let (mut bench, flat) = (Bench::with_segment_of(width), width.flat());
        let bit = 1 << own(width);
        let weakened = reader_of(width).weaken(flat - 1).unwrap();
        let weakened = weakened.weaken(bit).unwrap();
        let reduce = |handle: Handle| Call::Reduce { mode: READ_MODE, handle: handle.into() };
        let reduced = given(&bench.reply(reduce(weakened)));
        assert_eq!(reduced.selector, Selector::new(width, [bit, flat, flat, flat]));
        assert_ne!(reduced.password, weakened.password);
        assert_eq!(bench.read(own(width), reduced), Ok(b"abcd".to_vec()));
        let unchanged = bench.reply(reduce(reader_of(width)));
        assert_eq!(unchanged, Reply::with_handle(&reader_of(width)));
    }
}

#[test]
fn new_password_revokes_one_mode() {
    for width in Width::ALL {
        let (mut bench, segment) = (Bench::with_segment_of(width), own(width));
        let weakened = reader_of(width).weaken(1 << segment).unwrap();
        let reply = bench.reply(Call::new_password(READ_MODE, reader_of(width), [0x33; 16]));
        let renewed = Handle::primary(width, 0, 2, [0x33; 16]);
        assert_eq!(reply, Reply::with_handle(&renewed));
        assert_eq!(bench.read(segment, reader_of(width)), Err(9));
        assert_eq!(bench.read(segment, weakened), Err(9));
        assert_eq!(bench.read(segment, renewed), Ok(b"abcd".to_vec()));
        assert_eq!(bench.write(segment, b"efgh", writer_of(width)), 0);
    }
}

#[test]
fn validation_gives_the_number_of_reduction_and_nothing_else() {
    for (_, mut bench) in benches() {
        let handles = Width::ALL.into_iter().flat_map(|width| {
            let weakened = writer_of(width).weaken(1).unwrap();
            let inactive = Handle::primary(width, 0, 3, [0; 16]);
            [reader_of(width), writer_of(width), weakened, inactive].map(HandleBytes::from)
        });
        for handle in handles.chain([vec![], vec![0; 22]]) {
            for mode in 0..4 {
                let before = bench.clone();
                let asked = || handle.clone();
                let reply = bench.reply(Call::validate(mode, asked()));
                let expected = bench.number(Call::reduce(mode, asked()));
                assert_eq!(reply, Reply::refused(expected));
                assert_eq!(bench, before);
            }
        }
    }
}
