//! No handles to nothing: weakening is refused with 21 (empty) where no segment is both referenced by
//! the handle and kept by the mask. What else is done with a handle that references none is as ever.

mod support;

use support::naive::{flat, number, referenced_and_kept, sets};
use support::*;

const EMPTY: u8 = 21;

/// The read handle of [`Bench::with_segment`] with another selector, and the password that goes with it.
fn handle(selector: u32) -> Handle {
    reading(Width::Eight, selector.to_be_bytes().map(u16::from))
}

/// Handles that reference nothing, with three flat subselectors to none.
fn to_nothing() -> [Handle; 6] {
    [0x00ff_ffff, 0x0ff0_ffff, 0xfe7d_83ff, 0x3fcf_f3fc, 0xf00f_fefe, 0x0000_0000].map(handle)
}

#[test]
fn a_handle_that_references_nothing_whatever_the_mask() {
    let mut bench = Bench::starting();
    for handle in to_nothing() {
        for mask in 0..=255 {
            assert_eq!(bench.reply(Call::weaken(mask, handle)), Reply::refused(EMPTY));
        }
    }
}

#[test]
fn no_such_place_and_gapped_come_before() {
    let mut bench = Bench::starting();
    for handle in to_nothing().into_iter().chain([reader()]) {
        let no_node = Handle { node: 4, ..handle };
        let no_local = Handle { local: 8, ..handle };
        assert_eq!(bench.reply(Call::weaken(0, no_node)), Reply::refused(2));
        assert_eq!(bench.reply(Call::weaken(0, no_local)), Reply::refused(2));
    }
    for gapped in [0xfffe_ffff, 0xff00_ffff, 0x0fff_f0ff, 0x00ff_ff00] {
        assert_eq!(bench.reply(Call::weaken(0, handle(gapped))), Reply::refused(4));
    }
    let gapped_nowhere = Handle { node: 256, ..handle(0xff00_ffff) };
    assert_eq!(bench.reply(Call::weaken(0, gapped_nowhere)), Reply::refused(2));
}

#[test]
fn one_segment_kept_is_done_and_counted() {
    let mut bench = Bench::starting();
    for width in Width::ALL {
        for segment in segments(width) {
            let mask = 1 << segment;
            let reply = bench.reply(Call::weaken(mask, reader_of(width)));
            let kept = noted(width, &READ_SECRET, mask);
            let expected = Reply { count: 1, ..Reply::with_handle(&kept) };
            assert_eq!(reply, expected);
            assert_eq!(bench.reply(Call::weaken(mask, kept)), expected);
            assert_eq!(bench.reply(Call::weaken(!mask, kept)), Reply::refused(EMPTY));
        }
    }
}

/// A mask whose bits are all at or above the width keeps nothing.
#[test]
fn upper_bits_keep_nothing() {
    let mut bench = Bench::starting();
    for width in [Width::Four, Width::Eight] {
        for bit in u32::from(width.number())..16 {
            let call = Call::weaken(1 << bit, reader_of(width));
            assert_eq!(bench.reply(call), Reply::refused(EMPTY));
        }
        let all = Call::weaken(!flat(width), reader_of(width));
        assert_eq!(bench.reply(all), Reply::refused(EMPTY));
    }
}

/// Every mask of the width and every set of referenced segments, with every number of flat subselectors; many of them
/// at width 16. The mask's upper bits are by chance.
#[test]
fn a_weakening_done_never_counts_0() {
    let (mut bench, random) = (Bench::starting(), &mut Random::from_seed(1));
    for width in Width::ALL {
        let mut numbers = [0u32; 22];
        for parts in sets(width) {
            let handle = Handle { selector: Selector::new(width, parts), ..reader_of(width) };
            for low in 0..=flat(width).min(255) {
                let mask = match width {
                    Width::Sixteen => random.number() as u16 & random.number() as u16,
                    _ => low | random.number() as u16 & !flat(width),
                };
                let expected = number(width, parts, mask);
                let reply = bench.reply(Call::weaken(mask, handle));
                assert_eq!(reply.number, expected, "{parts:?} {mask}");
                numbers[usize::from(expected)] += 1;
                if expected != 0 {
                    assert_eq!(reply, Reply::refused(expected));
                    continue;
                }
                let (_, kept) = referenced_and_kept(width, parts, mask);
                assert_ne!(reply.count, 0);
                assert_eq!(reply.count, kept);
                let given = given(&reply).selector.subselectors;
                assert_eq!(referenced_and_kept(width, given, mask), (kept, kept));
            }
        }
        // Four selectors for each set of segments but all of them, one for these; 3^4 or 3^8 pairs share nothing.
        let (sets, segments) = (u32::from(flat(width)) + 1, u32::from(width.number()));
        if width != Width::Sixteen {
            assert_eq!(numbers.iter().sum::<u32>(), sets * (4 * (sets - 1) + 1));
            assert_eq!(numbers[21], 4 * 3u32.pow(segments) - 3);
        }
        let spent = [(Width::Four, 96), (Width::Eight, 52_416)];
        let spent = spent.iter().find(|(of, _)| *of == width);
        assert!(spent.is_none_or(|(_, count)| numbers[17] == *count), "{numbers:?}");
        assert!([0, 17, 21].iter().all(|&number: &usize| numbers[number] > 50));
    }
}

#[test]
fn reduction_of_a_handle_that_references_nothing_is_done() {
    for (width, mut bench) in benches() {
        let flat = flat(width);
        let parts = [[0, flat, flat, flat], [0b0101, 0b1010, flat, flat], [0; 4]];
        let mut first = vec![0xff; width.handle_bytes()];
        (first[0], first[1], first[2]) = (0, 0, 2);
        first[3..19].copy_from_slice(&convert(&READ_SECRET, 0));
        // Subselector 0 is half a byte, a byte or two.
        match width {
            Width::Four => first[19] = 0xf0,
            Width::Eight => first[19] = 0,
            Width::Sixteen => first[19..21].fill(0),
        }
        for parts in parts {
            let before = bench.clone();
            let handle = reading(width, parts);
            let reduce = |mode| Call::Reduce { mode, handle: handle.into() };
            let expected = Reply { first: first.clone(), ..Reply::DONE };
            assert_eq!(bench.reply(reduce(READ_MODE)), expected);
            let validate = Call::validate(READ_MODE, handle);
            assert_eq!(bench.reply(validate), Reply::DONE);
            assert_eq!(bench.number(reduce(WRITE_MODE)), 9);
            assert_eq!(bench, before);
        }
    }
}

#[test]
fn other_calls_give_what_they_gave() {
    let mut bench = Bench::with_segment();
    let write = |selector| Handle::converted(0, 2, &WRITE_SECRET, eight(selector));
    for reads in to_nothing() {
        let writes = write(reads.selector.subselectors);
        assert_eq!(bench.read(5, reads), Err(11));
        assert_eq!(bench.write(5, b"efgh", writes), 11);
        let delete = Call::delete_cluster(0, writes);
        assert_eq!(bench.number(delete), 10);
        let renew = Call::new_password(READ_MODE, reads, [0x33; 16]);
        assert_eq!(bench.number(renew), 10);
    }
}
