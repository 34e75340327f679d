//! Joining: a handle in the form of a reduced one for the segments that either of two references, whichever of them
//! comes first.

mod support;

use support::naive::{flat, has, selectors_of, sets};
use support::*;

/// The reduced handle for these segments.
fn reduced(width: Width, segments: u16) -> Handle {
    noted(width, &READ_SECRET, segments)
}

/// Whether every subselector has the segment.
fn references(selector: [u16; 4], segment: u32) -> bool {
    selector.iter().all(|&part| has(part, segment))
}

/// Strips 0 to 2 from one maker, 3 to 4 from another.
#[test]
fn one_handle_for_the_strips_of_two() {
    let mut bench = Bench::with_cluster();
    for segment in 0..8 {
        assert_eq!(bench.number(new_segment(segment, 4)), 0);
    }
    let [one, other] = [0x07, 0x18].map(|mask| reader().weaken(mask).unwrap());
    let before = bench.clone();
    let mut buffer = [0xee; 3];
    let reply = bench.ask(Call::join(READ_MODE, one, other), &mut buffer);
    assert_eq!(reply, Reply::with_handle(&reduced(Width::Eight, 0x1f)));
    assert_eq!((bench.clone(), buffer), (before, [0xee; 3]));
    let joined = given(&reply);
    for segment in 0..8 {
        let expected = match segment {
            0..=4 => Ok(vec![0; 4]),
            _ => Err(11),
        };
        assert_eq!(bench.read(segment, joined), expected);
    }
}

/// Every two sets of segments, with one to four subselectors not flat; many at width 16.
#[test]
fn what_either_references_whichever_comes_first() {
    for (width, mut bench) in benches() {
        let before = bench.clone();
        let sets = usize::from(flat(width).min(1023)) + 1;
        let handle = |at: usize, kind: usize| {
            // Of the greatest width, few have many segments.
            let set = match width {
                Width::Sixteen => (at as u16).wrapping_mul(65) ^ (at as u16 >> 3),
                _ => at as u16,
            };
            let selectors = selectors_of(width, set);
            reading(width, selectors[kind % selectors.len()])
        };
        let (mut done, mut whole) = (0, 0);
        let step = if width == Width::Sixteen { 37 } else { 1 };
        for at in (0..sets * sets).step_by(step).filter(|at| at % sets <= at / sets) {
            let (one, other) = (handle(at % sets, at / sets), handle(at / sets, at % 7));
            let reply = bench.ask(Call::join(READ_MODE, one, other), &mut []);
            assert_eq!(reply, bench.ask(Call::join(READ_MODE, other, one), &mut []));
            let parts = [one, other].map(|handle| handle.selector.subselectors);
            let either = |segment| parts.iter().any(|parts| references(*parts, segment));
            if segments(width).all(either) {
                assert_eq!(reply, Reply::refused(23));
                whole += 1;
                continue;
            }
            let given = given(&reply);
            assert_eq!(reply, Reply::with_handle(&given));
            for segment in segments(width) {
                let parts = given.selector.subselectors;
                assert_eq!(references(parts, segment), either(segment));
            }
            assert_eq!(given, reduced(width, given.selector.subselectors[0]));
            done += 1;
        }
        assert_eq!(bench, before);
        // Each segment is the first one's, the second one's or both's; but for all of both's, every pair would come
        // twice.
        let expected = 3_usize.pow(width.number().into()).div_ceil(2);
        match width {
            Width::Sixteen => assert!(done > 10_000 && whole > 10, "{done} {whole}"),
            _ => assert_eq!((done, whole), (sets * (sets + 1) / 2 - expected, expected)),
        }
    }
}

#[test]
fn what_is_given_validates_in_the_mode_and_is_not_primary() {
    for width in Width::ALL {
        let (mut bench, flat) = (Bench::with_cluster_of(width), flat(width));
        for (mode, secret) in [(READ_MODE, READ_SECRET), (WRITE_MODE, WRITE_SECRET)] {
            let at = |segments| {
                let selector = Selector::new(width, [segments, flat, flat, flat]);
                Handle::converted(0, 2, &secret, selector)
            };
            for segments in (0..flat).step_by(if flat > 255 { 63 } else { 1 }) {
                let one = at(segments & 0x3c3c | 0x01);
                let reply = bench.reply(Call::join(mode, at(segments), one));
                if segments | 0x01 == flat {
                    assert_eq!(reply, Reply::refused(23));
                    continue;
                }
                let given = given(&reply);
                let validate = |mode| Call::Validate { mode, handle: given.into() };
                assert_eq!(bench.reply(validate(mode)), Reply::DONE);
                assert_eq!(bench.number(validate(3 - mode)), 9);
                assert!(!given.selector.is_primary() && !given.selector.is_gapped());
                assert_eq!(given, at(segments | 0x01));
            }
        }
    }
}

/// A handle that is not primary joined with itself gives its own reduction; so does any with one that references
/// nothing besides.
#[test]
fn with_itself_and_with_less() {
    for width in Width::ALL {
        let mut bench = Bench::with_cluster_of(width);
        for parts in sets(width) {
            let (handle, selector) = (reading(width, parts), Selector::new(width, parts));
            let reduction = bench.reply(Call::reduce(READ_MODE, handle));
            let expected = if selector.is_primary() { Reply::refused(23) } else { reduction };
            let less = reduced(width, selector.referenced() & 0x5a5a);
            let nothing = reduced(width, 0);
            for other in [handle, less, nothing] {
                assert_eq!(bench.reply(Call::join(READ_MODE, handle, other)), expected);
                assert_eq!(bench.reply(Call::join(READ_MODE, other, handle)), expected);
            }
        }
    }
}

#[test]
fn two_that_reference_nothing() {
    let mut bench = Bench::with_cluster();
    let nothing = [[0x0f, 0xf0, 255, 255], [0, 255, 255, 255], [0; 4]];
    let nothing = nothing.map(|parts| reading(Width::Eight, parts));
    for one in nothing {
        for other in nothing {
            let reply = bench.reply(Call::join(READ_MODE, one, other));
            assert_eq!(reply, Reply::with_handle(&reduced(Width::Eight, 0)));
        }
    }
}

/// Three are joined one after the other, whichever two come first.
#[test]
fn what_is_joined_is_joined_again() {
    let mut bench = Bench::with_cluster();
    let mut joined = |one, other| {
        let reply = bench.reply(Call::join(READ_MODE, one, other));
        assert_eq!(reply.number, 0);
        given(&reply)
    };
    let [one, two, three] = [0x03, 0x7e, 0x70].map(|mask| reader().weaken(mask).unwrap());
    let (first, last) = (joined(one, two), joined(two, three));
    assert_eq!(joined(first, three), joined(one, last));
    assert_eq!(joined(first, three), reduced(Width::Eight, 0x7f));
}
