//! Two cuts and one cut: a handle that validates in a mode is weakened by one mask and then by a second, in either order,
//! or once by the bits that both share. What is done validates in the mode, references the same segments and has one
//! reduction.

mod support;

use model::cuts::{End, Masks, Way, ENDS};
use std::collections::BTreeSet;
use support::naive::{flat, has, number, sets};
use support::*;

const MODES: [(u32, Password); 2] = [(READ_MODE, READ_SECRET), (WRITE_MODE, WRITE_SECRET)];

/// What one way comes to by call 7: its last handle, or the cut that is refused and its number. Every number is the one
/// that segments and subselectors say.
type Cut = Result<Handle, (usize, u8)>;

fn cut(bench: &mut Bench, mut handle: Handle, masks: &[u16]) -> Cut {
    for (at, mask) in (1..).zip(masks) {
        let due = number(handle.width(), handle.selector.subselectors, *mask);
        let reply = bench.ask(Call::weaken(*mask, handle), &mut []);
        assert_eq!(reply.number, due);
        if due != 0 {
            assert_eq!(reply, Reply::refused(due));
            return Err((at, due));
        }
        handle = given(&reply);
    }
    Ok(handle)
}

fn references(handle: &Handle, segment: u32) -> bool {
    handle.selector.subselectors.iter().all(|part| has(*part, segment))
}

/// The three ways of a handle that validates in the mode; all that is claimed of them holds.
fn cut_in_three_ways(bench: &mut Bench, mode: u32, handle: Handle, masks: Masks) -> [Cut; 3] {
    assert_eq!(bench.ask(Call::validate(mode, handle), &mut []), Reply::DONE);
    let ways = Way::ALL.map(|way| cut(bench, handle, &masks.along(way)));
    let mut reductions = Vec::new();
    for done in ways.iter().flatten() {
        assert_eq!(bench.ask(Call::validate(mode, *done), &mut []), Reply::DONE);
        assert_eq!((done.name(), done.width()), (handle.name(), handle.width()));
        for segment in segments(handle.width()) {
            let kept = has(masks.first, segment) && has(masks.second, segment);
            assert_eq!(references(done, segment), references(&handle, segment) && kept);
        }
        reductions.push(bench.ask(Call::reduce(mode, *done), &mut []));
    }
    assert!(reductions.iter().all(|reduction| reduction.is_done() && *reduction == reductions[0]));
    let [one, other, once] = ways;
    assert!(once.is_ok() || (one.is_err() && other.is_err()), "two cuts are done where one is not");
    ways
}

/// Of width 4 every two masks; of the others some of which the next one keeps other segments, fewer, or none of them.
fn masks(width: Width, random: &mut Random) -> Vec<Masks> {
    let mut above = || random.number() as u16 & !flat(width);
    if width == Width::Four {
        let pairs = (0..16).flat_map(|first| (0..16).map(move |second| (first, second)));
        let pairs = pairs.map(|(first, second)| (first, second, first & second));
        return pairs.map(|(a, b, c)| Masks { first: a | above(), second: b | above(), shared: c | above() }).collect();
    }
    let mut all = vec![flat(width), 0];
    for _ in 0..5 {
        let [one, other, third] = [(); 3].map(|()| random.number() as u16);
        all.extend([one | other, !one | third, one & other, !one]);
    }
    let pairs = all.windows(2).map(|two| Masks::of(two[0], two[1]));
    let turned = all.windows(2).map(|two| Masks::of(two[1], two[0] & two[1]));
    pairs.chain(turned).collect()
}

/// Every two masks at width 4, and many at the others, for handles with none to four subselectors flat.
#[test]
fn three_ways_and_one_reduction() {
    let random = &mut Random::from_seed(10);
    for (width, mut bench) in benches() {
        let before = bench.clone();
        let (mut ends, mut differ) = (BTreeSet::new(), 0);
        let step = [1, 13, 31][width as usize];
        for parts in sets(width).into_iter().step_by(step) {
            for (masks, (mode, secret)) in
                masks(width, random).into_iter().flat_map(|own| MODES.map(|mode| (own, mode)))
            {
                let handle = Handle::converted(0, 2, &secret, Selector::new(width, parts));
                let ways = cut_in_three_ways(&mut bench, mode, handle, masks);
                ends.insert(ways.map(Result::err));
                if let [Ok(one), Ok(other), Ok(once)] = ways.map(|way| way.map(|done| done.password)) {
                    differ += usize::from(one != other && other != once && once != one);
                }
            }
        }
        assert_eq!(bench, before);
        assert_eq!(ends, BTreeSet::<[End; 3]>::from(ENDS), "{width:?}");
        assert!(differ > 100, "{width:?} {differ}");
    }
}

/// The masks of document 01's figure: three handles, of which no two have a subselector 0 or a password in common.
#[test]
fn three_handles_and_one_reduction_written_out() {
    let mut bench = Bench::with_segment();
    let [one, other, once] =
        cut_in_three_ways(&mut bench, READ_MODE, reader(), Masks::of(0xfe, 0x7d)).map(Result::unwrap);
    let expected = [[0xfe, 0x7d, 255, 255], [0x7d, 0xfe, 255, 255], [0x7c, 255, 255, 255]];
    for (handle, parts) in [one, other, once].into_iter().zip(expected) {
        assert_eq!(handle, reading(Width::Eight, parts));
        let reduction = bench.reply(Call::reduce(READ_MODE, handle));
        assert_eq!(reduction, Reply::with_handle(&once));
        assert_eq!(bench.read(5, handle), Ok(b"abcd".to_vec()));
        assert_eq!((bench.read(0, handle), bench.read(7, handle)), (Err(11), Err(11)));
    }
    let passwords = BTreeSet::from([one, other, once].map(|handle| handle.password));
    assert_eq!(passwords.len(), 3);
}

/// With one flat subselector left the single cut is done, and two are not, or in one order alone. Reduced first, the
/// handle is cut in all ways.
#[test]
fn one_subselector_is_flat() {
    let mut bench = Bench::with_cluster();
    let handle = reading(Width::Eight, [0xfe, 0xfd, 0xfb, 255]);
    let reduced = given(&bench.reply(Call::reduce(READ_MODE, handle)));
    let spent = Some((2, 17));
    for (first, second, ends) in [
        (0xf7, 0xef, [spent, spent, None]),
        (0xf0, 0x30, [spent, None, None]),
        (0x30, 0xf0, [None, spent, None]),
        (0x30, 0x30, [None; 3]),
    ] {
        let masks = Masks::of(first, second);
        let [_, _, once] = cut_in_three_ways(&mut bench, READ_MODE, handle, masks).map(|way| way.ok());
        assert_eq!(cut_in_three_ways(&mut bench, READ_MODE, handle, masks).map(Result::err), ends);
        let ways = cut_in_three_ways(&mut bench, READ_MODE, reduced, masks);
        let reduction = |handle| bench.reply(Call::reduce(READ_MODE, handle));
        let [one, other] = [once.unwrap(), ways[0].unwrap()].map(reduction);
        assert_eq!((ways.map(Result::err), one), ([None; 3], other));
    }
}

/// A handle that opens both modes is cut in both, and has one reduction in all; one of the other mode alone is cut, and
/// what is given does not validate.
#[test]
fn in_the_mode_in_which_it_validates() {
    for width in Width::ALL {
        let mut bench = Bench::with_cluster_of(width);
        let masks = Masks::of(0x0007, 0xfffe);
        let ways = cut_in_three_ways(&mut bench, WRITE_MODE, writer_of(width), masks).map(Result::unwrap);
        for handle in ways {
            bench.refuses(&Call::validate(READ_MODE, handle), 9);
            bench.refuses(&Call::reduce(READ_MODE, handle), 9);
        }
        assert_eq!(bench.number(Call::new_password(READ_MODE, reader_of(width), WRITE_SECRET)), 0);
        for mode in [READ_MODE, WRITE_MODE] {
            let again = cut_in_three_ways(&mut bench, mode, writer_of(width), masks).map(Result::unwrap);
            assert_eq!(again, ways);
            let reduction = bench.reply(Call::reduce(mode, ways[0]));
            assert_eq!(reduction, Reply::with_handle(&noted(width, &WRITE_SECRET, 0x0006)));
        }
    }
}
