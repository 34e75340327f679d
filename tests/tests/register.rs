//! A register of handles given out: handles, openers, and what is refused, written out.

mod support;

#[cfg(of_the_library)]
use library::guard::look_up as run;
#[cfg(not(of_the_library))]
use model::register::run;

use model::hexadecimal::encode;
use model::register::{Finding, Inquiry};
use support::naive::sets;
use support::*;

/// What a buffer holds before, and so what stays.
const LEFT: u8 = 0xee;
/// No entry of a register in these tests has this number, save where there are 255.
const MISSING: u8 = 255;
/// A mask that excludes nothing.
const ALL: u8 = 255;

/// Entry 1 was weakened from entry 3, entries 4 and 5 from those before them.
const FIVE: [[u8; 2]; 5] = [[3, 0x3f], [0, 0xfe], [0, 0x7f], [2, 0x7d], [4, 0x70]];
/// Four weakenings, each of the one below; none is left for a fifth that excludes something.
const FOUR: [[u8; 2]; 4] = [[2, 0xf7], [3, 0xfb], [4, 0xfd], [0, 0xfe]];

/// What is told, written out.
fn told(number: u8, entry: usize, count: usize) -> Finding {
    Finding { number, entry, count }
}

fn inquiry(handle: &Handle, segment: Option<usize>, entries: &[[u8; 2]]) -> Inquiry {
    Inquiry { handle: handle.to_bytes(), segment, entries: entries.concat() }
}

/// What is told, and the buffer afterwards.
fn asked(inquiry: &Inquiry, bytes: usize) -> (Finding, Vec<u8>) {
    let mut buffer = vec![LEFT; bytes];
    (run(inquiry, &mut buffer), buffer)
}

/// The handles of a register that is done, each in hexadecimal. What is behind them in a longer buffer stays.
fn handles(handle: &Handle, entries: &[[u8; 2]]) -> Vec<String> {
    let inquiry = inquiry(handle, None, entries);
    let exact = asked(&inquiry, 23 * entries.len());
    let (finding, buffer) = asked(&inquiry, 23 * entries.len() + 30);
    assert_eq!((finding, finding), (exact.0, told(0, 0, 0)));
    assert_eq!(buffer, [&exact.1[..], &[LEFT; 30]].concat());
    exact.1.chunks(23).map(encode).collect()
}

/// Those who open a segment, where the register is done; the rest of the buffer stays.
fn openers(handle: &Handle, segment: usize, entries: &[[u8; 2]]) -> Vec<u8> {
    let (finding, mut buffer) = asked(&inquiry(handle, Some(segment), entries), entries.len() + 3);
    assert_eq!(finding, told(0, 0, finding.count));
    assert!(buffer.split_off(finding.count).iter().all(|byte| *byte == LEFT));
    buffer
}

/// Both questions are refused, and change nothing.
fn refused(handle: &Handle, entries: &[[u8; 2]], entry: usize, number: u8) {
    for segment in [None, Some(0), Some(7)] {
        let (finding, buffer) = asked(&inquiry(handle, segment, entries), 23 * entries.len());
        assert_eq!(finding, told(number, entry, 0), "{entries:?}");
        assert!(buffer.iter().all(|byte| *byte == LEFT));
    }
}

/// A handle of the cluster with these subselectors.
fn supplied(subselectors: [u16; 4]) -> Handle {
    reading(Width::Eight, subselectors)
}

#[test]
fn five_entries_and_a_parent_above_its_child() {
    let expected = [
        "000002c4534a8c3a5456cb7ea56da996efe7ac7fbfffff",
        "00000255d9ba722b73854a81b596f0e28df878feffffff",
        "000002ad177646c4426d029376511ceb3ec2837fffffff",
        "00000281819d60f8f9d57527edeab618f773a6fe7dffff",
        "000002a8af3642823d8bc7f2c7e16831dbd45dfe7df3ff",
    ];
    assert_eq!(handles(&reader(), &FIVE), expected);
    let expected: [&[u8]; 8] =
        [&[1, 3], &[1, 2, 3], &[1, 2, 3, 4], &[1, 2, 3, 4], &[1, 2, 3, 4, 5], &[1, 2, 3, 4, 5], &[2, 3, 4, 5], &[2]];
    for (segment, expected) in expected.into_iter().enumerate() {
        assert_eq!(openers(&reader(), segment, &FIVE), expected);
    }
}

/// From a handle that notes something already: what it does not reference, no entry does, and the steps go on from it.
#[test]
fn from_a_weaker_handle() {
    let weaker = supplied([0xfe, 0x7d, 255, 255]);
    let expected = ["000002a8af3642823d8bc7f2c7e16831dbd45dfe7df3ff", "00000281819d60f8f9d57527edeab618f773a6fe7dffff"];
    assert_eq!(handles(&weaker, &[[2, 0x70], [0, 0x7c]]), expected);
    assert_eq!((0..8).map(|segment| openers(&weaker, segment, &[[2, 0x70], [0, 0x7c]]).len()).sum::<usize>(), 3 + 5);
    assert_eq!(openers(&weaker, 7, &[[0, ALL]]), []);
    let spent = supplied([0xfe, 0xfd, 0xfb, 0xf7]);
    assert_eq!(handles(&spent, &[[0, 0xf0], [1, ALL]]), [encode(&spent.to_bytes()), encode(&spent.to_bytes())]);
}

/// A register of one entry is call 7 by its mask: the number, and the handle.
#[test]
fn one_entry_is_a_weakening() {
    let mut bench = Bench::starting();
    for (at, parts) in sets(Width::Eight).into_iter().enumerate() {
        let handle = supplied(parts);
        for mask in [0, 1, 0x80, 0xf0, 0x7f, 255, at as u8, (at * 7) as u8] {
            let reply = bench.reply(Call::weaken(mask.into(), handle));
            let (finding, buffer) = asked(&inquiry(&handle, None, &[[0, mask]]), 23);
            assert_eq!(finding, told(reply.number, usize::from(reply.number != 0), 0));
            let expected = if reply.number == 0 { reply.first } else { vec![LEFT; 23] };
            assert_eq!(buffer, expected);
        }
    }
}

#[test]
fn an_empty_register_is_done() {
    for handle in [reader(), supplied([0, 255, 255, 255])] {
        for segment in [None, Some(0), Some(7)] {
            for bytes in [0, 1, 23, 40] {
                assert_eq!(asked(&inquiry(&handle, segment, &[]), bytes), (told(0, 0, 0), vec![LEFT; bytes]));
            }
        }
    }
    refused(&Handle { local: 8, ..reader() }, &[], 0, 2);
    refused(&supplied([255, 254, 255, 255]), &[], 0, 4);
    let nowhere = inquiry(&reader(), Some(8), &[]);
    assert_eq!(asked(&nowhere, 0).0, told(3, 0, 0));
}

/// 255 entries, of one parent or in one chain, up or down; 256 are too many.
#[test]
fn as_many_entries_as_there_may_be() {
    let up = |entry: usize| [if entry == 255 { 0 } else { entry as u8 + 1 }, 0x7f];
    let down = |entry: usize| [entry as u8 - 1, 0x7f];
    let of_the_last = |entry: usize| [if entry == 255 { 0 } else { 255 }, 0x7f];
    for parent in [up, down, of_the_last, |_| [0, 0x7f]] {
        let entries: Vec<[u8; 2]> = (1..=255).map(parent).collect();
        assert_eq!(handles(&reader(), &entries), ["000002ad177646c4426d029376511ceb3ec2837fffffff"; 255]);
        assert_eq!(openers(&reader(), 6, &entries), (1..=255).collect::<Vec<u8>>());
        assert_eq!(openers(&reader(), 7, &entries), []);
        refused(&reader(), &[&entries[..], &[[0, 0x7f]]].concat(), 0, 18);
    }
}

/// Every set of faults of the call as a whole beside an entry that fails: the first in the row is told, with entry 0.
#[test]
fn the_call_as_a_whole_first_and_in_order() {
    let rows = [25, 2, 3, 4, 18, 15];
    let failing = [None, Some([MISSING, 0]), Some([3, 0]), Some([0, 0]), Some([2, 0xef])];
    let numbers = [0, 19, 20, 21, 17];
    for (set, way) in (0..64).flat_map(|set| (0..12).map(move |way| (set, way))) {
        for (failing, of_the_entry) in failing.into_iter().zip(numbers) {
            let has = |number: u8| rows.iter().position(|row| *row == number).is_some_and(|at| set >> at & 1 == 1);
            let mut handle = reader();
            if has(2) {
                (handle.node, handle.local) = [(4, 2), (0, 8), (256, 255)][way % 3];
            }
            if has(4) {
                handle.selector.subselectors = [[255, 254, 255, 255], [1, 255, 255, 2]][way % 2];
            }
            // Entries 1 and 2 are fine, entry 3 fails or is fine, too, and those behind it are the four.
            let mut entries = vec![[2, ALL], [4, ALL], failing.unwrap_or([0, 1])];
            entries.extend(FOUR.map(|[parent, mask]| [if parent == 0 { 0 } else { parent + 3 }, mask]));
            let many = has(18) && way % 3 == 0;
            entries.resize(if many { 256 } else { 7 }, [0, 1]);
            let segment = has(3).then_some([8, 255, 256, usize::MAX][way % 4]);
            for segment in if has(3) { vec![segment] } else { vec![None, Some(5)] } {
                let mut inquiry = inquiry(&handle, segment, &entries);
                if has(25) {
                    inquiry.handle.resize([0, 19, 21, 22, 24, 27, 255][way % 7], 0xff);
                }
                let needed = entries.len() * if segment.is_some() { 1 } else { 23 };
                if has(18) && !many {
                    // With one byte more the needed ones are the same.
                    inquiry.entries.push(0);
                }
                let bytes = if has(15) { [needed - 1, 0][way % 2] } else { needed };
                let expected = match rows.into_iter().find(|row| has(*row)) {
                    Some(number) => told(number, 0, 0),
                    None if failing.is_some() => told(of_the_entry, 3, 0),
                    None => told(0, 0, if segment.is_some() { 6 } else { 0 }),
                };
                let (finding, buffer) = asked(&inquiry, bytes);
                assert_eq!(finding, expected, "{inquiry:?}");
                assert!(finding.number == 0 || buffer.iter().all(|byte| *byte == LEFT));
            }
        }
    }
}

/// A buffer of a byte an entry is needed, though nobody opens the segment, or few do.
#[test]
fn short_whatever_is_given() {
    for (segment, count) in [(7, 1), (0, 2), (5, 5)] {
        for bytes in 0..7 {
            let expected = if bytes < 5 { told(15, 0, 0) } else { told(0, 0, count) };
            assert_eq!(asked(&inquiry(&reader(), Some(segment), &FIVE), bytes).0, expected);
        }
    }
    for bytes in [0, 1, 22, 23, 5 * 23 - 1] {
        let (finding, buffer) = asked(&inquiry(&reader(), None, &FIVE), bytes);
        assert_eq!((finding, buffer), (told(15, 0, 0), vec![LEFT; bytes]));
    }
}

/// Entries, the one told, and its number. Each is about the primary handle.
#[test]
fn the_lowest_entry_that_fails() {
    let five = |first: [u8; 2], last: u8| [first, [3, 0xf7], [4, 0xfb], [5, 0xfd], [last, 0xfe]];
    let six = [[2, 0], [3, 0xef], [4, 0xf7], [5, 0xfb], [6, 0xfd], [0, 0xfe]];
    let rows: [(&[[u8; 2]], usize, u8); 30] = [
        // No entry has the number.
        (&[[2, ALL]], 1, 19),
        (&[[MISSING, ALL]], 1, 19),
        (&[[0, ALL], [3, ALL]], 2, 19),
        // The way comes round: at one entry, at two, at all; and a way that leads to such.
        (&[[1, ALL]], 1, 20),
        (&[[0, ALL], [2, ALL]], 2, 20),
        (&[[2, ALL], [1, ALL]], 1, 20),
        (&[[2, ALL], [3, ALL], [3, ALL]], 1, 20),
        (&[[0, ALL], [3, ALL], [4, ALL], [3, ALL]], 2, 20),
        // A step is refused.
        (&[[0, 0]], 1, 21),
        (&[[0, 0x0f], [1, 0xf0]], 2, 21),
        (&[[2, 0x0f], [0, 0xf0]], 1, 21),
        (&five([2, 0xef], 0), 1, 17),
        (&[[0, 0xfe], [1, 0xfd], [2, 0xfb], [3, 0xf7], [4, 0xef]], 5, 17),
        // 19 and 20 before 21 and 17.
        (&[[2, 0]], 1, 19),
        (&[[1, 0]], 1, 20),
        (&five([2, 0xef], MISSING), 1, 19),
        (&five([2, 0xef], 2), 1, 20),
        (&[[0, ALL], [3, 0x0f], [MISSING, 0xf0]], 2, 19),
        (&[[0, ALL], [3, 0x0f], [2, 0xf0]], 2, 20),
        // 21 before 17 at one step; by the first step that is refused from above.
        (&five([2, 0x0f], 0), 1, 21),
        (&six, 1, 17),
        // The lower entry, whatever its number.
        (&[[0, 0], [MISSING, ALL]], 1, 21),
        (&[[1, ALL], [MISSING, ALL]], 1, 20),
        (&[[0, ALL], [0, 0], [3, ALL]], 2, 21),
        (&[[2, 0xef], [3, 0xf7], [4, 0xfb], [5, 0xfd], [0, 0xfe], [6, 0], [MISSING, 0]], 1, 17),
        // What is made from one that fails: below it, and two steps below.
        (&[[2, ALL], [MISSING, ALL]], 1, 19),
        (&[[2, ALL], [2, ALL]], 1, 20),
        (&[[2, ALL], [0, 0]], 1, 21),
        (&[[2, 0xf0], [3, 0xef], [4, 0xf7], [5, 0xfb], [6, 0xfd], [0, 0xfe]], 1, 17),
        (&[[2, ALL], [3, ALL], [4, ALL], [MISSING, ALL]], 1, 19),
    ];
    for (entries, entry, number) in rows {
        refused(&reader(), entries, entry, number);
        // Behind entries that are done, all is about the same entry further on.
        let moved = |[parent, mask]: [u8; 2]| [if (1..MISSING).contains(&parent) { parent + 1 } else { parent }, mask];
        let behind: Vec<[u8; 2]> = entries.iter().map(|entry| moved(*entry)).collect();
        refused(&reader(), &[&[[0, 0x11]], &behind[..]].concat(), entry + 1, number);
    }
    assert_eq!(handles(&reader(), &five([2, 0xf0], 0)).len(), 5);
}

/// Whatever the mask, every entry would be given a handle to nothing; the ways are looked at before.
#[test]
fn a_handle_that_references_nothing() {
    for parts in [[0, 255, 255, 255], [0x0f, 0xf0, 255, 255], [0x3f, 0xcf, 0xf3, 0xfc]] {
        for mask in 0..=255 {
            refused(&supplied(parts), &[[0, mask]], 1, 21);
            refused(&supplied(parts), &[[2, mask], [0, ALL]], 1, 21);
        }
        refused(&supplied(parts), &[[MISSING, ALL], [0, ALL]], 1, 19);
        refused(&supplied(parts), &[[1, ALL], [0, ALL]], 1, 20);
        refused(&supplied(parts), &[[0, ALL], [MISSING, ALL]], 1, 21);
    }
}

/// Of all lengths one is right; a handle of another width is none.
#[test]
fn handles_of_23_bytes_alone() {
    for length in 0..=255 {
        let mut inquiry = inquiry(&reader(), None, &FIVE);
        inquiry.handle.resize(length, 0xff);
        let expected = if length == 23 { told(0, 0, 0) } else { told(25, 0, 0) };
        assert_eq!(asked(&inquiry, 5 * 23).0, expected, "{length}");
    }
    others(Width::Eight).for_each(|width| refused(&reader_of(width), &[[0, 1]], 0, 25));
}
