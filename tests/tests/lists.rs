//! Calls 9, 10 and 11 in lists: where a record has what they take, what the line gives, and the bytes that such a
//! record does not use.

mod support;

use model::hexadecimal::encode;
use model::list::{output, request, Record, Request, RECORD_BYTES};
use std::collections::BTreeMap;
use support::*;

const SECRETS: [Password; 2] = [READ_SECRET, WRITE_SECRET];

/// Code, node, mode and segment, and a handle; all other bytes are `unused`.
fn record(first: [u8; 4], handle: &Handle, unused: u8) -> Record {
    let mut record = [unused; RECORD_BYTES];
    record[1..5].copy_from_slice(&first);
    record[8..31].copy_from_slice(&handle.to_bytes());
    record
}

/// The lines after that of a record which makes cluster 2 of node 0; the records follow one another.
fn lines([read, write]: [Password; 2], records: &[Record]) -> Vec<String> {
    let mut new_cluster = record([1, 0, 0, 2], &reader(), 0);
    new_cluster[32..48].copy_from_slice(&read);
    new_cluster[48..].copy_from_slice(&write);
    let mut list = [&[new_cluster], records].concat();
    let count = list.len();
    for (at, record) in list.iter_mut().enumerate() {
        record[0] = if at + 1 == count { 0 } else { at as u8 + 2 };
    }
    let text = String::from_utf8(output(&list.concat())).unwrap();
    text.lines().skip(1).map(str::to_string).collect()
}

fn line(record: Record) -> String {
    lines(SECRETS, &[record]).swap_remove(0)
}

// Joins: the second handle at bytes 32 to 54.

fn joining(mode: u8, one: &Handle, other: &Handle, unused: u8) -> Record {
    let mut record = record([11, unused, mode, unused], one, unused);
    record[32..55].copy_from_slice(&other.to_bytes());
    record
}

fn weaker(mask: u16) -> Handle {
    reader().weaken(mask).unwrap()
}

#[test]
fn the_line_gives_the_new_handle() {
    let (one, two) = (weaker(0x07), weaker(0x18));
    let joined = encode(&weaker(0x1f).to_bytes());
    for unused in [0, 1, 0xff] {
        assert_eq!(line(joining(1, &one, &two, unused)), format!("2 11 0 {joined}"));
        assert_eq!(line(joining(1, &two, &one, unused)), format!("2 11 0 {joined}"));
    }
}

#[test]
fn a_refusal_stops_at_the_number() {
    let (one, two) = (weaker(0x07), weaker(0x18));
    let nowhere = Handle { node: 4, ..two };
    let gapped = Handle { selector: eight([255, 0x18, 255, 255]), ..two };
    let apart = Handle { local: 3, ..two };
    let forged = Handle { password: [9; 16], ..two };
    let asked = [
        (1, one, nowhere, 2),
        (0, one, two, 3),
        (3, two, one, 3),
        (1, one, gapped, 4),
        (1, one, apart, 24),
        (1, apart, apart, 8),
        (1, one, forged, 9),
        (2, one, two, 9),
        (1, one, reader(), 23),
        (1, weaker(0x0f), weaker(0xf0), 23),
    ];
    for unused in [0, 1, 0xff] {
        let both = |&(mode, one, two, _): &(u8, Handle, Handle, u8)| {
            [joining(mode, &one, &two, unused), joining(mode, &two, &one, unused)]
        };
        let found = lines(SECRETS, &asked.iter().flat_map(both).collect::<Vec<_>>());
        let numbers = asked.iter().flat_map(|asked| [asked.3; 2]);
        let expected: Vec<String> = numbers
            .enumerate()
            .map(|(at, number)| format!("{} 11 {number}", at + 2))
            .chain([format!("end {}", 2 * asked.len() + 1)])
            .collect();
        assert_eq!(found, expected);
    }
}

/// Each byte by itself: those of the mode and of the two handles matter, those that no sentence names do not.
#[test]
fn unused_bytes_are_ignored() {
    let right = joining(1, &weaker(0x07), &weaker(0x18), 0);
    let expected = line(right);
    for at in 2..RECORD_BYTES {
        let used = at == 3 || (8..=30).contains(&at) || (32..=54).contains(&at);
        for bit in 0..8 {
            let mut changed = right;
            changed[at] ^= 1 << bit;
            assert_eq!(line(changed) == expected, !used, "byte {at}, bit {bit}");
        }
    }
}

#[test]
fn codes_above_11_belong_to_no_call() {
    let right = joining(1, &weaker(0x07), &weaker(0x18), 0);
    for code in 0..=255 {
        let mut changed = right;
        changed[1] = code;
        let is_call = request(&changed) != Request::BadCode;
        assert_eq!(is_call, (1..=11).contains(&code));
        if !is_call {
            assert_eq!(line(changed), format!("2 {code} 3"));
        }
    }
}

// Freezes.

/// A cluster and a segment made, the segment frozen twice, what is refused for it, and freezes that are refused.
fn freezes(unused: u8) -> Vec<Record> {
    let about = |code, node, segment, handle| record([code, node, unused, segment], &handle, unused);
    let by = |node, segment, handle| about(10, node, segment, handle);
    let mut new_segment = record([3, 0, 0, 5], &writer(), 0);
    new_segment[7] = 4;
    let mut write = about(6, 0, 5, writer());
    write[5] = 3;
    vec![
        new_segment,
        by(0, 5, writer()),
        by(0, 5, writer()),
        write,
        about(4, 0, 5, writer()),
        about(2, 0, 5, writer()),
        by(4, 5, writer()),
        by(0, 8, writer()),
        by(1, 5, writer()),
        by(0, 5, Handle::primary(Width::Eight, 0, 3, [0; 16])),
        by(0, 5, reader()),
        by(0, 5, writer().weaken(0x20).unwrap()),
        by(0, 6, writer()),
        about(5, 0, 5, reader()),
        about(12, 0, 5, writer()),
    ]
}

#[test]
fn code_10_and_a_line_that_stops_at_the_number() {
    #[rustfmt::skip]
    let expected = [
        "2 3 0", "3 10 0", "4 10 0", "5 6 22", "6 4 22", "7 2 22", "8 10 2", "9 10 3", "10 10 5",
        "11 10 8", "12 10 9", "13 10 10", "14 10 14", "15 5 0 00000000", "16 12 3", "end 16",
    ];
    for unused in [0, 1, 0xff] {
        assert_eq!(lines(SECRETS, &freezes(unused)), expected);
    }
}

// New passwords.

/// What the reply to a new password does not tell: the line is the same whatever the other mode's password is.
#[test]
fn the_line_of_a_list_is_the_same() {
    let mut near = [1; 16];
    near[15] = 0;
    let passwords = [[0; 16], [1; 16], near, [2; 16], [3; 16]];
    let mut given: BTreeMap<String, usize> = BTreeMap::new();
    for mode in Mode::ALL {
        for password in passwords {
            let own = Handle::primary(Width::Eight, 0, 2, passwords[0]);
            let mut renewed = record([9, 0, mode.number() as u8, 0], &own, 0);
            renewed[32..48].copy_from_slice(&password);
            let [first, rest @ ..] = [1, 2, 3, 4].map(|other| {
                let (own, other) = (passwords[0], passwords[other]);
                let passwords = if mode == Mode::Read { [own, other] } else { [other, own] };
                lines(passwords, &[renewed]).swap_remove(0)
            });
            assert!(rest.iter().all(|line| *line == first), "{first} {rest:?}");
            *given.entry(first).or_default() += 1;
        }
    }
    // One is refused, and each other gives its own handle; either mode says the same.
    assert_eq!(given.len(), passwords.len());
    assert_eq!(given["2 9 12"], 2);
}
