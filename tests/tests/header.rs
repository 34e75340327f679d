//! The header's numbers and words are those of the table, and each function's numbers are the model's, in their order.

mod support;

use model::{register::Inquiry, words::*};
use std::collections::BTreeMap;
use support::every::{every, Rest};
use support::{new_cluster, reader};

const HEADER: &str = include_str!("../../include/gelmuszta.h");

fn between(start: &str, end: &str) -> &'static str {
    let from = HEADER.split_once(start).unwrap().1;
    from.split_once(end).unwrap().0
}

/// The lines of the enumeration: name, number, and what its comment says.
fn lines() -> impl Iterator<Item = (&'static str, u8, Option<&'static str>)> {
    let numbers = between("enum {", "};");
    let lines = numbers.lines().filter_map(|line| line.split_once(" = "));
    lines.map(|(name, rest)| {
        let digits = rest.split(|c: char| !c.is_ascii_digit()).next().unwrap();
        let comment = rest.split_once("/* ").map(|(_, comment)| comment);
        (name.trim(), digits.parse().unwrap(), comment)
    })
}

/// The order of all numbers. The rows of calls, in which 22 and 25 have two places, and those of registers keep to it;
/// an enumeration has a number once, and this one has it at the first of them.
const ORDER: [u8; 26] = [0, 25, 1, 2, 3, 4, 24, 5, 6, 7, 8, 9, 23, 10, 22, 11, 12, 13, 14, 18, 15, 16, 19, 20, 21, 17];

/// Without the second place of a number.
fn once(numbers: impl IntoIterator<Item = u8>) -> Vec<u8> {
    let mut seen = Vec::new();
    numbers.into_iter().for_each(|number| {
        if !seen.contains(&number) {
            seen.push(number)
        }
    });
    seen
}

#[test]
fn numbers_in_the_table_s_order() {
    let numbers: Vec<u8> = lines().map(|(_, number, _)| number).collect();
    assert_eq!(numbers, ORDER);
    let calls: Vec<u8> = [DONE].into_iter().chain(numbers_of_calls()).collect();
    let [registers, openers] = [None, Some(0)].map(|segment| inquiry(segment).numbers());
    for row in [&calls, &registers, &openers] {
        let own: Vec<u8> = ORDER.into_iter().filter(|number| row.contains(number)).collect();
        assert_eq!(once(row.iter().copied()), own);
    }
    let twice = |number: &u8| calls.iter().filter(|other| *other == number).count() == 2;
    assert_eq!(ORDER.into_iter().filter(twice).collect::<Vec<u8>>(), [LENGTH, FROZEN]);
    let all = calls.into_iter().chain(openers);
    assert_eq!(once(all).len(), ORDER.len());
}

/// One of the two questions about a register.
fn inquiry(segment: Option<usize>) -> Inquiry {
    Inquiry { handle: reader().to_bytes(), segment, entries: Vec::new() }
}

#[test]
fn names_and_what_is_said_of_them() {
    for (name, number, comment) in lines() {
        let word = word(number).unwrap();
        let spelled = word.to_uppercase().replace(' ', "_");
        let name = name.strip_prefix("GELMUSZTA_").unwrap();
        assert!(spelled.starts_with(name), "{name} {spelled}");
        if number != DONE {
            let said = comment.unwrap().split_once(':').unwrap().0;
            assert_eq!(said, word);
        }
    }
}

/// The words that `gelmuszta_word` has in its table, each at its number, and what it says to other numbers.
#[test]
fn words_at_their_numbers() {
    let words = between("static const char words[][20] = {", "};");
    let words: Vec<&str> = words.split('"').skip(1).step_by(2).collect();
    let table: Vec<&str> = (0..=u8::MAX).map_while(word).collect();
    assert_eq!(words, table);
    assert_eq!((words.len(), words[25]), (26, "length"));
    let longest = words.iter().map(|word| word.len()).max();
    assert_eq!(longest, Some(19), "a word and its end fit into 20");
    assert!(HEADER.contains("? words[number] : \"no such number\";"));
}

/// The functions that return a number, each with the numbers that its paragraph names.
fn rows() -> BTreeMap<String, Vec<u8>> {
    let parts: Vec<&str> = HEADER.split("GELMUSZTA_USED gelmuszta_number ").collect();
    parts
        .windows(2)
        .map(|pair| {
            let name = pair[1].split_once('(').unwrap().0;
            let paragraph = pair[0].rsplit_once("/* ").unwrap().1;
            let (_, row) = paragraph.split_once("Numbers: ").unwrap();
            let (row, end) = row.split_once('.').unwrap();
            assert_eq!(end.trim(), "*/", "{name}: the numbers come last");
            let numbers = row.split(' ').map(|number| number.parse().unwrap());
            (name.to_string(), numbers.collect())
        })
        .collect()
}

/// Its name is that of the kind in small letters.
fn function(call: &Call) -> String {
    let kind = format!("{:?}", call.kind());
    let words = kind.split_inclusive(char::is_lowercase).map(|letters| match letters.len() {
        1 => letters.to_string(),
        _ => format!("_{}", letters.to_lowercase()),
    });
    words.fold("gelmuszta".to_string(), |name, word| name + &word)
}

/// Each row is the model's, in its order; a handle from bytes can be refused for its length alone.
#[test]
fn each_function_s_numbers_in_the_order_looked_at() {
    let (handle, rest) = (reader().to_bytes(), Rest { node: 0, segment: 5, mode: None });
    let calls = every(&handle, &handle, rest).into_iter();
    let calls = calls.chain([new_cluster(0, 2)]);
    let expected = calls.map(|call| (function(&call), numbers_of(&call)));
    let others = [
        ("gelmuszta_handle_of", vec![LENGTH]),
        ("gelmuszta_register", inquiry(None).numbers()),
        ("gelmuszta_openers", inquiry(Some(0)).numbers()),
    ];
    let others = others.map(|(name, numbers)| (name.to_string(), numbers));
    let expected: BTreeMap<String, Vec<u8>> = expected.chain(others).collect();
    assert_eq!(rows(), expected);
    assert_eq!(expected.len(), 16);
    for (name, numbers) in [
        ("gelmuszta_new_cluster", vec![1, 2, 3, 6, 7]),
        ("gelmuszta_write", vec![25, 1, 2, 3, 4, 8, 25, 9, 11, 14, 22, 15]),
        ("gelmuszta_weaken", vec![25, 2, 4, 21, 17]),
        ("gelmuszta_register", vec![25, 2, 4, 18, 15, 19, 20, 21, 17]),
        ("gelmuszta_openers", vec![25, 2, 3, 4, 18, 15, 19, 20, 21, 17]),
    ] {
        assert_eq!(expected[name], numbers);
    }
}
