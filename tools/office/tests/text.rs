//! What a text may say, and the line and the words of each mistake.

use office::text::{Register, MOST_ENTRIES};

const SUPPLIED: &str = "supplied maker 000002 101112131415161718191a1b1c1d1e1f ffffffff";
const PASSWORD: &str = "101112131415161718191a1b1c1d1e1f";

fn read(entries: &str) -> Register {
    Register::read(&format!("{SUPPLIED}\n{entries}")).unwrap()
}

/// The mistake of a text whose first line has the handle supplied.
fn mistake(entries: &str) -> String {
    mistake_of(&format!("{SUPPLIED}\n{entries}"))
}

fn mistake_of(text: &str) -> String {
    let mistake = Register::read(text).expect_err("a mistake").to_string();
    assert!(!mistake.contains(&PASSWORD[..12]), "{mistake}");
    mistake
}

#[test]
fn names_become_numbers() {
    let register = read("\n a from b keeps 0 # b stands below\nb\tfrom maker keeps 0-1\r\nc from a mask 3");
    assert_eq!(register.entries, [[2, 0x01], [0, 0x03], [1, 0x03]]);
    assert_eq!(register.bytes(), [2, 1, 0, 3, 1, 3]);
    let lines = register.holders.iter().map(|holder| holder.line);
    assert_eq!(Vec::from_iter(lines), [1, 3, 4, 5]);
    assert_eq!(register.handle[..4], [0, 0, 2, 0x10]);
    assert_eq!(register.handle[18..], [0x1f, 0xff, 0xff, 0xff, 0xff]);
    assert!(read("# nothing was given out").entries.is_empty());
    // Rings and handles to nothing are the library's to refuse.
    assert_eq!(read("a from a mask 0").entries, [[1, 0]]);
}

#[test]
fn handles_are_digits_in_any_groups() {
    let one = format!("\u{feff}# a mark before the text\nsupplied m 000002{PASSWORD}FFFFFFFF");
    assert_eq!(Register::read(&one).unwrap().handle, read("").handle);
}

#[test]
fn segments_become_masks() {
    for (kept, mask) in [
        ("keeps 5", 0x20),
        ("keeps 2 3", 0x0c),
        ("keeps 7,0, 3", 0x89),
        ("keeps 4-6 0-0", 0x71),
        ("keeps 0-7", 0xff),
        ("keeps all", 0xff),
        ("mask 0x0f", 0x0f),
        ("mask 0b101", 0x05),
        ("mask 255", 0xff),
    ] {
        let register = read(&format!("a from maker {kept}"));
        assert_eq!(register.entries, [[0, mask]], "{kept}");
        assert_eq!(register.holders[1].keeps, kept);
    }
}

#[test]
fn segments_that_are_none() {
    let wrong = |kept: &str, found: &str| {
        let wanted = "segments from 0 to 7 after 'keeps', as in '5', '2 3', '0-3' or 'all'";
        let told = mistake(&format!("a from maker keeps {kept}"));
        assert_eq!(told, format!("2: expected {wanted}, found {found}"));
    };
    wrong("", "the end of the line");
    for kept in ["8", "-1", "3-1", "0-8", "05", "nothing", "0x3", "0-", "+1"] {
        wrong(kept, &format!("'{kept}'"));
    }
    wrong("1,,2", "''");
    wrong("1 all", "'all'");
    assert_eq!(mistake("a from maker keeps 0-3 2"), "2: segment 2 stands twice");
    assert_eq!(mistake("a from maker mask 256"), "2: expected a number from 0 to 255 after 'mask', found '256'");
}

#[test]
fn words_in_their_places() {
    for (entry, told) in [
        ("a", "expected 'from' after the entry's name, found the end of the line"),
        ("a of maker", "expected 'from' after the entry's name, found 'of'"),
        ("a from", "expected the name of another line after 'from', found the end of the line"),
        ("a from keeps 0", "expected the name of another line after 'from', found 'keeps'"),
        ("a from b keeps 0", "expected the name of another line after 'from', found 'b'"),
        ("a from maker", "expected 'keeps' or 'mask' after the name, found the end of the line"),
        ("a from maker 0-3", "expected 'keeps' or 'mask' after the name, found '0-3'"),
        ("a from maker keeps all 1", "expected the end of the line, found '1'"),
        ("a from maker mask 1 2", "expected the end of the line, found '2'"),
    ] {
        assert_eq!(mistake(entry), format!("2: {told}"));
    }
}

#[test]
fn names() {
    let twice = "a from maker keeps 0\n\na from maker keeps 1";
    assert_eq!(mistake(twice), "4: line 2 gives the name 'a' already");
    assert_eq!(mistake("maker from maker keeps 0"), "2: line 1 gives the name 'maker' already");
    let expected = "2: expected a name (a letter, then letters, digits, '-' and '_'), found";
    for name in ["5a", "-a", "a.b", "from", "all"] {
        let told = mistake(&format!("{name} from maker keeps 0"));
        assert_eq!(told, format!("{expected} '{name}'"));
    }
}

#[test]
fn the_handle_supplied() {
    let missing = "expected 'supplied', a name and a handle, found the end of the text";
    assert_eq!(mistake_of(""), format!("1: {missing}"));
    assert_eq!(mistake_of("# nothing\n\n"), format!("3: {missing}"));
    assert_eq!(mistake_of("\na from maker keeps 0"), "2: expected 'supplied' before any entry, found 'a'");
    assert_eq!(mistake(SUPPLIED), "2: line 1 has the handle supplied already");
    let told = |line: &str, told: &str| assert_eq!(mistake_of(line), format!("1: expected {told}"));
    told("supplied", "a name after 'supplied', found the end of the line");
    let digits = |found: &str| format!("46 hexadecimal digits after the name, found {found}");
    told("supplied maker", &digits("0"));
    told(&format!("supplied m {PASSWORD}"), &digits("32"));
    told(&format!("{SUPPLIED} ff"), &digits("48"));
    told(&SUPPLIED.replacen("0", "O", 1), &digits("45 among 46 letters"));
    told(&SUPPLIED.replace("maker ", "")[..15], "a name (a letter, then letters, digits, '-' and '_'), found '000002'");
    told(&format!("supplied 000002{PASSWORD}ffffffff"), "a name between 'supplied' and the handle");
}

/// A handle may be pasted into any place.
#[test]
fn handles_are_never_quoted() {
    for entry in
        ["HERE from maker keeps 0", "a HERE", "a from HERE keeps 0", "a from maker HERE", "a from maker mask HERE"]
    {
        for handle in [PASSWORD.to_string(), format!("000002{PASSWORD}ffffffff"), format!("O00002{PASSWORD}")] {
            let told = mistake(&entry.replace("HERE", &handle));
            assert_eq!(told, "2: found what may be a handle: only the line 'supplied' has one");
        }
    }
}

#[test]
fn entries_are_counted() {
    let entries = |count: usize| {
        let line = |number: usize| format!("a{number} from maker keeps 0\n");
        (1..=count).map(line).collect::<String>()
    };
    assert_eq!(read(&entries(MOST_ENTRIES)).entries.len(), 255);
    assert_eq!(mistake(&entries(256)), "257: a register has at most 255 entries");
}
