//! Every mistake in a text names its line and what was expected.

use tools::build::build;
use tools::text::Text;

fn mistake(text: &str) -> String {
    let built = Text::read(text).and_then(|text| build(&text));
    built.expect_err("a mistake").to_string()
}

const CLUSTER: &str = "new-cluster node 0 local 2 read 11*16 write 22*16";

#[test]
fn words_and_fields() {
    let unknown = mistake("\n# comment\nraed segment 5\n");
    assert!(unknown.starts_with("3: expected one of new-cluster, delete-cluster,"));
    assert!(unknown.ends_with("found 'raed'"));
    assert_eq!(
        mistake("read colour 5"),
        "1: expected one of segment, handle, next, fill, expect, found 'colour'"
    );
    assert_eq!(mistake("read segment 5"), "1: 'read' needs 'handle'");
    assert_eq!(mistake("freeze segment 5"), "1: 'freeze' needs 'node'");
    assert_eq!(
        mistake("let a = node 0\njoin mode read handle a"),
        "2: 'join' needs 'other'"
    );
    assert_eq!(
        mistake("reduce mode read other a"),
        "1: expected one of mode, handle, next, fill, expect, ->, found 'other'"
    );
    assert_eq!(
        mistake("read segment 1 segment 1"),
        "1: 'segment' stands twice"
    );
    assert_eq!(
        mistake("tail 00 01"),
        "1: expected the end of the line, found '01'"
    );
}

#[test]
fn numbers_and_bytes() {
    assert_eq!(
        mistake("read segment five"),
        "1: expected a number from 0 to 255 after 'segment', found 'five'"
    );
    assert_eq!(
        mistake("code 0x100"),
        "1: expected a number from 0 to 255 after 'code', found '0x100'"
    );
    assert_eq!(
        mistake("new-cluster read 11*15"),
        "1: expected 16 bytes after 'read', found 15"
    );
    assert_eq!(
        mistake("raw 00*65"),
        "1: expected at most 64 bytes after 'raw', found 65"
    );
    for wrong in [
        "0",
        "0g",
        "00+",
        "+00",
        "00*",
        "00*x",
        "\"a\"b",
        "00*9999999",
    ] {
        let found = mistake(&format!("tail {wrong}"));
        assert!(found.starts_with("1: expected bytes such as"), "{found}");
    }
    assert_eq!(mistake("tail \"ab"), "1: a quotation mark is not closed");
}

#[test]
fn names() {
    let twice = format!("{CLUSTER} -> a b\nlet b = a");
    assert_eq!(mistake(&twice), "2: line 1 gives the name 'b' already");
    let one = format!("{CLUSTER} -> a");
    assert_eq!(
        mistake(&one),
        "1: 'new-cluster' gives 2 handles, found 1 names after '->'"
    );
    assert_eq!(
        mistake("freeze node 0 -> a"),
        "1: 'freeze' gives 0 handles, found 1 names after '->'"
    );
    assert_eq!(
        mistake("let a = b"),
        "1: expected a handle that an earlier line names, found 'b'"
    );
    assert_eq!(
        mistake("read segment 5 handle lab"),
        "1: expected a handle that an earlier call gives, found 'lab'"
    );
    assert!(mistake("let 5 = node 0").ends_with("found '5'"));
    let join = |handle: &str, other: &str| {
        let join = format!("join mode read handle {handle} other {other}");
        mistake(&format!("{CLUSTER} -> reader writer\n{join}"))
    };
    assert_eq!(
        join("reader", "lab"),
        "2: expected a handle that an earlier call gives, found 'lab'"
    );
    assert_eq!(
        join("lab", "writer"),
        "2: expected a handle that an earlier call gives, found 'lab'"
    );
    assert_eq!(
        join("reader", "0002"),
        "2: expected a handle's name or 46 hexadecimal digits after 'other', found '0002'"
    );
    assert_eq!(
        join("reader", "writer other reader"),
        "2: 'other' stands twice"
    );
}

#[test]
fn numbers_that_calls_come_to() {
    let expected = format!("\n{CLUSTER} expect 7");
    assert_eq!(mistake(&expected), "2: expected 7 (twins), found 0 (done)");
    let refused = "new-cluster node 4 local 2 read 11*16 write 22*16 -> a b";
    assert_eq!(
        mistake(refused),
        "1: expected a call that is done, found 2 (no such place)"
    );
    let nothing = "let primary = password 11*16\nweaken handle primary mask 0 -> nothing";
    assert_eq!(
        mistake(nothing),
        "2: expected a call that is done, found 21 (empty)"
    );
    let frozen = "\
        new-segment node 0 segment 5 size 4 handle writer\n\
        freeze node 0 segment 5 handle writer\n\
        delete-cluster node 0 handle writer expect 0";
    assert_eq!(
        mistake(&format!("{CLUSTER} -> reader writer\n{frozen}")),
        "4: expected 0 (done), found 22 (frozen)"
    );
    let join = |handle: &str, other: &str| {
        let join = format!("join mode read handle {handle} other {other} -> both");
        mistake(&format!(
            "{CLUSTER} -> reader writer\nlet apart = reader local 3\n{join}"
        ))
    };
    assert_eq!(
        join("reader", "reader"),
        "3: expected a call that is done, found 23 (whole)"
    );
    assert_eq!(
        join("apart", "reader"),
        "3: expected a call that is done, found 24 (apart)"
    );
    assert_eq!(
        join("reader", "writer"),
        "3: expected a call that is done, found 9 (violated protection)"
    );
}

/// A record has room for 23 bytes, so a list has no handle of another length and comes to no 25.
#[test]
fn handles_of_eight_segments_alone() {
    for bytes in [0, 20, 21, 22, 24, 27, 28] {
        let digits = "0".repeat(2 * bytes);
        let found = mistake(&format!("read segment 5 handle {digits}"));
        assert!(
            found.starts_with("1: expected a handle's name or 46 hexadecimal digits after"),
            "{found}"
        );
    }
    assert_eq!(
        mistake("let small = selector ffff"),
        "1: expected 4 bytes after 'selector', found 2"
    );
    assert_eq!(
        mistake("let large = selector ff*8"),
        "1: expected 4 bytes after 'selector', found 8"
    );
    assert_eq!(
        mistake("new-cluster node 0 local 2 width 16"),
        "1: expected one of node, local, read, write, next, fill, expect, ->, found 'width'"
    );
    assert_eq!(
        mistake("let a = node 0\nweaken handle a mask 256"),
        "2: expected a number from 0 to 255 after 'mask', found '256'"
    );
    let expected = format!("{CLUSTER} expect 25");
    assert_eq!(
        mistake(&expected),
        "1: expected 25 (length), found 0 (done)"
    );
}

#[test]
fn records() {
    let many = "repeat 200 code 0\nrepeat 56 code 0\n";
    assert_eq!(mistake(many), "2: a list has at most 255 records");
    let repeated = format!("repeat 2 {CLUSTER} -> a b");
    assert_eq!(
        mistake(&repeated),
        "1: a repeated call cannot name what it gives"
    );
    assert_eq!(
        mistake("code 0 next 0\ncode 0 expect 3"),
        "2: the chain does not come to this record, so it gives nothing"
    );
}
