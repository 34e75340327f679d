//! The archive exports the functions of the header, each of them and nothing else.

use library::guard;
use std::{collections::BTreeSet, process::Command};

const HEADER: &str = include_str!("../../../../include/gelmuszta.h");
const ARCHIVE: &str = concat!(env!("CARGO_MANIFEST_DIR"), "/../../target/staticlib/libgelmuszta.a");

/// The names of the prototypes: what stands before the first parenthesis of a declaration, outside of comments, macros
/// and functions that the header has whole.
fn prototypes() -> BTreeSet<String> {
    let declared = HEADER.lines().filter(|line| line.starts_with(|c: char| c.is_ascii_alphabetic()));
    let declared = declared.filter(|line| !line.starts_with("static "));
    let before = declared.filter_map(|line| Some(line.split_once('(')?.0));
    before.filter_map(|line| line.rsplit([' ', '*']).next().map(String::from)).collect()
}

/// What a linker finds in the archive.
fn exported() -> BTreeSet<String> {
    let names = Command::new("nm")
        .args(["--extern-only", "--defined-only", ARCHIVE])
        .output()
        .expect("nm comes with the compiler");
    assert!(names.status.success(), "{names:?}");
    let names = String::from_utf8(names.stdout).expect("names are text");
    let symbols = names.lines().filter_map(|line| match line.split(' ').collect::<Vec<_>>()[..] {
        [_, _, name] => Some(name.to_string()),
        _ => None,
    });
    symbols.collect()
}

#[test]
fn the_archive_exports_the_header_s_functions() {
    let prototypes = prototypes();
    assert_eq!(exported(), prototypes);
    assert_eq!(prototypes.len(), 21);
}

#[test]
fn the_library_has_the_header_s_version() {
    let [major, minor, patch] = ["MAJOR", "MINOR", "PATCH"].map(|part| {
        let defined = format!("#define GELMUSZTA_VERSION_{part} ");
        let (_, rest) = HEADER.split_once(&defined).expect("it is defined");
        let (number, _) = rest.split_once('\n').expect("a line ends");
        number.parse::<u32>().expect("it is a number")
    });
    assert!(HEADER.contains(&format!("#define GELMUSZTA_VERSION \"{major}.{minor}.{patch}\"\n")));
    assert_eq!(guard::version(), major * 10000 + minor * 100 + patch);
    assert_eq!(guard::version(), 900);
}
