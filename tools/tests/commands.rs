//! The two commands as they are called: help, wrong arguments, files that are not there.

use std::fs;
use std::path::{Path, PathBuf};
use std::process::{Command, Output};

const COMMANDS: [(&str, &str, &str); 2] = [
    (
        "calls2list",
        env!("CARGO_BIN_EXE_calls2list"),
        "usage: calls2list TEXT-FILE > LIST-FILE",
    ),
    (
        "listshow",
        env!("CARGO_BIN_EXE_listshow"),
        "usage: listshow LIST-FILE ANSWERS-FILE",
    ),
];

fn run(program: &str, arguments: &[&str]) -> Output {
    Command::new(program).args(arguments).output().unwrap()
}

fn text(bytes: Vec<u8>) -> String {
    String::from_utf8(bytes).unwrap()
}

fn example(name: &str) -> PathBuf {
    Path::new(env!("CARGO_MANIFEST_DIR"))
        .join("../examples")
        .join(name)
}

#[test]
fn help_is_given() {
    for (name, program, usage) in COMMANDS {
        for arguments in [&["--help"][..], &["-h"], &["some-file", "--help"]] {
            let output = run(program, arguments);
            assert!(output.status.success(), "{name}");
            assert!(output.stderr.is_empty(), "{name}");
            let help = text(output.stdout);
            assert_eq!(help.lines().next(), Some(usage));
            assert!(help.contains("make show LIST=LIST-FILE"), "{help}");
            assert!(help.contains("Exit status: 0"), "{help}");
        }
    }
}

/// Nothing is written to standard output, so that no list and no page comes of a wrong call.
fn assert_wrong(name: &str, output: Output, what: &str, usage: &str) {
    assert_eq!(output.status.code(), Some(2), "{name}");
    assert!(output.stdout.is_empty(), "{name}");
    let said = text(output.stderr);
    let wanted = format!("{name}: {what}\n{usage}\n'{name} --help' says more\n");
    assert_eq!(said, wanted);
}

#[test]
fn wrong_options_are_told() {
    for (name, program, usage) in COMMANDS {
        for option in ["--hlep", "-x", "-", "--", "--help=all"] {
            let what = format!("there is no option '{option}'");
            assert_wrong(name, run(program, &[option]), &what, usage);
            assert_wrong(name, run(program, &["one", option]), &what, usage);
        }
    }
}

#[test]
fn files_are_counted() {
    let [(one, program, usage), (two, other, other_usage)] = COMMANDS;
    for (files, found) in [(&[][..], 0), (&["a", "b"], 2)] {
        let what = format!("expected 1 file, found {found}");
        assert_wrong(one, run(program, files), &what, usage);
    }
    for (files, found) in [(&[][..], 0), (&["a"], 1), (&["a", "b", "c"], 3)] {
        let what = format!("expected 2 files, found {found}");
        assert_wrong(two, run(other, files), &what, other_usage);
    }
}

#[test]
fn files_are_read() {
    let [(_, program, _), (_, other, _)] = COMMANDS;
    let [calls, list, out] = ["sample.calls", "sample.list", "sample.out"]
        .map(|name| example(name).display().to_string());
    let made = run(program, &[&calls]);
    assert!(made.status.success());
    assert_eq!(made.stdout, fs::read(&list).unwrap());
    let shown = run(other, &[&list, &out]);
    assert!(shown.status.success());
    assert!(text(shown.stdout).ends_with("end: 3 records\n"));
}

#[test]
fn files_that_are_not_there_are_told() {
    for (name, program, _) in COMMANDS {
        let files: &[&str] = if name == "calls2list" {
            &["./-not-there"]
        } else {
            &["./-not-there", "neither"]
        };
        let output = run(program, files);
        assert_eq!(output.status.code(), Some(1), "{name}");
        assert!(output.stdout.is_empty(), "{name}");
        let said = text(output.stderr);
        assert!(
            said.starts_with(&format!("{name}: ./-not-there: ")),
            "{said}"
        );
    }
}
