//! The lists of `examples/` come out as the files beside them say, and together they come to every
//! number that a list can bring a call to.

use model::list::{reachable, run, CODE_AT};
use std::collections::BTreeSet;
use std::fs;
use std::path::{Path, PathBuf};

fn examples() -> PathBuf {
    Path::new(env!("CARGO_MANIFEST_DIR")).join("../examples")
}

fn lists() -> Vec<PathBuf> {
    let folders = [examples(), examples().join("lists")];
    let entries = folders.iter().flat_map(|folder| fs::read_dir(folder).unwrap());
    let paths = entries.map(|entry| entry.unwrap().path());
    paths.filter(|path| path.extension().is_some_and(|ending| ending == "list")).collect()
}

#[test]
fn outputs_are_the_files() {
    assert!(lists().len() > 20);
    for path in lists() {
        let found = run(&fs::read(&path).unwrap(), |_, _, _| {});
        let expected = fs::read(path.with_extension("out")).unwrap();
        assert!(found == expected, "{}", path.display());
    }
}

#[test]
fn every_pair_that_a_list_can_reach() {
    let mut reached = BTreeSet::new();
    for path in lists() {
        run(&fs::read(path).unwrap(), |_, record, reply| {
            reached.insert((record[CODE_AT], reply.number));
        });
    }
    let (calls, bad): (BTreeSet<_>, BTreeSet<_>) = reached.into_iter().partition(|(code, _)| (1..=11).contains(code));
    assert_eq!(calls, reachable().collect());
    assert!(bad.len() > 3 && bad.iter().all(|(_, number)| *number == 3));
}

#[test]
fn every_refusal_of_a_list() {
    let mut texts = BTreeSet::new();
    for path in lists() {
        texts.insert(run(&fs::read(path).unwrap(), |_, _, _| {}));
    }
    for refused in ["list 18\n", "list 19\n", "list 20\n", "end 0\n"] {
        assert!(texts.contains(refused.as_bytes()), "{refused}");
    }
}

/// What `cuts` is about: handles cut in three ways, all of which have one reduction.
#[test]
fn three_handles_and_one_reduction() {
    let text = fs::read_to_string(examples().join("cuts.out")).unwrap();
    let lines: Vec<Vec<&str>> = text.lines().map(|line| line.split(' ').collect()).collect();
    // Those that calls with this code have given, of these records.
    let given = |code: &str, records: &[usize]| {
        let lines = records.iter().map(|record| &lines[record - 1]);
        lines.inspect(|line| assert_eq!(line[1..3], [code, "0"])).map(|line| line[3]).collect::<BTreeSet<_>>()
    };
    assert_eq!(given("7", &[9, 11, 12]).len(), 3);
    assert_eq!(given("8", &[19, 20, 21, 37, 38, 42]).len(), 1);
}
