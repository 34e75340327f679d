//! The texts of `examples/` make the lists beside them, and what is shown of them is as wanted.

use std::fs;
use std::path::{Path, PathBuf};
use tools::answers::Answers;
use tools::build::build;
use tools::show::show;
use tools::text::Text;

fn examples() -> PathBuf {
    Path::new(env!("CARGO_MANIFEST_DIR")).join("../examples")
}

/// The texts of a folder, without their ending.
fn texts(folder: &Path) -> Vec<PathBuf> {
    let entries = fs::read_dir(folder)
        .unwrap()
        .map(|entry| entry.unwrap().path());
    entries
        .filter(|path| path.extension().is_some_and(|ending| ending == "calls"))
        .collect()
}

#[test]
fn texts_make_their_lists() {
    let mut paths = texts(&examples());
    paths.extend(texts(&examples().join("lists")));
    assert!(paths.len() > 20);
    for path in paths {
        let text = fs::read_to_string(&path).unwrap();
        let built = Text::read(&text).and_then(|text| build(&text));
        let list = built.unwrap_or_else(|mistake| panic!("{}:{mistake}", path.display()));
        assert_eq!(
            list,
            fs::read(path.with_extension("list")).unwrap(),
            "{}",
            path.display()
        );
    }
}

#[test]
fn every_list_is_shown() {
    let mut paths = texts(&examples());
    paths.extend(texts(&examples().join("lists")));
    for path in paths {
        let list = fs::read(path.with_extension("list")).unwrap();
        let text = fs::read_to_string(path.with_extension("out")).unwrap();
        let shown = show(&list, &Answers::read(&text).unwrap()).unwrap();
        assert_eq!(shown.lines().count(), text.lines().count());
    }
}

fn shown(list: &str, answers: &str) -> String {
    let list = fs::read(examples().join(list)).unwrap();
    let answers = Answers::read(answers);
    match answers.and_then(|answers| show(&list, &answers)) {
        Ok(shown) => shown,
        Err(mistake) => mistake.to_string(),
    }
}

#[test]
fn the_sample_in_words() {
    let answers = fs::read_to_string(examples().join("sample.out")).unwrap();
    let expected = "\
1  new cluster 2 in node 0                                                 0 done  \
read 00000211111111111111111111111111111111ffffffff \
write 00000222222222222222222222222222222222ffffffff
3  new segment 5 of 4 bytes from node 0 with the write handle of record 1  0 done
2  read segment 5 with the read handle of record 1                         0 done  \
4 bytes 00000000
end: 3 records
";
    assert_eq!(shown("sample.list", &answers), expected);
}

#[test]
fn a_handle_to_nothing_in_words() {
    let answers = fs::read_to_string(examples().join("laboratory.out")).unwrap();
    let shown = shown("laboratory.list", &answers);
    let refused = shown.lines().find(|line| line.starts_with("15 ")).unwrap();
    assert!(refused.contains("weaken the handle of record 6 by mask 0xdf"));
    assert!(refused.ends_with("21 empty"), "{refused}");
}

#[test]
fn a_frozen_segment_in_words() {
    let answers = fs::read_to_string(examples().join("laboratory.out")).unwrap();
    let shown = shown("laboratory.list", &answers);
    let line = |record: &str| shown.lines().find(|line| line.starts_with(record)).unwrap();
    let freeze = line("19 ");
    assert!(freeze.contains("freeze segment 5 from node 0 with the write handle of record 1"));
    assert!(freeze.ends_with("0 done"), "{freeze}");
    for record in ["20 ", "21 ", "22 "] {
        assert!(line(record).ends_with("22 frozen"), "{}", line(record));
    }
}

#[test]
fn joined_handles_in_words() {
    let answers = fs::read_to_string(examples().join("laboratory.out")).unwrap();
    let shown = shown("laboratory.list", &answers);
    let line = |record: &str| shown.lines().find(|line| line.starts_with(record)).unwrap();
    let join = line("28 ");
    assert!(join.contains("  join the handle of record 26 and the handle of record 27 to read  "));
    assert!(join.contains("  0 done  "), "{join}");
    assert!(join.ends_with("a0ffffff"), "{join}");
    assert!(line("30 ").contains("read segment 7 with the handle of record 28"));
    let ended = line("32 ");
    assert!(ended.contains("join the handle of record 28 and the handle of record 6 to read"));
    assert!(ended.ends_with("9 violated protection"), "{ended}");
}

#[test]
fn refused_joins_in_words() {
    let answers = fs::read_to_string(examples().join("lists/join.out")).unwrap();
    let shown = shown("lists/join.list", &answers);
    let line = |record: &str| {
        let mut lines = shown.lines().map(str::trim_start);
        lines.find(|line| line.starts_with(record)).unwrap()
    };
    let whole = line("68 ");
    assert!(whole
        .contains("join the write handle of record 1 and the write handle of record 1 to write"));
    assert!(whole.ends_with("23 whole"), "{whole}");
    let apart = line("93 ");
    assert!(apart.contains("join the handle of record 8 and handle 000103"));
    assert!(apart.ends_with("24 apart"), "{apart}");
    assert!(line("78 ").contains(" for mode 3 "), "{}", line("78 "));
}

/// Three handles have one reduction, which is called by the record that gave those bytes first.
#[test]
fn two_cuts_and_one_cut_in_words() {
    let answers = fs::read_to_string(examples().join("cuts.out")).unwrap();
    let shown = shown("cuts.list", &answers);
    let line = |record: &str| {
        let mut lines = shown.lines().map(str::trim_start);
        lines.find(|line| line.starts_with(record)).unwrap()
    };
    assert!(line("11 ").contains("weaken the handle of record 10 by mask 0x3c"));
    for (record, cut) in [("19 ", 9), ("20 ", 11), ("21 ", 12)] {
        assert!(line(record).contains(&format!("reduce the handle of record {cut} to read")));
    }
    for record in ["22 ", "23 ", "24 "] {
        assert!(line(record).contains("read segment 5 with the handle of record 12  "));
    }
    assert!(line("31 ").ends_with("17 spent"), "{}", line("31 "));
    assert!(line("47 ").ends_with("21 empty"), "{}", line("47 "));
}

/// What `benchrun` never prints is still shown by its word.
#[test]
fn a_wrong_length_in_words() {
    let shown = shown("sample.list", "2 5 25\nend 1\n");
    let line = shown.lines().next().unwrap();
    assert!(line.starts_with("2  read segment 5 with handle 000002"));
    assert!(line.ends_with("  25 length"), "{line}");
}

#[test]
fn answers_that_do_not_belong() {
    assert_eq!(shown("sample.list", "list 19\n"), "list refused: 19 link\n");
    assert_eq!(
        shown("sample.list", "2 6 9\nend 1\n"),
        "1: expected a record of the list, found record 2 with code 6"
    );
    assert_eq!(
        shown("sample.list", "2 5 9\n"),
        "1: expected a last line 'end 0', found '2 5 9'"
    );
    assert_eq!(
        shown("sample.list", "2 5 nine\nend 1\n"),
        "1: expected a record's answer, found '2 5 nine'"
    );
    assert_eq!(
        shown("lists/freeze.list", "6 10 0 00\nend 1\n"),
        "1: expected a record's answer, found '6 10 0 00'"
    );
    assert_eq!(
        shown("lists/join.list", "10 11 0\nend 1\n"),
        "1: expected a record's answer, found '10 11 0'"
    );
    assert_eq!(
        shown("lists/length.list", "end 0\n"),
        "1: expected 'list 18' for a list of this length"
    );
}
