//! The checks of streams refuse wrong programs: scripts around the model's own program, each with one fault.

use model::program::Program;
use model::random::Random;
use model::streams::{failures, inputs, outputs, Checked};
use std::{fs, path::Path};

/// The model's program; in a script it stands as `model`.
const MODEL: &str = env!("CARGO_BIN_EXE_model-benchrun");

fn scripted(script: &str) -> Program {
    Program::script(&format!("model() {{ {MODEL}; }}\n{script}"))
}

fn example(name: &str) -> Vec<u8> {
    let examples = Path::new(env!("CARGO_MANIFEST_DIR")).join("../examples");
    fs::read(examples.join(name)).unwrap()
}

/// The longest list, which runs, and bytes after it.
fn too_long() -> Vec<u8> {
    let mut list = example("lists/full.list");
    assert_eq!(list.len(), 16_320);
    list.extend([0; 64]);
    list
}

fn in_pieces(program: &Program, list: &[u8]) -> Checked {
    inputs::in_pieces(program, list, &mut Random::from_seed(1))
}

/// Refused, and for the reason that is meant.
fn refused(checked: Checked, reason: &str) {
    let said = checked.unwrap_err();
    assert!(said.contains(reason), "{said}");
}

#[test]
fn a_right_program_passes() {
    let model = scripted("cat | model");
    for list in [example("sample.list"), Vec::new(), vec![0], too_long()] {
        assert!(in_pieces(&model, &list).unwrap() > 10);
    }
    let reads = example("measured/reads.list");
    assert_eq!(outputs::taken_slowly(&model, &reads), Ok(2));
}

#[test]
fn the_first_read_taken_for_the_whole() {
    let first_read = scripted("dd bs=16384 count=1 2> /dev/null | model");
    refused(in_pieces(&first_read, &example("sample.list")), "list 18");
}

#[test]
fn an_input_cut_at_the_longest_list() {
    let cut = scripted("head -c 16320 | model");
    assert!(in_pieces(&cut, &example("sample.list")).is_ok());
    refused(in_pieces(&cut, &too_long()), "list 18");
}

#[test]
fn ends_that_are_not_right() {
    let sample = example("sample.list");
    let run = |script| in_pieces(&scripted(script), &sample);
    refused(run("model; kill -SEGV $$"), "Signal(11)");
    refused(run("model; exit 3"), "Status(3)");
    refused(run("model; echo done >&2"), "done");
    refused(run("model | head -n 2"), "text");
}

#[test]
fn a_failed_read_taken_for_the_end() {
    let careless = scripted("cat 2> /dev/null | model");
    refused(failures::of_reads(&careless, &example("sample.list")), "end 0");
}

#[test]
fn a_failed_write_not_told() {
    let sample = example("sample.list");
    let silent = scripted("model 2> /dev/null; exit 0");
    refused(failures::of_writes(&silent, &sample), "standard output closed");
    refused(failures::of_a_later_write(&silent, &example("lists/read.list")), "may not grow");
    let whole = scripted("cat > /dev/null");
    refused(failures::of_a_later_write(&whole, &sample), "a part of the text");
}
