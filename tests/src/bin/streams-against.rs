//! Runs a program on lists that come in every way, and on streams that fail, and compares its text, its message and its
//! end with what is expected.

use model::command::{done, number};
use model::generate;
use model::list::{output, MOST_LIST_BYTES, RECORD_BYTES};
use model::program::Program;
use model::random::Random;
use model::streams::{all, failures, inputs, outputs, Checked};
use std::{ffi::OsString, fs, path::PathBuf, process::ExitCode};

/// How many lists are made by chance.
const CHANCE_LISTS: usize = 25;
/// How many bytes the inputs have that are longer than any list, beyond the longest list.
const BEYOND: [usize; 6] = [1, RECORD_BYTES - 1, RECORD_BYTES, RECORD_BYTES + 1, 4096, 100_000];
/// More than a pipe holds.
const LONG_TEXT: usize = 1 << 17;

struct Task {
    program: Program,
    seed: u64,
    paths: Vec<PathBuf>,
}

fn task(words: &mut dyn Iterator<Item = OsString>) -> Option<Task> {
    let (program, seed) = (Program::named(words.next()?), number(words.next()?)?);
    Some(Task { program, seed, paths: words.map(PathBuf::from).collect() })
}

/// What the program is run on.
struct Lists {
    /// Those given, some made by chance, and inputs that are longer than any list.
    all: Vec<Vec<u8>>,
    /// One that runs and is as long as a list may be.
    longest: Vec<u8>,
    /// One whose text is longer than a pipe holds.
    wordy: Vec<u8>,
}

/// The list with bytes after it: a program that cuts its input would run it.
fn lengthened(list: &[u8], more: usize, random: &mut Random) -> Vec<u8> {
    let mut input = list.to_vec();
    input.resize_with(list.len() + more, || random.byte());
    input
}

fn lists(paths: &[PathBuf], random: &mut Random) -> Result<Lists, String> {
    let given: Result<Vec<_>, _> = paths.iter().map(fs::read).collect();
    let mut all = given.map_err(|mistake| mistake.to_string())?;
    let texts: Vec<_> = all.iter().map(|list| output(list)).collect();
    let find = |what: &str, test: fn(&[u8], &[u8]) -> bool| {
        let mut pairs = all.iter().zip(&texts);
        let found = pairs.find(|(list, text)| test(list, text));
        let list = found.map(|(list, _)| list.clone());
        list.ok_or_else(|| format!("no list was given {what}"))
    };
    let longest = find("that runs and is as long as can be", |list, text| {
        list.len() == MOST_LIST_BYTES && !text.starts_with(b"list")
    })?;
    let wordy = find("whose text is longer than a pipe holds", |_, text| text.len() > LONG_TEXT)?;
    for _ in 0..CHANCE_LISTS {
        all.push(generate::list(&mut Random::from_seed(random.number())));
    }
    all.extend(BEYOND.map(|more| lengthened(&longest, more, random)));
    Ok(Lists { all, longest, wordy })
}

/// Reads and writes that fail.
fn failing(program: &Program, list: &[u8]) -> Checked {
    all([
        failures::of_reads(program, list),
        failures::of_writes(program, list),
        failures::of_a_later_write(program, list),
    ])
}

fn compare(task: &Task) -> Result<bool, String> {
    let program = &task.program;
    let mut random = Random::from_seed(task.seed);
    let lists = lists(&task.paths, &mut random)?;
    let from_file = |path: &PathBuf| inputs::from_file(program, path);
    let in_pieces = |list: &Vec<u8>| inputs::in_pieces(program, list, &mut random);
    let files = all(task.paths.iter().map(from_file))?;
    let pieces = all(lists.all.iter().map(in_pieces))?;
    let slow = outputs::taken_slowly(program, &lists.wordy)?;
    let failed = all([&lists.longest, &lists.wordy].map(|list| failing(program, list)))?;
    println!("lists as files {files}, on pipes and in pieces {pieces}, taken slowly {slow}, failing {failed}");
    println!("seed {}, {} runs: no difference", task.seed, files + pieces + slow + failed);
    Ok(true)
}

fn main() -> ExitCode {
    done("streams-against", "PROGRAM SEED LIST...", task, compare)
}
