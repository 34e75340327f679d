//! Runs a program on lists made by chance and compares what it prints with what the model prints. A program that tells
//! a fault, or ends by a signal or with another status than 0, differs too. The lists have to reach all that lists can.

use model::command::{self, done};
use model::generate;
use model::list::{reachable, request, run, Request, CODE_AT};
use model::met::{due_in_lists, situations, table, way, Met};
use model::program::{Outcome, Program};
use model::words::*;
use std::{collections::BTreeMap, ffi::OsString, io, path::PathBuf, process::ExitCode};

const USUAL_SEED: u64 = 1;
const USUAL_COUNT: u64 = 1000;
/// Stands for every code that belongs to no call.
const NO_CALL: u8 = 0;

struct Task {
    program: OsString,
    seed: u64,
    count: u64,
}

/// How often each call came to each number, and everything else that lists can reach.
struct Tally {
    pairs: BTreeMap<(u8, u8), u64>,
    met: Met,
}

impl Tally {
    fn new() -> Tally {
        let pairs = reachable().map(|(code, number)| reached(code, number));
        let due = pairs.chain(due_in_lists()).chain((LIST_LENGTH..=LOOP).map(refused));
        Tally { pairs: BTreeMap::new(), met: Met::new("lists", due) }
    }
}

fn reached(code: u8, number: u8) -> String {
    format!("call {code} with {}", in_words(number))
}

fn refused(number: u8) -> String {
    format!("a list refused with {}", in_words(number))
}

fn in_words(number: u8) -> String {
    format!("{number} ({})", word(number).unwrap_or(""))
}

fn task(words: &mut dyn Iterator<Item = OsString>) -> Option<Task> {
    let program = words.next()?;
    let mut number = |usual| words.next().map_or(Some(usual), command::number);
    let (seed, count) = (number(USUAL_SEED)?, number(USUAL_COUNT)?);
    words.next().is_none().then_some(Task { program, seed, count })
}

fn expected(list: &[u8], tally: &mut Tally) -> Vec<u8> {
    let text = run(list, |found, record, reply| {
        let code = match request(record) {
            Request::BadCode => NO_CALL,
            Request::Overlong(call) | Request::Call(call) => {
                tally.met.note_all(way(&call, reply.number));
                tally.met.note_all(situations(found, &call, reply.number));
                record[CODE_AT]
            }
        };
        tally.met.note(reached(code, reply.number));
        *tally.pairs.entry((code, reply.number)).or_default() += 1;
    });
    let as_text = |number: &u8| text == format!("list {number}\n").as_bytes();
    tally.met.note_all((LIST_LENGTH..=LOOP).filter(as_text).map(refused));
    text
}

/// Keeps a list on which the two differ, and tells all about it.
fn report(task: &Task, at: u64, list: &[u8], expected: &[u8], found: &Outcome) -> io::Result<()> {
    let name = format!("lists-against-{}-{at}.list", task.seed);
    let path: PathBuf = std::env::temp_dir().join(name);
    std::fs::write(&path, list)?;
    let lines = |text: &[u8]| String::from_utf8_lossy(text).into_owned();
    println!("list {at} of seed {} differs; it is kept in {}", task.seed, path.display());
    println!("the model prints\n{}", lines(expected));
    println!("the program prints\n{}", lines(&found.output));
    println!("and ends with {found}");
    Ok(())
}

/// True if the program printed the same as the model, and ended as it should, every time.
fn compare(task: &Task, tally: &mut Tally) -> io::Result<bool> {
    let program = Program::named(&task.program);
    let mut seeds = Random::from_seed(task.seed);
    for at in 1..=task.count {
        let list = generate::list(&mut Random::from_seed(seeds.number()));
        let expected = expected(&list, tally);
        let found = program.answer(&list)?;
        if found != Outcome::ended(&expected, "") {
            report(task, at, &list, &expected, &found)?;
            return Ok(false);
        }
    }
    Ok(true)
}

/// Tells what was reached, too, where there is no difference; true if it is all that lists can reach.
fn told(task: &Task) -> Result<bool, String> {
    let mut tally = Tally::new();
    let same = compare(task, &mut tally);
    if !same.map_err(|mistake| format!("{}: {mistake}", task.program.to_string_lossy()))? {
        return Ok(false);
    }
    let calls: u64 = tally.pairs.values().sum();
    println!("seed {}, {} lists, {calls} calls: no difference", task.seed, task.count);
    let numbers: Vec<u8> = (0..=SPENT).chain(EMPTY..=APART).collect();
    let codes = CALLS.into_iter().chain([(NO_CALL, "no call")]);
    println!("{}{}", table(codes, &numbers, &tally.pairs), tally.met);
    let missing = tally.met.faults();
    missing.iter().for_each(|what| println!("{what}"));
    Ok(missing.is_empty())
}

fn main() -> ExitCode {
    done("lists-against", "PROGRAM [SEED] [COUNT]", task, told)
}
