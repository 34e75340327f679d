//! Compares the proved C library with the model on cases made by chance.

use library::edges::{self, Asked};
use library::runs::{self, RUN_CALLS};
use library::{batch, copies, cuts, laws, published, registers, single, stays, untold, words::*, writers};
use std::process::ExitCode;

const USAGE: &str = "usage: against-library [SEED] [CALLS]";
const BAD_USAGE: u8 = 2;
const USUAL_SEED: u64 = 1;
const USUAL_CALLS: u64 = 100_000;
/// There is one join of which laws are judged for so many calls, one batch of validations, one register, and one handle
/// that is cut in three ways.
const CALLS_PER_JOIN: u64 = 10;
const CALLS_PER_BATCH: u64 = 100;
const CALLS_PER_REGISTER: u64 = 10;
const CALLS_PER_CUT: u64 = 5;

type Law = fn(Guard, u64, u64) -> Result<Met, String>;
/// What is judged by the library's side alone; for so many calls there is one row, or one pair of images or copies.
const LAWS: [(&str, Law, u64); 4] = [
    ("what is frozen stays", stays::compare, RUN_CALLS),
    ("new passwords in two images", untold::compare, 50),
    ("two copies", copies::compare, 250),
    ("writers", writers::compare, 100),
];

/// The seed, and how many calls.
fn task() -> Option<(u64, u64)> {
    let mut arguments = std::env::args().skip(1);
    let mut number = |usual| arguments.next().map_or(Some(usual), |word| word.parse().ok());
    let task = (number(USUAL_SEED)?, number(USUAL_CALLS)?);
    arguments.next().is_none().then_some(task)
}

/// A difference with the name of the comparison before it.
fn named(what: &'static str) -> impl Fn(String) -> String {
    move |case| format!("{what}, {case}")
}

/// Every comparison in turn, up to the first difference. Gives what was to be met and was not.
fn compare(seed: u64, calls: u64) -> Result<Vec<String>, String> {
    let tally = &mut Tally::default();
    single::compare(&guard::ask, seed, calls, tally).map_err(named("single calls"))?;
    println!("single calls: {calls}, each with a soundness and a conversion");

    let count = calls.div_ceil(RUN_CALLS);
    runs::compare(&guard::ask, seed, count, tally).map_err(named("long rows"))?;
    println!("long rows: {count}, with {} calls", count * RUN_CALLS);
    edges(seed)?;

    let joins = calls.div_ceil(CALLS_PER_JOIN);
    let done = laws::compare(&guard::ask, seed, joins).map_err(named("laws of joins"))?;
    println!("laws of joins: {joins} joins, {done} of them done");

    let count = calls.div_ceil(CALLS_PER_BATCH);
    let validations = batch::compare(&guard::validate_all, seed, count, tally).map_err(named("batches"))?;
    println!("batches: {count}, with {validations} validations");

    let count = calls.div_ceil(CALLS_PER_REGISTER);
    let registers = registers::compare(&guard::look_up, seed, count).map_err(named("registers"))?;
    let done = registers::laws(&guard::look_up, seed, count).map_err(named("laws of registers"))?;
    println!("registers: {count}, with {} questions, and as many with their laws, {done} of them done", 2 * count);

    let count = calls.div_ceil(CALLS_PER_CUT);
    let cuts = cuts::compare(&guard::ask, seed, count).map_err(named("two cuts and one cut"))?;
    print!("two cuts and one cut: {count} handles, cut in three ways\n{}", cuts::table(&cuts));

    let judged =
        |(what, law, calls_per): (_, Law, _)| law(&guard::ask, seed, calls.div_ceil(calls_per)).map_err(named(what));
    let laws = LAWS.into_iter().map(judged).collect::<Result<Vec<Met>, String>>()?;
    let published = [("handles", published::TEXT), ("registers", published::REGISTERS), ("cuts", published::CUTS)];
    for (what, text) in published {
        println!("published {what}: {} lines confirmed", published::confirm(text)?);
    }
    println!("{tally}");
    let all: Vec<Met> = laws.into_iter().chain([registers, cuts]).collect();
    all.iter().for_each(|met| println!("{met}"));
    Ok(tally.faults().into_iter().chain(all.iter().flat_map(Met::faults)).collect())
}

fn edges(seed: u64) -> Result<(), String> {
    let (images, _) = edges::every_byte(&guard::is_sound, seed).map_err(named("every byte"))?;
    println!("images with one byte changed: {images}");
    let all: [(&str, &dyn Fn() -> Result<Asked, String>); 10] = [
        ("pairs at words", &|| edges::pairs_at_words(&guard::is_sound, seed)),
        ("edges of looks", &|| edges::looks(&guard::ask, seed)),
        ("edges of freezes", &|| edges::freezes(&guard::ask, seed)),
        ("edges of joins", &|| edges::joins(&guard::ask, seed)),
        ("lengths of handles", &|| edges::lengths(&guard::ask, seed)),
        ("handles from bytes", &|| edges::handles(&guard::handle_of, seed)),
        ("segments by width", &|| edges::segments(&guard::ask, seed)),
        ("masks", &|| edges::masks(&guard::ask, seed)),
        ("widths of new clusters", &|| edges::new_clusters(&guard::ask, seed)),
        ("edges of registers", &|| registers::edges(&guard::look_up, seed)),
    ];
    for (what, compare) in all {
        let (asked, done) = compare().map_err(named(what))?;
        println!("{what}: {asked}, {done} of them right");
    }
    let batches = batch::every_width(&guard::validate_all, seed).map_err(named("widths of batches"))?;
    println!("widths of batches: {batches}");
    Ok(())
}

fn main() -> ExitCode {
    let Some((seed, calls)) = task() else {
        eprintln!("{USAGE}");
        return ExitCode::from(BAD_USAGE);
    };
    println!("seed {seed}");
    let told = compare(seed, calls).unwrap_or_else(|difference| vec![difference]);
    told.iter().for_each(|what| println!("{what}"));
    if told.is_empty() {
        println!("no difference");
        ExitCode::SUCCESS
    } else {
        ExitCode::FAILURE
    }
}
