//! Who finds a wrong library out, in which words, and the driver that sees to it.

use crate::wrong::{on, right, Wrong};
use library::words::*;
use library::{batch, copies, cuts, edges, laws, registers, runs, single, stays, untold, writers};

const SEED: u64 = 7;

listed! {
    /// The comparisons, each as long as it takes to find out all of its rows.
    pub enum By {
        Single, Runs, Batches, BatchWidths, EveryByte, AtWords, Looks, Freezes, Joins, Lengths, Masks, NewClusters,
        Segments, Handles, Stays, Laws, Untold, Writers, Copies, Registers, RegisterEdges, RegisterLaws, Cuts,
        /// Copies, fewer of them: for libraries that they do not find out.
        FewCopies,
    }
}

impl By {
    /// With one of so many cases, where they are made by chance.
    fn compare(self, wrong: &Wrong, one_of: u64) -> Result<(), String> {
        let tally = &mut Tally::default();
        let of = |cases: u64| cases / one_of;
        let (ask, judge, make, office) = (&*wrong.ask, &*wrong.judge, &*wrong.make, &*wrong.office);
        let of_many = &|held: &mut Held, mode, width, handles: &[u8], numbers: &mut [u8]| {
            (wrong.batch)(held, (mode, width), handles, numbers)
        };
        match self {
            By::Single => single::compare(ask, SEED, of(40_000), tally),
            By::Runs => runs::compare(ask, SEED, of(200), tally),
            By::Batches => batch::compare(of_many, SEED, of(2_000), tally).map(drop),
            By::BatchWidths => batch::every_width(of_many, SEED).map(drop),
            By::EveryByte => edges::every_byte(judge, SEED).map(drop),
            By::AtWords => edges::pairs_at_words(judge, SEED).map(drop),
            By::Looks => edges::looks(ask, SEED).map(drop),
            By::Freezes => edges::freezes(ask, SEED).map(drop),
            By::Joins => edges::joins(ask, SEED).map(drop),
            By::Lengths => edges::lengths(ask, SEED).map(drop),
            By::Masks => edges::masks(ask, SEED).map(drop),
            By::NewClusters => edges::new_clusters(ask, SEED).map(drop),
            By::Segments => edges::segments(ask, SEED).map(drop),
            By::Handles => edges::handles(make, SEED).map(drop),
            By::Stays => stays::compare(ask, SEED, of(40)).map(drop),
            By::Laws => laws::compare(ask, SEED, of(2_000)).map(drop),
            By::Untold => untold::compare(ask, SEED, of(200)).map(drop),
            By::Writers => writers::compare(ask, SEED, of(200)).map(drop),
            By::Copies => copies::compare(ask, SEED, of(400)).map(drop),
            By::FewCopies => copies::compare(ask, SEED, of(80)).map(drop),
            By::Registers => registers::compare(office, SEED, of(4_000)).map(drop),
            By::RegisterEdges => registers::edges(office, SEED).map(drop),
            By::RegisterLaws => registers::laws(office, SEED, of(4_000)).map(drop),
            By::Cuts => cuts::compare(ask, SEED, of(2_000)).map(drop),
        }
    }
}

/// What has to stand in that which is told.
#[derive(Clone, Copy)]
pub enum Word {
    /// The call with this code.
    Call(u8),
    /// What the model gives, and what the library.
    Right(u8),
    Gives(u8),
    Says(&'static str),
    /// One of these.
    Either(&'static [&'static str]),
}

pub const REPLIES: Word = Word::Says("the replies differ");
pub const IMAGES: Word = Word::Says("the images differ");
pub const MEMORIES: Word = Word::Says("the memories differ");
pub const BUFFERS: Word = Word::Says("the buffers differ");
pub const SHOWN: Word = Word::Says("the bytes shown differ");
pub const RECORDS: Word = Word::Says("records of the copies differ");
pub const MORE: Word = Word::Says("a refusal gives more than its number");
pub const REFUSAL_CHANGES: Word = Word::Says("a refusal changes something");
pub const BATCHED: Word = Word::Says("numbers of a batch differ");

impl Word {
    fn is_in(self, told: &str) -> bool {
        match self {
            Word::Call(code) => told.contains(&format!("asked: {} ", named(code))),
            Word::Right(number) => told.contains(&format!("model: number {number},")),
            Word::Gives(number) => told.contains(&format!("library: number {number},")),
            Word::Says(words) => told.contains(words),
            Word::Either(words) => words.iter().any(|words| told.contains(words)),
        }
    }
}

/// What a call is named where it is told.
fn named(code: u8) -> String {
    let capital = |word: &str| word[..1].to_uppercase() + &word[1..];
    match code {
        VALIDATION => "Validate".to_string(),
        _ => name(code).split(' ').map(capital).collect(),
    }
}

/// Who has to find a library out, each in these words, and who has not.
#[derive(Default)]
pub struct Complaint {
    found: Vec<(By, Vec<Word>)>,
    not_found: Vec<By>,
}

impl Complaint {
    pub fn and<const N: usize>(mut self, by: By, words: [Word; N]) -> Complaint {
        self.found.push((by, words.to_vec()));
        self
    }

    pub fn but_not(mut self, by: By) -> Complaint {
        self.not_found.push(by);
        self
    }

    /// `Err` tells who did not find the library out, or in other words, or who did and should not.
    fn judge(&self, wrong: &Wrong, one_of: u64) -> Result<(), String> {
        for (by, words) in &self.found {
            let told = by.compare(wrong, one_of).err().ok_or(format!("not found out by {by:?}"))?;
            let plain = told.split_whitespace().collect::<Vec<_>>().join(" ");
            let in_cases = !matches!(by, By::Single | By::Runs) || plain.starts_with("case ");
            if !in_cases || !words.iter().all(|word| word.is_in(&plain)) {
                return Err(format!("found out by {by:?} in other words: {told}"));
            }
        }
        for by in &self.not_found {
            by.compare(wrong, one_of).map_err(|told| format!("found out by {by:?}: {told}"))?;
        }
        Ok(())
    }
}

pub fn by<const N: usize>(by: By, words: [Word; N]) -> Complaint {
    Complaint::default().and(by, words)
}

/// By single calls and by long rows.
pub fn told<const N: usize>(words: [Word; N]) -> Complaint {
    by(By::Single, words).and(By::Runs, words)
}

/// By both, where the model gives `right` to a call of this code and the library `wrong`.
pub fn numbers(code: u8, right: u8, wrong: u8) -> Complaint {
    told([Word::Call(code), Word::Right(right), Word::Gives(wrong)])
}

/// By none of these.
pub fn not_by<const N: usize>(finders: [By; N]) -> Complaint {
    Complaint { not_found: finders.to_vec(), ..Complaint::default() }
}

/// What is wrong, and who has to find it out.
pub type Row = (Wrong, Complaint);

/// Runs one row.
pub fn run(name: &str, (wrong, complaint): Row) {
    if let Err(what) = complaint.judge(&wrong, 1) {
        panic!("{name}: {what}");
    }
}

// That the driver can fail.

/// The right library is found out by none, so that a row in which nothing is wrong fails, whoever has to find it out.
/// The three that take longest are left to `against-library`.
#[test]
fn nothing_wrong_is_no_row() {
    let long = [By::EveryByte, By::AtWords, By::Masks];
    for finder in By::ALL.into_iter().filter(|by| !long.contains(by)) {
        assert_eq!(by(finder, []).judge(&right(), 20), Err(format!("not found out by {finder:?}")));
    }
}

#[test]
#[should_panic(expected = "its_name: not found out by Laws")]
fn a_row_that_fails_is_named() {
    run("its_name", (right(), by(By::Laws, [])));
}

/// Other words, another number or another call than what is told, and a library found out that should not be.
#[test]
fn other_words_are_no_complaint() {
    let wrong = on(READ, 14, |after| after.reply.number = 9);
    let words = [Word::Call(READ), Word::Right(14), Word::Gives(9), REPLIES];
    assert_eq!(told(words).judge(&wrong, 1), Ok(()));
    for other in [Word::Call(WRITE), Word::Right(9), Word::Gives(14), IMAGES, Word::Either(&[])] {
        let told = by(By::Single, [other]).judge(&wrong, 1);
        assert!(told.is_err_and(|told| told.contains("in other words")));
    }
    let told = told(words).but_not(By::Runs).judge(&wrong, 1);
    assert!(told.is_err_and(|told| told.starts_with("found out by Runs: case")));
}
