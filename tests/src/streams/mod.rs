//! The ways in which `benchrun`'s input and output can come: whether a program does in each of them what it should.
//!
//! - [`inputs`]: a list that comes whole or in pieces; the text is the model's, whole, every time.
//! - [`outputs`]: a text that is taken slowly, and a program that is stopped and continued.
//! - [`failures`]: reads and writes that fail.

pub mod cuts;
pub mod failures;
pub mod inputs;
pub mod outputs;

use crate::program::Outcome;
use std::io;

/// How many runs came out as they should, or what was wrong with the first that did not.
pub type Checked = Result<usize, String>;

fn unequal(way: &str, expected: impl ToString, found: impl ToString) -> String {
    let (expected, found) = (expected.to_string(), found.to_string());
    format!("{way}\n  should be: {expected}\n  is:        {found}")
}

/// One run that should come out as `expected`.
pub fn check(way: &str, expected: &Outcome, found: io::Result<Outcome>) -> Checked {
    match found {
        Ok(found) if found == *expected => Ok(1),
        Ok(found) => Err(unequal(way, expected, found)),
        Err(mistake) => Err(unequal(way, expected, mistake)),
    }
}

/// Several checks, one after the other, up to the first that fails.
pub fn all(checks: impl IntoIterator<Item = Checked>) -> Checked {
    checks.into_iter().sum()
}
