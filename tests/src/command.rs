//! What the programs of this package share: how they are started, and how they end.

use std::ffi::OsString;
use std::fmt::Display;
use std::io::{self, Write};
use std::process::ExitCode;
use std::str::FromStr;

/// Ends a program that is started in another way than its usage says.
const BAD_USAGE: u8 = 2;

/// Does the task that the words after the program's name stand for. `Ok(false)` is a difference, which was told.
pub fn done<T, E: Display>(
    name: &str,
    usage: &str,
    task: impl FnOnce(&mut dyn Iterator<Item = OsString>) -> Option<T>,
    work: impl FnOnce(&T) -> Result<bool, E>,
) -> ExitCode {
    let Some(task) = task(&mut std::env::args_os().skip(1)) else {
        eprintln!("usage: {name} {usage}");
        return ExitCode::from(BAD_USAGE);
    };
    match work(&task) {
        Ok(true) => ExitCode::SUCCESS,
        Ok(false) => ExitCode::FAILURE,
        Err(mistake) => {
            eprintln!("{name}: {mistake}");
            ExitCode::FAILURE
        }
    }
}

pub fn number<T: FromStr>(word: OsString) -> Option<T> {
    word.to_str()?.parse().ok()
}

/// Prints a text and nothing else.
pub fn printed(name: &str, text: impl FnOnce() -> io::Result<Vec<u8>>) -> ExitCode {
    let print = |_: &()| -> io::Result<bool> {
        let text = text()?;
        let mut standard_output = io::stdout().lock();
        standard_output.write_all(&text)?;
        standard_output.flush().map(|()| true)
    };
    done(name, "", |_| Some(()), print)
}
