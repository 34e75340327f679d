//! What a command is called with: its files, or a wish for help.

use crate::show::counted;
use std::ffi::OsString;

#[derive(Clone, Debug, PartialEq, Eq)]
pub enum Arguments<const FILES: usize> {
    Files([OsString; FILES]),
    Help,
    /// What is wrong with them.
    Wrong(String),
}

impl<const FILES: usize> Arguments<FILES> {
    /// A word that begins with a hyphen is an option, and `--help` is the only one; a file of such a name is written `./-name`.
    pub fn of(words: impl IntoIterator<Item = OsString>) -> Arguments<FILES> {
        let words: Vec<OsString> = words.into_iter().collect();
        if words.iter().any(|word| word == "--help" || word == "-h") {
            return Arguments::Help;
        }
        let is_option = |word: &&OsString| word.as_encoded_bytes().starts_with(b"-");
        if let Some(option) = words.iter().find(is_option) {
            let option = option.to_string_lossy();
            return Arguments::Wrong(format!("there is no option '{option}'"));
        }
        let found = words.len();
        match words.try_into() {
            Ok(files) => Arguments::Files(files),
            Err(_) => Arguments::Wrong(format!(
                "expected {}, found {found}",
                counted(FILES, "file")
            )),
        }
    }
}
