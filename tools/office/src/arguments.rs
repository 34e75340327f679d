//! What the command is called with: a file and two options, or a wish for help.

use std::ffi::OsString;
use std::path::PathBuf;
use tools::arguments::Arguments;

#[derive(Clone, Debug, PartialEq, Eq)]
pub struct Asked {
    /// The register's text.
    pub file: PathBuf,
    /// Where the register's bytes are to go.
    pub bytes: Option<PathBuf>,
    /// Whether the handles are to be printed, too.
    pub handles: bool,
}

#[derive(Clone, Debug, PartialEq, Eq)]
pub enum Called {
    Show(Asked),
    Help,
    /// What is wrong with the arguments.
    Wrong(String),
}

impl Called {
    /// The options may stand before the file and after it.
    pub fn of(words: impl IntoIterator<Item = OsString>) -> Called {
        let mut words = words.into_iter();
        let (mut rest, mut bytes, mut handles) = (Vec::new(), None, false);
        let is_file = |word: &OsString| !word.as_encoded_bytes().starts_with(b"-");
        while let Some(word) = words.next() {
            match word.to_str() {
                Some("--handles") => handles = true,
                Some("--bytes") if bytes.is_some() => {
                    return Called::Wrong("'--bytes' stands twice".to_string());
                }
                Some("--bytes") => match words.next().filter(is_file) {
                    Some(file) => bytes = Some(PathBuf::from(file)),
                    None => return Called::Wrong("expected a file after '--bytes'".to_string()),
                },
                _ => rest.push(word),
            }
        }
        match Arguments::of(rest) {
            Arguments::Help => Called::Help,
            Arguments::Wrong(what) => Called::Wrong(what),
            Arguments::Files([file]) => Called::Show(Asked { file: file.into(), bytes, handles }),
        }
    }
}
