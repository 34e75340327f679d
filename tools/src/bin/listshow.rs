//! Prints a list of calls beside the answers that `benchrun` gave to it.

use std::fs;
use std::io::{self, Write};
use std::path::Path;
use std::process::ExitCode;
use tools::answers::Answers;
use tools::arguments::Arguments;
use tools::show::show;

const USAGE: &str = "usage: listshow LIST-FILE ANSWERS-FILE";
const HELP: &str = "
Prints a list of calls beside the answers that benchrun gave to it, one line a call: the record, what it asks, the
number with its word, what it gave. This runs a list and shows it:

    make show LIST=LIST-FILE

Exit status: 0 shown, 1 a file that cannot be read or answers that are not of this list, 2 wrong arguments.
";
const BAD_USAGE: u8 = 2;

fn print(list: &Path, answers: &Path) -> Result<(), String> {
    let unreadable = |path: &Path, error: io::Error| format!("{}: {error}", path.display());
    let records = fs::read(list).map_err(|error| unreadable(list, error))?;
    let text = fs::read_to_string(answers).map_err(|error| unreadable(answers, error))?;
    let shown = Answers::read(&text)
        .and_then(|answers| show(&records, &answers))
        .map_err(|mistake| format!("{}:{mistake}", answers.display()))?;
    let mut standard_output = io::stdout().lock();
    standard_output
        .write_all(shown.as_bytes())
        .and_then(|()| standard_output.flush())
        .map_err(|error| format!("standard output: {error}"))
}

fn main() -> ExitCode {
    match Arguments::of(std::env::args_os().skip(1)) {
        Arguments::Help => {
            print!("{USAGE}\n{HELP}");
            ExitCode::SUCCESS
        }
        Arguments::Wrong(what) => {
            eprintln!("listshow: {what}\n{USAGE}\n'listshow --help' says more");
            ExitCode::from(BAD_USAGE)
        }
        Arguments::Files([list, answers]) => match print(Path::new(&list), Path::new(&answers)) {
            Ok(()) => ExitCode::SUCCESS,
            Err(message) => {
                eprintln!("listshow: {message}");
                ExitCode::FAILURE
            }
        },
    }
}
