//! Prints who can open which segment, by a register of handles given out.

use office::arguments::{Asked, Called};
use office::text::Register;
use office::{library, page};
use std::fs;
use std::io::{self, Write};
use std::path::Path;
use std::process::ExitCode;

const USAGE: &str = "usage: registershow [--handles] [--bytes FILE] REGISTER-FILE";
const HELP: &str = "
Prints who can open which segment, by a register of handles given out. The register is text, a line for the handle that
all others come from, then a line for each that was weakened from it or from another:

    supplied maker 000002 101112131415161718191a1b1c1d1e1f ffffffff
    lab from maker keeps 0-3
    paper from lab keeps 2

tools/README.md has the rules. A mistake names its line. This builds what the command needs, and runs it:

    make office REGISTER=REGISTER-FILE

    --bytes FILE   also writes the register to FILE, as the library takes it: two bytes an entry
    --handles      also prints the handle of each entry, which is a secret

Exit status: 0 shown, 1 a mistake, a refusal or a file that cannot be read or written, 2 wrong arguments.
";
const BAD_USAGE: u8 = 2;

fn show(asked: &Asked) -> Result<(), String> {
    let file = asked.file.display();
    let told = |mistake| format!("{file}:{mistake}");
    let text = fs::read_to_string(&asked.file).map_err(|error| format!("{file}: {error}"))?;
    let register = Register::read(&text).map_err(told)?;
    let entries = register.bytes();
    let refused = |refusal| told(page::refused(&register, refusal));
    let openers = library::openers(&register.handle, &entries).map_err(refused)?;
    let mut shown = page::page(&register, &openers);
    if asked.handles {
        let handles = library::handles(&register.handle, &entries).map_err(refused)?;
        shown += &format!("\n{}", page::secrets(&register, &handles));
    }
    if let Some(path) = &asked.bytes {
        write(path, &asked.file, &entries)?;
    }
    print(&shown)
}

/// The text is not written over.
fn write(path: &Path, text: &Path, bytes: &[u8]) -> Result<(), String> {
    let name = path.display();
    if fs::canonicalize(path).ok() == fs::canonicalize(text).ok() {
        return Err(format!("{name}: this is the register's text"));
    }
    fs::write(path, bytes).map_err(|error| format!("{name}: {error}"))
}

fn print(text: &str) -> Result<(), String> {
    let mut standard_output = io::stdout().lock();
    standard_output
        .write_all(text.as_bytes())
        .and_then(|()| standard_output.flush())
        .map_err(|error| format!("standard output: {error}"))
}

fn main() -> ExitCode {
    let done = match Called::of(std::env::args_os().skip(1)) {
        Called::Help => print(&format!("{USAGE}\n{HELP}")),
        Called::Show(asked) => show(&asked),
        Called::Wrong(what) => {
            eprintln!("registershow: {what}\n{USAGE}\n'registershow --help' says more");
            return ExitCode::from(BAD_USAGE);
        }
    };
    match done {
        Ok(()) => ExitCode::SUCCESS,
        Err(message) => {
            eprintln!("registershow: {message}");
            ExitCode::FAILURE
        }
    }
}
