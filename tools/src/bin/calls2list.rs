//! Makes a list of calls from readable text.

use std::fs;
use std::io::{self, Write};
use std::path::Path;
use std::process::ExitCode;
use tools::arguments::Arguments;
use tools::build::build;
use tools::text::Text;

const USAGE: &str = "usage: calls2list TEXT-FILE > LIST-FILE";
const HELP: &str = "
Makes a list of calls from readable text, one call a line:

    new-cluster node 0 local 2 read 11*16 write 22*16 -> reader writer
    new-segment node 0 segment 5 size 4 handle writer
    write segment 5 handle writer data \"abcd\"
    weaken handle reader mask 0x20 -> lab
    read segment 5 handle lab

tools/README.md has the rules. A mistake names its line. To run the list and show it beside its answers:

    make show LIST=LIST-FILE

Exit status: 0 made, 1 a mistake or a file that cannot be read, 2 wrong arguments.
";
const BAD_USAGE: u8 = 2;

fn convert(path: &Path) -> Result<(), String> {
    let name = path.display();
    let text = fs::read_to_string(path).map_err(|error| format!("{name}: {error}"))?;
    let list = Text::read(&text)
        .and_then(|text| build(&text))
        .map_err(|mistake| format!("{name}:{mistake}"))?;
    let mut standard_output = io::stdout().lock();
    standard_output
        .write_all(&list)
        .and_then(|()| standard_output.flush())
        .map_err(|error| format!("standard output: {error}"))
}

fn main() -> ExitCode {
    match Arguments::of(std::env::args_os().skip(1)) {
        Arguments::Help => {
            print!("{USAGE}\n{HELP}");
            ExitCode::SUCCESS
        }
        Arguments::Wrong(what) => {
            eprintln!("calls2list: {what}\n{USAGE}\n'calls2list --help' says more");
            ExitCode::from(BAD_USAGE)
        }
        Arguments::Files([path]) => match convert(Path::new(&path)) {
            Ok(()) => ExitCode::SUCCESS,
            Err(message) => {
                eprintln!("calls2list: {message}");
                ExitCode::FAILURE
            }
        },
    }
}
