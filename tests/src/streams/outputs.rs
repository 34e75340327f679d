//! A text that is taken slowly, and a program that is stopped and continued while it writes.

use super::{all, check, Checked};
use crate::list::output;
use crate::program::{run, Outcome, Program, Running};
use std::io::{self, PipeReader, Read, Write};
use std::process::{Command, Stdio};
use std::thread;
use std::time::Duration;

const PAUSE: Duration = Duration::from_millis(2);
/// Bytes that are taken at a time, so many times; then the rest.
const SIP: usize = 5000;
const SIPS: usize = 40;

/// Takes a text in small parts, and does `between` after each.
fn sipped(mut reader: PipeReader, mut between: impl FnMut()) -> io::Result<Vec<u8>> {
    let mut text = Vec::new();
    for _ in 0..SIPS {
        reader.by_ref().take(SIP as u64).read_to_end(&mut text)?;
        between();
    }
    reader.read_to_end(&mut text)?;
    Ok(text)
}

/// Runs a list whose text is taken in small parts.
fn slowly(program: &Program, list: &[u8], between: fn(&Running)) -> io::Result<Outcome> {
    let (reader, writer) = io::pipe()?;
    let mut command = program.command();
    command.stdin(Stdio::piped()).stdout(writer);
    let mut text = Ok(Vec::new());
    let outcome = run(command, |running| {
        running.feed(|pipe| pipe.write_all(list));
        text = sipped(reader, || between(running));
    })?;
    Ok(Outcome { output: text?, ..outcome })
}

/// Stops the program for a while. A write that was under way then comes back with a part done.
fn stopped(running: &Running) {
    for signal in ["STOP", "CONT"] {
        let order = format!("kill -{signal} {} 2> /dev/null", running.process);
        // A program that has ended needs no signal.
        let _ = Command::new("/bin/sh").args(["-c", &order]).status();
        thread::sleep(PAUSE);
    }
}

/// A list whose text is longer than a pipe holds.
pub fn taken_slowly(program: &Program, list: &[u8]) -> Checked {
    let expected = Outcome::ended(&output(list), "");
    all([
        check("a text that is taken slowly", &expected, slowly(program, list, |_| thread::sleep(PAUSE))),
        check("a program that is stopped and continued", &expected, slowly(program, list, stopped)),
    ])
}
