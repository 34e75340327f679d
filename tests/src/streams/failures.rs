//! Reads and writes that fail. After a failed read nothing is written; after a failed write the last line is missing;
//! both are told on standard error, and the exit status is 0, since the program has none of its own.

use super::{all, check, unequal, Checked};
use crate::list::output;
use crate::program::{run, Outcome, Program};
use std::fs::{self, File};
use std::io::{self, Write};
use std::os::fd::OwnedFd;
use std::os::unix::net::UnixStream;
use std::process::{Command, Stdio};

const UNREAD: &str = "benchrun: the list could not be read\n";
const UNWRITTEN: &str = "benchrun: the text could not be written whole\n";

fn alone(command: Command) -> io::Result<Outcome> {
    run(command, |_| {})
}

/// With a standard input that cannot be read, or only a part of it.
fn reading(program: &Program, input: io::Result<impl Into<Stdio>>) -> io::Result<Outcome> {
    let mut command = program.command();
    command.stdin(input?);
    alone(command)
}

/// These bytes, and then no end: a read that finds nothing fails.
fn broken_off(program: &Program, bytes: &[u8]) -> io::Result<Outcome> {
    let (mut ours, theirs) = UnixStream::pair()?;
    ours.write_all(bytes)?;
    theirs.set_nonblocking(true)?;
    let outcome = reading(program, Ok(OwnedFd::from(theirs)));
    drop(ours);
    outcome
}

/// Standard inputs that cannot be read to their end.
pub fn of_reads(program: &Program, list: &[u8]) -> Checked {
    let told = Outcome::ended(b"", UNREAD);
    let untold = Outcome::ended(b"", "");
    let write_only = || File::options().write(true).open("/dev/null");
    let half = &list[..list.len() / 2];
    #[rustfmt::skip]
    let checks = [
        check("standard input closed", &told, alone(program.command_after("exec <&-"))),
        check("standard input a folder", &told, reading(program, File::open("/"))),
        check("standard input not for reading", &told, reading(program, write_only())),
        check("a read that fails at once", &told, broken_off(program, b"")),
        check("a read that fails after half of a list", &told, broken_off(program, half)),
        check("a read that fails after a whole list", &told, broken_off(program, list)),
        check("standard input and error closed", &untold, alone(program.command_after("exec <&- 2>&-"))),
    ];
    all(checks)
}

/// Runs a list, with standard output as the command has it.
fn writing(mut command: Command, list: &[u8]) -> io::Result<Outcome> {
    command.stdin(Stdio::piped());
    run(command, |running| running.feed(|pipe| pipe.write_all(list)))
}

fn writing_to(program: &Program, list: &[u8], to: io::Result<impl Into<Stdio>>) -> io::Result<Outcome> {
    let mut command = program.command();
    command.stdout(to?);
    writing(command, list)
}

/// A pipe whose reader is gone. The signal does not end the program, whatever is said of it by who starts the program: the
/// program's own start has it ignored.
fn unread_pipe(mut command: Command, list: &[u8]) -> io::Result<Outcome> {
    let (reader, writer) = io::pipe()?;
    drop(reader);
    command.stdout(writer);
    writing(command, list)
}

/// Standard outputs that take nothing of the text.
pub fn of_writes(program: &Program, list: &[u8]) -> Checked {
    let told = Outcome::ended(b"", UNWRITTEN);
    let untold = Outcome::ended(b"", "");
    let full = || File::options().write(true).open("/dev/full");
    let after = |script| program.command_after(script);
    #[rustfmt::skip]
    let checks = [
        check("standard output closed", &told, writing(after("exec >&-"), list)),
        check("standard output full", &told, writing_to(program, list, full())),
        check("standard output not for writing", &told, writing_to(program, list, File::open("/dev/null"))),
        check("nobody reads, the signal ignored", &told, unread_pipe(after("trap '' PIPE"), list)),
        check("nobody reads, the signal as usual", &told, unread_pipe(program.command(), list)),
        check("standard output and error closed", &untold, writing(after("exec >&- 2>&-"), list)),
    ];
    all(checks)
}

/// A file that may not grow: some of the text is written, and its last line is missing.
pub fn of_a_later_write(program: &Program, list: &[u8]) -> Checked {
    let way = "a file that may not grow";
    let text = output(list);
    let path = std::env::temp_dir().join(format!("streams-against-{}", std::process::id()));
    let found = File::create(&path).and_then(|file| {
        let mut command = program.command_after("trap '' XFSZ\nulimit -f 1");
        command.stdout(file);
        let outcome = writing(command, list)?;
        let output = fs::read(&path)?;
        Ok(Outcome { output, ..outcome })
    });
    let _ = fs::remove_file(&path);
    let found = found.map_err(|mistake| format!("{way}: {mistake}"))?;
    let is_part = !found.output.is_empty() && found.output.len() < text.len() && text.starts_with(&found.output);
    match is_part {
        true => check(way, &Outcome::ended(&found.output, UNWRITTEN), Ok(found)),
        false => Err(unequal(way, "a part of the text", found)),
    }
}
