//! A program as a child process: what it is started with, and its outcome.

use std::ffi::OsString;
use std::fmt;
use std::io::{self, Read, Write};
use std::os::unix::process::ExitStatusExt;
use std::process::{Child, ChildStdin, Command, ExitStatus, Stdio};
use std::thread;
use std::time::{Duration, Instant};

/// A program that takes longer than this is ended, and counts as failed.
const LIMIT: Duration = Duration::from_secs(20);
/// How often it is looked whether a program has ended.
const GLANCE: Duration = Duration::from_micros(200);
/// How much of a text a description shows.
const SHOWN: usize = 200;

/// The shell that starts a program with something done before.
const SHELL: &str = "/bin/sh";

/// A program with its arguments.
#[derive(Clone, Debug)]
pub struct Program(Vec<OsString>);

impl Program {
    pub fn named(name: impl Into<OsString>) -> Program {
        Program(vec![name.into()])
    }

    /// A program that is a script of the shell.
    pub fn script(text: &str) -> Program {
        Program([SHELL, "-c", text].map(OsString::from).to_vec())
    }

    /// The program, with nothing to read and what it writes collected.
    pub fn command(&self) -> Command {
        let mut command = Command::new(&self.0[0]);
        command.args(&self.0[1..]);
        collecting(command)
    }

    /// The same by way of the shell, which runs `script` first and then becomes the program.
    pub fn command_after(&self, script: &str) -> Command {
        let mut command = Command::new(SHELL);
        command.args(["-c", &format!("{script}\nexec \"$@\""), SHELL]).args(&self.0);
        collecting(command)
    }

    /// Its outcome with these bytes on its standard input, a pipe.
    pub fn answer(&self, input: &[u8]) -> io::Result<Outcome> {
        let mut command = self.command();
        command.stdin(Stdio::piped());
        run(command, |running| running.feed(|pipe| pipe.write_all(input)))
    }
}

fn collecting(mut command: Command) -> Command {
    command.stdin(Stdio::null());
    command.stdout(Stdio::piped()).stderr(Stdio::piped());
    command
}

/// How a program came to its end.
#[derive(Clone, Copy, Debug, PartialEq, Eq)]
pub enum Ending {
    Status(i32),
    Signal(i32),
}

/// What came of a program.
#[derive(Clone, Debug, PartialEq, Eq)]
pub struct Outcome {
    pub ending: Ending,
    pub output: Vec<u8>,
    pub errors: Vec<u8>,
}

impl Outcome {
    /// Ended as it should: this text, status 0, and `errors` on standard error.
    pub fn ended(output: &[u8], errors: &str) -> Outcome {
        Outcome { ending: Ending::Status(0), output: output.to_vec(), errors: errors.into() }
    }
}

fn shown(text: &[u8]) -> String {
    let start = String::from_utf8_lossy(&text[..text.len().min(SHOWN)]).into_owned();
    format!("{} bytes {start:?}", text.len())
}

impl fmt::Display for Outcome {
    fn fmt(&self, to: &mut fmt::Formatter) -> fmt::Result {
        let (output, errors) = (shown(&self.output), shown(&self.errors));
        write!(to, "{:?}, text {output}, errors {errors}", self.ending)
    }
}

/// What is at hand while a program runs.
pub struct Running {
    pub process: u32,
    input: Option<ChildStdin>,
}

impl Running {
    /// Writes to the program's standard input, where that is a pipe, and then closes it.
    pub fn feed(&mut self, write: impl FnOnce(&mut ChildStdin) -> io::Result<()>) {
        if let Some(mut pipe) = self.input.take() {
            // Whether the program took what it should is seen in its outcome.
            let _ = write(&mut pipe);
        }
    }
}

fn collected(source: Option<impl Read>) -> io::Result<Vec<u8>> {
    let mut bytes = Vec::new();
    if let Some(mut source) = source {
        source.read_to_end(&mut bytes)?;
    }
    Ok(bytes)
}

fn ending(status: ExitStatus) -> Ending {
    match (status.code(), status.signal()) {
        (Some(code), _) => Ending::Status(code),
        (None, signal) => Ending::Signal(signal.unwrap_or_default()),
    }
}

/// Waits for the program's end, and ends it where that does not come.
fn waited(child: &mut Child) -> io::Result<ExitStatus> {
    let start = Instant::now();
    loop {
        if let Some(status) = child.try_wait()? {
            return Ok(status);
        }
        if start.elapsed() > LIMIT {
            child.kill()?;
            child.wait()?;
            return Err(io::Error::other(format!("it did not end in {LIMIT:?}")));
        }
        thread::sleep(GLANCE);
    }
}

/// Runs a command to its end, with `beside` at the same time.
pub fn run(mut command: Command, beside: impl FnOnce(&mut Running) + Send) -> io::Result<Outcome> {
    let mut child = command.spawn()?;
    // The command holds the program's ends of what it was given; with the program gone, nobody may hold them.
    drop(command);
    let (output, errors) = (child.stdout.take(), child.stderr.take());
    let mut running = Running { process: child.id(), input: child.stdin.take() };
    thread::scope(|scope| {
        let output = scope.spawn(move || collected(output));
        let errors = scope.spawn(move || collected(errors));
        scope.spawn(move || beside(&mut running));
        let status = waited(&mut child);
        let (output, errors) = (output.join(), errors.join());
        Ok(Outcome {
            ending: ending(status?),
            output: output.expect("reading does not panic")?,
            errors: errors.expect("reading does not panic")?,
        })
    })
}
