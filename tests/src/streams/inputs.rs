//! A list that comes whole or in pieces.

use super::{all, check, cuts, Checked};
use crate::list::output;
use crate::program::{run, Outcome, Program};
use crate::random::Random;
use std::fs::File;
use std::io::{self, Write};
use std::os::fd::OwnedFd;
use std::os::unix::net::UnixDatagram;
use std::path::Path;
use std::process::Stdio;
use std::thread;
use std::time::Duration;

/// Between two pieces on a pipe.
const PAUSE: Duration = Duration::from_millis(2);
/// How many pieces come with pauses, about.
const PAUSED_PIECES: usize = 4;

/// One read gets one piece: each is a datagram, and an empty one is the end. A read has to ask for as much as a piece
/// has, or for as much as is wanted at all, as those of `benchrun` do: the rest of a datagram is lost.
fn piece_by_piece(program: &Program, pieces: &[&[u8]]) -> io::Result<Outcome> {
    let (ours, theirs) = UnixDatagram::pair()?;
    let mut command = program.command();
    command.stdin(OwnedFd::from(theirs));
    let end: &[u8] = &[];
    run(command, |_| {
        let mut pieces = pieces.iter().chain([&end]);
        // A program that has enough is gone, and the rest is not sent.
        while pieces.next().is_some_and(|piece| ours.send(piece).is_ok()) {}
    })
}

/// A pipe, with a pause after each piece.
fn with_pauses(program: &Program, pieces: &[&[u8]]) -> io::Result<Outcome> {
    let mut command = program.command();
    command.stdin(Stdio::piped());
    run(command, |running| {
        running.feed(|pipe| {
            pieces.iter().try_for_each(|piece| {
                pipe.write_all(piece)?;
                thread::sleep(PAUSE);
                Ok(())
            })
        })
    })
}

/// A list on a pipe and cut into pieces, in every way.
pub fn in_pieces(program: &Program, list: &[u8], random: &mut Random) -> Checked {
    let expected = Outcome::ended(&output(list), "");
    let way = |name: &str| format!("{} bytes {name}", list.len());
    let some = 1 + list.len() * 2 / PAUSED_PIECES;
    let paused = cuts::by_chance(list, some, random);
    all([
        check(&way("on a pipe"), &expected, program.answer(list)),
        check(&way("on a pipe with pauses"), &expected, with_pauses(program, &paused)),
        all(cuts::of(list, random).iter().map(|(name, pieces)| {
            let found = piece_by_piece(program, pieces);
            check(&way(name), &expected, found)
        })),
    ])
}

/// A list that is a file; the text is the model's, and that of the file beside it, if there is one.
pub fn from_file(program: &Program, path: &Path) -> Checked {
    let name = path.display();
    let fault = |mistake: io::Error| format!("{name}: {mistake}");
    let text = output(&std::fs::read(path).map_err(fault)?);
    let beside = path.with_extension("out");
    if beside.exists() && std::fs::read(beside).map_err(fault)? != text {
        return Err(format!("{name}: the file beside it is not the model's"));
    }
    let mut command = program.command();
    command.stdin(File::open(path).map_err(fault)?);
    let found = run(command, |_| {});
    check(&format!("{name} as a file"), &Outcome::ended(&text, ""), found)
}
