//! Reads a list of calls from standard input, runs it from the starting store and prints its lines.

use model::list::{output, MOST_LIST_BYTES};
use std::io::{self, Read};
use std::process::ExitCode;

/// Reads a list, or just enough of a longer input to know that it is none.
fn read_list() -> io::Result<Vec<u8>> {
    let mut list = Vec::with_capacity(MOST_LIST_BYTES + 1);
    io::stdin().lock().take(MOST_LIST_BYTES as u64 + 1).read_to_end(&mut list)?;
    Ok(list)
}

fn main() -> ExitCode {
    model::command::printed("model-benchrun", || Ok(output(&read_list()?)))
}
