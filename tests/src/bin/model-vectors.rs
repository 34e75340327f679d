//! Prints the published handles, `docs/vectors/handles.txt`; with the word `registers` or `cuts`, the file of that name
//! beside it.

use model::{command, vectors};
use std::process::ExitCode;

const NAME: &str = "model-vectors";

fn main() -> ExitCode {
    match std::env::args().nth(1).as_deref() {
        Some("cuts") => command::printed(NAME, || Ok(vectors::cuts::text().into_bytes())),
        Some("registers") => command::printed(NAME, || Ok(vectors::registers::text().into_bytes())),
        _ => command::printed(NAME, || Ok(vectors::text().into_bytes())),
    }
}
