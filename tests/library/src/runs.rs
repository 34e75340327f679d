//! Long rows of calls from the starting store: handles that were given are weakened, reduced,
//! revoked and presented again, and each call works on what the last one left. What was frozen on the way stays.

use crate::stays::seen;
use crate::words::*;
use model::frozen::Watch;

/// Calls of one row.
pub const RUN_CALLS: u64 = 400;

pub fn compare(guard: Guard, seed: u64, runs: u64, tally: &mut Tally) -> Result<(), String> {
    cases(seed, runs, |random| one(guard, random, tally))
}

fn one(guard: Guard, random: &mut Random, tally: &mut Tally) -> Result<(), String> {
    let mut sides = Sides::both(starting()?);
    let mut given = Vec::new();
    let mut watch = Watch::default();
    for at in 1..=RUN_CALLS {
        let before = sides.model.clone();
        let store = decode(&before.image).ok_or("the model leaves no store")?;
        let question = Maker { random, store: &store, given: &given }.question(&FILLING);
        let answer = ask(guard, &mut sides, &question).map_err(|what| format!("call {at} of the row: {what}"))?;
        tally.note(&question, &answer);
        seen(&mut watch, &sides.guard).map_err(|what| format!("call {at} of the row: {what}"))?;
        tally.note_held(&before, &question, &answer);
        given.extend(answer.handles(&question));
    }
    Ok(())
}

/// What the library starts from, over an image that held something else.
fn starting() -> Result<Held, String> {
    let mut image = [u8::MAX; IMAGE_BYTES];
    guard::start(&mut image);
    same_bytes("starting images", &encode(&Store::starting()), &image)?;
    Ok(Held { image, memory: [0; MEMORY_BYTES] })
}
