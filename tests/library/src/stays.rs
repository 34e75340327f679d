//! What is frozen stays, judged by the library's side alone: rows of calls on stores with frozen segments, most of
//! them by handles that open the cluster they name.

use crate::words::*;
use model::frozen::Watch;

/// Calls of one row.
pub const ROW_CALLS: u64 = 100;
/// The codes of what changes something.
const CHANGING: [u8; 12] = [1, 2, 2, 3, 3, 4, 4, 6, 6, 6, 9, 10];

const REFUSED: &str = "a call refused with 22 (frozen)";

pub fn met() -> Met {
    Met::new("what is frozen stays", ["a frozen segment", "a call done", REFUSED])
}

pub fn compare(guard: Guard, seed: u64, rows: u64) -> Result<Met, String> {
    let mut met = met();
    cases(seed, rows, |random| one(guard, random, &mut met))?;
    Ok(met)
}

fn one(guard: Guard, random: &mut Random, met: &mut Met) -> Result<(), String> {
    let fill = Fill::by_chance(random);
    let store = stores::store(random, fill);
    let mut held = stores::held(random, &store);
    let mut watch = Watch::default();
    for at in 1..=ROW_CALLS {
        let store = seen(&mut watch, &held)?;
        let question = question(random, &store);
        let answer = guard(&mut held, &question);
        seen(&mut watch, &held)
            .map_err(|what| format!("call {at} of the row: {what}\n  asked:   {question}\n  library: {answer}"))?;
        met.note_if(answer.reply.is_done(), "a call done");
        met.note_if(answer.reply.number == FROZEN, REFUSED);
    }
    met.note_all((0..watch.met()).map(|_| "a frozen segment"));
    Ok(())
}

/// The store that the library has left, if all that was frozen is in it as it was.
pub fn seen(watch: &mut Watch, held: &Held) -> Result<Store, String> {
    let store = decode(&held.image).ok_or("the library leaves no store")?;
    watch.see(&store, &held.memory)?;
    Ok(store)
}

/// A question; every second one by the write primary handle of a cluster that has a frozen segment, if there is one.
fn question(random: &mut Random, store: &Store) -> Question {
    let mut question = Maker { random, store, given: &[] }.question(&CHANGING);
    let frozen = handles::place(random, store, Cluster::has_frozen);
    if let (Some((at, local)), true) = (frozen, random.one_in(2)) {
        if let Some(handle) = question.handle_mut() {
            *handle = handles::primary(store, (at, local), Mode::Write).to_bytes();
        }
        if let [Some(node), ..] = question.numbers_mut() {
            *node = at as u32;
        }
    }
    question
}
