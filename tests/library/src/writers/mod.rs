//! Two copies of a store that differ in what lies in one cluster's segments, in its read password, and in memory that
//! is no segment's: whoever does not read by handles of that cluster gets the same from both, also by handles that open
//! it for writing. Judged by the library's side alone; what a list may not have is judged by the model.

mod calls;
mod count;
mod freed;

use crate::pairs::{ask_both, parts_of, set_apart, Pair};
use crate::words::*;
use calls::Asking;
pub use count::met;
use count::Watch;
use std::ops::Range;

/// Calls of one list.
pub const LIST_CALLS: u64 = 100;
/// In stores without a free byte, new segments lie where others were.
const FILLS: [Fill; 4] = [Fill::Partial, Fill::Partial, Fill::NoByteFree, Fill::AtWords];

pub fn compare(guard: Guard, seed: u64, pairs: u64) -> Result<Met, String> {
    let mut met = met();
    cases(seed, pairs, |random| one(guard, random, &mut met))?;
    Ok(met)
}

/// A list may end after any of its calls, so that the copies have to agree after each.
fn one(guard: Guard, random: &mut Random, met: &mut Met) -> Result<(), String> {
    let asking = Asking::by_chance(random);
    let mut pair = by_chance(random, asking);
    let apart = pair.apart;
    let mut stores = pair.stores()?;
    let mut given = Vec::new();
    let mut watch = Watch::of(met, &pair, &stores);
    for at in 1..=LIST_CALLS {
        let question = asking.question(random, &pair, &stores, &given, at);
        watch.expect(&pair, &stores, &question);
        let answer = ask_both(guard, &mut pair.copies, &question, |copies| agree(copies, apart))
            .map_err(|what| format!("call {at} of the list: {what}"))?;
        let before = std::mem::replace(&mut stores, pair.stores()?);
        watch.note(&pair, [&before, &stores], &question, &answer);
        given.extend(answer.handles(&question));
    }
    watch.note_end(&pair, &stores);
    Ok(())
}

fn by_chance(random: &mut Random, asking: Asking) -> Pair {
    let fill = FILLS[below(random, FILLS.len())];
    let mut store = stores::store(random, fill);
    let apart = set_apart(random, &store);
    if asking != Asking::Freezing {
        store.clusters[apart.0][apart.1].segments.iter_mut().for_each(|segment| segment.frozen = false);
    }
    let mut first = stores::held(random, &store);
    let cluster = &mut store.clusters[apart.0][apart.1];
    let read = cluster.read;
    while cluster.read == read {
        cluster.read = password(random);
    }
    let mut second = first.with(&store);
    for part in [parts_of(&store, apart), free(&store)].concat() {
        differ(random, [&mut first, &mut second].map(|held| &mut held.memory[part.clone()]));
    }
    Pair { copies: [first, second], apart }
}

/// The parts of the memory that are no segment's.
fn free(store: &Store) -> Vec<Range<usize>> {
    let gaps = (0..NODES).flat_map(|node| gaps(store, node).into_iter().map(move |gap| (node, gap)));
    gaps.map(|(node, gap)| gap.in_memory(node)).collect()
}

/// Any bytes in each, zeros in one of the two, or all bits but one the same.
fn differ(random: &mut Random, mut parts: [&mut [u8]; 2]) {
    for part in &mut parts {
        fill(random, part);
    }
    let [first, second] = parts;
    match random.below(6) {
        0 => first.fill(0),
        1 => second.fill(0),
        2 => {
            second.copy_from_slice(first);
            second[below(random, first.len())] ^= 1 << random.below(8);
        }
        _ => {}
    }
}

/// The records are equal but for the cluster's read password, and so are the bytes of all other clusters' segments.
fn agree(copies: &[Held; 2], apart: (usize, usize)) -> Result<(), String> {
    let [first, second] = copies.each_ref().map(|copy| {
        let mut image = copy.image;
        image[password_at(apart.0, apart.1, Mode::Read)].fill(0);
        image
    });
    same_bytes("records of the copies", &first, &second)?;
    let sound = copies.iter().all(is_sound);
    let store = decode(&first).filter(|_| sound);
    let store = store.ok_or("a copy is not sound")?;
    for part in everywhere().filter(|place| *place != apart).flat_map(|place| parts_of(&store, place)) {
        let [first, second] = copies.each_ref().map(|copy| &copy.memory[part.clone()]);
        same_bytes("segments of other clusters", first, second)?;
    }
    Ok(())
}
