//! Lists made by chance, most of them such that their calls come to something.

mod calls;
mod handles;
pub mod joins;

use crate::list::{Record, MOST_LIST_BYTES, MOST_RECORDS, NEXT_AT, RECORD_BYTES};
use crate::random::Random;
use calls::Maker;
pub use handles::{bit, bits, gapped, noting, to_nothing};

/// One list. Equal states of `random` make equal lists.
pub fn list(random: &mut Random) -> Vec<u8> {
    if random.one_in(40) {
        return noise(random);
    }
    let chain = Maker::new(random).records(length_of_chain(random));
    let mut records = laid_out(random, chain);
    if random.one_in(12) {
        break_a_link(random, &mut records);
    }
    let mut list = records.concat();
    if random.one_in(25) {
        break_the_length(random, &mut list);
    }
    if random.one_in(25) {
        change_a_byte(random, &mut list);
    }
    list
}

fn length_of_chain(random: &mut Random) -> usize {
    match random.below(20) {
        0 => 0,
        1 => MOST_RECORDS,
        2 | 3 => random.below(MOST_RECORDS as u64 + 1) as usize,
        _ => 1 + random.below(48) as usize,
    }
}

/// Bytes without any sense.
fn noise(random: &mut Random) -> Vec<u8> {
    let records = random.below(6) as usize;
    let more = if random.one_in(2) { 0 } else { random.below(RECORD_BYTES as u64) as usize };
    (0..records * RECORD_BYTES + more).map(|_| random.byte()).collect()
}

/// Puts the records of a chain into a list, often out of order and with others between them.
fn laid_out(random: &mut Random, chain: Vec<Record>) -> Vec<Record> {
    if chain.is_empty() {
        return chain;
    }
    let spare = MOST_RECORDS - chain.len();
    let (others, mixed) = match random.below(3) {
        0 => (0, false),
        1 => (0, true),
        _ => (random.below(1 + spare.min(10) as u64) as usize, true),
    };
    let mut records: Vec<Record> = Vec::new();
    records.resize_with(chain.len() + others, || random.bytes());
    let mut places: Vec<usize> = (1..records.len()).collect();
    if mixed {
        random.shuffle(&mut places);
    }
    places.insert(0, 0);
    for (at, record) in chain.iter().enumerate() {
        records[places[at]] = *record;
        let following = places[at + 1..chain.len()].first();
        records[places[at]][NEXT_AT] = following.map_or(0, |place| *place as u8 + 1);
    }
    records
}

/// Sets one link, which may be that of a record that the chain does not reach, to anything.
fn break_a_link(random: &mut Random, records: &mut [Record]) {
    let count = records.len();
    let at = random.below(count.max(1) as u64) as usize;
    let link = match random.below(4) {
        0 => count as u64 + 1,
        1 => random.below(256),
        2 => at as u64 + 1,
        _ => random.below(count as u64 + 1),
    };
    if let Some(record) = records.get_mut(at) {
        record[NEXT_AT] = link.min(255) as u8;
    }
}

fn break_the_length(random: &mut Random, list: &mut Vec<u8>) {
    let some = 1 + random.below(RECORD_BYTES as u64 - 1) as usize;
    match random.below(4) {
        0 => list.truncate(list.len().saturating_sub(some)),
        1 => list.resize(list.len() + some, 0),
        2 => list.resize(MOST_LIST_BYTES + some, 0),
        _ => list.resize(MOST_LIST_BYTES + RECORD_BYTES, 0),
    }
}

fn change_a_byte(random: &mut Random, list: &mut [u8]) {
    let at = random.below(list.len().max(1) as u64) as usize;
    if let Some(byte) = list.get_mut(at) {
        *byte = random.byte();
    }
}
