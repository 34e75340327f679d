//! What calls are tried with, made by chance: equal states of a [`Random`] make equal cases.

mod aimed;
pub mod damage;
mod faults;
pub mod handles;
mod made;
pub mod questions;
pub mod stores;
pub mod words;

pub use model::generate::{bit, bits, gapped};
use model::words::*;

/// Few passwords, so that equal ones meet; sixteen zero bytes are one of them.
const PASSWORDS: u64 = 5;

pub fn password(random: &mut Random) -> Password {
    match random.one_in(3) {
        true => random.bytes(),
        false => [random.below(PASSWORDS) as u8; PASSWORD_BYTES],
    }
}

/// Those of an active cluster, read before write: sometimes equal, as call 9 may leave them.
pub fn passwords(random: &mut Random) -> (Password, Password) {
    let read = password(random);
    match random.one_in(8) {
        true => (read, read),
        false => (read, password(random)),
    }
}

/// The password with one bit changed.
pub fn near(random: &mut Random, mut password: Password) -> Password {
    password[below(random, PASSWORD_BYTES)] ^= 1 << random.below(8);
    password
}

pub fn width(random: &mut Random) -> Width {
    Width::ALL[below(random, Width::ALL.len())]
}

/// Tries `case` as often as told, each time with chance of its own. An `Err` comes back with the
/// number of its case, which the seed repeats.
pub fn cases(seed: u64, count: u64, mut case: impl FnMut(&mut Random) -> Result<(), String>) -> Result<(), String> {
    let mut seeds = Random::from_seed(seed);
    for at in 1..=count {
        let mut random = Random::from_seed(seeds.number());
        case(&mut random).map_err(|what| format!("case {at} of seed {seed}: {what}"))?;
    }
    Ok(())
}

/// A number below `bound`.
pub fn below(random: &mut Random, bound: usize) -> usize {
    random.below(bound as u64) as usize
}

pub fn bytes(random: &mut Random, count: usize) -> Vec<u8> {
    let mut bytes = vec![0; count];
    fill(random, &mut bytes);
    bytes
}

/// Fills with bytes by chance, eight from each number.
pub fn fill(random: &mut Random, bytes: &mut [u8]) {
    for chunk in bytes.chunks_mut(size_of::<u64>()) {
        chunk.copy_from_slice(&random.number().to_le_bytes()[..chunk.len()]);
    }
}
