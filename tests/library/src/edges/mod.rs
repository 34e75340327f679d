//! Soundness where it changes: every byte of an image with every value that matters, and two segments of one node
//! that begin and end about the borders of words. Looks and freezes where their segment or their arguments come
//! to an end: the first and the last byte of a node, the whole of it, and numbers just out of range. Joins with
//! modes and names just out of range. Handles of every length, made of bytes and presented, and what goes by the width.

mod joins;
mod widths;

use crate::chance::words::{Beside, LENGTHS};
use crate::words::*;
pub use joins::joins;
pub use widths::{handles, lengths, masks, new_clusters, segments};

/// Something that tells whether an image holds a sound store; [`crate::guard::is_sound`] is the one
/// to be compared.
pub type Judge<'a> = &'a dyn Fn(&mut Image) -> bool;

/// How many were asked, and how many of them were done, or are sound, or are a handle's.
pub type Asked = (u64, u64);

/// The first words of a node, those in its middle, and its last; 64 begins behind it.
const WORDS: [usize; 10] = [0, 1, 2, 3, 31, 32, 33, 62, 63, 64];

/// Segments that are looked at and frozen: base and length.
#[rustfmt::skip]
const STRETCHES: [(usize, usize); 9] = [
    (0, 1), (0, NODE_BYTES - 1), (0, NODE_BYTES), (1, NODE_BYTES - 1), (63, 2), (255, 256), (256, 255),
    (NODE_BYTES - 2, 2), (NODE_BYTES - 1, 1),
];
/// Added to a number that is right, these are seen in its highest bytes alone.
const HIGH: [usize; 5] = [1 << 8, 1 << 16, 1 << 32, 1 << 48, 1 << 63];

/// Tries a case with each of these, and gives what all of them counted.
pub(crate) fn each<T>(
    seed: u64,
    all: impl IntoIterator<Item = T>,
    mut case: impl FnMut(&mut Random, T, &mut Asked) -> Result<(), String>,
) -> Result<Asked, String> {
    let mut asked = (0, 0);
    let mut all = all.into_iter().collect::<Vec<T>>().into_iter();
    cases(seed, all.len() as u64, |random| case(random, all.next().expect("there are as many cases"), &mut asked))?;
    Ok(asked)
}

pub(crate) fn count(asked: &mut Asked, is_right: bool) {
    asked.0 += 1;
    asked.1 += u64::from(is_right);
}

/// Puts one question to both, and counts it.
fn put(guard: Guard, sides: &mut Sides, question: &Question, asked: &mut Asked) -> Result<(), String> {
    count(asked, ask(guard, sides, question)?.reply.is_done());
    Ok(())
}

/// The values that a byte of an image is made: every one, but a few where all that matters is whether it is zero, as of
/// passwords and, save for the first two bytes of a record, of an empty store.
fn values(fill: Fill, at: usize) -> Vec<u8> {
    let few = [0, 1, 2, 4, 8, 16, 32, 64, 128, u8::MAX];
    match at % RECORD_BYTES {
        READ_AT..SEGMENTS_AT => few.to_vec(),
        SEGMENTS_AT.. if fill == Fill::Empty => few.to_vec(),
        _ => (0..=u8::MAX).collect(),
    }
}

/// One store of every fill.
pub fn every_byte(judge: Judge, seed: u64) -> Result<Asked, String> {
    each(seed, Fill::ALL, |random, fill, asked| {
        let store = stores::store(random, fill);
        let mut held = stores::held(random, &store);
        for at in 0..held.image.len() {
            let kept = held.image[at];
            for value in values(fill, at) {
                held.image[at] = value;
                same(judge, &mut held, asked)
                    .map_err(|what| format!("{fill:?} with byte {at} made {value}: {what}"))?;
            }
            held.image[at] = kept;
        }
        Ok(())
    })
}

/// Every pair of such segments, in records by chance.
pub fn pairs_at_words(judge: Judge, seed: u64) -> Result<Asked, String> {
    each(seed, [()], |random, (), asked| {
        for (first, second) in pairs() {
            let mut held = Held { image: encode(&with_both(random, first, second)), memory: [0; MEMORY_BYTES] };
            same(judge, &mut held, asked).map_err(|what| format!("segments at {first:?} and {second:?}: {what}"))?;
        }
        Ok(())
    })
}

fn pairs() -> impl Iterator<Item = (Extent, Extent)> {
    let bases = WORDS.into_iter().flat_map(|word| Beside::ALL.map(|beside| beside.byte_of(word)));
    let extents: Vec<Extent> = bases.flat_map(|base| LENGTHS.map(|length| Extent { base, length })).collect();
    let others = extents.clone();
    extents.into_iter().flat_map(move |first| others.clone().into_iter().map(move |second| (first, second)))
}

/// A store with two segments and no more, in one cluster of a node or in two of them, which have room for sixteen.
fn with_both(random: &mut Random, first: Extent, second: Extent) -> Store {
    let mut store = Store::starting();
    let clusters = &mut store.clusters[below(random, NODES)];
    let at = below(random, CLUSTERS * SEGMENTS);
    let other = (at + 1 + below(random, CLUSTERS * SEGMENTS - 1)) % (CLUSTERS * SEGMENTS);
    for (place, extent) in [(at, first), (other, second)] {
        let cluster = &mut clusters[place / SEGMENTS];
        if !cluster.active {
            *cluster = active_of(random, Width::Sixteen);
        }
        cluster.segments[place % SEGMENTS] = present(extent.base, extent.length);
    }
    store
}

/// Counts the image as sound or not, if both say the same and leave it as it is.
fn same(judge: Judge, held: &mut Held, asked: &mut Asked) -> Result<(), String> {
    let expected = is_sound(held);
    let before = held.image;
    let found = judge(&mut held.image);
    count(asked, expected);
    match found == expected && held.image == before {
        true => Ok(()),
        false => Err(format!("sound is {expected} in the model, {found} in the library")),
    }
}

/// Each stretch in each node, in a cluster of each width, looked at with every argument where it changes: by the
/// primary handle, and by one that is not primary.
pub fn looks(guard: Guard, seed: u64) -> Result<Asked, String> {
    around_segments(guard, seed, Mode::Read, 1, Call::look)
}

/// The same with freezes: by the write primary handle, again, and by one that is not primary.
pub fn freezes(guard: Guard, seed: u64) -> Result<Asked, String> {
    around_segments(guard, seed, Mode::Write, 2, Call::freeze)
}

/// Asked so often by the primary handle of the mode, and then by a weaker one.
fn around_segments(
    guard: Guard,
    seed: u64,
    mode: Mode,
    times: usize,
    call: fn(u32, u32, HandleBytes) -> Call,
) -> Result<Asked, String> {
    let places = (0..NODES).flat_map(|node| STRETCHES.map(|stretch| (node, stretch)));
    let places = places.flat_map(|place| Width::ALL.map(|width| (place, width)));
    each(seed, places, |random, ((node, (base, length)), width), asked| {
        let (local, segment) = (below(random, CLUSTERS), below(random, width.segments()));
        let mut store = Store::starting();
        store.clusters[node][local] = active_of(random, width);
        store.clusters[node][local].segments[segment] = present(base, length);
        let held = stores::held(random, &store);
        let primary = primary(&store, (node, local), mode);
        let weaker = primary.weaken(1 << segment).expect("all are flat");
        // Current nodes and segments: in each row one of the two is right.
        let nodes = around(node, NODES).map(|current| (current, segment));
        let segments = around(segment, width.segments()).map(|other| (node, other));
        for (current, segment) in nodes.chain(segments) {
            let mut sides = Sides::both(held.clone());
            for handle in vec![primary; times].into_iter().chain([weaker]) {
                // At most one of the two is more than four bytes hold.
                let call = call(narrow(current), narrow(segment), handle.to_bytes());
                let question = Question { beyond: current.max(segment), ..Question::of(call) };
                put(guard, &mut sides, &question, asked)
                    .map_err(|what| format!("segment at {base}, {length} bytes: {what}"))?;
            }
        }
        Ok(())
    })
}

/// Everything up to a little above `bound`, what is equal to `right` in its low bytes alone, and the greatest.
pub(crate) fn around(right: usize, bound: usize) -> impl Iterator<Item = usize> {
    (0..bound + 2).chain(HIGH.map(|more| right + more)).chain([usize::MAX])
}
