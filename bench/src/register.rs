//! A register of handles given out, written plainly: what the two questions of the library are measured beside.
//! Each handle is made once, from that of the entry that it was weakened from. A buffer is written last.

use crate::aes;
use crate::handle::{Handle, Weakened, GAPPED, LENGTH, NO_SUCH_PLACE};
use crate::store::{CLUSTERS, NODES};

pub const MOST: usize = 255;
pub const HANDLE: usize = 23;
const SEGMENTS: usize = 8;
const FIELD: u8 = 3;
const SHORT: u8 = 15;
const LIST_LENGTH: u8 = 18;
const LINK: u8 = 19;
const LOOP: u8 = 20;

/// The number of an entry's parent, 0 for the handle supplied, and its mask.
type Entry = [u8; 2];

/// Handles by the numbers of their entries, the one supplied having number 0, and which of them are made.
struct Made {
    handles: [Handle; MOST + 1],
    known: [bool; MOST + 1],
}

impl Made {
    fn from(handle: Handle) -> Made {
        let mut known = [false; MOST + 1];
        known[0] = true;
        Made {
            handles: [handle; MOST + 1],
            known,
        }
    }
}

/// Why a question is refused, and the lowest entry that fails, 0 for the call as a whole.
pub struct Refusal {
    pub number: u8,
    pub entry: usize,
}

fn as_a_whole(number: u8) -> Refusal {
    Refusal { number, entry: 0 }
}

/// The handle supplied and the entries, where nothing is wrong with the call as a whole. An entry needs `each` bytes of
/// the buffer, which has `room`.
fn judged<'a>(
    handle: &[u8],
    segment: usize,
    entries: &'a [u8],
    room: usize,
    each: usize,
) -> Result<(Handle, &'a [Entry]), u8> {
    if handle.len() != HANDLE {
        return Err(LENGTH);
    }
    let handle = Handle::decode(handle);
    if handle.node() >= NODES || usize::from(handle.local) >= CLUSTERS {
        return Err(NO_SUCH_PLACE);
    }
    if segment >= SEGMENTS {
        return Err(FIELD);
    }
    if handle.gapped() {
        return Err(GAPPED);
    }
    let (entries, []) = entries.as_chunks() else {
        return Err(LIST_LENGTH);
    };
    if entries.len() > MOST {
        return Err(LIST_LENGTH);
    }
    if room < entries.len() * each {
        return Err(SHORT);
    }
    Ok((handle, entries))
}

/// Up the way from an entry, until one whose handle is made: how many are met before.
fn climb(
    known: &[bool; MOST + 1],
    entries: &[Entry],
    from: usize,
    way: &mut [u8; MOST],
) -> Result<usize, u8> {
    let (mut at, mut met) = (from, 0);
    while !known[at] {
        if at > entries.len() {
            return Err(LINK);
        }
        if met == entries.len() {
            return Err(LOOP);
        }
        way[met] = at as u8;
        met += 1;
        at = entries[at - 1][0].into();
    }
    Ok(met)
}

/// Makes the handles of all entries; or tells the lowest that fails.
fn work_out(
    made: &mut Made,
    entries: &[Entry],
    weaken: impl Fn(Handle, u16) -> Weakened,
) -> Result<(), Refusal> {
    let mut way = [0; MOST];
    for entry in 1..=entries.len() {
        let refusal = |number| Refusal { number, entry };
        let met = climb(&made.known, entries, entry, &mut way).map_err(refusal)?;
        for at in way[..met].iter().rev().map(|&at| usize::from(at)) {
            let [parent, mask] = entries[at - 1];
            let weaker = weaken(made.handles[usize::from(parent)], mask.into());
            if weaker.number != 0 {
                return Err(refusal(weaker.number));
            }
            made.handles[at] = weaker.handle;
            made.known[at] = true;
        }
    }
    Ok(())
}

/// The first question: the handles of all entries, in order.
pub fn handles(handle: &[u8], entries: &[u8], buffer: &mut [u8]) -> Result<(), Refusal> {
    let (handle, entries) = judged(handle, 0, entries, buffer.len(), HANDLE).map_err(as_a_whole)?;
    let tables = aes::tables();
    let mut made = Made::from(handle);
    work_out(&mut made, entries, |handle, mask| {
        handle.weaken_with(&tables, mask)
    })?;
    let given = &made.handles[1..=entries.len()];
    for (place, handle) in buffer.chunks_exact_mut(HANDLE).zip(given) {
        place.copy_from_slice(handle.encode().held());
    }
    Ok(())
}

/// The second: the numbers of the entries whose handle references a segment, and how many they are.
pub fn openers(
    handle: &[u8],
    segment: usize,
    entries: &[u8],
    buffer: &mut [u8],
) -> Result<usize, Refusal> {
    let (handle, entries) =
        judged(handle, segment, entries, buffer.len(), 1).map_err(as_a_whole)?;
    let mut made = Made::from(handle);
    work_out(&mut made, entries, Handle::weaken_bare)?;
    let given = &made.handles[1..=entries.len()];
    let mut count = 0;
    for (entry, handle) in (1..=MOST as u8).zip(given) {
        if handle.references(segment) {
            buffer[count] = entry;
            count += 1;
        }
    }
    Ok(count)
}
