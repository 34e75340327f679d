//! A list cut into pieces.

use crate::list::{MOST_LIST_BYTES, RECORD_BYTES};
use crate::words::*;

/// A record more than a list has: any list is one piece, and of a longer input `benchrun` reads no more than this.
const SPACE: usize = MOST_LIST_BYTES + RECORD_BYTES;
/// Pieces of these lengths, the last one shorter.
const LENGTHS: [usize; 8] =
    [1, RECORD_BYTES - 1, RECORD_BYTES, RECORD_BYTES + 1, NODE_BYTES - 1, NODE_BYTES, NODE_BYTES + 1, SPACE];
/// Two pieces, with the border here.
const BORDERS: [usize; 6] = [1, RECORD_BYTES, NODE_BYTES, MOST_LIST_BYTES, MOST_LIST_BYTES + 1, SPACE];

/// What the pieces of a list are called, and the pieces.
type Cut<'a> = (String, Vec<&'a [u8]>);

/// Pieces of up to `most` bytes, none of them empty.
pub fn by_chance<'a>(list: &'a [u8], most: usize, random: &mut Random) -> Vec<&'a [u8]> {
    let mut pieces = Vec::new();
    let mut rest = list;
    while !rest.is_empty() {
        let length = 1 + random.below(most as u64) as usize;
        let (piece, more) = rest.split_at(length.min(rest.len()));
        pieces.push(piece);
        rest = more;
    }
    pieces
}

/// The ways in which a list is cut; no piece is empty.
pub fn of<'a>(list: &'a [u8], random: &mut Random) -> Vec<Cut<'a>> {
    let lengths = LENGTHS.into_iter().map(|length| (format!("in pieces of {length}"), list.chunks(length).collect()));
    let borders = BORDERS.into_iter().chain([list.len().saturating_sub(1)]);
    let borders = borders.filter(|border| (1..list.len()).contains(border)).map(|border| {
        let (first, second) = list.split_at(border);
        (format!("cut at {border}"), vec![first, second])
    });
    let chance = [RECORD_BYTES, NODE_BYTES]
        .map(|most| (format!("in pieces by chance, up to {most}"), by_chance(list, most, random)));
    lengths.chain(borders).chain(chance).collect()
}
