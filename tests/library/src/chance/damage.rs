//! Every way in which a store or its image can be damaged.

use super::faults::fault;
use crate::words::*;

/// The node and the local number of the last record.
pub const LAST_PLACE: (usize, usize) = (NODES - 1, CLUSTERS - 1);

listed! {
    pub enum Damage {
        ActiveByteTwo, ActiveByteAbove,
        /// The image's form of a present segment of length zero.
        AbsentWithBase,
        InactiveWithReadPassword, InactiveWithWritePassword,
        /// The byte before the segments.
        InactiveWithLastPasswordByte,
        InactiveWithBase, InactiveWithSegment,
        /// The last byte of the record: a mark of 1 on its last segment.
        InactiveWithLastByte,
        InactiveWithMark, InactiveWithMarkAbove,
        /// A mark of 1 on an absent segment, and one that is no mark.
        AbsentWithMark, AbsentWithMarkAbove,
        /// On a present segment.
        MarkTwo, MarkAbove,
        /// An active cluster whose width is 0, and one whose width is another that is none of the three.
        ActiveOfNoWidth, ActiveOfAnotherWidth,
        /// An inactive cluster with one of the three, and with another.
        InactiveWithWidth, InactiveWithAnotherWidth,
        /// A segment is present, and its number is the width, or above it.
        PresentAtTheWidth, PresentAboveTheWidth,
        BaseAbove, LengthAbove, EndAbove,
        /// Base 4,095 and length 2.
        LastByteAndOneMore,
        OverlapInACluster, OverlapOfClusters,
        /// One byte is shared, at a multiple of 64; the next two have it beside one.
        OverlapAtAWord, OverlapBeforeAWord, OverlapAfterAWord,
        /// A segment is in the midst of a longer one.
        OverlapInsideWords,
        /// One of the two is the whole node.
        OverlapOfTheNode,
    }
}

/// Damages a sound store, at the cluster of `place` where that makes a difference.
pub fn inflict(random: &mut Random, held: &mut Held, damage: Damage, place: (usize, usize)) {
    let mut store = decode(&held.image).expect("it was sound");
    let segment = below(random, SEGMENTS);
    fault(random, &mut store, damage, place, segment);
    held.image = encode(&store);
    damage_bytes(random, held, damage, place, segment);
}

/// Damage that only an image can hold.
fn damage_bytes(random: &mut Random, held: &mut Held, damage: Damage, (node, local): (usize, usize), segment: usize) {
    let record = record_at(node, local).start;
    let place = &mut held.image[segment_at(node, local, segment)];
    match damage {
        Damage::AbsentWithBase | Damage::InactiveWithBase => {
            let [b0, b1] = base_alone(random).to_be_bytes();
            place.copy_from_slice(&[b0, b1, 0, 0, 0]);
        }
        Damage::MarkTwo => place[MARK_AT] = 2,
        Damage::MarkAbove => place[MARK_AT] = above_two(random),
        Damage::AbsentWithMarkAbove | Damage::InactiveWithMarkAbove => {
            place[MARK_AT] = 2 + random.below(254) as u8;
        }
        Damage::ActiveByteTwo => held.image[record] = 2,
        Damage::ActiveByteAbove => held.image[record] = above_two(random),
        Damage::InactiveWithLastPasswordByte => {
            held.image[record + SEGMENTS_AT - 1] = 1 << random.below(8);
        }
        _ => {}
    }
}

fn above_two(random: &mut Random) -> u8 {
    3 + random.below(253) as u8
}

fn base_alone(random: &mut Random) -> u16 {
    match random.below(3) {
        0 => 1,
        1 => 1 << random.below(16),
        _ => 1 + random.below(u16::MAX.into()) as u16,
    }
}
