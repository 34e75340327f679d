//! What is wrong in the records of a damaged store.

use super::words::{self, Beside};
use crate::words::*;

/// The numbers that two bytes can hold.
const TWO_BYTES: usize = 1 << 16;

/// Puts something wrong into the cluster at `place`, or makes it what damage to its bytes needs:
/// active, or inactive with nothing in it.
pub fn fault(random: &mut Random, store: &mut Store, damage: Damage, place: (usize, usize), segment: usize) {
    match damage {
        Damage::BaseAbove | Damage::LengthAbove | Damage::EndAbove | Damage::LastByteAndOneMore => {
            let extent = out_of_range(random, store, damage, place.0);
            make_room(store, place.0, extent);
            *segment_of(random, store, place, segment) = present(extent.base, extent.length);
        }
        Damage::OverlapInACluster => overlap(random, store, place, place),
        Damage::OverlapOfClusters => {
            let other = other_cluster(random, place);
            overlap(random, store, place, other);
        }
        Damage::ActiveByteTwo | Damage::ActiveByteAbove => {}
        Damage::AbsentWithBase | Damage::AbsentWithMarkAbove => {
            activated(random, store, place).segments[segment] = Segment::ABSENT;
        }
        Damage::AbsentWithMark => {
            activated(random, store, place).segments[segment] = Segment::ABSENT.marked();
        }
        Damage::MarkTwo | Damage::MarkAbove => present_somewhere(random, store, place, segment),
        Damage::ActiveOfNoWidth => activated(random, store, place).width = 0,
        Damage::ActiveOfAnotherWidth => {
            let other = no_width(random);
            activated(random, store, place).width = other;
        }
        Damage::PresentAtTheWidth | Damage::PresentAboveTheWidth => {
            beyond_the_width(random, store, damage, place);
        }
        _ => match sharing_words(random, damage) {
            Some(extents) => put_both(random, store, extents, place),
            None => inactive_with(random, store, damage, place, segment),
        },
    }
}

fn other_cluster(random: &mut Random, (node, local): (usize, usize)) -> (usize, usize) {
    (node, (local + 1 + below(random, CLUSTERS - 1)) % CLUSTERS)
}

/// The cluster, which is made active if it was not.
fn activated<'a>(random: &mut Random, store: &'a mut Store, (node, local): (usize, usize)) -> &'a mut Cluster {
    let cluster = &mut store.clusters[node][local];
    if !cluster.active {
        *cluster = active(random);
    }
    cluster
}

/// A segment of a cluster, which is made active if it was not, and wide enough.
fn segment_of<'a>(random: &mut Random, store: &'a mut Store, place: (usize, usize), segment: usize) -> &'a mut Segment {
    let cluster = activated(random, store, place);
    if segment >= cluster.width.into() {
        cluster.width = Width::Sixteen.number();
    }
    &mut cluster.segments[segment]
}

/// A byte that is none of the three widths, and not 0.
fn no_width(random: &mut Random) -> u8 {
    loop {
        let width = match random.below(4) {
            0 => below(random, SEGMENTS + 2) as u8,
            1 => 1 << random.below(8),
            2 => [12, 20, 24, 28][below(random, 4)],
            _ => random.byte(),
        };
        if width != 0 && Width::of_segments(width.into()).is_none() {
            return width;
        }
    }
}

/// Makes a segment present whose number is not below the width, of one byte that no other has. Those that the cluster
/// can have stay; one that has sixteen becomes smaller.
fn beyond_the_width(random: &mut Random, store: &mut Store, damage: Damage, place: (usize, usize)) {
    let base = store.place(place.0, 1).unwrap_or(0);
    make_room(store, place.0, Extent { base, length: 1 });
    let frozen = random.one_in(4);
    let smaller = [Width::Four, Width::Eight][below(random, 2)];
    let cluster = activated(random, store, place);
    if cluster.has_width(Width::Sixteen) {
        cluster.width = smaller.number();
        cluster.segments[smaller.segments()..].fill(Segment::ABSENT);
    }
    let width = usize::from(cluster.width);
    let segment = match damage {
        Damage::PresentAtTheWidth => width,
        _ => width + 1 + below(random, SEGMENTS - width - 1),
    };
    cluster.segments[segment] = Segment { frozen, ..present(base, 1) };
}

/// Makes a segment present if it was not, of one byte.
fn present_somewhere(random: &mut Random, store: &mut Store, place: (usize, usize), segment: usize) {
    if segment_of(random, store, place, segment).is_present() {
        return;
    }
    let base = store.place(place.0, 1).unwrap_or(0);
    make_room(store, place.0, Extent { base, length: 1 });
    *segment_of(random, store, place, segment) = present(base, 1);
}

/// Takes away every segment of the node that has a byte of the extent.
fn make_room(store: &mut Store, node: usize, extent: Extent) {
    for segment in store.clusters[node].iter_mut().flat_map(|cluster| &mut cluster.segments) {
        let taken = segment.extent();
        if taken.is_some_and(|taken| taken.base < extent.end() && extent.base < taken.end()) {
            *segment = Segment::ABSENT;
        }
    }
}

/// Base and length of which one is out of range, or only their sum is. Sums that would be small
/// in two bytes are among them.
fn out_of_range(random: &mut Random, store: &Store, damage: Damage, node: usize) -> Extent {
    let free_from = extents(store, node).last().map_or(0, Extent::end);
    match damage {
        Damage::BaseAbove => Extent {
            base: match random.below(3) {
                0 => NODE_BYTES,
                1 => TWO_BYTES - 1,
                _ => NODE_BYTES + below(random, TWO_BYTES - NODE_BYTES),
            },
            length: 1 + below(random, NODE_BYTES),
        },
        Damage::LengthAbove => {
            let base = free_from.min(NODE_BYTES - 1);
            let length = match random.below(4) {
                0 => NODE_BYTES + 1,
                1 => TWO_BYTES - 1,
                2 => (TWO_BYTES - base + below(random, 8)).min(TWO_BYTES - 1),
                _ => NODE_BYTES + 1 + below(random, TWO_BYTES - NODE_BYTES - 1),
            };
            Extent { base, length }
        }
        Damage::LastByteAndOneMore => Extent { base: NODE_BYTES - 1, length: 2 },
        _ => {
            let base = free_from.clamp(1, NODE_BYTES - 1);
            let least = NODE_BYTES - base + 1;
            let more = if random.one_in(2) { 0 } else { below(random, base) };
            Extent { base, length: least + more }
        }
    }
}

/// Makes two segments share bytes, which are often one byte only.
fn overlap(random: &mut Random, store: &mut Store, first: (usize, usize), second: (usize, usize)) {
    let at = below(random, SEGMENTS);
    let other = (at + 1 + below(random, SEGMENTS - 1)) % SEGMENTS;
    let free = gaps(store, first.0);
    let placed = segment_of(random, store, first, at);
    let extent = match (placed.extent(), random.pick(&free)) {
        (Some(extent), _) => extent,
        (None, Some(gap)) => *gap,
        (None, None) => Extent { base: 0, length: 1 },
    };
    *placed = present(extent.base, extent.length);
    let sharing = sharing(random, extent);
    *segment_of(random, store, second, other) = present(sharing.base, sharing.length);
}

/// Bytes of which at least one is the extent's.
fn sharing(random: &mut Random, extent: Extent) -> Extent {
    let Extent { base, length } = extent;
    match random.below(5) {
        0 => extent,
        1 => Extent { base, length: 1 },
        2 => Extent { base: extent.end() - 1, length: 1 + below(random, NODE_BYTES - extent.end() + 1) },
        3 => Extent { base: 0, length: base + 1 },
        _ => Extent { base: base + below(random, length), length: 1 },
    }
}

/// Two extents that share bytes as the damage says.
fn sharing_words(random: &mut Random, damage: Damage) -> Option<[Extent; 2]> {
    match damage {
        Damage::OverlapAtAWord => Some(words::sharing_a_byte(random, Beside::At)),
        Damage::OverlapBeforeAWord => Some(words::sharing_a_byte(random, Beside::Before)),
        Damage::OverlapAfterAWord => Some(words::sharing_a_byte(random, Beside::After)),
        Damage::OverlapInsideWords => Some(words::one_inside(random)),
        Damage::OverlapOfTheNode => Some([Extent { base: 0, length: NODE_BYTES }, words::extent(random)]),
        _ => None,
    }
}

/// Two segments of the node, one of them of the cluster at `place`; nothing else shares their bytes.
fn put_both(random: &mut Random, store: &mut Store, both: [Extent; 2], place: (usize, usize)) {
    for extent in both {
        make_room(store, place.0, extent);
    }
    let [first, second] = if random.one_in(2) { both } else { [both[1], both[0]] };
    let at = below(random, SEGMENTS);
    let other = (at + 1 + below(random, SEGMENTS - 1)) % SEGMENTS;
    let second_place = if random.one_in(2) { place } else { other_cluster(random, place) };
    *segment_of(random, store, place, at) = present(first.base, first.length);
    *segment_of(random, store, second_place, other) = present(second.base, second.length);
}

/// An inactive cluster with one thing left in it, or with nothing.
fn inactive_with(random: &mut Random, store: &mut Store, damage: Damage, place: (usize, usize), segment: usize) {
    let (node, local) = place;
    let mut cluster = Cluster::INACTIVE;
    store.clusters[node][local] = cluster;
    let at = below(random, PASSWORD_BYTES);
    let byte = 1 << random.below(8);
    match damage {
        Damage::InactiveWithReadPassword => cluster.read[at] = byte,
        Damage::InactiveWithWritePassword => cluster.write[at] = byte,
        Damage::InactiveWithSegment => {
            let base = store.place(node, 1).unwrap_or(0);
            cluster.segments[segment] = present(base, 1);
        }
        Damage::InactiveWithMark => cluster.segments[segment].frozen = true,
        Damage::InactiveWithWidth => cluster.width = width(random).number(),
        Damage::InactiveWithAnotherWidth => cluster.width = no_width(random),
        Damage::InactiveWithLastByte => cluster.segments[SEGMENTS - 1].frozen = true,
        _ => {}
    }
    store.clusters[node][local] = cluster;
}
