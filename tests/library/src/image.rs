//! The records of all clusters as the bytes that the header lays out.

use model::words::*;
use std::ops::Range;

pub const WIDTH_AT: usize = 1;
pub const READ_AT: usize = 2;
pub const WRITE_AT: usize = READ_AT + PASSWORD_BYTES;
pub const SEGMENTS_AT: usize = WRITE_AT + PASSWORD_BYTES;
/// Base and length, two bytes each, and the mark.
pub const SEGMENT_BYTES: usize = 5;
pub const LENGTH_AT: usize = 2;
pub const MARK_AT: usize = 4;
pub const RECORD_BYTES: usize = SEGMENTS_AT + SEGMENTS * SEGMENT_BYTES;
pub const IMAGE_BYTES: usize = NODES * CLUSTERS * RECORD_BYTES;

pub type Image = [u8; IMAGE_BYTES];

/// Where a cluster's record lies; its first byte tells whether the cluster is active, and its second the width.
pub fn record_at(node: usize, local: usize) -> Range<usize> {
    let start = (node * CLUSTERS + local) * RECORD_BYTES;
    start..start + RECORD_BYTES
}

/// Where the base, the length and the mark of a segment lie.
pub fn segment_at(node: usize, local: usize, segment: usize) -> Range<usize> {
    let start = record_at(node, local).start + SEGMENTS_AT + segment * SEGMENT_BYTES;
    start..start + SEGMENT_BYTES
}

/// Where a cluster's two passwords lie, read before write.
pub fn passwords_at(node: usize, local: usize) -> Range<usize> {
    let start = record_at(node, local).start;
    start + READ_AT..start + SEGMENTS_AT
}

/// Where a cluster's password for one mode lies.
pub fn password_at(node: usize, local: usize, mode: Mode) -> Range<usize> {
    let start = passwords_at(node, local).start + mode as usize * PASSWORD_BYTES;
    start..start + PASSWORD_BYTES
}

/// The image of a store. A present segment of length zero has none: it is written down all the
/// same, and comes out as an absent segment with a base.
pub fn encode(store: &Store) -> Image {
    let mut image = [0; IMAGE_BYTES];
    for (record, cluster) in image.chunks_exact_mut(RECORD_BYTES).zip(store.clusters.as_flattened()) {
        encode_cluster(cluster, record);
    }
    image
}

fn encode_cluster(cluster: &Cluster, record: &mut [u8]) {
    record[0] = cluster.active.into();
    record[WIDTH_AT] = cluster.width;
    record[READ_AT..WRITE_AT].copy_from_slice(&cluster.read);
    record[WRITE_AT..SEGMENTS_AT].copy_from_slice(&cluster.write);
    for (place, segment) in record[SEGMENTS_AT..].chunks_exact_mut(SEGMENT_BYTES).zip(&cluster.segments) {
        place.copy_from_slice(&encode_segment(segment));
    }
}

fn encode_segment(segment: &Segment) -> [u8; SEGMENT_BYTES] {
    let (base, length) = match segment.place {
        Place::Absent => (0, 0),
        Place::Present { base, length } => (base, length),
    };
    let ([b0, b1], [l0, l1]) = (base.to_be_bytes(), length.to_be_bytes());
    [b0, b1, l0, l1, segment.frozen.into()]
}

/// The store of an image; `None` where a record encodes no cluster. Any byte is a width: whether it may be one is a
/// matter of soundness.
pub fn decode(image: &Image) -> Option<Store> {
    let mut store = Store::starting();
    for (record, cluster) in image.chunks_exact(RECORD_BYTES).zip(store.clusters.as_flattened_mut()) {
        *cluster = decode_cluster(record)?;
    }
    Some(store)
}

/// A byte that tells whether a cluster is active, or a segment frozen.
fn decode_flag(byte: u8) -> Option<bool> {
    match byte {
        0 => Some(false),
        1 => Some(true),
        _ => None,
    }
}

fn decode_cluster(record: &[u8]) -> Option<Cluster> {
    let active = decode_flag(record[0])?;
    let password = |at: usize| Password::try_from(&record[at..at + PASSWORD_BYTES]).ok();
    let mut segments = [Segment::ABSENT; SEGMENTS];
    for (segment, place) in segments.iter_mut().zip(record[SEGMENTS_AT..].chunks_exact(SEGMENT_BYTES)) {
        *segment = decode_segment(place)?;
    }
    Some(Cluster { active, width: record[WIDTH_AT], read: password(READ_AT)?, write: password(WRITE_AT)?, segments })
}

fn decode_segment(bytes: &[u8]) -> Option<Segment> {
    let base = u16::from_be_bytes([bytes[0], bytes[1]]);
    let length = u16::from_be_bytes([bytes[LENGTH_AT], bytes[LENGTH_AT + 1]]);
    let place = match (base, length) {
        (0, 0) => Place::Absent,
        (_, 0) => return None,
        _ => Place::Present { base, length },
    };
    Some(Segment { place, frozen: decode_flag(bytes[MARK_AT])? })
}
