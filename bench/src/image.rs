//! The text of crates/image in Rust, as far as soundness needs it, and of the images that are measured.

use crate::spans;
use crate::store::{is_width, CLUSTERS, MAP_WORDS, MEMORY, NODES};

pub const IMAGE: usize = 3648;
const RECORD: usize = 114;
const SEGMENT: usize = 5;
const WIDTH_AT: usize = 1;
const READ_AT: usize = 2;
const SEGMENTS_AT: usize = 34;
const MARK_AT: usize = 4;
const BYTE: u16 = 256;

fn word(high: u8, low: u8) -> u16 {
    high as u16 * BYTE + low as u16
}

fn zero(b: &[u8]) -> bool {
    let mut ok = true;
    let mut i: usize = 0;
    while i < b.len() {
        ok = (b[i] == 0) & ok;
        i += 1;
    }
    ok
}

fn claim_segment(b: &[u8], map: &mut [u64]) -> bool {
    let start = word(b[0], b[1]);
    let size = word(b[2], b[3]);
    let mark = b[MARK_AT];
    let base = start as usize;
    let length = size as usize;
    if length == 0 {
        return (base == 0) & (mark == 0);
    }
    let to = base + length;
    (mark <= 1) & spans::mark(map, base, to)
}

fn claim_segments(b: &[u8], count: usize, map: &mut [u64]) -> bool {
    let mut ok = true;
    let mut i: usize = 0;
    while i < count {
        let from = i * SEGMENT;
        let to = from + SEGMENT;
        ok = claim_segment(&b[from..to], map) & ok;
        i += 1;
    }
    ok
}

fn claim_record(b: &[u8], map: &mut [u64]) -> bool {
    let active = b[0];
    if active == 0 {
        return zero(&b[WIDTH_AT..RECORD]);
    }
    if active != 1 {
        return false;
    }
    let width = b[WIDTH_AT] as usize;
    if !is_width(width) {
        return false;
    }
    let above = SEGMENTS_AT + width * SEGMENT;
    zero(&b[above..RECORD]) & claim_segments(&b[SEGMENTS_AT..RECORD], width, map)
}

pub fn sound_in(image: &[u8; IMAGE], size: usize) -> bool {
    let all = &image[..];
    let mut ok = true;
    let mut node: usize = 0;
    while node < NODES {
        let mut map = [0u64; MAP_WORDS];
        let mut taken = true;
        let mut local: usize = 0;
        while local < CLUSTERS {
            let from = (node * CLUSTERS + local) * RECORD;
            let to = from + RECORD;
            taken = claim_record(&all[from..to], &mut map) & taken;
            local += 1;
        }
        ok = taken & ok;
        node += 1;
    }
    (size == MEMORY) & ok
}

/// Where the width of a cluster lies; `n` is the number of its record.
pub fn width_at(n: usize) -> usize {
    n * RECORD + WIDTH_AT
}

/// Where the mark of a segment lies; `n` is the number of its cluster's record.
pub fn mark_at(n: usize, segment: usize) -> usize {
    n * RECORD + SEGMENTS_AT + segment * SEGMENT + MARK_AT
}

/// Every node has `clusters` active clusters of that width, with `segments` segments each, one after the other.
pub fn image_of(clusters: usize, width: u8, segments: usize, length: usize) -> [u8; IMAGE] {
    let mut image = [0; IMAGE];
    for (n, record) in image.chunks_exact_mut(RECORD).enumerate() {
        let local = n % CLUSTERS;
        if clusters <= local {
            continue;
        }
        record[0] = 1;
        record[WIDTH_AT] = width;
        record[READ_AT..SEGMENTS_AT].fill(n as u8 + 1);
        let table = record[SEGMENTS_AT..].chunks_exact_mut(SEGMENT);
        for (i, segment) in table.take(segments).enumerate() {
            let base = (local * segments + i) * length;
            segment[..2].copy_from_slice(&(base as u16).to_be_bytes());
            segment[2..MARK_AT].copy_from_slice(&(length as u16).to_be_bytes());
        }
    }
    image
}
