//! What calls come to where widths matter: handles of each width, of another width than their cluster's and of lengths
//! that no handle has, segments and masks beside the width. What is made by chance has to come to each; lists have one
//! width alone.

use crate::{listed, words::*};

listed! {
    /// A length that no handle has: none at all, too short for any, 20, 22 and 24 to 26, 28, and longer than that.
    pub enum Wrong { Nothing, Short, Twenty, Between, TwentyEight, Long }
}

#[derive(Clone, Copy, Debug, PartialEq, Eq, PartialOrd, Ord)]
pub enum Sight {
    /// A cluster of this width is made.
    Made(Width),
    /// Done, by a handle of this width.
    Done(Width),
    /// Done, about segment 8 or above.
    UpperSegment,
    /// 3 for call 1 by the width alone: 0, another below 16, above, and right in its lowest byte alone.
    NoWidth(u8),
    /// 3 for a segment at or above the handle's width that the cluster has.
    SegmentOfTheCluster,
    /// 25 at its second place for a segment that the cluster does not have and the handle may.
    SegmentOfTheHandle,
    /// 25 at its first place.
    NoLength(Wrong),
    /// The same where the store is not sound.
    NoLengthFirst,
    /// 25 at its second place: the handle's width, and the cluster's.
    Other(Width, Width),
    /// The same with the password that a handle with these subselectors has, and with another.
    OtherMadeFrom,
    OtherForged,
    /// Weakened: done without a bit at or above the width, and with all of them.
    UpperClear,
    UpperSet,
    /// 21 by a mask that has bits at or above the width alone.
    KeptAbove,
}

#[rustfmt::skip]
const OTHERS: [Sight; 9] = [
    Sight::UpperSegment, Sight::SegmentOfTheCluster, Sight::SegmentOfTheHandle, Sight::NoLengthFirst,
    Sight::OtherMadeFrom, Sight::OtherForged, Sight::UpperClear, Sight::UpperSet, Sight::KeptAbove,
];

impl Sight {
    /// Everything that has to be met.
    pub fn all() -> impl Iterator<Item = Sight> {
        let each = Width::ALL.into_iter().flat_map(|width| {
            let others = Width::ALL.into_iter().filter(move |other| *other != width);
            let others = others.map(move |other| Sight::Other(width, other));
            others.chain([Sight::Made(width), Sight::Done(width)])
        });
        let (widths, lengths) = ((0..4).map(Sight::NoWidth), Wrong::ALL.map(Sight::NoLength));
        each.chain(widths).chain(lengths).chain(OTHERS)
    }

    /// What a call that came to `number` has met; `found` is what it was put to.
    pub fn of(found: &Found, call: &Call, number: u8) -> Vec<Sight> {
        if let Call::NewCluster { width, .. } = *call {
            return made(width, number).into_iter().collect();
        }
        let wrong = call.presented_bytes().map(<[u8]>::len).filter_map(wrong);
        let mut sights: Vec<Sight> = wrong.map(Sight::NoLength).collect();
        if !sights.is_empty() {
            let first = !found.store.is_sound(found.memory_bytes);
            sights.extend(first.then_some(Sight::NoLengthFirst));
            return sights;
        }
        let handles = call.presented().filter_map(|handle| Some((handle, found.store.cluster_of(&handle)?)));
        handles.flat_map(|(handle, cluster)| by_handle(call, number, &handle, cluster)).collect()
    }
}

fn made(width: usize, number: u8) -> Option<Sight> {
    match (number, Width::of_segments(width)) {
        (DONE, Some(width)) => Some(Sight::Made(width)),
        (FIELD, _) if width == 0 => Some(Sight::NoWidth(0)),
        (FIELD, _) if width < 16 => Some(Sight::NoWidth(1)),
        (FIELD, _) if Width::of_segments(width & 0xff).is_some() => Some(Sight::NoWidth(3)),
        (FIELD, _) => Some(Sight::NoWidth(2)),
        _ => None,
    }
}

fn wrong(length: usize) -> Option<Wrong> {
    match length {
        21 | 23 | 27 => None,
        0 => Some(Wrong::Nothing),
        1..=19 => Some(Wrong::Short),
        20 => Some(Wrong::Twenty),
        21..=27 => Some(Wrong::Between),
        28 => Some(Wrong::TwentyEight),
        _ => Some(Wrong::Long),
    }
}

/// What a call has met that presents a handle of this cluster.
fn by_handle(call: &Call, number: u8, handle: &Handle, cluster: &Cluster) -> Vec<Sight> {
    let (width, done) = (handle.width(), number == DONE);
    // A call about no segment meets as little here as one about segment 0, and one without a mask as a mask of no bits.
    let segment = call.segment().unwrap_or(0) as usize;
    let mask = if let Call::Weaken { mask, .. } = *call { mask } else { 0 };
    let above = !width.flat();
    let upper = mask & above;
    let own = cluster.known_width().filter(|own| number == LENGTH && *own != width);
    let is_made_from = |mode| handle.is_made_from(cluster.primary(mode));
    let made_from = own.is_some() && call.needed_mode().is_some_and(is_made_from);
    let of_the_cluster = (width.segments()..usize::from(cluster.width)).contains(&segment);
    let sights = [
        (own.is_some(), Sight::Other(width, own.unwrap_or(width))),
        (own.is_some_and(|own| segment >= own.segments()), Sight::SegmentOfTheHandle),
        (made_from, Sight::OtherMadeFrom),
        (own.is_some() && !made_from, Sight::OtherForged),
        (done, Sight::Done(width)),
        (done && segment >= 8, Sight::UpperSegment),
        (done && above != 0 && mask != 0 && upper == 0, Sight::UpperClear),
        (done && above != 0 && upper == above, Sight::UpperSet),
        (number == EMPTY && mask != 0 && upper == mask, Sight::KeptAbove),
        (number == FIELD && of_the_cluster, Sight::SegmentOfTheCluster),
    ];
    sights.into_iter().filter(|(is_met, _)| *is_met).map(|(_, sight)| sight).collect()
}
