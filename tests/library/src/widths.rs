//! Which widths were met: handles and clusters of each in every call, lengths that no handle has, handles of another
//! width than their cluster's, segments about the width, and bits of masks that do not matter.

use crate::words::*;
use model::widths::Sight as Seen;

/// What takes a segment, and what takes a current node or a second handle, which can be nowhere.
const WITH_A_SEGMENT: [u8; 6] = [NEW_SEGMENT, DELETE_SEGMENT, READ, WRITE, FREEZE, LOOK];
const WITH_A_PLACE: [u8; 6] = [DELETE_CLUSTER, NEW_SEGMENT, DELETE_SEGMENT, FREEZE, LOOK, JOIN];
/// What takes a mode or a size.
const WITH_A_FIELD: [u8; 5] = [NEW_SEGMENT, REDUCE, NEW_PASSWORD, JOIN, VALIDATION];

/// 25 at its first place: on a sound store, on one that is not sound, on an image that is damaged.
const FIRST_PLACE: [&str; 3] = ["OnSound", "OnUnsound", "OnDamaged"];

/// Everything that has to be met.
pub fn due() -> Vec<String> {
    let mut due: Vec<String> = Seen::all().map(|seen| format!("widths, {seen:?}")).collect();
    let mut add = |codes: &[u8], what: String| due.extend(codes.iter().map(|code| of(*code, &what)));
    let [with_batches, with_weakening] = [BATCH, WEAKEN].map(|code| [&VALIDATING[..], &[code]].concat());
    for width in Width::ALL {
        add(&[&with_weakening[..], &[BATCH]].concat(), seen(Seen::Done(width)));
        for other in Width::ALL.into_iter().filter(|other| *other != width) {
            add(&with_batches, seen(Seen::Other(width, other)));
        }
        for number in 0..width.segments() {
            add(&WITH_A_SEGMENT, format!("Segment({width:?}, {number})"));
        }
        add(&WITH_A_SEGMENT, format!("NoSegment({width:?}, {})", width.segments()));
    }
    for number in 9..16 {
        add(&WITH_A_SEGMENT, format!("NoSegment({:?}, {number})", Width::Eight));
    }
    for sight in [Seen::OtherMadeFrom, Seen::OtherForged] {
        add(&VALIDATING, seen(sight));
    }
    for place in FIRST_PLACE {
        add(&with_weakening, place.to_string());
    }
    add(&WITH_A_PLACE, no_length_before(NO_SUCH_PLACE));
    add(&WITH_A_FIELD, no_length_before(FIELD));
    due.extend((0..=MOST_BYTES).filter(|length| Width::of_handle_bytes(*length).is_none()).map(of_bytes));
    // Widths that are none, up to a little above the greatest.
    let widths = (0..=20).filter(|width| Width::of_segments(*width).is_none());
    due.extend(widths.map(|width| of_width(NEW_CLUSTER, width)));
    due.extend([NEW_CLUSTER, BATCH].into_iter().flat_map(|code| CUTS.map(|bytes| cut(code, bytes))));
    due
}

/// Bytes that a width may be cut to.
const CUTS: [u32; 3] = [1, 2, 4];

fn of(code: u8, what: &str) -> String {
    format!("widths, {}, {what}", name(code))
}

fn seen(sight: Seen) -> String {
    format!("Seen({sight:?})")
}

/// 25 at its first place, and this number comes later.
fn no_length_before(number: u8) -> String {
    format!("NoLengthBefore({number})")
}

fn of_bytes(length: usize) -> String {
    format!("a handle of {length} bytes")
}

fn of_width(code: u8, width: usize) -> String {
    format!("a {} of width {width}", name(code))
}

fn cut(code: u8, bytes: u32) -> String {
    format!("{} of a width that is right in {bytes} bytes", name(code))
}

/// A width that call 1 or a batch was asked with: itself, and how few of its bytes are one of the three by themselves.
pub fn asked(code: u8, width: usize) -> impl Iterator<Item = String> {
    let is_cut = move |bytes: &u32| {
        let low = width & ((1 << (8 * bytes)) - 1);
        low != width && Width::of_segments(low).is_some()
    };
    CUTS.into_iter().filter(is_cut).map(move |bytes| cut(code, bytes)).chain([of_width(code, width)])
}

/// What a call with this code has met, or a handle of a batch. `held` is what it was put to.
pub fn met(code: u8, held: &Held, question: &Question, answer: &Answer) -> Vec<String> {
    let (call, number) = (&question.call, answer.reply.number);
    let lengths = call.presented_bytes().map(<[u8]>::len).map(of_bytes);
    let sights = sights(held, question, number);
    let mut met: Vec<String> = sights.iter().map(|sight| of(code, sight)).chain(lengths).collect();
    let any = sights.iter().filter_map(|sight| sight.strip_prefix("Seen(")?.strip_suffix(')'));
    met.extend(any.map(|seen| format!("widths, {seen}")));
    if let Call::NewCluster { width, .. } = *call {
        met.extend(asked(code, width));
    }
    met
}

fn sights(held: &Held, question: &Question, number: u8) -> Vec<String> {
    let call = &question.call;
    let known = call.presented().count() == call.presented_bytes().count();
    let Some(store) = decode(&held.image) else {
        let first = number == LENGTH && !known;
        return first.then(|| FIRST_PLACE[2].to_string()).into_iter().collect();
    };
    let found = Found::whole(&store, question.buffer.len());
    let seen = Seen::of(&found, call, number).into_iter().map(self::seen);
    let more = match known {
        false => first_place(call, &found),
        true => segment(call, number).into_iter().collect(),
    };
    seen.chain(more).collect()
}

/// What a call meets that gets 25 at its first place.
fn first_place(call: &Call, found: &Found) -> Vec<String> {
    let put_to = FIRST_PLACE[usize::from(!found.store.is_sound(found.memory_bytes))].to_string();
    let next = refusal_below(LENGTH, call, found).filter(|next| *next != UNSOUND);
    next.map(no_length_before).into_iter().chain([put_to]).collect()
}

/// Done about a segment, and 3 for it.
fn segment(call: &Call, number: u8) -> Option<String> {
    let (segment, width) = (call.segment()? as usize, call.handle()?.width());
    let is_there = segment < width.segments();
    match number {
        DONE => Some(format!("Segment({width:?}, {segment})")),
        FIELD if !is_there => Some(format!("NoSegment({width:?}, {segment})")),
        _ => None,
    }
}
