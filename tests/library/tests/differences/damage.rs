//! Damage that is overlooked: libraries that see one kind of it as if it were mended.

use crate::widths::up_to_the_next;
use crate::words::*;

const LAST_RECORD: usize = IMAGE_BYTES - RECORD_BYTES;

/// Sees a damaged store as if it were mended, in calls and in batches.
fn mended(mend: fn(&mut Image)) -> Wrong {
    let seen = move |held: &Held| {
        let mut seen = held.clone();
        mend(&mut seen.image);
        seen
    };
    Wrong {
        ask: Rc::new(move |held, question| match is_sound(held) {
            true => guard::ask(held, question),
            false => guard::ask(&mut seen(held), question),
        }),
        batch: Rc::new(move |held, how, handles, numbers| match is_sound(held) {
            true => validate_all(held, how, handles, numbers),
            false => validate_all(&mut seen(held), how, handles, numbers),
        }),
        ..right()
    }
}

/// By single calls and by batches, where 1 is due.
fn overlooked() -> Complaint {
    by(By::Single, [Right(1)]).and(By::Batches, [BATCHED, Says(": 1 and")])
}

pub fn records(image: &mut Image) -> impl Iterator<Item = &mut [u8]> {
    image.chunks_exact_mut(RECORD_BYTES)
}

fn inactive(image: &mut Image) -> impl Iterator<Item = &mut [u8]> {
    records(image).filter(|record| record[0] == 0)
}

fn places(image: &mut Image) -> impl Iterator<Item = &mut [u8]> {
    records(image).flat_map(|record| record[SEGMENTS_AT..].chunks_exact_mut(SEGMENT_BYTES))
}

pub fn absent(image: &mut Image) -> impl Iterator<Item = &mut [u8]> {
    places(image).filter(|place| place[LENGTH_AT..MARK_AT] == [0, 0])
}

/// The marks of these places, made another.
fn mark<'a>(places: impl Iterator<Item = &'a mut [u8]>, mark: fn(u8) -> u8) {
    places.for_each(|place| place[MARK_AT] = mark(place[MARK_AT]));
}

/// The active records with another width.
fn widths(image: &mut Image, mended: fn(u8) -> u8) {
    for record in records(image).filter(|record| record[0] == 1) {
        record[WIDTH_AT] = mended(record[WIDTH_AT]);
    }
}

/// Takes away what is present in active clusters of this width, from one segment on up to another.
fn clear(image: &mut Image, width: u8, segments: Range<usize>) {
    for record in records(image).filter(|record| record[..READ_AT] == [1, width]) {
        let bytes = SEGMENT_BYTES * segments.start..SEGMENT_BYTES * segments.end;
        record[SEGMENTS_AT..][bytes].fill(0);
    }
}

/// Mends the segments of an image that holds a store; `mend` gets those of the same node as well.
fn segments(image: &mut Image, mend: impl Fn(&mut Segment, &[Extent])) {
    let Some(mut store): Option<Store> = decode(image) else { return };
    for clusters in &mut store.clusters {
        let all = clusters.iter().flat_map(|cluster| cluster.segments);
        let extents: Vec<Extent> = all.filter_map(|segment| segment.extent()).collect();
        for cluster in clusters {
            cluster.segments.iter_mut().for_each(|segment| mend(segment, &extents));
        }
    }
    *image = encode(&store);
}

/// Segments whose first byte is such a byte of a word begin one later.
fn shorten(image: &mut Image, byte_of_a_word: u16) {
    segments(image, |segment, _| match segment.place {
        Place::Present { base, length } if base % 64 == byte_of_a_word => {
            *segment = match length {
                1 => Segment::ABSENT,
                _ => Segment::present(base + 1, length - 1),
            };
        }
        _ => {}
    });
}

/// Takes away the segments that `hidden` is true of, beside some other of their node.
fn hide(image: &mut Image, hidden: fn(Extent, Extent) -> bool) {
    segments(image, |segment, others| {
        let is_hidden = |inner| others.iter().any(|outer| hidden(inner, *outer));
        if segment.extent().is_some_and(is_hidden) {
            *segment = Segment::ABSENT;
        }
    });
}

/// Whether the words of the first lie between those in which the second begins and ends.
fn in_the_midst(inner: Extent, outer: Extent) -> bool {
    let words = |extent: Extent| (extent.base / 64, (extent.end() - 1) / 64);
    words(outer).0 < words(inner).0 && words(inner).1 < words(outer).1
}

table! {
    all => overlooked();
    the_last_record: mended(|image| image[LAST_RECORD..].fill(0));
    an_active_byte_of_2: mended(|image| records(image).for_each(|record| record[0] -= u8::from(record[0] == 2)));
    the_last_byte_of_an_inactive_write_password:
        mended(|image| inactive(image).for_each(|record| record[SEGMENTS_AT - 1] = 0));
    the_passwords_of_an_inactive_cluster:
        mended(|image| inactive(image).for_each(|record| record[READ_AT..SEGMENTS_AT].fill(0)));
    the_last_byte_of_an_inactive_record:
        mended(|image| inactive(image).for_each(|record| record[RECORD_BYTES - 1] = 0));
    the_segments_of_an_inactive_cluster:
        mended(|image| inactive(image).for_each(|record| record[SEGMENTS_AT..].fill(0)));
    the_base_of_an_absent_segment: mended(|image| absent(image).for_each(|place| place[..LENGTH_AT].fill(0)));
    one_byte_behind_the_node: mended(|image| {
        places(image).filter(|place| place[..MARK_AT] == [0x0f, 0xff, 0, 2]).for_each(|place| place[3] = 1);
    });
    a_mark_on_an_absent_segment: mended(|image| mark(absent(image), |mark| mark - u8::from(mark == 1)));
    a_mark_in_an_inactive_cluster: mended(|image| for record in inactive(image) {
        mark(record[SEGMENTS_AT..].chunks_exact_mut(SEGMENT_BYTES), |_| 0);
    });
    a_mark_of_2: mended(|image| mark(places(image), |mark| mark - u8::from(mark == 2)));
    any_mark_taken_for_frozen: mended(|image| mark(places(image), |mark| mark.min(1)));
    any_mark_taken_for_none: mended(|image| mark(places(image), |mark| mark * u8::from(mark < 2)));
    the_marks_of_absent_segments: mended(|image| mark(absent(image), |_| 0));
    a_byte_shared_at_a_word: mended(|image| shorten(image, 0));
    a_byte_shared_before_a_word: mended(|image| shorten(image, 63));
    a_byte_shared_after_a_word: mended(|image| shorten(image, 1));
    a_segment_in_the_midst_of_another: mended(|image| hide(image, in_the_midst));
    a_segment_beside_one_that_is_the_node:
        mended(|image| hide(image, |inner, outer| outer.length == NODE_BYTES && inner != outer));
}

// Widths of records, and segments that are present where there are none.
table! {
    all => overlooked();
    an_inactive_cluster_s_width: mended(|image| inactive(image).for_each(|record| record[WIDTH_AT] = 0));
    one_of_the_three_in_an_inactive_cluster: mended(|image| for record in inactive(image) {
        record[WIDTH_AT] *= u8::from(![4, 8, 16].contains(&record[WIDTH_AT]));
    });
    any_width_taken_for_eight: mended(|image| widths(image, |width| if [4, 16].contains(&width) { width } else { 8 }));
    width_0_taken_for_eight: mended(|image| widths(image, |width| width + 8 * u8::from(width == 0)));
    widths_up_to_the_next: mended(|image| widths(image, |width| up_to_the_next(width.into()) as u8));
    widths_of_whole_fours: mended(|image| widths(image, |width| match width {
        4 | 8 | 16 => width,
        _ if width % 4 == 0 => 16,
        _ => width,
    }));
    the_upper_half_of_a_cluster_of_eight: mended(|image| clear(image, 8, 8..16));
    the_segment_behind_a_cluster_of_eight: mended(|image| clear(image, 8, 8..9));
    what_is_behind_a_cluster_of_four: mended(|image| clear(image, 4, 4..16));
    the_other_four_of_the_first_eight: mended(|image| clear(image, 4, 4..8));
    the_upper_half_of_a_cluster_of_four: mended(|image| clear(image, 4, 8..16));
}

/// Whether the image would be sound, changed in this way.
fn is_sound_with(image: &Image, change: impl FnOnce(&mut Image)) -> bool {
    let mut changed = *image;
    change(&mut changed);
    guard::is_sound(&mut changed)
}

fn lengthen(image: &mut Image) {
    for place in places(image).filter(|place| place[LENGTH_AT..MARK_AT] == [0, 63]) {
        place[3] = 64;
    }
}

// Soundness asked by itself.
table! {
    a_byte_of_an_image: judging(|image| is_sound_with(image, |image| image[IMAGE_BYTES - 1] = 0))
        => by(By::EveryByte, [Says("byte 3647 made")]);
    touching_taken_for_sharing: judging(|image| guard::is_sound(image) && is_sound_with(image, lengthen))
        => by(By::AtWords, [Says("sound is true in the model")]);
    sharing_taken_for_touching:
        judging(|image| guard::is_sound(image) || is_sound_with(image, |image| shorten(image, 0)))
        => by(By::AtWords, [Says("sound is false in the model")]);
}
