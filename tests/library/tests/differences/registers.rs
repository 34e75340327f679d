//! §9, registers: libraries that take a step, a way, an entry, an order or a length for another.

use crate::words::*;
use model::register::{step, Finding, Inquiry, OF_ENTRIES, WIDTH};

type Worked = Result<Handle, u8>;

/// Changes what is found, and what is left in the buffer, which held `before`.
fn then(change: impl Fn(&Inquiry, &[u8], &mut Finding, &mut [u8]) + 'static) -> Wrong {
    finding(move |inquiry, buffer| {
        let before = buffer.to_vec();
        let mut found = guard::look_up(inquiry, buffer);
        change(inquiry, &before, &mut found, buffer);
        found
    })
}

/// The same with what gets this number.
fn getting(number: u8, change: impl Fn(&Inquiry, &[u8], &mut Finding, &mut [u8]) + 'static) -> Wrong {
    then(move |inquiry, before, found, buffer| {
        if found.number == number {
            change(inquiry, before, found, buffer);
        }
    })
}

/// Refuses what is done, where this applies.
fn refusing(number: u8, applies: fn(&Inquiry, &[u8]) -> bool) -> Row {
    let wrong = getting(DONE, move |inquiry, before, found, buffer| {
        if applies(inquiry, before) {
            buffer.copy_from_slice(before);
            *found = Finding::refused(number, 0);
        }
    });
    (wrong, numbers(0, number))
}

/// Takes an inquiry that gets this number for another.
fn taking(number: u8, change: impl Fn(&mut Inquiry) + 'static) -> Wrong {
    getting(number, move |inquiry, before, found, buffer| {
        let mut other = inquiry.clone();
        change(&mut other);
        buffer.copy_from_slice(before);
        *found = guard::look_up(&other, buffer);
    })
}

/// The same of one that is refused, found out where the edges are, too.
fn taken(number: u8, change: impl Fn(&mut Inquiry) + 'static) -> Row {
    (taking(number, change), by(By::Registers, [Right(number)]).and(By::RegisterEdges, [Right(number), Gives(0)]))
}

/// Works entries out in another way, where nothing is to be said of the call as a whole, and tells one of those that
/// fail, each with its number.
fn working_out(
    handle_of: impl Fn(&Inquiry, usize) -> Worked + 'static,
    told: fn(&[(usize, u8)]) -> Option<&(usize, u8)>,
) -> Wrong {
    finding(move |inquiry, buffer| {
        let found = guard::look_up(inquiry, &mut buffer.to_vec());
        if found.number != DONE && !OF_ENTRIES.contains(&found.number) {
            return found;
        }
        let handles: Vec<_> = (1..=inquiry.count()).map(|entry| (entry, handle_of(inquiry, entry))).collect();
        let failing: Vec<_> = handles.iter().filter_map(|(entry, handle)| Some((*entry, handle.err()?))).collect();
        if let Some((entry, number)) = told(&failing) {
            return Finding::refused(*number, *entry);
        }
        let handles = handles.into_iter().filter_map(|(entry, handle)| Some((entry, handle.ok()?)));
        let Some(segment) = inquiry.segment else {
            let given: Vec<u8> = handles.flat_map(|(_, handle)| handle.to_bytes()).collect();
            buffer[..given.len()].copy_from_slice(&given);
            return Finding::done(0);
        };
        let opening = handles.filter(|(_, handle)| handle.selector.references(segment)).map(|(entry, _)| entry);
        give(buffer, opening)
    })
}

fn give(buffer: &mut [u8], openers: impl Iterator<Item = usize>) -> Finding {
    let openers: Vec<u8> = openers.map(|entry| entry as u8).collect();
    buffer[..openers.len()].copy_from_slice(&openers);
    Finding::done(openers.len())
}

/// Takes these steps on a way that reaches the handle supplied.
fn by_masks(masks: fn(&Inquiry, &[usize]) -> Vec<u8>) -> Wrong {
    let handle_of = move |inquiry: &Inquiry, entry| match inquiry.way(entry) {
        (_, Some(number)) => Err(number),
        (way, None) => masks(inquiry, &way).into_iter().try_fold(inquiry.supplied().ok_or(LENGTH)?, step),
    };
    working_out(handle_of, <[_]>::first)
}

/// Refuses entries by their way, where that reaches the handle supplied.
fn by_ways(number: u8, applies: fn(&[usize]) -> bool) -> Row {
    let handle_of = move |inquiry: &Inquiry, entry| match inquiry.way(entry) {
        (way, None) if applies(&way) => Err(number),
        _ => inquiry.handle_of(entry),
    };
    (working_out(handle_of, <[_]>::first), by(By::Registers, [Gives(number)]))
}

/// Takes entries that fail for what this makes of them.
fn failing(other: fn(&Inquiry, &[usize], u8) -> Worked) -> Wrong {
    let handle_of = move |inquiry: &Inquiry, entry| {
        inquiry.handle_of(entry).or_else(|number| other(inquiry, &inquiry.way(entry).0, number))
    };
    working_out(handle_of, <[_]>::first)
}

/// Whether the first of a way fails since the next one does.
fn is_handed_on(inquiry: &Inquiry, way: &[usize]) -> bool {
    way.get(1).is_some_and(|parent| inquiry.handle_of(*parent).is_err())
}

/// Tells another of those that fail.
fn telling(told: fn(&[(usize, u8)]) -> Option<&(usize, u8)>) -> Wrong {
    working_out(Inquiry::handle_of, told)
}

/// Takes other entries for those who open the segment.
fn opening(opens: fn(&Inquiry, usize, usize) -> bool) -> Wrong {
    getting(DONE, move |inquiry, before, found, buffer| {
        if let Some(segment) = inquiry.segment {
            buffer.copy_from_slice(before);
            *found = give(buffer, (1..=inquiry.count()).filter(|entry| opens(inquiry, *entry, segment)));
        }
    })
}

/// Tells `second` of two that apply to the call as a whole, in this order.
fn swapped(first: u8, second: u8) -> Row {
    let wrong = getting(first, move |inquiry, before, found, _| {
        if inquiry.applying(before.len()).any(|number| number == second) {
            found.number = second;
        }
    });
    (wrong, numbers(first, second))
}

/// Found out by the model, which gives `right` where the library gives `wrong`.
fn numbers(right: u8, wrong: u8) -> Complaint {
    by(By::Registers, [Right(right), Gives(wrong)])
}

/// Found out by the model, and by the laws.
fn both(word: Word, law: Word) -> Complaint {
    by(By::Registers, [word]).and(By::RegisterLaws, [law])
}

const DIFFER: Word = Says("differ");
const GIVEN: Word = Says("a handle is not that of a weakening");
const OPENING: Word = Says("those who open a segment do not reference it");
const ALIKE: Word = Says("the two questions are refused otherwise");

// Steps.
table! {
    mod steps;
    all => both(DIFFER, GIVEN);
    the_mask_of_the_next_entry: by_masks(|it, way| {
        way.iter().rev().map(|at| it.entry(at % it.count() + 1).1).collect()
    });
    steps_from_the_entry_upwards: by_masks(|it, way| way.iter().map(|at| it.entry(*at).1).collect());
    the_last_step_left_out: by_masks(|it, way| way[1..].iter().rev().map(|at| it.entry(*at).1).collect());
    one_step_by_what_all_masks_share: by_masks(|it, way| {
        vec![way.iter().fold(255, |mask, at| mask & it.entry(*at).1)]
    });
    converted_where_nothing_is_excluded: getting(DONE, |inquiry, _, _, buffer| if inquiry.segment.is_none() {
        for (entry, handle) in (1..=inquiry.count()).zip(buffer.chunks_mut(WIDTH.handle_bytes())) {
            if inquiry.entry(entry).1 == 255 {
                let converted = guard::convert(handle[3..19].try_into().expect("sixteen bytes"), 255);
                handle[3..19].copy_from_slice(&converted);
            }
        }
    });
}

// Ways.
table! {
    mod ways;
    a_parent_above_taken_for_missing: by_ways(LINK, |way| way.windows(2).any(|two| two[0] < two[1]));
    a_way_of_five_taken_for_spent: by_ways(SPENT, |way| way.len() > 4);
    a_way_of_255_taken_for_a_loop: by_ways(LOOP, |way| way.len() == 255);
    number_255_taken_for_missing: by_ways(LINK, |way| way[1..].contains(&255));
    missing_taken_for_a_loop: getting(LINK, |_, _, found, _| found.number = LOOP) => numbers(19, 20);
    a_loop_taken_for_missing: getting(LOOP, |_, _, found, _| found.number = LINK) => numbers(20, 19);
    a_missing_entry_taken_for_the_handle_supplied:
        failing(|it, way, number| if number == LINK { it.steps(way) } else { Err(number) }) => numbers(19, 0);
    a_tail_into_a_ring_overlooked: failing(|it, way, number| match it.entry(way[way.len() - 1]).0 == way[0] {
        false if number == LOOP => it.steps(way),
        _ => Err(number),
    }) => by(By::Registers, [Right(20)]);
    nothing_referenced_and_the_handle_given_back: failing(|it, way, number| match it.supplied() {
        Some(handle) if number == EMPTY && handle.selector.count() == 0 && way.len() == 1 => Ok(handle),
        _ => Err(number),
    }) => numbers(21, 0);
}

// The entry told, what becomes of those made from it, and what a refusal leaves.
table! {
    mod entries;
    all => by(By::Registers, [Says("the findings differ")]);
    the_highest_that_fails: telling(<[_]>::last);
    the_one_with_the_smallest_number: telling(|failing| failing.iter().min_by_key(|(_, number)| *number));
    the_one_whose_number_is_looked_at_first: telling(|failing| {
        failing.iter().min_by_key(|(_, number)| OF_ENTRIES.iter().position(|own| own == number))
    });
    the_one_at_which_the_way_ends: then(|inquiry, _, found, _| {
        found.entry = inquiry.way(found.entry).0.last().copied().unwrap_or(0);
    });
    counted_from_0: then(|_, _, found, _| found.entry = found.entry.saturating_sub(1));
    told_for_the_call_as_a_whole: getting(SHORT, |_, _, found, _| found.entry = 1);
    told_where_all_is_done: getting(DONE, |inquiry, _, found, _| found.entry = inquiry.count());
    failures_not_handed_on: failing(|it, way, number| {
        if is_handed_on(it, way) { it.steps(&way[..1]) } else { Err(number) }
    });
    failures_handed_on_as_missing: failing(|it, way, number| Err(if is_handed_on(it, way) { LINK } else { number }));
    a_count_told_by_a_refusal: then(|inquiry, _, found, _| if inquiry.segment.is_some() && found.number != DONE {
        found.count = found.entry.saturating_sub(1);
    });
    a_buffer_written_before_a_later_entry_fails: then(|inquiry, _, found, buffer| if found.entry > 1 {
        let below = Inquiry { entries: inquiry.entries[..2 * (found.entry - 1)].to_vec(), ..inquiry.clone() };
        guard::look_up(&below, buffer);
    }) => both(BUFFERS, Says("a refusal gives something"));
    a_buffer_cleared_by_a_refusal: then(|_, _, found, buffer| if found.number != DONE { buffer.fill(0) })
        => by(By::Registers, [BUFFERS]);
}

// Which number comes first.
table! {
    mod orders;
    place_before_length: swapped(LENGTH, NO_SUCH_PLACE);
    field_before_place: swapped(NO_SUCH_PLACE, FIELD);
    gapped_before_place: swapped(NO_SUCH_PLACE, GAPPED);
    gapped_before_field: swapped(FIELD, GAPPED);
    list_length_before_gapped: swapped(GAPPED, LIST_LENGTH);
    short_before_list_length: swapped(LIST_LENGTH, SHORT);
    entries_before_short: getting(SHORT, |inquiry, _, found, _| {
        let mut failing = (1..=inquiry.count()).filter_map(|entry| Some((inquiry.handle_of(entry).err()?, entry)));
        *found = failing.next().map_or(*found, |(number, entry)| Finding::refused(number, entry));
    }) => by(By::Registers, [Right(15)]);
    steps_before_ways: failing(|it, way, number| Err(it.steps(way).err().unwrap_or(number)))
        => by(By::Registers, [Either(&["model: number 19", "model: number 20"])]);
    spent_before_empty: failing(|it, way, number| {
        let spent = |handle: Handle| handle.selector.count() > 0 && handle.selector.first_flat().is_none();
        Err(if number == EMPTY && it.steps(&way[1..]).is_ok_and(spent) { SPENT } else { number })
    }) => numbers(21, 17);
    nothing_left_by_all_masks_before_spent: failing(|it, way, number| {
        let masks = way.iter().fold(255, |mask, at| mask & it.entry(*at).1);
        Err(if number == SPENT && masks == 0 { EMPTY } else { number })
    }) => numbers(17, 21);
}

// Those who open a segment.
table! {
    mod openers;
    all => both(DIFFER, OPENING);
    by_the_mask_alone: opening(|it, entry, segment| it.entry(entry).1 >> segment & 1 == 1);
    by_the_masks_of_the_way_alone: opening(|it, entry, segment| {
        it.way(entry).0.iter().all(|at| it.entry(*at).1 >> segment & 1 == 1)
    });
    by_the_handle_supplied_alone: opening(|it, _, segment| {
        it.supplied().is_some_and(|handle| handle.selector.references(segment))
    });
    in_falling_order: getting(DONE, |_, _, found, buffer| buffer[..found.count].reverse());
    counted_from_0: getting(DONE, |_, _, found, buffer| buffer[..found.count].iter_mut().for_each(|entry| *entry -= 1));
    the_last_one_twice: getting(DONE, |_, _, found, buffer| if (1..buffer.len()).contains(&found.count) {
        buffer[found.count] = buffer[found.count - 1];
        found.count += 1;
    });
    how_many_entries_told: getting(DONE, |inquiry, _, found, _| if inquiry.segment.is_some() {
        found.count = inquiry.count();
    });
}

// Lengths, buffers and segments that are taken for others.
table! {
    mod lengths;
    the_rest_of_the_buffer_cleared: getting(DONE, |inquiry, _, found, buffer| {
        buffer[if inquiry.segment.is_some() { found.count } else { inquiry.needed() }..].fill(0);
    }) => by(By::Registers, [BUFFERS]);
    places_of_all_entries_cleared: getting(DONE, |inquiry, _, found, buffer| if inquiry.segment.is_some() {
        buffer[found.count..inquiry.count()].fill(0);
    }) => by(By::Registers, [BUFFERS]);
    short_by_what_is_given: getting(SHORT, |inquiry, before, found, buffer| {
        let mut room = [before, &vec![0; inquiry.needed()]].concat();
        let given = guard::look_up(inquiry, &mut room);
        if inquiry.segment.is_some() && given.number == DONE && given.count <= before.len() {
            *found = given;
            buffer.copy_from_slice(&room[..before.len()]);
        }
    }) => numbers(15, 0);
    a_buffer_that_just_fits_taken_for_short:
        refusing(SHORT, |inquiry, before| inquiry.count() > 0 && inquiry.needed() == before.len());
    entries_255_refused: refusing(LIST_LENGTH, |inquiry, _| inquiry.count() == 255);
    an_empty_register_refused: refusing(LIST_LENGTH, |inquiry, _| inquiry.entries.is_empty());
    an_empty_register_done_at_once: then(|inquiry, _, found, _| if inquiry.entries.is_empty() {
        *found = Finding::done(0);
    }) => by(By::Registers, [Gives(0)]);
    entries_256_taken: taken(LIST_LENGTH, |it| if it.entries.len() == 512 { it.entries.truncate(510) });
    an_odd_length_taken: taken(LIST_LENGTH, |it| it.entries.truncate(it.entries.len() & !1));
    segment_8_taken: taken(FIELD, |it| it.segment = it.segment.filter(|segment| *segment != 8).or(Some(7)));
    segments_in_one_byte: taken(FIELD, |it| it.segment = it.segment.map(|segment| segment & 0xff));
    segments_in_four_bytes: taken(FIELD, |it| it.segment = it.segment.map(|segment| segment & 0xffff_ffff));
    a_handle_of_21_bytes_taken: taken(LENGTH, |it| if it.handle.len() == 21 { it.handle.resize(23, 0xff) });
    a_handle_of_27_bytes_taken: taken(LENGTH, |it| if it.handle.len() == 27 { it.handle.truncate(23) });
    greater_lengths_of_handles_taken: taken(LENGTH, |it| it.handle.truncate(23));
    nodes_in_one_byte: taking(NO_SUCH_PLACE, |it| it.handle[0] = 0) => by(By::Registers, [Right(2)]);
    gapped_handles_taken_by_one_question: getting(GAPPED, |inquiry, _, found, _| if inquiry.segment.is_some() {
        *found = Finding::done(0);
    }) => both(Right(4), ALIKE);
}
