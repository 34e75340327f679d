//! §10, two cuts and one cut: libraries in which the three ways part, or come together in something wrong.

use crate::nothing::{weakening, Weakened};
use crate::words::*;
use library::published;

/// Found out by a law of the three ways.
fn breaks(law: &'static str) -> Complaint {
    by(By::Cuts, [Says(law)])
}

/// No law speaks of it: found out by the model, in a call of this code.
fn differs(code: u8) -> Complaint {
    by(By::Cuts, [REPLIES, Asks(code)])
}

/// A handle, and how many segments it references.
fn counted(handle: Handle) -> Reply {
    Reply { count: handle.selector.count(), ..Reply::with_handle(&handle) }
}

/// Gives another handle where something is excluded.
fn giving(other: impl Fn(&Weakened) -> Handle + 'static) -> Wrong {
    weakening(move |it| (it.reply.is_done() && !it.excludes_nothing()).then(|| counted(other(it))))
}

/// The handle that is rightly given, changed.
fn changed(it: &Weakened, change: impl Fn(&mut Handle)) -> Handle {
    let mut handle = Handle::from_bytes(&it.reply.first).expect("it is one");
    change(&mut handle);
    handle
}

/// With a subselector made another, and the password converted by that.
fn noting(it: &Weakened, at: usize, part: u16) -> Handle {
    let mut handle = Handle { password: guard::convert(&it.handle.password, part), ..it.handle };
    handle.selector.subselectors[at] = part;
    handle
}

/// Refuses with this number a cut that is done, where this applies.
fn not_done(number: u8, applies: fn(&Weakened) -> bool) -> Wrong {
    weakening(move |it| refused_if(it.reply.is_done() && applies(it), number))
}

/// Replies in another way to a cut that is refused with this number.
fn done_at(number: u8, other: fn(&Weakened) -> Option<Reply>) -> Wrong {
    weakening(move |it| if it.reply.number == number { other(it) } else { None })
}

const ONCE: &str = "one cut is refused where two are done";
const NUMBER: &str = "a cut comes to another number than it must";
const REFERENCES: &str = "a cut handle references other segments";
const NOT_VALID: &str = "a cut handle does not validate";

// Which cuts are done.
table! {
    mod numbers;
    all => breaks(NUMBER);
    more_than_one_segment_at_a_time_refused: not_done(17, |it| it.handle.excluded(it.mask).count_ones() > 1)
        => breaks(ONCE);
    the_last_flat_subselector_left_alone:
        not_done(17, |it| !it.excludes_nothing() && it.handle.selector.first_flat() == Some(3));
    a_handle_that_is_not_primary_refused: not_done(17, |it| !it.handle.selector.is_primary());
    one_segment_left_taken_for_none: not_done(21, |it| it.reply.count == 1);
    spent_before_empty: done_at(21, |it| refused_if(it.is_spent(), 17));
    nothing_left_and_a_handle_given: done_at(21, |it| (!it.is_spent()).then(|| it.to_nothing()));
    bits_above_the_width_taken_for_segments: done_at(21, |it| {
        let above = it.mask & !it.handle.width().flat();
        (above != 0 && !it.is_spent()).then(|| it.to_nothing())
    }) => breaks(ONCE);
    spent_and_the_handle_given_back: done_at(17, |it| Some(counted(it.handle))) => breaks(REFERENCES);
    spent_and_the_last_subselector_written_over: done_at(17, |it| {
        Some(counted(noting(it, 3, it.handle.width().flat() - it.handle.excluded(it.mask))))
    }) => breaks(REFERENCES);
    a_refusal_that_gives_the_handle: done_at(17, |it| Some(Reply { number: 17, ..counted(it.handle) }))
        => breaks("a refusal gives something");
    a_refusal_that_tells_a_count: done_at(21, |_| Some(Reply { count: 1, ..Reply::refused(21) }))
        => breaks("a refusal gives something");
}

// What a cut gives.
table! {
    mod given;
    /// As 243 would become 112: validation and references go with it, and so do the reductions.
    bits_not_referenced_before_cleared: giving(|it| {
        noting(it, it.handle.selector.first_flat().expect("it is done"), it.handle.kept(it.mask))
    }) => differs(WEAKEN);
    /// So that both orders have one selector.
    subselectors_sorted: giving(|it| changed(it, |given| given.selector.subselectors.sort())) => breaks(NOT_VALID);
    what_was_cut_before_given_back: giving(|it| {
        let at = it.handle.selector.first_flat().expect("it is done");
        noting(it, at.saturating_sub(1), it.handle.width().flat() - it.handle.excluded(it.mask))
    }) => breaks(REFERENCES);
    what_the_mask_alone_keeps: giving(|it| changed(it, |given| {
        let flat = given.width().flat();
        given.selector.subselectors = [it.mask & flat, flat, flat, flat];
    })) => breaks(REFERENCES);
    what_the_handle_or_the_mask_keeps: giving(|it| changed(it, |given| {
        let flat = given.width().flat();
        given.selector.subselectors = [(it.handle.selector.referenced() | it.mask) & flat, flat, flat, flat];
    })) => breaks(REFERENCES);
    the_mask_s_low_byte_alone: asking(|question| if let Call::Weaken { mask, .. } = &mut question.call {
        *mask |= 0xff00;
    }) => breaks(REFERENCES);
    bytes_behind_the_length_looked_at: asking(|question| {
        let odd = u16::from(question.behind[26] & 1);
        if let Call::Weaken { mask, .. } = &mut question.call {
            *mask &= !odd;
        }
    }) => breaks(REFERENCES);
    another_local_number: giving(|it| changed(it, |given| given.local ^= 1))
        => breaks("a cut handle has another name or length");
    another_node: giving(|it| changed(it, |given| given.node ^= 1))
        => breaks("a cut handle has another name or length");
    of_eight_always: giving(|it| changed(it, |given| *given = at_width(given, Width::Eight)))
        => breaks("a cut handle has another name or length");
    the_password_not_converted: giving(|it| changed(it, |given| given.password = it.handle.password))
        => breaks(NOT_VALID);
    converted_by_what_is_excluded: giving(|it| changed(it, |given| {
        given.password = guard::convert(&it.handle.password, it.handle.excluded(it.mask));
    })) => breaks(NOT_VALID);
    converted_where_nothing_is_excluded: weakening(|it| (it.reply.is_done() && it.excludes_nothing()).then(|| {
        let handle = changed(it, |given| given.password = guard::convert(&given.password, given.width().flat()));
        Reply { first: handle.to_bytes(), ..it.reply.clone() }
    })) => breaks(NOT_VALID);
    how_many_were_taken_away_told: weakening(|it| it.reply.is_done().then(|| {
        Reply { count: it.handle.excluded(it.mask).count_ones(), ..it.reply.clone() }
    })) => breaks("a cut tells another count");
    how_many_there_were_told: weakening(|it| it.reply.is_done().then(|| {
        Reply { count: it.handle.selector.count(), ..it.reply.clone() }
    })) => breaks("a cut tells another count");
    the_image_changed_by_a_cut: on(WEAKEN, 0, |it| it.held.image[1] ^= 1) => breaks("a call changes image or memory");
    the_image_changed_by_a_refusal: on(WEAKEN, 21, |it| it.held.image[1] ^= 1)
        => breaks("a call changes image or memory");
}

/// Gives another handle for a reduction.
fn reducing(other: impl Fn(&Seen, Handle) -> Handle + 'static) -> Wrong {
    on(REDUCE, 0, move |it| {
        let seen = it.seen().expect("it is done by a handle");
        let right = Handle::from_bytes(&it.reply.first).expect("it is one");
        it.reply.first = other(&seen, right).to_bytes();
    })
}

/// The right subselectors, and the bits that the handle has in common converted on its own password.
fn on_its_own_password(seen: &Seen, right: Handle) -> Handle {
    let common = seen.handle.selector.referenced();
    Handle { password: guard::convert(&seen.handle.password, common), ..right }
}

/// That where this is so, and else what is right.
fn parting(is_so: fn(&Seen) -> bool) -> Wrong {
    reducing(move |seen, right| if is_so(seen) { on_its_own_password(seen, right) } else { right })
}

/// With these subselectors, and the password that goes with them.
fn valid(seen: &Seen, subselectors: [u16; SUBSELECTORS]) -> Handle {
    let Handle { node, local, selector, .. } = seen.handle;
    let primary = seen.primary().expect("it names a mode");
    Handle::converted(node, local, &primary, Selector { subselectors, ..selector })
}

const PART: &str = "the reductions differ";
const REDUCED_TO_OTHERS: &str = "a reduction references other segments";

// What a reduction gives.
table! {
    mod reduced;
    all => breaks(PART);
    made_from_the_handle_s_own_password: reducing(on_its_own_password);
    the_handle_s_own_password_kept: reducing(|seen, right| Handle { password: seen.handle.password, ..right });
    the_handle_itself: reducing(|seen, _| seen.handle);
    subselectors_0_and_1_not_merged: reducing(|seen, right| {
        let ([a, b, c, d], flat) = (seen.handle.selector.subselectors, right.width().flat());
        if b == flat { right } else { valid(seen, [a & c & d, b, flat, flat]) }
    });
    the_last_two_subselectors_not_merged: reducing(|seen, right| {
        let ([a, b, c, d], flat) = (seen.handle.selector.subselectors, right.width().flat());
        if c == flat { right } else { valid(seen, [a & b, c, d, flat]) }
    });
    right_at_width_8_alone: parting(|seen| seen.handle.width() != Width::Eight);
    wrong_at_width_4_alone: parting(|seen| seen.handle.width() == Width::Four);
    wrong_at_width_8_alone: parting(|seen| seen.handle.width() == Width::Eight);
    wrong_at_width_16_alone: parting(|seen| seen.handle.width() == Width::Sixteen);
    right_in_mode_1_alone: parting(|seen| seen.mode() == Some(Mode::Write));
    right_in_mode_2_alone: parting(|seen| seen.mode() == Some(Mode::Read));
    wrong_where_no_subselector_is_flat: parting(|seen| seen.handle.selector.first_flat().is_none());
    wrong_where_one_segment_is_left: parting(|seen| seen.handle.selector.count() == 1);
    what_some_subselector_has: reducing(|seen, right| {
        let flat = right.width().flat();
        let parts = seen.handle.selector.subselectors.into_iter().filter(|part| *part != flat);
        valid(seen, [parts.reduce(|a, b| a | b).unwrap_or(flat), flat, flat, flat])
    }) => breaks(REDUCED_TO_OTHERS);
    subselector_0_alone: reducing(|seen, right| {
        let flat = right.width().flat();
        valid(seen, [seen.handle.selector.subselectors[0], flat, flat, flat])
    }) => breaks(REDUCED_TO_OTHERS);
    all_segments_given_back: reducing(|seen, right| valid(seen, [right.width().flat(); SUBSELECTORS]))
        => breaks(REDUCED_TO_OTHERS);
    another_name: reducing(|_, right| Handle { local: right.local ^ 1, ..right })
        => breaks("a reduction has another name or length");
    always_from_the_read_password: reducing(|seen, right| match seen.cluster() {
        Some(cluster) if !right.selector.is_primary() => {
            Handle { password: guard::convert(&cluster.read, right.selector.subselectors[0]), ..right }
        }
        _ => right,
    }) => breaks("a reduction is not valid, or is reduced to another");
    a_primary_handle_converted: reducing(|_, right| match right.selector.is_primary() {
        true => Handle { password: guard::convert(&right.password, right.width().flat()), ..right },
        false => right,
    }) => breaks("a reduction is not valid, or is reduced to another");
    refused_where_no_subselector_is_flat:
        refusing(REDUCE, 0, 17, |seen| seen.handle.selector.first_flat().is_none())
        => breaks("a cut handle is not reduced");
    the_memory_changed: on(REDUCE, 0, |it| it.held.memory[0] ^= 1) => breaks("a call changes image or memory");
    cut_handles_not_valid: refusing(VALIDATION, 0, 9, |seen| {
        let flat = seen.handle.width().flat();
        seen.handle.selector.subselectors.iter().filter(|part| **part != flat).count() > 1
    }) => breaks("a handle that is valid does not validate");
}

/// Each way is done often, and the library keeps what is claimed of them.
#[test]
fn the_library_keeps_the_laws() {
    let met = library::cuts::compare(&guard::ask, 7, 2_000).expect("they hold");
    assert!(met.count("width 8, Read: Once is done") > 50);
}

/// Any value but the mode and the two masks, of which some bits do not matter; and a count where no way is done.
#[test]
fn a_published_cut_with_another_digit() {
    for line in published::CUTS.lines().filter(|line| line.starts_with("cuts ")) {
        assert!(line.contains(" count=") || published::confirm(&format!("{line} count=1")).is_err());
        let values = line.split(' ').filter(|value| !["cuts", "mode", "first", "second"].contains(&key(value)));
        assert!(values.clone().count() >= 8);
        for value in values {
            let (rest, last) = value.split_at(value.len() - 1);
            let other = format!(" {rest}{}", if last == "4" { "5" } else { "4" });
            let changed = line.replace(&format!(" {value}"), &other);
            assert!(changed != line && published::confirm(&changed).is_err(), "{changed}");
        }
    }
}

fn key(value: &str) -> &str {
    value.split('=').next().unwrap_or(value)
}
