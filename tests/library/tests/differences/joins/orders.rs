//! Two numbers in another order, be it for one of the two handles alone, or with one handle judged whole before the
//! other.

use super::{by_rows, joined, Asked, JoinRow, RIGHT, RIGHTLY};
use crate::words::*;

/// Looks at this row before the one that gives `right`.
fn moved(right: u8, wrong: u8, applies: fn(&Asked) -> bool) -> Wrong {
    asked(move |held, question| {
        let given: Option<JoinRow> = Asked::of(held, question).and_then(|asked| {
            let first = RIGHT.iter().find(|(_, applies)| applies(&asked))?;
            (first.0 == right && applies(&asked)).then_some((wrong, applies))
        });
        by_rows(held, question, &[given.as_slice(), &RIGHT].concat(), RIGHTLY)
    })
}

/// The same, found out by the two numbers.
fn before(right: u8, wrong: u8, applies: fn(&Asked) -> bool) -> Row {
    (moved(right, wrong, applies), numbers(JOIN, right, wrong))
}

/// Where the one handle's length is none and the other's is a handle's.
fn no_length(it: &Asked, at: usize) -> bool {
    !it.known[at] && it.known[1 - at]
}

// By single calls: long rows start from a sound store.
table! {
    all => by(By::Single, [Asks(JOIN), Right(25), Gives(1)]);
    unsound_before_lengths_second: moved(25, 1, |it| !it.sound && it.known[0]);
    unsound_before_lengths_first: moved(25, 1, |it| !it.sound && it.known[1]);
}

// Where a length is none, and the other number is not that handle's.
table! {
    mod lengths;
    second_place_before_the_first: before(25, 2, |it| no_length(it, 0) && it.is_nowhere(1));
    first_place_before_the_second: before(25, 2, |it| no_length(it, 1) && it.is_nowhere(0));
    mode_before_the_first: before(25, 3, |it| no_length(it, 0) && it.has_no_mode());
    mode_before_the_second: before(25, 3, |it| no_length(it, 1) && it.has_no_mode());
    second_gap_before_the_first: before(25, 4, |it| no_length(it, 0) && it.is_gapped(1));
    first_gap_before_the_second: before(25, 4, |it| no_length(it, 1) && it.is_gapped(0));
    second_violated_before_the_first: before(25, 9, |it| no_length(it, 0) && it.is_violated(1));
    first_violated_before_the_second: before(25, 9, |it| no_length(it, 1) && it.is_violated(0));
}

// Where both lengths are those of handles.
table! {
    mod widths;
    before_the_mode: before(3, 25, |it| it.has_another_width(0) || it.has_another_width(1));
    first_before_the_second_gap: before(4, 25, |it| it.has_another_width(0) && !it.is_gapped(0));
    second_before_the_first_gap: before(4, 25, |it| it.has_another_width(1) && !it.is_gapped(1));
    first_before_apart: before(24, 25, |it| it.has_another_width(0) && !it.is_inactive(0));
    second_before_apart: before(24, 25, |it| it.has_another_width(1) && !it.is_inactive(1));
    before_inactive: before(8, 25, |it| it.has_another_width(0));
    second_violated_before_the_first:
        before(25, 9, |it| it.known == [true; 2] && it.is_violated(1) && !it.has_another_width(1));
    first_violated_before_the_second:
        before(25, 9, |it| it.known == [true; 2] && it.is_violated(0) && !it.has_another_width(0));
    violated_before_both: before(25, 9, |it| it.known == [true; 2] && it.is_violated(0));
    whole_before_the_width: before(25, 23, |it| it.known == [true; 2] && it.is_whole() && it.has_another_width(1));
}

table! {
    mod places;
    mode: before(2, 3, Asked::has_no_mode);
    mode_before_the_first: before(2, 3, |it| it.has_no_mode() && !it.is_nowhere(1));
    mode_before_the_second: before(2, 3, |it| it.has_no_mode() && !it.is_nowhere(0));
    first_gap_before_the_second: before(2, 4, |it| it.is_gapped(0) && !it.is_nowhere(0));
    second_gap_before_the_first: before(2, 4, |it| it.is_gapped(1) && !it.is_nowhere(1));
    apart: before(2, 24, Asked::are_apart);
    first_inactive_before_the_second: before(2, 8, |it| it.is_inactive(0));
    second_inactive_before_the_first: before(2, 8, |it| it.is_inactive(1));
    first_violated_before_the_second: before(2, 9, |it| it.is_violated(0) && !it.is_nowhere(0));
    second_violated_before_the_first: before(2, 9, |it| it.is_violated(1) && !it.is_nowhere(1));
    whole: before(2, 23, Asked::is_whole);
}

table! {
    mod the_mode;
    first_gap: before(3, 4, |it| it.is_gapped(0) && !it.is_gapped(1));
    second_gap: before(3, 4, |it| it.is_gapped(1) && !it.is_gapped(0));
    apart: before(3, 24, Asked::are_apart);
    inactive: before(3, 8, |it| it.is_inactive(0));
    whole: before(3, 23, Asked::is_whole);
}

table! {
    mod gaps;
    apart_before_the_first: before(4, 24, |it| it.are_apart() && !it.is_gapped(1));
    apart_before_the_second: before(4, 24, |it| it.are_apart() && !it.is_gapped(0));
    inactive_before_the_first: before(4, 8, |it| it.is_inactive(1) && !it.is_gapped(1));
    inactive_before_the_second: before(4, 8, |it| it.is_inactive(0) && !it.is_gapped(0));
    violated_before_the_first: before(4, 9, |it| it.is_violated(1) && !it.is_gapped(1));
    violated_before_the_second: before(4, 9, |it| it.is_violated(0) && !it.is_gapped(0));
    whole: before(4, 23, Asked::is_whole);
}

table! {
    mod names;
    both_inactive: before(24, 8, |it| it.is_inactive(0) && it.is_inactive(1));
    first_inactive: before(24, 8, |it| it.is_inactive(0) && !it.is_inactive(1));
    second_inactive: before(24, 8, |it| it.is_inactive(1) && !it.is_inactive(0));
    first_violated: before(24, 9, |it| it.is_violated(0) && !it.is_violated(1));
    second_violated: before(24, 9, |it| it.is_violated(1) && !it.is_violated(0));
    whole: before(24, 23, Asked::is_whole);
}

table! {
    mod activity_and_passwords;
    first_violated_before_inactive: before(8, 9, |it| it.is_violated(0) && !it.is_violated(1));
    second_violated_before_inactive: before(8, 9, |it| it.is_violated(1) && !it.is_violated(0));
    whole_before_inactive: before(8, 23, Asked::is_whole);
    whole_before_the_first_violated: before(9, 23, |it| it.is_whole() && !it.is_violated(1));
    whole_before_the_second_violated: before(9, 23, |it| it.is_whole() && !it.is_violated(0));
}

/// The rows in this order.
fn in_order(order: [usize; 16]) -> Wrong {
    joined(order.map(|at| RIGHT[at]).to_vec(), RIGHTLY)
}

// One handle judged whole, and then the other, with all that is the call's in its place.
table! {
    all => told([Asks(JOIN)]);
    one_handle_after_the_other_first: in_order([0, 2, 3, 5, 6, 9, 11, 13, 1, 4, 7, 8, 10, 12, 14, 15]);
    one_handle_after_the_other_second: in_order([1, 2, 4, 5, 7, 10, 12, 14, 0, 3, 6, 8, 9, 11, 13, 15]);
}
