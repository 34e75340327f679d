//! A row that is not looked at, or another one in its place; arguments that are cut; two copies.

use super::{joined, joins, noting, without, Asked, RIGHT, RIGHTLY};
use crate::words::*;

/// The right rows but these.
fn skipping(rows: Range<usize>) -> Row {
    let right = RIGHT[rows.start].0;
    (joined(without(&rows.collect::<Vec<_>>()), RIGHTLY), joins(right))
}

/// At this place a row with the same number that applies at another time.
fn replaced(at: usize, applies: fn(&Asked) -> bool) -> Wrong {
    let mut rows = RIGHT.to_vec();
    rows[at].1 = applies;
    joined(rows, RIGHTLY)
}

/// The same, where it does not apply as often as it should.
fn other(at: usize, applies: fn(&Asked) -> bool) -> Row {
    (replaced(at, applies), joins(RIGHT[at].0))
}

/// One row more, at the end.
fn one_more(number: u8, applies: fn(&Asked) -> bool) -> Row {
    (joined([&RIGHT[..], &[(number, applies)]].concat(), RIGHTLY), joins(0))
}

// Rows that are not looked at.
table! {
    the_first_length_not_looked_at: skipping(0..1);
    the_second_length_not_looked_at: skipping(1..2);
    no_length_looked_at: skipping(0..2);
    /// Long rows start from a sound store.
    damage_not_looked_at: joined(without(&[2]), RIGHTLY)
        => by(By::Single, [Asks(JOIN), Right(1)]).but_not(By::Runs);
    the_first_place_not_looked_at: skipping(3..4);
    the_second_place_not_looked_at: skipping(4..5);
    no_place_looked_at: skipping(3..5);
    the_mode_not_looked_at: skipping(5..6);
    the_first_gap_not_looked_at: skipping(6..7);
    the_second_gap_not_looked_at: skipping(7..8);
    no_gap_looked_at: skipping(6..8);
    names_not_looked_at: skipping(8..9);
    inactive_not_looked_at: skipping(9..11);
    the_first_width_not_looked_at: skipping(11..12);
    the_second_width_not_looked_at: skipping(12..13);
    no_width_looked_at: skipping(11..13);
    the_first_not_validated: skipping(13..14);
    the_second_not_validated: skipping(14..15);
    neither_validated: skipping(13..15);
    all_of_the_width_given: skipping(15..16);
}

const APART: usize = 8;
const FIRST_WIDTH: usize = 11;
const SECOND_WIDTH: usize = 12;
const SECOND_VIOLATED: usize = 14;
const WHOLE: usize = 15;

/// Two of one width, whatever the cluster's.
fn compared_with_one_another() -> Wrong {
    let mut rows = RIGHT.to_vec();
    rows[FIRST_WIDTH].1 = |it| it.handles[0].width() != it.handles[1].width();
    rows[SECOND_WIDTH].1 = |_| false;
    joined(rows, RIGHTLY)
}

// Other rows, and rows too many.
table! {
    apart_by_the_node_alone: other(APART, |it| it.handles[0].node != it.handles[1].node);
    apart_by_the_local_number_alone: other(APART, |it| it.handles[0].local != it.handles[1].local);
    apart_where_both_differ_alone: other(APART, |it| {
        it.handles[0].node != it.handles[1].node && it.handles[0].local != it.handles[1].local
    });
    apart_by_the_password: other(APART, |it| it.primary(0) != it.primary(1));
    whole_where_one_is_primary_alone: other(WHOLE, |it| it.is_primary(0) || it.is_primary(1));
    whole_where_neither_is_primary_alone: other(WHOLE, |it| it.is_whole() && !it.is_primary(0) && !it.is_primary(1));
    whole_where_the_first_is_not_primary_alone: other(WHOLE, |it| it.is_whole() && !it.is_primary(0));
    whole_where_the_second_is_not_primary_alone: other(WHOLE, |it| it.is_whole() && !it.is_primary(1));
    two_primary_handles_joined: other(WHOLE, |it| it.is_whole() && !(it.is_primary(0) && it.is_primary(1)));
    whole_by_what_both_reference: other(WHOLE, |it| it.referenced()[0] & it.referenced()[1] == it.flat());
    all_but_one_taken_for_all: replaced(WHOLE, |it| it.union().count_ones() + 1 >= it.flat().count_ones()) => joins(0);
    all_of_the_first_eight_taken_for_all:
        replaced(WHOLE, |it| it.union() & it.flat() & 0x00ff == it.flat() & 0x00ff) => joins(0);
    all_of_eight_alone: other(WHOLE, |it| it.is_whole() && it.flat() == 0x00ff);
    the_first_of_two_widths_alone: other(SECOND_WIDTH, |it| it.has_another_width(0) && it.has_another_width(1));
    compared_with_one_another_alone: compared_with_one_another() => joins(25);
    validated_in_the_other_mode_too:
        other(SECOND_VIOLATED, |it| Mode::ALL.iter().all(|mode| !it.handles[1].is_made_from(&it.password(1, *mode))));
    nothing_refused: one_more(21, |it| it.union() == 0);
    itself_refused: one_more(3, |it| it.handles[0] == it.handles[1]);
    what_shares_nothing_refused: one_more(11, |it| it.referenced()[0] & it.referenced()[1] == 0);
    spent_refused: one_more(17, |it| it.handles.iter().any(|handle| handle.selector.first_flat().is_none()));
}

/// Has one of the two handles in this way.
fn cut(at: usize, cut: fn(&mut Handle)) -> Wrong {
    asking(move |question| {
        if question.code() == JOIN {
            change_handle(question.call.presented_mut()[at], cut);
        }
    })
}

fn edge(right: u8) -> Complaint {
    by(By::Joins, [Asks(JOIN), Right(right)])
}

// At the edges.
table! {
    modes_cut_to_six_bytes: cut_to(6) => edge(3);
    a_node_in_its_low_byte_first: cut(0, |handle| handle.node &= 0xff) => edge(2);
    a_node_in_its_low_byte_second: cut(1, |handle| handle.node &= 0xff) => edge(2);
    a_local_number_in_its_low_bits_first: cut(0, |handle| handle.local &= 7) => edge(2);
    a_local_number_in_its_low_bits_second: cut(1, |handle| handle.local &= 7) => edge(2);
}

/// A number that hangs on the passwords of the cluster that the handle names, if it opens it or need not.
fn secret(held: &Held, handle: &Handle, has_to_open: bool) -> u32 {
    let store = decode(&held.image);
    let Some(cluster) = store.and_then(|store| store.cluster_of(handle).copied()) else { return 0 };
    let validates = Mode::ALL.iter().any(|mode| handle.validates(&cluster, *mode));
    let opens = cluster.active && !handle.selector.is_gapped() && validates;
    match opens || !has_to_open {
        true => sum_of(&[cluster.read, cluster.write].concat()),
        false => 0,
    }
}

/// Tells that of these handles in the reply to a join.
fn telling(handles: &'static [usize], has_to_open: bool) -> Wrong {
    after(move |it| {
        if it.question.code() == JOIN {
            let both: Vec<&[u8]> = it.question.call.presented_bytes().collect();
            let meant = handles.iter().filter_map(|at| Handle::from_bytes(both[*at]));
            it.reply.count = meant.map(|handle| secret(it.held, &handle, has_to_open)).sum();
        }
    })
}

// Two copies. A library that tells of a cluster's passwords to those who open it, by the first handle or by the second,
// is not found out: no list presents one that opens the cluster set apart, in either place.
table! {
    all => by(By::Copies, [REPLIES, Asks(JOIN)]);
    /// They validate nowhere, so that lists have them with passwords that would open the cluster.
    by_handles_of_another_width: joined(without(&[11, 12]), RIGHTLY);
    by_any_two_passwords: joined(without(&[13, 14]), RIGHTLY);
    of_the_cluster_that_the_other_handle_names_second:
        joined(without(&[8, 14]), |it| noting(it.handles[1], &it.primary(1), it.union()));
    of_the_cluster_that_the_other_handle_names_first: joined(without(&[8, 13]), RIGHTLY);
    what_is_asked_of_a_handle_is_asked_of_each_of_the_two_first: telling(&[0], false);
    what_is_asked_of_a_handle_is_asked_of_each_of_the_two_second: telling(&[1], false);
    what_is_asked_of_a_handle_is_asked_of_each_of_the_two_open: telling(&[0, 1], true) => not_by([By::FewCopies]);
}
