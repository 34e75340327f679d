//! Another handle given, one beside a refusal, something changed, and laws that do not hold, found out without the
//! model.

use super::{joined, joins, noting, without, Asked, Given, RIGHT, RIGHTLY};
use crate::words::*;

fn giving(given: Given) -> Wrong {
    joined(RIGHT.to_vec(), given)
}

/// Gives this where the union is all segments of the width, too.
fn for_all(given: Given) -> Wrong {
    joined(without(&[15]), given)
}

/// These segments, rightly converted.
fn segments(it: &Asked, segments: u16) -> HandleBytes {
    noting(it.handles[0], &it.primary(0), segments)
}

/// The right segments, converted from another password.
fn from(it: &Asked, password: Password) -> HandleBytes {
    noting(it.handles[0], &password, it.union())
}

/// The right bytes but for the password, which is the primary one converted by this.
fn converted(it: &Asked, parameter: u16) -> HandleBytes {
    let mut given = RIGHTLY(it);
    given[3..19].copy_from_slice(&guard::convert(&it.primary(0), parameter));
    given
}

/// The right handle, changed.
fn changed(it: &Asked, change: impl Fn(Handle) -> Handle) -> HandleBytes {
    change(Handle::from_bytes(&RIGHTLY(it)).expect("it is one")).to_bytes()
}

/// One of the two comes back where this is so.
fn back(it: &Asked, at: usize, is_so: bool) -> HandleBytes {
    match is_so {
        true => it.handles[at].to_bytes(),
        false => RIGHTLY(it),
    }
}

fn subselectors(it: &Asked, subselectors: impl Fn([u16; 4]) -> [u16; 4]) -> HandleBytes {
    changed(it, |mut given| {
        given.selector.subselectors = subselectors(given.selector.subselectors);
        given
    })
}

fn each_with_its_like(it: &Asked) -> u16 {
    let [one, other] = it.handles.map(|handle| handle.selector.subselectors);
    (0..4).fold(it.flat(), |common, at| common & (one[at] | other[at]))
}

table! {
    all => joins(0);
    what_both_reference: giving(|it| segments(it, it.referenced()[0] & it.referenced()[1]));
    what_one_alone_references: giving(|it| segments(it, it.referenced()[0] ^ it.referenced()[1]));
    what_the_first_references: giving(|it| segments(it, it.referenced()[0]));
    what_the_second_references: giving(|it| segments(it, it.referenced()[1]));
    subselector_0_alone_looked_at: giving(|it| {
        let [one, other] = it.handles.map(|handle| handle.selector.subselectors[0]);
        segments(it, one | other)
    });
    the_second_one_s_subselector_0_alone:
        giving(|it| segments(it, it.referenced()[0] | it.handles[1].selector.subselectors[0]));
    each_subselector_with_its_like: giving(|it| segments(it, each_with_its_like(it)));
    from_the_first_one_s_password: giving(|it| from(it, it.handles[0].password));
    from_the_second_one_s_password: giving(|it| from(it, it.handles[1].password));
    from_the_other_mode_s_password: giving(|it| from(it, it.password(0, it.mode.map_or(Mode::Read, Mode::other))));
    always_from_the_read_password: giving(|it| from(it, it.password(0, Mode::Read)));
    converted_by_what_is_not_referenced: giving(|it| converted(it, it.flat() - it.union()));
    converted_by_the_low_byte_alone: giving(|it| converted(it, it.union() & 0x00ff));
    converted_with_the_low_byte_first: giving(|it| match it.flat() {
        u16::MAX => converted(it, it.union().swap_bytes()),
        _ => RIGHTLY(it),
    });
    not_converted: giving(|it| changed(it, |given| Handle { password: it.primary(0), ..given }));
    converted_twice: giving(|it| from(it, guard::convert(&it.primary(0), it.union())));
    of_eight_always: giving(|it| changed(it, |given| at_width(&given, Width::Eight)));
    of_the_next_width: giving(|it| changed(it, |given| {
        at_width(&given, if given.width() == Width::Four { Width::Eight } else { Width::Sixteen })
    }));
    others_not_flat: giving(|it| subselectors(it, |_| [it.union(); 4]));
    the_last_subselector: giving(|it| subselectors(it, |[a, b, c, d]| [d, c, b, a]));
    no_name: giving(|it| changed(it, |given| Handle { node: 0, local: 0, ..given }));
    the_first_comes_back_where_it_has_all: giving(|it| back(it, 0, it.referenced()[0] == it.union()));
    the_second_comes_back_where_it_has_all: giving(|it| back(it, 1, it.referenced()[1] == it.union()));
    a_handle_comes_back_from_a_join_with_itself: giving(|it| back(it, 0, it.handles[0] == it.handles[1]));
    a_primary_handle_for_all: for_all(|it| {
        let Handle { node, local, selector, .. } = it.handles[0];
        let primary = Handle::primary(selector.width, node, local, it.primary(0));
        if it.is_whole() { primary.to_bytes() } else { RIGHTLY(it) }
    }) => joins(23);
    /// It would open nothing: validation skips flat subselectors.
    a_converted_handle_for_all: for_all(RIGHTLY) => joins(23);
}

/// Leaves this in the place for the handle beside a refusal.
fn beside(number: u8, left: u8) -> Row {
    (on(JOIN, number, move |it| it.reply.first = vec![left; 23]), by(By::Single, [MORE, Asks(JOIN), Right(number)]))
}

const JOIN_CHANGES: Word = Says("a join changes something");

table! {
    something_in_the_place_for_the_handle_at_25: beside(25, 0x00);
    something_in_the_place_for_the_handle_at_1: beside(1, 0x5a);
    something_in_the_place_for_the_handle_at_2: beside(2, 0x5a);
    something_in_the_place_for_the_handle_at_3: beside(3, 0x5a);
    something_in_the_place_for_the_handle_at_4: beside(4, 0x5a);
    something_in_the_place_for_the_handle_at_8: beside(8, 0x5a);
    something_in_the_place_for_the_handle_at_9: beside(9, 0x5a);
    something_in_the_place_for_the_handle_at_23: beside(23, 0xff);
    something_in_the_place_for_the_handle_at_24: beside(24, 0xff);
    a_join_that_changes_something_of_the_image: on(JOIN, 0, |it| it.held.image[1] ^= 1)
        => told([Asks(JOIN), Right(0), JOIN_CHANGES, IMAGES]);
    a_join_that_changes_something_of_the_memory: on(JOIN, 0, |it| it.held.memory[0] ^= 1)
        => told([Asks(JOIN), Right(0), JOIN_CHANGES, MEMORIES]);
    a_join_that_changes_something_and_is_refused: on(JOIN, 23, |it| it.held.image[1] ^= 1)
        => told([Asks(JOIN), Right(23), REFUSAL_CHANGES, IMAGES]);
}

fn breaks(law: &'static str) -> Complaint {
    by(By::Laws, [Says(law), Asks(JOIN)])
}

/// Two handles that differ lose the least segment.
fn a_segment_less(it: &Asked) -> HandleBytes {
    match it.handles[0] == it.handles[1] {
        true => RIGHTLY(it),
        false => segments(it, it.union() & it.union().wrapping_sub(1)),
    }
}

mod laws {
    use super::*;

    #[test]
    fn the_library_keeps_them() {
        let done = library::laws::compare(&guard::ask, 7, 2_000).expect("they hold");
        assert!(done > 100, "{done}");
    }

    table! {
        one_order_refused: after(|it| match &it.question.call {
            Call::Join { handle, other, .. } if handle > other => it.reply = Reply::refused(9),
            _ => {}
        }) => breaks("a join hangs on which handle comes first");
        a_handle_comes_back_from_a_join_with_itself: giving(|it| back(it, 0, it.handles[0] == it.handles[1]))
            => breaks("a handle with itself does not give its reduction");
        all_given_and_converted: for_all(RIGHTLY)
            => breaks("what is given is not valid, or not in the form of a reduced handle");
        a_segment_less: giving(super::a_segment_less) => breaks("what was joined is not in what is given");
        what_both_reference: giving(|it| segments(it, it.referenced()[0] & it.referenced()[1]))
            => breaks("what is given references other segments");
    }
}
