//! Handles of another width than their cluster's, 25 at another place than the second, segments by another width,
//! clusters made of another width than they should, and two copies.

use super::{at_second, is_none, one, up_to_the_next, widths};
use crate::words::*;

/// Handles of the first width open clusters of the second where this is so and their passwords are right.
fn opened(opens: impl Fn(usize, usize) -> bool + 'static) -> Wrong {
    asked(move |held, question| {
        let seen = Seen::of(held, question);
        let own = seen.and_then(|seen| Some((seen.handle.name(), seen.primary()?, seen.cluster()?.known_width()?)));
        let Some((name, primary, own)) = own else { return guard::ask(held, question) };
        let fitting = question.with_handles(|handle| {
            let (width, wide) = (handle.width().segments(), own.segments());
            if handle.name() == name && width != wide && opens(width, wide) && handle.is_made_from(&primary) {
                *handle = at_width(handle, own);
                handle.password = derive(&primary, &handle.selector);
            }
        });
        guard::ask(held, &fitting)
    })
}

fn only(widths: (usize, usize)) -> Wrong {
    opened(move |handle, cluster| (handle, cluster) == widths)
}

// The replies differ; the model may have 3, for a segment that the cluster has and the handle has not.
table! {
    mod a_handle_that_opens_a_cluster_of_another_width;
    all => told([REPLIES]).and(By::Segments, [REPLIES]);
    of_8_for_4: only((8, 4));
    of_16_for_4: only((16, 4));
    of_4_for_8: only((4, 8));
    of_16_for_8: only((16, 8));
    of_4_for_16: only((4, 16));
    of_8_for_16: only((8, 16));
    of_any_for_a_wider: opened(|handle, cluster| handle < cluster);
}

/// Has 9 in the place of 25 in calls with this code, or before it.
fn nine(code: u8) -> Wrong {
    at_second(9, move |seen| seen.question.code() == code)
}

fn nine_first(code: u8) -> Wrong {
    at_second(9, move |seen| seen.question.code() == code && seen.is_forged())
}

/// Has 25 in the place of this number in calls with this code.
fn before(code: u8, right: u8) -> Row {
    refused(code, right, 25, Seen::has_another_width)
}

table! {
    nine_instead: at_second(9, |_| true) => widths(25);
    after_9: at_second(9, Seen::is_forged) => widths(25);
    /// The width of an inactive cluster is 0, and so no handle's.
    before_8: at(8, |it| it.reply = Reply::refused(25)) => widths(8);
    before_5: before(LOOK, 5);
    before_4: before(LOOK, 4);
    before_3: before(READ, 3);
    before_5_for_call_2: before(DELETE_CLUSTER, 5);
    before_4_for_call_6: before(WRITE, 4);
    for_call_7: before(WEAKEN, 0);
}

in_one_call! { not_looked_at_by_one_call: nine => widths(25); }
in_one_call! { after_9_in_one_call: nine_first => widths(25); }

// Segments and selectors that go by another width than the handle's.

fn is_named(seen: &Seen) -> bool {
    seen.question.call.segment().is_some()
}

fn is_the_cluster_s(seen: &Seen) -> bool {
    seen.active().is_some_and(|cluster| seen.segment < u32::from(cluster.width))
}

/// There are eight segments at every width.
fn eight(code: u8) -> Row {
    refused(code, 0, 3, |seen| seen.segment >= 8)
}

/// What is told of a segment beyond the width that the record has room for.
fn room_for_more(number: u8, width: Width, room: u32) -> Row {
    refused(READ, 3, number, move |seen| {
        let meant = seen.handle.width() == width && seen.segment < room;
        meant && seen.active().is_some() && !seen.has_another_width() && !seen.is_forged() && !seen.is_gapped()
    })
}

/// Gapped as it would be with another flat number.
fn is_gapped_by_255(seen: &Seen) -> bool {
    let mut pairs = seen.handle.selector.subselectors.windows(2);
    pairs.any(|pair| pair[0] == 0x00ff && pair[1] != 0x00ff) && seen.handle.width() == Width::Sixteen
}

table! {
    segments_by_the_cluster_s_width_beyond: at(3, |it| {
        let beyond = |seen: &Seen| seen.is_no_segment() && seen.has_another_width() && is_the_cluster_s(seen);
        if it.seen().is_some_and(|seen| is_named(&seen) && beyond(&seen)) {
            it.reply = Reply::refused(25);
        }
    }) => widths(3);
    segments_by_the_cluster_s_width_below: at_second(3, |seen| is_named(seen) && !is_the_cluster_s(seen)) => widths(25);
    segments_above_eight_refused_read: eight(READ);
    segments_above_eight_refused_write: eight(WRITE);
    segments_above_eight_refused_look: eight(LOOK);
    segments_above_eight_refused_freeze: eight(FREEZE);
    segments_above_eight_refused_new_segment: eight(NEW_SEGMENT);
    segments_above_eight_refused_delete_segment: eight(DELETE_SEGMENT);
    segments_of_a_wider_cluster_taken_of_eight: room_for_more(11, Width::Eight, 16);
    segments_of_a_wider_cluster_taken_of_four: room_for_more(11, Width::Four, 8);
    segments_of_a_wider_cluster_taken_looked_for: room_for_more(14, Width::Eight, 16);
    flat_at_another_width_gapped: refused(VALIDATION, 0, 4, is_gapped_by_255);
    flat_at_another_width_primary:
        refused(NEW_PASSWORD, 0, 10, |seen| seen.handle.selector.subselectors != [0x00ff; 4]);
}

// Clusters that are made of another width than they should, or that do not keep it.

/// Takes the width of call 1 in this way.
fn made(taken: fn(usize) -> usize) -> Wrong {
    asking(move |question| {
        if let Call::NewCluster { width, .. } = &mut question.call {
            *width = taken(*width);
        }
    })
}

/// Has `wrong` in the place of `right` for call 1, where that applies as well.
fn call_1(right: u8, wrong: u8) -> Row {
    let library = on(NEW_CLUSTER, right, move |it| {
        let Call::NewCluster { width, read, write, .. } = it.question.call else { return };
        let (node, local) = it.cluster();
        let applies = match wrong {
            3 => is_none(width),
            7 => read == write,
            _ => node < NODES && local < CLUSTERS && it.held.image[it.record().start] == 1,
        };
        if applies {
            it.reply = Reply::refused(wrong);
        }
    });
    (library, numbers(NEW_CLUSTER, right, wrong))
}

/// Leaves another width: it gets the one that is left and the one before.
fn leaving(code: u8, left: fn(u8, u8) -> u8) -> Wrong {
    on(code, 0, move |it| {
        let at = it.record().start + WIDTH_AT;
        it.held.image[at] = left(it.held.image[at], it.before.image[at]);
    })
}

// Where it is taken, 6 or 7 may be next.
table! {
    mod any_width_taken;
    all => told([Asks(NEW_CLUSTER), Right(3)]).and(By::NewClusters, [Asks(NEW_CLUSTER), Right(3), Gives(0)]);
    none_for_8: made(|width| if is_none(width) { 8 } else { width });
    of_0_for_8: made(one::<0, 8>);
    up_to_the_next: made(super::up_to_the_next);
    cut_to_16: made(|width| width.min(16));
    in_one_byte: made(|width| width & 0xff);
    in_two_bytes: made(|width| width & 0xffff);
    in_four_bytes: made(|width| width & 0xffff_ffff);
    of_12_for_16: made(one::<12, 16>);
    of_2_for_4: made(one::<2, 4>);
}

table! {
    a_width_refused_4: made(one::<4, 0>) => told([Asks(NEW_CLUSTER), Gives(3)]);
    a_width_refused_8: made(one::<8, 0>) => told([Asks(NEW_CLUSTER), Gives(3)]);
    a_width_refused_16: made(one::<16, 0>) => told([Asks(NEW_CLUSTER), Gives(3)]);
    at_another_place_before_2: call_1(2, 3);
    at_another_place_after_6: call_1(3, 6);
    at_another_place_after_7: call_1(3, 7);
    another_width_left_new: leaving(NEW_CLUSTER, |_, before| before) => told([IMAGES]);
    another_width_left_new_8: leaving(NEW_CLUSTER, |_, _| 8) => told([IMAGES]);
    another_width_left_deleted: leaving(DELETE_CLUSTER, |_, before| before) => told([IMAGES]);
    another_width_left_new_password: leaving(NEW_PASSWORD, |_, _| 8) => told([IMAGES]);
    another_width_left_new_segment: leaving(NEW_SEGMENT, |left, _| left.max(8)) => told([IMAGES]);
    another_width_left_deleted_segment: leaving(DELETE_SEGMENT, |left, _| left.min(8)) => told([IMAGES]);
    handles_of_another_width_given_first: on(NEW_CLUSTER, 0, |it| it.reply.first.truncate(21)) => widths(0);
    handles_of_another_width_given_second: on(NEW_CLUSTER, 0, |it| it.reply.second.resize(27, 0xff)) => widths(0);
}

/// Tells something of a password of the handle's cluster with 25 at its second place.
fn telling(mode: Mode) -> Wrong {
    at(25, move |it| {
        if let Some(cluster) = it.seen().and_then(|seen| seen.cluster()) {
            it.reply.count = cluster.primary(mode)[0].into();
        }
    })
}

/// The width of a new cluster hangs on what lies in its node.
fn hanging() -> Wrong {
    on(NEW_CLUSTER, 0, |it| {
        let (node, _) = it.cluster();
        let memory = &it.held.memory[NODE_BYTES * node..][..NODE_BYTES];
        if memory.iter().fold(0, |sum, byte| sum ^ byte) % 2 == 1 {
            it.held.image[it.record().start + WIDTH_AT] = 16;
        }
    })
}

// Two copies: a handle of another width than its cluster's does not validate, so that lists present it with passwords
// that would open the cluster.
table! {
    a_handle_of_another_width_that_opens_the_cluster: opened(|_, _| true)
        => by(By::Copies, []).and(By::Writers, [Says("differ")]);
    a_handle_of_another_width_that_opens_the_cluster_of_4: only((8, 4)) => by(By::Copies, []);
    a_password_told_where_the_width_is_another_read: telling(Mode::Read)
        => by(By::Copies, [REPLIES]).and(By::Writers, [REPLIES]);
    a_password_told_where_the_width_is_another_write: telling(Mode::Write)
        => by(By::Copies, [REPLIES]).but_not(By::Writers);
    a_width_that_hangs_on_what_lies_there: hanging() => by(By::Writers, [RECORDS]);
}
