//! §3, freezing: wrong marks, wrong bytes beside them, 22 in another place or for other calls, what does not stay.

use crate::words::*;

/// Where the mark of a segment of the same cluster lies, so many further on; the last one's next is the first.
fn mark_of(it: &After, further: usize) -> usize {
    let first = it.record().start + SEGMENTS_AT;
    let at = (it.place().start - first) / SEGMENT_BYTES;
    first + (at + further) % SEGMENTS * SEGMENT_BYTES + MARK_AT
}

/// Leaves another mark, given the one before.
fn mark(mark: fn(u8) -> u8) -> impl Fn(&mut After) {
    move |it| {
        let at = mark_of(it, 0);
        it.held.image[at] = mark(it.before.image[at]);
    }
}

/// Makes every mark of the cluster 0, or 1 where a segment is present.
fn all_marks(it: &mut After, mark: u8) {
    for place in it.record_mut()[SEGMENTS_AT..].chunks_exact_mut(SEGMENT_BYTES) {
        place[MARK_AT] = mark * u8::from(place[LENGTH_AT..MARK_AT] != [0, 0]);
    }
}

fn thaw(it: &mut After) {
    all_marks(it, 0);
}

/// Leaves another image after a call with this code that is done.
fn leaving(code: u8, change: impl Fn(&mut After) + 'static) -> Row {
    (on(code, 0, change), told([Asks(code), IMAGES]))
}

// Other bytes left by a freeze, and marks left or taken away by other calls.
table! {
    mod marks;
    nothing_written: leaving(FREEZE, |it| it.held.image = it.before.image);
    thawed_by_the_second_freeze: leaving(FREEZE, mark(|before| 1 - before));
    another_base: leaving(FREEZE, |it| it.place_mut()[1] ^= 1);
    another_length: leaving(FREEZE, |it| it.place_mut()[3] ^= 1);
    no_place_left: leaving(FREEZE, |it| it.place_mut()[..MARK_AT].fill(0));
    a_mark_of_2: leaving(FREEZE, mark(|_| 2));
    the_neighbour_marked_too: leaving(FREEZE, |it| it.held.image[mark_of(it, 1)] = 1);
    the_neighbour_marked_instead: leaving(FREEZE, |it| {
        it.held.image = it.before.image;
        it.held.image[mark_of(it, 1)] = 1;
    });
    the_same_segment_of_the_next_cluster_marked:
        leaving(FREEZE, |it| it.held.image[(mark_of(it, 0) + RECORD_BYTES) % IMAGE_BYTES] = 1);
    every_segment_of_the_cluster_marked: leaving(FREEZE, |it| all_marks(it, 1));
    a_password_cleared: leaving(FREEZE, |it| it.record_mut()[READ_AT..SEGMENTS_AT].fill(0));
    a_byte_of_the_memory_written: on(FREEZE, 0, |it| it.held.memory[0] ^= 1) => told([Asks(FREEZE), MEMORIES]);
    a_refused_freeze_that_marks: after(|it| it.held.image[IMAGE_BYTES - 1] ^= u8::from(it.is_refused(FREEZE)))
        => told([Asks(FREEZE), REFUSAL_CHANGES, IMAGES]);
    a_new_segment_that_is_frozen: leaving(NEW_SEGMENT, mark(|_| 1));
    a_new_segment_that_thaws_the_others: leaving(NEW_SEGMENT, thaw);
    a_deleted_segment_that_leaves_a_mark: leaving(DELETE_SEGMENT, mark(|_| 1));
    a_deleted_segment_that_thaws_the_others: leaving(DELETE_SEGMENT, thaw);
    a_deleted_cluster_that_leaves_a_mark: leaving(DELETE_CLUSTER, mark(|_| 1));
    a_new_password_that_thaws: leaving(NEW_PASSWORD, thaw);
    a_read_that_thaws: leaving(READ, mark(|_| 0));
    a_write_that_freezes: leaving(WRITE, mark(|_| 1));
    a_reduction_that_thaws: leaving(REDUCE, thaw);
    a_new_cluster_with_a_mark: leaving(NEW_CLUSTER, |it| it.held.image[it.record().end - 1] = 1);
}

fn has_frozen_in_its_node(seen: &Seen) -> bool {
    let node = seen.store.as_ref().map(|store| store.clusters[seen.node as usize]);
    node.is_some_and(|node| node.iter().any(Cluster::has_frozen))
}

// 22 in another place, and where it is none of the call's.
table! {
    before_10_for_call_2: refused(DELETE_CLUSTER, 10, 22, Seen::has_frozen);
    before_9_for_call_2: refused(DELETE_CLUSTER, 9, 22, Seen::has_frozen);
    before_5_for_call_2: refused(DELETE_CLUSTER, 5, 22, Seen::has_frozen);
    before_10_for_call_4: refused(DELETE_SEGMENT, 10, 22, Seen::is_frozen);
    before_9_for_call_4: refused(DELETE_SEGMENT, 9, 22, Seen::is_frozen);
    before_11_for_call_6: refused(WRITE, 11, 22, Seen::is_frozen);
    before_9_for_call_6: refused(WRITE, 9, 22, Seen::is_frozen);
    after_15_for_call_6:
        refused(WRITE, 22, 15, |it| it.there().is_some_and(|there| it.question.buffer.len() < there.len()));
    for_a_second_freeze: refused(FREEZE, 0, 22, Seen::is_frozen);
    for_a_freeze_beside_another: refused(FREEZE, 0, 22, Seen::has_frozen);
    for_a_read: refused(READ, 0, 22, Seen::is_frozen);
    for_a_look: refused(LOOK, 0, 22, Seen::is_frozen);
    for_call_3: refused(NEW_SEGMENT, 13, 22, Seen::is_frozen);
    for_call_3_beside_it: refused(NEW_SEGMENT, 0, 22, Seen::has_frozen);
    for_a_reduction: refused(REDUCE, 0, 22, Seen::has_frozen);
    for_a_new_password: refused(NEW_PASSWORD, 0, 22, Seen::has_frozen);
    for_a_validation: refused(VALIDATION, 0, 22, Seen::has_frozen);
    for_call_4_beside_it: refused(DELETE_SEGMENT, 0, 22, Seen::has_frozen);
    for_call_6_beside_it: refused(WRITE, 0, 22, Seen::has_frozen);
    for_call_2_by_another_cluster: refused(DELETE_CLUSTER, 0, 22, has_frozen_in_its_node);
}

/// At the edges, by a freeze.
fn edge(right: u8, wrong: u8) -> Complaint {
    by(By::Freezes, [Asks(FREEZE), Right(right), Gives(wrong)])
}

// Numbers that a freeze does not look at or has in another order, arguments that are cut, and edges.
table! {
    elsewhere: done(FREEZE, 5, Seen::done_at_home);
    the_mode: done(FREEZE, 9, Seen::done_in_the_other_mode);
    the_password: done(FREEZE, 9, Seen::done_by_the_primary_handle);
    not_primary: done(FREEZE, 10, Seen::done_by_the_primary_handle);
    absent: done(FREEZE, 14, |_| Some(Reply::DONE));
    references: refused(FREEZE, 10, 11, Seen::is_not_referenced);
    elsewhere_for_a_node_above_3: refused(FREEZE, 2, 5, Seen::is_in_no_node);
    field_before_no_such_place: refused(FREEZE, 2, 3, Seen::is_no_segment);
    gapped_before_field: refused(FREEZE, 3, 4, Seen::is_gapped);
    elsewhere_before_gapped: refused(FREEZE, 4, 5, Seen::is_elsewhere);
    inactive_before_elsewhere: refused(FREEZE, 5, 8, Seen::is_inactive);
    violated_before_elsewhere: refused(FREEZE, 5, 9, |it| it.at_home().number == 9);
    violated_before_inactive: refused(FREEZE, 8, 9, |it| !it.handle.is_made_from(&Cluster::INACTIVE.write));
    not_primary_before_violated: refused(FREEZE, 9, 10, Seen::is_not_primary);
    absent_before_violated: refused(FREEZE, 9, 14, Seen::is_absent);
    absent_before_not_primary: refused(FREEZE, 10, 14, Seen::is_absent);
    arguments_in_one_byte_the_node: done(FREEZE, 2, |it| it.done_in_one_byte(0..2));
    arguments_in_one_byte_the_segment: done(FREEZE, 3, |it| it.done_in_one_byte(0..2));
    numbers_cut_to_six_bytes: cut_to(6) => edge(2, 0);
    a_second_freeze_refused_wherever_the_segment_is: refusing(FREEZE, 0, 22, Seen::is_frozen) => edge(0, 22);
}

/// Where the marks of the cluster lie that the question's handle names, if the store is sound and there is such a
/// place.
fn marks_of(held: &Held, question: &Question) -> Vec<usize> {
    let seen = Seen::of(held, question).filter(|seen| is_sound(held) && seen.cluster().is_some());
    let marks = seen.into_iter().flat_map(|seen| {
        let (node, local) = seen.place();
        (0..SEGMENTS).map(move |segment| segment_at(node, local, segment).start + MARK_AT)
    });
    marks.collect()
}

/// Does not see the marks of these segments in calls with this code. Those of segments that are still there afterwards
/// are as they were.
fn blind(code: u8, segments: fn(usize) -> bool) -> Wrong {
    asked(move |held, question| {
        let before = held.image;
        let marks = marks_of(held, question).into_iter().enumerate();
        let meant = |(segment, _): &(usize, usize)| question.code() == code && segments(*segment);
        let marks: Vec<usize> = marks.filter(meant).map(|(_, mark)| mark).collect();
        marks.iter().for_each(|&mark| held.image[mark] = 0);
        let answer = guard::ask(held, question);
        for mark in marks {
            if held.image[mark - MARK_AT + LENGTH_AT..mark] != [0, 0] {
                held.image[mark] = before[mark];
            }
        }
        answer
    })
}

/// A new segment takes room that is a frozen one's: the bytes go and the table stays.
fn on_frozen_bytes() -> Wrong {
    asked(|held, question| {
        let before = held.image;
        let marks = marks_of(held, question).into_iter();
        let (frozen, others): (Vec<usize>, Vec<usize>) = marks.partition(|&mark| before[mark] == 1);
        if question.code() == NEW_SEGMENT && !others.is_empty() {
            frozen.iter().map(|mark| mark - MARK_AT..=*mark).for_each(|place| held.image[place].fill(0));
        }
        let answer = guard::ask(held, question);
        for place in frozen.into_iter().map(|mark| mark - MARK_AT..=mark) {
            held.image[place.clone()].copy_from_slice(&before[place]);
        }
        answer
    })
}

/// By a row in which what is frozen does not stay.
fn lost(code: u8) -> Complaint {
    by(By::Stays, [Says("a frozen segment does not stay"), Asks(code)])
}

/// The same where marks are not seen, and where the model gives 22.
fn unseen(code: u8, segments: fn(usize) -> bool) -> Row {
    let words = [Asks(code), Right(22)];
    (blind(code, segments), lost(code).and(By::Single, words).and(By::Runs, words))
}

// What is frozen and does not stay, found out without the model, too; and freezes in two copies.
table! {
    mod kept;
    forgotten_for_call_2: unseen(DELETE_CLUSTER, |_| true);
    segment_0_alone_looked_at: unseen(DELETE_CLUSTER, |segment| segment > 0);
    segment_0_not_looked_at: unseen(DELETE_CLUSTER, |segment| segment == 0);
    the_last_not_looked_at: unseen(DELETE_CLUSTER, |segment| segment == 15);
    the_last_of_eight_not_looked_at: unseen(DELETE_CLUSTER, |segment| segment == 7);
    the_first_eight_alone_looked_at: unseen(DELETE_CLUSTER, |segment| segment > 7);
    one_in_the_middle_not_looked_at: unseen(DELETE_CLUSTER, |segment| segment == 3);
    forgotten_for_call_4: unseen(DELETE_SEGMENT, |_| true);
    the_upper_half_not_looked_at_for_call_4: unseen(DELETE_SEGMENT, |segment| segment > 7);
    forgotten_for_call_6: unseen(WRITE, |_| true);
    segment_0_alone_looked_at_for_call_6: unseen(WRITE, |segment| segment > 0);
    /// Deleted and made anew, in one call: it comes back without its segments.
    a_cluster_made_anew: on(DELETE_CLUSTER, 22, |it| it.record_mut()[SEGMENTS_AT..].fill(0))
        => lost(DELETE_CLUSTER).and(By::Single, [REFUSAL_CHANGES]);
    /// It is done, as it should be, and nothing is refused from then on.
    thawed_by_the_second_freeze: on(FREEZE, 0, mark(|before| 1 - before)) => lost(FREEZE);
    thawed_by_a_new_password: on(NEW_PASSWORD, 0, thaw) => lost(NEW_PASSWORD);
    a_new_segment_on_frozen_bytes: on_frozen_bytes() => lost(NEW_SEGMENT);
    a_freeze_by_any_password: by_any_password(FREEZE) => by(By::Copies, [Says("records set apart")]);
    /// Whether a freeze leaves a mark hangs on passwords, so that a mark or a later 22 tells of them.
    a_mark_that_hangs_on_a_password: after(|it| {
        let sum = it.before.image.iter().fold(0, |sum: u8, byte| sum ^ byte);
        if it.question.code() == FREEZE && sum.count_ones() % 2 == 1 {
            it.held.image = it.before.image;
        }
    }) => by(By::Copies, [Says("differ")]);
}
