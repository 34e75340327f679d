//! §2, looks: another part shown, a part shown beside a refusal, numbers, arguments, and what a look changes or tells.

use crate::words::*;

/// What a number holds to which nothing was written.
const UNWRITTEN: usize = 0x5a5a_5a5a_5a5a_5a5a;

/// Shows another part: where it begins, and its length.
fn part(other: fn(usize, usize) -> (usize, usize)) -> Wrong {
    on(LOOK, 0, move |it| {
        let (from, length) = other(it.reply.shown.from, it.reply.shown.length);
        it.reply.shown = Part { from, length };
    })
}

table! {
    all => told([Asks(LOOK), REPLIES]);
    one_byte_more: part(|from, length| (from, length + 1));
    one_byte_less: part(|from, length| (from, length - 1));
    one_byte_further: part(|from, length| (from + 1, length));
    the_same_place_of_another_node: part(|from, length| ((from + NODE_BYTES) % MEMORY_BYTES, length));
    always_the_first_node: part(|from, length| (from % NODE_BYTES, length));
    the_whole_node: part(|from, _| (from / NODE_BYTES * NODE_BYTES, NODE_BYTES));
    nothing: part(|_, _| (0, 0));
    no_place_written: part(|_, length| (UNWRITTEN, length));
    no_length_written: part(|from, _| (from, UNWRITTEN));
    arguments_in_four_bytes: in_four_bytes(LOOK);
}

/// Shows what is made of the segment's part beside a refusal with this number.
fn beside(number: u8, other: fn(Part) -> Part) -> Wrong {
    on(LOOK, number, move |it| {
        let seen = it.seen();
        let extent = seen.as_ref().and_then(|seen| seen.own()?.extent());
        let place = extent.zip(seen).map(|(extent, seen)| extent.in_memory(seen.handle.node.into()));
        it.reply.shown = place.map_or(Part::NONE, |place| other(place.into()));
    })
}

/// Leaves an output as it was where the image is damaged, or where its store is not sound.
fn left(damaged: bool, shown: Part) -> Row {
    let left = on(LOOK, 1, move |it| {
        if decode(&it.held.image).is_none() == damaged {
            it.reply.shown = shown;
        }
    });
    (left, by(By::Single, [MORE, Gives(1)]))
}

const FROM: Part = Part { from: UNWRITTEN, length: 0 };
const LENGTH: Part = Part { from: 0, length: UNWRITTEN };

table! {
    the_part_beside_a_refusal_with_9: beside(9, |part| part) => told([Asks(LOOK), MORE]);
    the_part_beside_a_refusal_with_5: beside(5, |part| part) => told([Asks(LOOK), MORE]);
    its_place_alone_beside_a_refusal: beside(9, |part| Part { length: 0, ..part }) => told([Asks(LOOK), MORE]);
    its_length_alone_beside_a_refusal: beside(5, |part| Part { from: 0, ..part }) => told([Asks(LOOK), MORE]);
    an_absent_segment_shown_as_an_empty_part: instead(LOOK, 14, |_| Some(Reply::DONE)) => told([Asks(LOOK), Right(14)]);
    outputs_left_as_they_were_on_damage_place: left(true, FROM);
    outputs_left_as_they_were_on_damage_length: left(true, LENGTH);
    outputs_left_as_they_were_on_damage_unsound_place: left(false, FROM);
    outputs_left_as_they_were_on_damage_unsound_length: left(false, LENGTH);
}

/// By single calls where 1 is due; long rows come to no damage.
fn damage(wrong: u8) -> Complaint {
    by(By::Single, [Asks(LOOK), Right(1), Gives(wrong)])
}

fn with_its_record_alone(seen: &Seen) -> Option<Reply> {
    let (mut store, own) = (Store::starting(), seen.cluster()?);
    let node = &mut store.clusters[usize::from(seen.handle.node)];
    node[usize::from(seen.handle.local)] = own;
    seen.done(|held, _| held.image = encode(&store))
}

// Numbers that are not looked at, that are none of a look's, and in another order; arguments.
table! {
    elsewhere_not_looked_at: done(LOOK, 5, Seen::done_at_home);
    a_write_handle_taken: done(LOOK, 9, Seen::done_in_the_other_mode);
    references_not_looked_at: done(LOOK, 11, Seen::done_by_the_primary_handle);
    short_as_if_it_had_a_buffer_of_no_bytes: refused(LOOK, 0, 15, |_| true);
    primary_handles_alone: refused(LOOK, 0, 10, Seen::is_not_primary);
    elsewhere_for_a_node_above_3: refused(LOOK, 2, 5, Seen::is_in_no_node);
    field_before_no_such_place: refused(LOOK, 2, 3, Seen::is_no_segment);
    gapped_before_field: refused(LOOK, 3, 4, Seen::is_gapped);
    elsewhere_before_gapped: refused(LOOK, 4, 5, Seen::is_elsewhere);
    inactive_before_elsewhere: refused(LOOK, 5, 8, Seen::is_inactive);
    violated_before_elsewhere: refused(LOOK, 5, 9, |it| it.at_home().number == 9);
    violated_before_inactive: refused(LOOK, 8, 9, |it| !it.handle.is_made_from(&Cluster::INACTIVE.read));
    not_referenced_before_violated: refused(LOOK, 9, 11, Seen::is_not_referenced);
    absent_before_violated: refused(LOOK, 9, 14, Seen::is_absent);
    absent_before_not_referenced: refused(LOOK, 11, 14, Seen::is_absent);
    a_place_before_the_store: refusing(LOOK, 1, 2, |it| it.node as usize >= NODES) => damage(2);
    other_records_not_judged: instead(LOOK, 1, with_its_record_alone) => damage(0);
    current_nodes_in_one_byte: done(LOOK, 2, |it| it.done_in_one_byte(0..1));
    segments_in_one_byte: done(LOOK, 3, |it| it.done_in_one_byte(1..2));
    a_whole_node_taken_for_nothing: part(|from, length| (from, length % NODE_BYTES))
        => by(By::Looks, [Says("segment at 0, 4096 bytes")]);
    the_last_byte_of_the_memory_left_out: part(|from, length| (from, length.min(MEMORY_BYTES - 1 - from)))
        => by(By::Looks, [Says("shown 4096 from 12288")]);
    current_nodes_cut_to_six_bytes: cut_to(6) => by(By::Looks, [Right(2)]);
}

const LOOK_CHANGES: Word = Says("a look changes something");

// What a look changes, and what it tells of a cluster set apart.
table! {
    a_look_that_clears_what_it_shows: after(|it| {
        let Part { from, length } = it.reply.shown;
        it.held.memory[from..from + length].fill(0);
    }) => told([Asks(LOOK), LOOK_CHANGES, MEMORIES]);
    a_look_that_changes_the_image: on(LOOK, 0, |it| it.held.image[1] ^= 1) => told([Asks(LOOK), LOOK_CHANGES, IMAGES]);
    a_refused_look_that_changes_the_memory: on(LOOK, 9, |it| it.held.memory[0] ^= 1)
        => told([Asks(LOOK), REFUSAL_CHANGES, MEMORIES]);
    a_look_by_any_password: by_any_password(LOOK) => told([Asks(LOOK), Right(9)]).and(By::Copies, [SHOWN]);
    a_place_that_tells_a_password: on(LOOK, 9, |it| {
        let cluster = it.seen().and_then(|seen| seen.cluster());
        it.reply.shown.from = cluster.map_or(0, |cluster| cluster.read[15].into());
    }) => by(By::Copies, [REPLIES]);
    a_part_that_is_not_of_the_memory: part(|from, length| (from + MEMORY_BYTES, length))
        => by(By::Copies, [Says("not one of the memory")]);
}
