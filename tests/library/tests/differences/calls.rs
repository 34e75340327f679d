//! Document 01: wrong answers, wrong bytes left, arguments that are cut, batches, two copies, published handles.

use crate::damage::{absent, records};
use crate::words::*;
use library::published;

#[test]
fn the_library_is_not_found_out() {
    run("the library", (right(), not_by([By::Single, By::Runs])));
}

table! {
    another_number: at(14, |it| it.reply.number = 9) => told([REPLIES]);
    another_count: after(|it| it.reply.count = it.reply.count.min(7)) => told([REPLIES]);
    a_refusal_that_gives_a_handle: at(9, |it| it.reply.first = vec![0; 23]) => told([MORE]);
    a_buffer_cleared_behind_the_segment: on(READ, 0, |it| it.buffer[it.reply.length as usize..].fill(0))
        => told([BUFFERS]);
    bytes_read_before_the_refusal: on(READ, 15, |it| it.buffer.fill(0)) => told([REFUSAL_CHANGES, BUFFERS]);
    a_new_segment_with_the_former_bytes: on(NEW_SEGMENT, 0, |it| it.held.memory = it.before.memory.clone())
        => told([MEMORIES]);
    a_write_of_one_byte_too_many: on(WRITE, 0, |it| it.held.memory[MEMORY_BYTES - 1] ^= 1) => told([MEMORIES]);
    a_deleted_cluster_that_keeps_a_password: on(DELETE_CLUSTER, 0, |it| {
        let read = it.record().start + READ_AT;
        it.held.image[read] = it.before.image[read];
    }) => told([IMAGES]);
    a_refusal_that_changes_the_image: at(9, |it| it.held.image[IMAGE_BYTES - 1] ^= 1)
        => told([REFUSAL_CHANGES, IMAGES]);
    a_buffer_that_just_fits_taken_for_short: asked(|held, question| {
        let mut smaller = question.clone();
        smaller.buffer.pop();
        let mut answer = guard::ask(held, &smaller);
        answer.buffer.extend(question.buffer.last());
        answer
    }) => told([REPLIES]);
}

/// Takes an image for another, and leaves it so.
fn imaging(change: fn(&mut Image)) -> Wrong {
    asked(move |held, question| {
        change(&mut held.image);
        guard::ask(held, question)
    })
}

// Damage that is overlooked, and arguments that are cut.
table! {
    any_active_byte_taken_for_active:
        imaging(|image| records(image).for_each(|record| record[0] = record[0].min(1)))
        => by(By::Single, [Says("differ")]);
    bases_of_absent_segments_overlooked: imaging(|image| absent(image).for_each(|place| place[..LENGTH_AT].fill(0)))
        => by(By::Single, [Says("differ")]);
    numbers_cut_to_four_bytes: cut_to(4) => told([REPLIES]);
    numbers_cut_to_six_bytes: cut_to(6) => told([REPLIES]);
    segments_cut_to_one_byte: asking(|question| {
        if let Call::Read { segment, .. } | Call::Write { segment, .. } = &mut question.call {
            *segment &= 0xff;
        }
    }) => told([REPLIES]);
}

/// Modes of one call that are cut: to one byte, and to four where no four bytes hold them.
fn one_byte(code: u8) -> Row {
    let wrong = asking(move |question| match (question.code() == code, question.numbers_mut()) {
        (true, [.., Some(mode)]) => in_one_byte(mode),
        _ => {}
    });
    (wrong, told([REPLIES, Right(3), Asks(code)]))
}

fn four_bytes(code: u8) -> Row {
    (in_four_bytes(code), told([REPLIES, Right(3), Asks(code)]))
}

table! {
    mod modes;
    of_a_reduction_in_one_byte: one_byte(REDUCE);
    of_a_reduction_in_four_bytes: four_bytes(REDUCE);
    of_a_new_password_in_one_byte: one_byte(NEW_PASSWORD);
    of_a_new_password_in_four_bytes: four_bytes(NEW_PASSWORD);
    of_a_join_in_one_byte: one_byte(JOIN);
    of_a_join_in_four_bytes: four_bytes(JOIN);
    of_a_validation_in_one_byte: one_byte(VALIDATION);
    of_a_validation_in_four_bytes: four_bytes(VALIDATION);
    of_a_batch_in_one_byte: batch_taking(|mode, width| (mode & 0xff, width)) => by(By::Batches, [BATCHED]);
    of_a_batch_in_four_bytes: batch_taking(|mode, width| (mode & 0xffff_ffff, width)) => by(By::Batches, [BATCHED]);
}

/// Two copies, batches and published handles, each for its own reason.
mod copies {
    use super::*;

    table! {
        an_answer_that_tells_a_secret: after(|it| {
            it.reply.count = it.held.image.iter().map(|&byte| u32::from(byte)).sum();
        }) => by(By::Copies, [REPLIES]);
        a_cluster_set_apart_that_is_changed: after(|it| it.held.memory[..NODE_BYTES].fill(0))
            => by(By::Copies, [Says("segments set apart")]);
        /// The buffer is cleared, else a read would tell it before the list ends.
        a_secret_byte_kept_elsewhere: after(|it| {
            it.held.memory[NODE_BYTES] = it.held.memory[..NODE_BYTES].iter().fold(0, |sum, byte| sum ^ byte);
            it.buffer.clear();
        }) => by(By::Copies, [Says("memories of the copies differ")]);
        a_batch_that_clears_the_other_places: batch(|held, how, handles, numbers| {
            numbers.fill(0);
            validate_all(held, how, handles, numbers)
        }) => by(By::Batches, [BATCHED]);
        a_batch_that_counts_a_handle_cut_short:
            batch(|held, how, handles, numbers| validate_all(held, how, handles, numbers).max(1))
            => by(By::Batches, [Says("0 are due")]);
    }

    #[test]
    fn a_published_line_with_another_digit() {
        for text in [published::TEXT, published::REGISTERS, published::CUTS] {
            assert!(published::confirm(text).is_ok());
            for line in text.lines().filter(|line| line.contains('=')) {
                let (rest, last) = line.split_at(line.len() - 1);
                let other = if last == "0" { "1" } else { "0" };
                assert!(published::confirm(&format!("{rest}{other}")).is_err(), "{line}");
            }
        }
    }
}
