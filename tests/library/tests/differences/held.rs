//! Handles in 28 bytes: wrong about the length, about what lies behind it, and about bytes that came from elsewhere.

use crate::words::*;
use library::{edges, ffi::gelmuszta_handle, ffi::HANDLE_MAX};

/// Takes the handles for others.
fn taking(change: fn(&Question, &mut HandleBytes)) -> Wrong {
    asked(move |held, question| {
        let mut changed = question.clone();
        for handle in changed.call.presented_mut() {
            change(question, handle);
        }
        guard::ask(held, &changed)
    })
}

/// The first 27 of the 28 bytes.
fn laid(question: &Question, handle: &HandleBytes) -> [u8; HANDLE_MAX] {
    gelmuszta_handle::of(handle, &question.behind).bytes
}

fn by_the_byte_before(question: &Question, handle: &mut HandleBytes) {
    let bytes = laid(question, handle);
    let length = usize::from(bytes[HANDLE_MAX - 1]).min(HANDLE_MAX);
    *handle = bytes[..length].to_vec();
}

fn none_with_bytes_behind(question: &Question, handle: &mut HandleBytes) {
    let bytes = laid(question, handle);
    let behind = bytes.get(handle.len()..).unwrap_or(&[]);
    if behind.iter().any(|byte| *byte != 0) {
        handle.clear();
    }
}

/// By calls with every length byte, and by calls by chance.
fn lengths(word: Word) -> Complaint {
    by(By::Lengths, [word]).and(By::Single, [REPLIES])
}

fn made(words: &'static str) -> Complaint {
    by(By::Handles, [Says(words)])
}

#[test]
fn handles_made_of_bytes() {
    assert_eq!(edges::handles(&guard::handle_of, 7), Ok((601, 3)));
}

table! {
    the_length_in_the_byte_before: taking(by_the_byte_before) => lengths(REPLIES);
    a_length_of_28_taken_for_27: taking(|_, handle| handle.truncate(handle.len() - usize::from(handle.len() == 28)))
        => lengths(Right(25));
    greater_lengths_taken_for_27: taking(|_, handle| handle.truncate(27)) => lengths(Right(25));
    lengths_in_seven_bits: taking(|_, handle| handle.truncate(handle.len() % 128)) => by(By::Lengths, [Right(25)]);
    bytes_behind_the_length_looked_at: taking(none_with_bytes_behind) => lengths(Gives(25));
    handles_given_with_bytes_behind_their_length: after(|it| if !it.reply.first.is_empty() {
        it.reply.first = gelmuszta_handle::of(&it.reply.first, &it.question.behind).told();
    }) => lengths(REPLIES);
    handles_made_of_any_bytes: making(|bytes| (0, gelmuszta_handle::of(&bytes[..bytes.len() % 256], &[0; 27])))
        => made("a handle of 0 bytes: numbers");
    handles_made_with_bytes_behind_them: making(|bytes| match guard::handle_of(bytes) {
        (0, _) => (0, gelmuszta_handle::of(bytes, &[1; HANDLE_MAX])),
        refused => refused,
    }) => made("a handle of 21 bytes: bytes");
    bytes_left_where_no_handle_is_made: making(|bytes| match guard::handle_of(bytes) {
        (0, handle) => (0, handle),
        (number, _) => (number, gelmuszta_handle::of(&[], &[9; HANDLE_MAX])),
    }) => made("a handle of 0 bytes: bytes");
    handles_made_by_the_low_byte_of_the_length: making(|bytes| guard::handle_of(&bytes[..bytes.len() % 256]))
        => made("a handle of 277 bytes: numbers");
    handles_made_of_the_first_27_bytes: making(|bytes| guard::handle_of(&bytes[..bytes.len().min(27)]))
        => made("a handle of 28 bytes: numbers");
}
