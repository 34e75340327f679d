//! §8, widths: libraries that are wrong in the bytes of a handle, in its length, in the width of its cluster, and in
//! what goes by the width.

mod clusters;
mod handles;
mod lengths;

use crate::words::*;

/// By single calls and by long rows, where the model gives this number.
fn widths(right: u8) -> Complaint {
    told([Right(right)])
}

/// Whether every handle has one of the three lengths.
fn is_known(call: &Call) -> bool {
    call.presented_bytes().map(<[u8]>::len).all(|length| Width::of_handle_bytes(length).is_some())
}

fn is_none(width: usize) -> bool {
    Width::of_segments(width).is_none()
}

/// One width or length taken for another.
fn one<const FROM: usize, const TO: usize>(number: usize) -> usize {
    match number == FROM {
        true => TO,
        false => number,
    }
}

/// Up to the next width that there is.
pub fn up_to_the_next(width: usize) -> usize {
    match width {
        1..=4 => 4,
        5..=8 => 8,
        9..=16 => 16,
        _ => width,
    }
}

/// Gives what `other` has for 25 at its first place; nothing changes then.
fn at_first(other: impl Fn(&Held, &Question) -> Option<u8> + 'static) -> Wrong {
    at(25, move |it| {
        let number = other(it.before, it.question).filter(|_| !is_known(&it.question.call));
        it.reply.number = number.unwrap_or(25);
    })
}

/// Refuses with this number in the place of 25 at its second place, where this applies.
fn at_second(number: u8, applies: impl Fn(&Seen) -> bool + 'static) -> Wrong {
    at(25, move |it| {
        if is_known(&it.question.call) && it.seen().is_some_and(|seen| applies(&seen)) {
            it.reply.number = number;
        }
    })
}
