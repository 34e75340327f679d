//! Selectors laid out in another way, passwords converted by another parameter, and bits of a mask at or above the
//! width that are looked at or below it that are not.

use super::widths;
use crate::nothing::{weakening, Weakened};
use crate::words::*;

const SELECTOR_AT: usize = 19;

/// Has the bytes of selectors of this width in another way, of those that it takes and of those that it gives.
fn coded(width: Width, code: fn(&mut [u8])) -> Wrong {
    let coded = move |handle: &mut HandleBytes| {
        if handle.len() == width.handle_bytes() {
            code(&mut handle[SELECTOR_AT..]);
        }
    };
    asked(move |held, question| {
        let mut seen = question.clone();
        seen.call.presented_mut().into_iter().for_each(coded);
        let mut answer = guard::ask(held, &seen);
        coded(&mut answer.reply.first);
        coded(&mut answer.reply.second);
        answer
    })
}

/// 0 and 1 in the low halves, 2 and 3 in the high ones.
fn low_halves_first(selector: &mut [u8]) {
    let [first, second] = [selector[0], selector[1]];
    selector[0] = first & 0x0f | second << 4;
    selector[1] = first >> 4 | second & 0xf0;
}

/// The high bytes of all four, and then the low ones.
fn high_bytes_first(selector: &mut [u8]) {
    let old = selector.to_vec();
    for at in 0..4 {
        (selector[2 * at], selector[2 * at + 1]) = (old[at], old[4 + at]);
    }
}

fn exchange(halves: &mut [u8]) {
    halves.iter_mut().for_each(|byte| *byte = byte.rotate_left(4));
}

// Each but the last is its own opposite, so that such a library reads back what it writes.
table! {
    mod laid_out_in_another_way;
    all => told([REPLIES]);
    halves_exchanged: coded(Width::Four, exchange);
    first_halves_exchanged: coded(Width::Four, |selector| exchange(&mut selector[..1]));
    second_halves_exchanged: coded(Width::Four, |selector| exchange(&mut selector[1..]));
    bytes_exchanged: coded(Width::Four, <[u8]>::reverse);
    low_halves_first: coded(Width::Four, super::low_halves_first);
    low_byte_first: coded(Width::Sixteen, |selector| selector.chunks_exact_mut(2).for_each(<[u8]>::reverse));
    low_byte_first_in_the_last: coded(Width::Sixteen, |selector| selector[6..].reverse());
    high_bytes_first: coded(Width::Sixteen, super::high_bytes_first);
}

// Another parameter, where it has two bytes.

/// What is given, if its last conversion of this password was by another parameter.
fn converted(reply: &Reply, password: &Password, other: fn(u16) -> u16) -> Option<Reply> {
    let mut given = Handle::from_bytes(&reply.first)?;
    let (is_wide, flat) = (given.width() == Width::Sixteen, given.width().flat());
    let noted = given.selector.subselectors.into_iter().rev().find(|part| *part != flat && is_wide)?;
    given.password = guard::convert(password, other(noted));
    Some(Reply { first: given.to_bytes(), ..reply.clone() })
}

/// Weakens by another parameter.
fn weakens(other: fn(u16) -> u16) -> Wrong {
    weakening(move |it| match it.handle.to_bytes() == it.reply.first {
        true => None,
        false => converted(&it.reply, &it.handle.password, other),
    })
}

fn reduces(other: fn(u16) -> u16) -> Wrong {
    on(REDUCE, 0, move |it| {
        let primary = it.seen().and_then(|seen| seen.primary());
        let wrong = primary.and_then(|primary| converted(&it.reply, &primary, other));
        it.reply = wrong.unwrap_or(it.reply.clone());
    })
}

fn validates(other: fn(u16) -> u16) -> Wrong {
    on(VALIDATION, 0, move |it| {
        let seen = it.seen().expect("it is done by a handle");
        let (mut handle, primary) = (seen.handle, seen.primary().expect("it is done"));
        let flat = handle.width().flat();
        handle.selector.subselectors.iter_mut().filter(|part| **part != flat).for_each(|part| *part = other(*part));
        if handle.width() == Width::Sixteen && derive(&primary, &handle.selector) != handle.password {
            it.reply = Reply::refused(9);
        }
    })
}

table! {
    all => widths(0);
    converted_by_another_parameter_weakening_exchanged: weakens(u16::swap_bytes);
    converted_by_another_parameter_weakening_low: weakens(|parameter| parameter & 0x00ff);
    converted_by_another_parameter_weakening_high: weakens(|parameter| parameter >> 8);
    converted_by_another_parameter_reduction_exchanged: reduces(u16::swap_bytes);
    converted_by_another_parameter_reduction_low: reduces(|parameter| parameter & 0x00ff);
    converted_by_another_parameter_reduction_high: reduces(|parameter| parameter >> 8);
    validated_by_another_parameter_exchanged: validates(u16::swap_bytes);
    validated_by_another_parameter_low: validates(|parameter| parameter & 0x00ff);
    validated_by_another_parameter_high: validates(|parameter| parameter >> 8);
}

// Masks.

impl Weakened {
    /// The bits of the mask that do not matter, and all that there are.
    fn above(&self) -> (u16, u16) {
        let all = !self.handle.width().flat();
        (self.mask & all, all)
    }

    /// It is done and takes nothing away, and has a bit clear of what there is not.
    fn is_clear_above(&self) -> bool {
        let (above, all) = self.above();
        self.reply.is_done() && self.excludes_nothing() && above != all
    }
}

/// Converts all the same.
fn excluded(it: &Weakened) -> Option<Reply> {
    let handle = it.handle;
    let password = guard::convert(&handle.password, handle.width().flat());
    (it.is_clear_above() && !it.is_spent())
        .then(|| Reply { first: Handle { password, ..handle }.to_bytes(), ..it.reply.clone() })
}

/// Gives a handle to nothing for a mask that keeps nothing but what there is not.
fn kept(it: &Weakened) -> Option<Reply> {
    (it.reply.number == 21 && it.above().0 != 0).then(|| it.to_nothing())
}

/// Takes masks in this way.
fn taking(taken: fn(u16) -> u16) -> Wrong {
    asking(move |question| {
        if let Call::Weaken { mask, .. } = &mut question.call {
            *mask = taken(*mask);
        }
    })
}

/// By chance, and where every mask is tried.
fn masks(right: u8) -> Complaint {
    widths(right).and(By::Masks, [Right(right)])
}

table! {
    bits_above_refused: weakening(|it| refused_if(it.reply.is_done() && it.above().0 != 0, 3)) => masks(0);
    bits_above_taken_for_kept: weakening(kept) => masks(21);
    clear_bits_above_taken_for_excluded: weakening(excluded) => masks(0);
    clear_bits_above_taken_for_spent: weakening(|it| refused_if(it.is_clear_above() && it.is_spent(), 17)) => masks(0);
}

table! {
    all => told([Asks(WEAKEN)]).and(By::Masks, [REPLIES]);
    the_upper_byte_not_looked_at_clear: taking(|mask| mask & 0x00ff);
    the_upper_byte_not_looked_at_set: taking(|mask| mask | 0xff00);
    the_upper_byte_not_looked_at_exchanged: taking(u16::swap_bytes);
}
