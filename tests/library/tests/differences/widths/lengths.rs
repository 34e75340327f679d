//! Lengths that no handle has and that are taken for one, 25 at another place than the first, lengths that are given,
//! and batches with slots of another length.

use super::{at_first, is_known, is_none, one, up_to_the_next, widths};
use crate::words::*;

/// Takes bytes of one length for a handle of another; those that are missing are all ones.
fn taken_for(meant: impl Fn(&Question) -> bool + 'static, lengths: fn(usize) -> usize) -> Wrong {
    asking(move |question| {
        if meant(question) {
            for handle in question.call.presented_mut() {
                handle.resize(lengths(handle.len()), 0xff);
            }
        }
    })
}

fn lengths(lengths: fn(usize) -> usize) -> Wrong {
    taken_for(|_| true, lengths)
}

/// Not told from the next one that a handle has.
fn up(length: usize) -> usize {
    [21, 23, 27].into_iter().find(|known| length <= *known).unwrap_or(length)
}

fn down(length: usize) -> usize {
    [27, 23, 21].into_iter().find(|known| length >= *known).unwrap_or(length)
}

table! {
    mod another_length_taken;
    all => widths(25).and(By::Lengths, [Right(25)]);
    of_22_for_23: lengths(one::<22, 23>);
    of_22_for_21: lengths(one::<22, 21>);
    of_20_for_21: lengths(one::<20, 21>);
    of_24_for_23: lengths(one::<24, 23>);
    of_25_for_23: lengths(one::<25, 23>);
    of_26_for_27: lengths(one::<26, 27>);
    of_28_for_27: lengths(one::<28, 27>);
    of_0_for_23: lengths(one::<0, 23>);
    for_the_next_up: lengths(up);
    for_the_next_down: lengths(down);
    cut_to_27: lengths(|length| length.min(27));
    /// It takes handles of four and of sixteen for others, too.
    any_for_23: lengths(|_| 23) => told([REPLIES]);
}

/// Takes everything for a handle of eight in calls with this code that is none.
fn unknown(code: u8) -> Wrong {
    taken_for(move |question: &Question| question.code() == code && !is_known(&question.call), |_| 23)
}

in_one_call! {
    not_looked_at_by_one_call: unknown => widths(25);
    weaken: unknown(WEAKEN);
}

/// Looks at the store before the length in calls with these codes, where it is wrong in this way.
fn unsound_first(code: impl Fn(u8) -> bool + 'static, wrong: fn(&Held) -> bool) -> Wrong {
    at_first(move |held, question| (code(question.code()) && wrong(held)).then_some(1))
}

fn is_damaged(held: &Held) -> bool {
    decode(&held.image).is_none()
}

/// By single calls and by every length; long rows come to no damage.
fn unsound() -> Complaint {
    by(By::Single, [Right(25), Gives(1)]).and(By::Lengths, [Gives(1)])
}

fn first_in(code: u8) -> Wrong {
    unsound_first(move |own| own == code, |held| !is_sound(held))
}

table! {
    all => unsound();
    after_1: unsound_first(|code| code != WEAKEN, |held| !is_sound(held));
    after_1_on_damage: unsound_first(|code| code != WEAKEN, is_damaged);
    after_1_on_no_damage: unsound_first(|code| code != WEAKEN, |held| !is_damaged(held) && !is_sound(held));
}

in_one_call! {
    after_1_in_one_call: first_in => unsound();
    weaken: first_in(WEAKEN);
}

table! {
    all => widths(25);
    after_2_and_after_3_node:
        at_first(|_, question| question.call.current_node().filter(|node| *node as usize >= NODES).map(|_| 2));
    after_2_and_after_3_mode:
        at_first(|_, question| question.call.named_mode().filter(|mode| ![1, 2].contains(mode)).map(|_| 3));
    after_2_and_after_3_size: at_first(|_, question| match question.call {
        Call::NewSegment { size, .. } if size == 0 || size as usize > NODE_BYTES => Some(3),
        _ => None,
    });
    another_number_3: at_first(|_, _| Some(3));
    another_number_2: at_first(|_, _| Some(2));
    another_number_4: at_first(|_, _| Some(4));
}

/// Leaves a length beside a refusal: its handle is zeros, as long as this.
fn left(code: u8, length: usize) -> Wrong {
    after(move |it| {
        if it.is_refused(code) {
            it.reply.first = vec![0; length];
        }
    })
}

/// The length of the handle that was presented.
fn of_the_handle(it: &mut After) {
    let gives = [REDUCE, NEW_PASSWORD, JOIN, WEAKEN].contains(&it.question.code());
    if let (true, false, Some(handle)) = (gives, it.reply.is_done(), it.question.call.handle_bytes()) {
        it.reply.first = vec![0; handle.len()];
    }
}

table! {
    mod a_length_left_by_a_refusal;
    all => told([MORE]);
    new_cluster: left(NEW_CLUSTER, 23);
    weaken: left(WEAKEN, 23);
    reduce: left(REDUCE, 23);
    new_password: left(NEW_PASSWORD, 23);
    join: left(JOIN, 23);
    reduce_27: left(REDUCE, 27);
    reduce_1: left(REDUCE, 1);
    the_second: after(|it| if it.is_refused(NEW_CLUSTER) { it.reply.second = vec![0; 23] });
    of_the_handle: after(super::of_the_handle);
}

/// Gives a handle in another way.
fn given(code: u8, other: fn(&mut Vec<u8>)) -> Wrong {
    on(code, 0, move |it| other(&mut it.reply.first))
}

fn of_eight(bytes: &mut Vec<u8>) {
    if let Some(handle) = Handle::from_bytes(bytes) {
        *bytes = at_width(&handle, Width::Eight).to_bytes();
    }
}

table! {
    mod of_another_length;
    all => widths(0);
    weaken: given(WEAKEN, of_eight);
    reduce: given(REDUCE, of_eight);
    new_password: given(NEW_PASSWORD, of_eight);
    new_cluster: given(NEW_CLUSTER, of_eight);
    reduce_27: given(REDUCE, |bytes| bytes.resize(27, 0));
    new_password_27: given(NEW_PASSWORD, |bytes| bytes.resize(27, 0));
    weaken_23: given(WEAKEN, |bytes| bytes.truncate(23));
    reduce_0: given(REDUCE, Vec::clear);
}

/// Takes the width of a batch in this way.
fn batch_of(taken: fn(usize) -> usize) -> Wrong {
    batch_taking(move |mode, width| (mode, taken(width)))
}

/// Slots of a length of their own, and handles as long as the width says at the beginning of each.
fn slots(slot: usize) -> Wrong {
    batch(move |held, how, handles, numbers| {
        let Some(own) = Width::of_segments(how.1) else { return 0 };
        let slots = handles.chunks_exact(slot).map(|handle| {
            let mut handle = handle.to_vec();
            handle.resize(own.handle_bytes(), 0xff);
            handle
        });
        let packed: Vec<u8> = slots.flatten().collect();
        validate_all(held, how, &packed, numbers)
    })
}

/// Does this where the width of a batch is none.
fn of_no_width(other: fn(&mut [u8]) -> usize) -> Wrong {
    batch(move |held, how, handles, numbers| match is_none(how.1) {
        true => other(numbers),
        false => validate_all(held, how, handles, numbers),
    })
}

fn batches(word: Word) -> Complaint {
    by(By::Batches, [word]).and(By::BatchWidths, [Either(&["differ", "due"])])
}

table! {
    mod batches;
    all => batches(Says("numbers"));
    always_of_eight: batch_of(|_| 8);
    four_taken_for_eight: batch_of(one::<4, 8>);
    sixteen_taken_for_eight: batch_of(one::<16, 8>);
    eight_taken_for_sixteen: batch_of(one::<8, 16>);
    eight_taken_for_four: batch_of(one::<8, 4>);
    none_taken_for_eight: batch_of(|width| if is_none(width) { 8 } else { width });
    up_to_the_next: batch_of(super::up_to_the_next);
    in_one_byte: batch_of(|width| width & 0xff);
    in_two_bytes: batch_of(|width| width & 0xffff);
    in_four_bytes: batch_of(|width| width & 0xffff_ffff);
    four_refused: batch_of(one::<4, 0>);
    sixteen_refused: batch_of(one::<16, 0>);
    in_slots_of_another_length_23: slots(23);
    in_slots_of_another_length_27: slots(27);
    in_slots_of_another_length_32: slots(32);
    numbers_told_of_no_width: of_no_width(|numbers| {
        numbers.fill(25);
        0
    }) => batches(BATCHED);
    numbers_told_of_no_width_counted: of_no_width(|numbers| numbers.len()) => batches(Says("0 are due"));
    nine_for_another_width: batch(|held, how, handles, numbers| {
        let count = validate_all(held, how, handles, numbers);
        numbers[..count].iter_mut().for_each(|number| *number -= 16 * u8::from(*number == 25));
        count
    }) => by(By::Batches, [Says(": 25 and 9")]);
}
