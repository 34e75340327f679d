//! §7, those who write: libraries that tell them what lies there, or what the read password is. The two copies in which
//! no list opens the cluster set apart find out none of them, unless that is said.

use crate::renewals::{compared, giving, is_either, Asked};
use crate::words::*;

/// By a call with this code and in this word.
fn told_by(code: u8, word: Word) -> Complaint {
    by(By::Writers, [Asks(code), word])
}

/// The same, and not found out where no handle opens the cluster.
fn writers(code: u8, word: Word) -> Complaint {
    told_by(code, word).but_not(By::FewCopies)
}

const SEGMENTS: Word = Says("segments of other clusters differ");

fn is_zero(bytes: &[u8]) -> bool {
    bytes.iter().all(|byte| *byte == 0)
}

fn is_odd(seen: &Seen) -> bool {
    seen.there().and_then(|there| there.first()).is_some_and(|byte| byte % 2 == 1)
}

/// Refuses with 22, for what lies there, what would be done.
fn kept_by(code: u8, applies: fn(&Seen) -> bool) -> Row {
    (refusing(code, 0, 22, applies), writers(code, REPLIES))
}

/// A write that is done comes to something else by what lay there.
fn written(change: fn(&mut After, &[u8])) -> Wrong {
    on(WRITE, 0, move |it| {
        let seen = it.seen().expect("it is done by a handle");
        change(it, seen.there().expect("it was written to"));
    })
}

/// Takes handles of the other mode as well in calls with this code and in this mode.
fn either_mode(code: u8, meant: Mode) -> Wrong {
    asked(move |held, question| in_either_mode(held, question, code, meant))
}

fn in_either_mode(held: &mut Held, question: &Question, code: u8, meant: Mode) -> Answer {
    let answer = guard::ask(held, question);
    let seen = Seen::of(held, question).filter(|_| question.code() == code);
    let cluster = seen.and_then(|seen| seen.cluster().filter(|_| seen.mode() == Some(meant)));
    let (Some(cluster), 9) = (cluster, answer.reply.number) else { return answer };
    let other = question.with_handles(|handle| {
        if handle.is_made_from(cluster.primary(meant.other())) {
            handle.password = derive(cluster.primary(meant), &handle.selector);
        }
    });
    guard::ask(held, &other)
}

// What hangs on the bytes of the segment, or of the cluster's segments.
table! {
    a_refusal_for_the_byte_that_is_there_write: kept_by(WRITE, is_odd);
    a_refusal_for_the_byte_that_is_there_delete: kept_by(DELETE_SEGMENT, is_odd);
    a_refusal_for_the_byte_that_is_there_freeze: kept_by(FREEZE, is_odd);
    a_cluster_that_is_not_deleted_while_something_lies_there:
        kept_by(DELETE_CLUSTER, |seen| !seen.in_the_cluster().into_iter().all(is_zero));
    a_segment_that_is_not_deleted_while_something_lies_there:
        kept_by(DELETE_SEGMENT, |seen| seen.there().is_some_and(|there| !is_zero(there)));
    a_write_that_gives_back_what_was_there: written(|it, there| it.buffer[..there.len()].copy_from_slice(there))
        => writers(WRITE, BUFFERS);
    /// The data of some writes is what lies there in one of the copies.
    a_write_that_tells_whether_it_changes_something:
        written(|it, there| it.reply.length = u32::from(it.buffer[..there.len()] != *there)) => writers(WRITE, REPLIES);
    /// Where the first byte of the memory is another cluster's. Where it is the cluster's, the other copies find it
    /// out.
    a_write_that_leaves_what_was_there_elsewhere: written(|it, there| it.held.memory[0] ^= there[0])
        => told_by(WRITE, SEGMENTS);
    a_mark_that_hangs_on_a_byte: instead(FREEZE, 0, |seen| is_odd(seen).then_some(Reply::DONE))
        => writers(FREEZE, RECORDS);
    a_write_handle_that_reads_copying: either_mode(READ, Mode::Read) => writers(READ, BUFFERS);
    a_write_handle_that_reads_looking: either_mode(LOOK, Mode::Read) => writers(LOOK, SHOWN);
    /// The number is right, and what is there is in the buffer all the same.
    a_refusal_that_reads_by_a_write_handle: asked(|held, question| {
        let reading = in_either_mode(held, question, READ, Mode::Read);
        Answer { reply: guard::ask(held, question).reply, ..reading }
    }) => writers(READ, BUFFERS);
}

/// The new segment of a call 3 that was done, in its node.
fn new_segment(it: &After) -> (usize, Extent) {
    let after = Seen::of(it.held, it.question);
    after.and_then(|seen| Some((seen.handle.node.into(), seen.own()?.extent()?))).expect("it is done")
}

/// Leaves some bytes of a new segment as they had been: those at these places, of so many.
fn not_cleared(kept: fn(usize, usize) -> bool) -> Row {
    let wrong = on(NEW_SEGMENT, 0, move |it| {
        let (node, extent) = new_segment(it);
        for (at, place) in extent.in_memory(node).enumerate() {
            if kept(at, extent.length) {
                it.held.memory[place] = it.before.memory[place];
            }
        }
    });
    (wrong, writers(NEW_SEGMENT, SEGMENTS))
}

/// The least base at which so many zeros lie in memory that is no segment's.
fn clean(held: &Held, store: &Store, node: usize, size: usize) -> Option<usize> {
    gaps(store, node).into_iter().find_map(|gap| {
        let mut zeros = 0;
        let last = held.memory[gap.in_memory(node)].iter().enumerate().find(|(_, byte)| {
            zeros = if **byte == 0 { zeros + 1 } else { 0 };
            zeros == size
        });
        last.map(|(at, _)| gap.base + at + 1 - size)
    })
}

/// A new segment lies where there are zeros, and where it should if there are not enough of them.
fn in_clean_memory(it: &mut After) {
    let (node, extent) = new_segment(it);
    let before = decode(&it.before.image).expect("it was sound");
    if let Some(base) = clean(it.before, &before, node, extent.length) {
        let place = it.place();
        it.held.image[place][..2].copy_from_slice(&(base as u16).to_be_bytes());
        it.held.memory = it.before.memory.clone();
    }
}

/// There is no room where something lies.
fn no_room(seen: &Seen) -> Option<Reply> {
    let Call::NewSegment { size, .. } = seen.question.call else { return None };
    let (node, length) = (seen.handle.node.into(), size as usize);
    let base = seen.store.as_ref()?.place(node, length)?;
    let part = Extent { base, length }.in_memory(node);
    refused_if(!is_zero(&seen.held.memory[part]), 16)
}

/// A new cluster has a segment already, which is cleared and as long as the first byte said that lay there.
fn taken_over(it: &mut After) {
    let (node, local) = it.cluster();
    let mut store = decode(&it.held.image).expect("it was sound");
    if let Some(gap) = gaps(&store, node).first() {
        let memory = &mut it.held.memory[gap.in_memory(node)];
        let length = (1 + usize::from(memory[0])).min(gap.length);
        store.clusters[node][local].segments[0] = present(gap.base, length);
        memory[..length].fill(0);
    }
    *it.held = it.held.with(&store);
}

fn a_byte_more(it: &mut After) {
    let shown = &mut it.reply.shown;
    if shown.length > 0 && shown.from + shown.length < MEMORY_BYTES {
        shown.length += 1;
    }
}

// What hangs on memory that is no segment's, and that may have been one of the cluster's.
table! {
    a_new_segment_that_is_not_cleared: not_cleared(|_, _| true);
    a_new_segment_that_is_not_cleared_first: not_cleared(|at, _| at == 0);
    a_new_segment_that_is_not_cleared_last: not_cleared(|at, length| at + 1 == length);
    a_new_segment_that_is_not_cleared_from_64_on: not_cleared(|at, _| at >= 64);
    a_new_segment_that_keeps_off_what_lies_there: on(NEW_SEGMENT, 0, in_clean_memory) => writers(NEW_SEGMENT, RECORDS);
    a_new_segment_that_keeps_off_what_lies_there_refused: instead(NEW_SEGMENT, 0, no_room)
        => writers(NEW_SEGMENT, REPLIES);
    a_new_cluster_that_takes_over_what_lies_there: on(NEW_CLUSTER, 0, taken_over) => writers(NEW_CLUSTER, RECORDS);
    /// Another cluster's segment, and what lies behind it. Where that is one of the cluster, the other copies find it
    /// out.
    a_look_that_shows_a_byte_more: after(a_byte_more) => told_by(LOOK, SHOWN);
}

/// The handle made from the read password, where the call is in mode 2.
fn from_the_read_password(seen: &Seen, made: impl FnOnce(&Password) -> Handle) -> Option<Reply> {
    let cluster = seen.cluster().filter(|_| seen.mode() == Some(Mode::Write))?;
    Some(Reply::with_handle(&made(&cluster.read)))
}

fn joined(seen: &Seen) -> Option<Reply> {
    let other = seen.question.call.presented().nth(1)?;
    from_the_read_password(seen, |read| seen.handle.join(&other, read))
}

// What hangs on the read password.
table! {
    /// So that 12 tells a guess at it.
    a_new_password_compared_with_both: compared(is_either) => writers(NEW_PASSWORD, REPLIES);
    a_new_password_that_is_answered_with_the_other: giving(Asked::other) => writers(NEW_PASSWORD, REPLIES);
    a_handle_in_mode_2_made_from_the_read_password_reduced:
        instead(REDUCE, 0, |seen| from_the_read_password(seen, |read| seen.handle.reduce(read)))
        => writers(REDUCE, REPLIES);
    a_handle_in_mode_2_made_from_the_read_password_joined: instead(JOIN, 0, joined) => writers(JOIN, REPLIES);
    a_write_handle_that_gets_a_read_handle_reduced: either_mode(REDUCE, Mode::Read) => writers(REDUCE, REPLIES);
    a_write_handle_that_gets_a_read_handle_joined: either_mode(JOIN, Mode::Read) => writers(JOIN, REPLIES);
    /// 12 tells a guess then.
    a_write_handle_that_changes_the_read_password: either_mode(NEW_PASSWORD, Mode::Read)
        => writers(NEW_PASSWORD, REPLIES);
}

/// A handle that reads in one copy alone writes there alone.
fn writes(code: u8) -> Row {
    (either_mode(code, Mode::Write), writers(code, REPLIES))
}

table! {
    mod a_read_handle_that_writes;
    delete_cluster: writes(DELETE_CLUSTER);
    new_segment: writes(NEW_SEGMENT);
    delete_segment: writes(DELETE_SEGMENT);
    write: writes(WRITE);
    reduce: writes(REDUCE);
    new_password: writes(NEW_PASSWORD);
    freeze: writes(FREEZE);
    join: writes(JOIN);
    validation: writes(VALIDATION);
}

/// Tells something of the read password of a handle's cluster: to those whose call is in this mode, and who present a
/// handle that validates there, or any.
fn telling(mode: Mode, has_to_open: bool) -> Wrong {
    after(move |it| {
        let seen = it.seen().filter(|seen| seen.mode() == Some(mode));
        let cluster = seen.as_ref().and_then(Seen::active);
        if let (Some(seen), Some(cluster)) = (seen, cluster) {
            if !has_to_open || !seen.is_gapped() && seen.handle.validates(&cluster, mode) {
                it.reply.count = sum_of(&cluster.read);
            }
        }
    })
}

// What is told to those who read is not found out: no list has a call that asks for reading by a handle that reads.
// What is told to others who ask for it is, and that is what the other copies find out, too.
table! {
    those_who_read_may_be_told: telling(Mode::Read, true) => not_by([By::Writers]);
    those_who_read_may_be_told_others: telling(Mode::Read, false)
        => by(By::Writers, [REPLIES]).and(By::Copies, []);
    those_who_read_may_be_told_writers: telling(Mode::Write, true)
        => by(By::Writers, [REPLIES]).but_not(By::FewCopies);
}

/// These are wrong and tell nothing. The last one validates a write handle for reading, in both copies.
#[test]
fn what_tells_nothing_is_not_found_out() {
    let refusing = asked(|_, question| Answer { reply: Reply::refused(9), buffer: question.buffer.clone() });
    let clearing = after(|it| it.buffer.fill(0));
    for wrong in [right(), refusing, clearing, either_mode(VALIDATION, Mode::Read)] {
        run("nothing told", (wrong, not_by([By::Writers])));
    }
}
