//! A store with a cluster of each width, and what the library says to calls about them.

use crate::support::every::Rest;
use library::words::*;

pub const READ: Password = [0x11; 16];
pub const WRITE: Password = [0x22; 16];
/// The segments that are there, of clusters at node 1, local numbers 2, 3 and 4, which have widths 4, 8 and 16.
pub const THERE: u32 = 2;
pub const REST: Rest = Rest { node: 1, segment: THERE, mode: None };

pub fn local(width: Width) -> usize {
    2 + width as usize
}

/// The passwords are the same everywhere.
pub fn held() -> Held {
    let mut store = Store::starting();
    for (at, width) in Width::ALL.into_iter().enumerate() {
        let cluster = &mut store.clusters[1][local(width)];
        *cluster = Cluster::new(width, READ, WRITE);
        cluster.segments[THERE as usize] = Segment::present(10 * at as u16, 4);
    }
    Held { image: encode(&store), memory: [0x77; MEMORY_BYTES] }
}

pub fn primary(width: Width, password: Password) -> Handle {
    Handle::primary(width, 1, local(width) as u8, password)
}

/// The reply, with what is left; the buffer is as long as a segment.
pub fn asked(held: &Held, call: &Call) -> (Reply, Held) {
    let mut after = held.clone();
    let question = Question { buffer: vec![0x33; 4], ..Question::of(call.clone()) };
    let answer = guard::ask(&mut after, &question);
    if !answer.reply.is_done() {
        assert_eq!(answer.buffer, question.buffer);
    }
    (answer.reply, after)
}

/// Refused with this number, giving nothing and changing nothing.
pub fn refused(held: &Held, call: &Call, number: u8) {
    let (reply, after) = asked(held, call);
    assert_eq!(reply, Reply::refused(number), "{call:?}");
    assert!(after == *held, "{call:?} changes something");
}
