//! Handles where their length changes, made of bytes and presented, and what goes by the width: handles of another than
//! their cluster's, segments about it, masks of all sixteen bits, and the widths of new clusters.

use super::{around, count, each, put, Asked, HIGH};
use crate::ffi::{gelmuszta_handle, HANDLE_MAX};
use crate::words::*;

/// Widths are tried from 0 up to so many: one more byte is begun.
const MOST_WIDTH: usize = 300;
/// What the calls are about: the segment that is there, its length, and one that is not.
const THERE: u32 = 2;
const LENGTH: usize = 5;
const ABSENT: u32 = 3;
const NODE: usize = 2;
const LOCAL: usize = 6;

/// A store with a cluster of one width, and with calls that are done by handles of it.
struct Known {
    held: Held,
    store: Store,
    questions: Vec<Question>,
}

impl Known {
    fn by_chance(random: &mut Random, width: Width) -> Known {
        let mut store = Store::starting();
        let cluster = &mut store.clusters[NODE][LOCAL];
        *cluster = active_of(random, width);
        (cluster.read, cluster.write) = (random.bytes(), random.bytes());
        cluster.segments[THERE as usize] = present(100, LENGTH);
        let [reader, writer] =
            [cluster.read, cluster.write].map(|password| Handle::primary(width, NODE as u16, LOCAL as u8, password));
        let weaken = |mask| reader.weaken(mask).expect("all are flat").to_bytes();
        let (one, other) = (weaken(0b0110), weaken(0b0100));
        let (node, segment, mode) = (NODE as u32, THERE, READ_MODE);
        let (reader, handle) = (reader.to_bytes(), writer.to_bytes());
        #[rustfmt::skip]
        let calls = [
            Call::DeleteCluster { node, handle: handle.clone() },
            Call::NewSegment { node, segment: ABSENT, size: 7, handle: handle.clone() },
            Call::DeleteSegment { node, segment, handle: handle.clone() },
            Call::Write { segment, handle: handle.clone() },
            Call::Freeze { node, segment, handle },
            Call::Read { segment, handle: reader.clone() },
            Call::Look { node, segment, handle: reader.clone() },
            Call::Weaken { mask: 0b0110, handle: reader.clone() },
            Call::NewPassword { mode, handle: reader.clone(), password: random.bytes() },
            Call::Validate { mode, handle: reader },
            Call::Reduce { mode, handle: one.clone() },
            Call::Join { mode, handle: one, other },
        ];
        let question = |call| Question { buffer: vec![0x33; LENGTH], ..Question::of(call) };
        Known { held: stores::held(random, &store), store, questions: calls.map(question).to_vec() }
    }

    /// As it is, with the store not sound, and with the image damaged; neither touches the cluster.
    fn each(&self) -> [Held; 3] {
        let [mut unsound, mut damaged] = [self.held.clone(), self.held.clone()];
        unsound.image[record_at(NODES - 1, 0).start + 1] = 8;
        damaged.image[record_at(0, 0).start] = 2;
        [self.held.clone(), unsound, damaged]
    }
}

/// Every call with every length byte in every handle that it takes, alone and, of two, in both; what a handle of 28
/// bytes has behind its length is anything.
pub fn lengths(guard: Guard, seed: u64) -> Result<Asked, String> {
    each(seed, Width::ALL, |random, width, asked| {
        let known = Known::by_chance(random, width);
        for question in &known.questions {
            let handles = question.call.presented_bytes().count();
            let both = known.each().into_iter().flat_map(|held| (1..1 << handles).map(move |at| (held.clone(), at)));
            for (held, chosen) in both {
                for length in 0..=u8::MAX.into() {
                    let more = bytes(random, length);
                    let mut question = question.clone();
                    fill(random, &mut question.behind);
                    let presented = question.call.presented_mut().into_iter().enumerate();
                    for (_, handle) in presented.filter(|(at, _)| chosen >> at & 1 == 1) {
                        handle.extend(&more);
                        handle.truncate(length);
                    }
                    put(guard, &mut Sides::both(held.clone()), &question, asked)?;
                }
            }
        }
        Ok(())
    })
}

/// Every call by handles of each width, with the password that goes with it and with another; where it is about a
/// segment, with each that there can be and with others.
pub fn segments(guard: Guard, seed: u64) -> Result<Asked, String> {
    each(seed, Width::ALL, |random, own, asked| {
        let known = Known::by_chance(random, own);
        let cluster = &known.store.clusters[NODE][LOCAL];
        for (question, width) in known.questions.iter().flat_map(|question| Width::ALL.map(|width| (question, width))) {
            let mode = question.call.needed_mode().unwrap_or(Mode::Read);
            let wide = question.with_handles(|handle| {
                if width != own {
                    *handle = at_width(handle, width);
                }
                handle.password = derive(cluster.primary(mode), &handle.selector);
            });
            let forged = wide.with_handles(|handle| handle.password[PASSWORD_BYTES - 1] ^= 1);
            for question in [wide, forged].iter().flat_map(about_each_segment) {
                put(guard, &mut Sides::both(known.held.clone()), &question, asked)?;
            }
        }
        Ok(())
    })
}

fn about_each_segment(question: &Question) -> Vec<Question> {
    let Some(right) = question.call.segment() else { return vec![question.clone()] };
    let about = |other: usize| {
        let mut about = Question { beyond: other, ..question.clone() };
        if let [_, Some(segment), _] = about.numbers_mut() {
            *segment = narrow(other);
        }
        about
    };
    around(right as usize, SEGMENTS).map(about).collect()
}

/// Weakening by every mask: of handles of each width with one subselector that is not flat, and with four.
pub fn masks(guard: Guard, seed: u64) -> Result<Asked, String> {
    each(seed, Width::ALL, |random, width, asked| {
        let known = Known::by_chance(random, width);
        let flat = width.flat();
        for parts in [[flat & 0x7bda, flat, flat, flat], [flat - 1, flat - 2, flat - 1, flat - 2]] {
            let selector = Selector::new(width, parts);
            let handle = Handle::converted(NODE as u16, LOCAL as u8, &[0x11; PASSWORD_BYTES], selector);
            for mask in 0..=u16::MAX {
                put(guard, &mut Sides::both(known.held.clone()), &Question::of(Call::weaken(mask, handle)), asked)?;
            }
        }
        Ok(())
    })
}

/// Call 1 with widths from 0 on and with those that are right in their low bytes alone; where nothing else is wrong,
/// and where the place is none, is in use, or the passwords are equal.
pub fn new_clusters(guard: Guard, seed: u64) -> Result<Asked, String> {
    each(seed, Width::ALL, |random, own, asked| {
        let known = Known::by_chance(random, own);
        let high = HIGH.map(|more| own.segments() + more);
        let [read, other] = [random.bytes(), random.bytes()];
        let next = LOCAL + 1;
        for width in (0..MOST_WIDTH).chain(high).chain([usize::MAX]) {
            for (node, local, write) in
                [(NODE, next, other), (NODE, next, read), (NODE, LOCAL, other), (NODES, LOCAL, other)]
            {
                let call = Call::NewCluster { node: node as u32, local: local as u32, width, read, write };
                put(guard, &mut Sides::both(known.held.clone()), &Question::of(call), asked)?;
            }
        }
        Ok(())
    })
}

/// Something that makes a handle of bytes; [`crate::guard::handle_of`] is the one to be compared.
pub type Maker<'a> = &'a dyn Fn(&[u8]) -> (u8, gelmuszta_handle);

/// Lengths are tried up to so many, where one more byte is begun twice over.
const MOST_LENGTH: usize = 600;

pub fn handles(make: Maker, seed: u64) -> Result<Asked, String> {
    each(seed, 0..=MOST_LENGTH, |random, length, asked| {
        let given = bytes(random, length);
        let is_known = Width::of_handle_bytes(length).is_some();
        let expected = match is_known {
            true => (DONE, gelmuszta_handle::of(&given, &[0; HANDLE_MAX])),
            false => (model::table::LENGTH, gelmuszta_handle::NONE),
        };
        let (number, handle) = make(&given);
        count(asked, is_known);
        same_bytes("numbers", &[expected.0], &[number])
            .and_then(|()| same_bytes("bytes", &expected.1.bytes, &handle.bytes))
            .and_then(|()| same_bytes("lengths", &[expected.1.length], &[handle.length]))
            .map_err(|what| format!("a handle of {length} bytes: {what}"))
    })
}
