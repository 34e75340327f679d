//! What holds of the three ways, told from the bytes that the library gives: nothing here asks the model, or reads a handle
//! as the model does.

use super::Asked;
use crate::words::*;
use model::cuts::Way;
use std::ops::Range;

const NAME_BYTES: usize = 3;
const SELECTOR_AT: usize = NAME_BYTES + PASSWORD_BYTES;

/// One weakening: of this handle, by this mask.
struct Step {
    from: HandleBytes,
    mask: u16,
    reply: Reply,
}

/// The weakenings of one way, up to the first that is refused.
pub struct Cut(Vec<Step>);

impl Cut {
    /// One weakening after the other.
    fn along(asked: &mut Asked, handle: &HandleBytes, masks: &[u16]) -> Cut {
        let mut steps: Vec<Step> = Vec::new();
        for mask in masks {
            let from = steps.last().map_or(handle, |step| &step.reply.first).clone();
            let reply = asked.weaken(&from, *mask);
            let done = reply.is_done();
            steps.push(Step { from, mask: *mask, reply });
            if !done {
                break;
            }
        }
        Cut(steps)
    }

    /// What the last one gives, where none is refused.
    fn given(&self) -> Option<&Reply> {
        self.0.last().map(|step| &step.reply).filter(|reply| reply.is_done())
    }

    pub fn handle(&self) -> Option<&HandleBytes> {
        self.given().map(|reply| &reply.first)
    }

    /// The refused one, 1 or 2, and its number.
    pub fn end(&self) -> Option<(usize, u8)> {
        let number = self.0.last()?.reply.number;
        (number != DONE).then_some((self.0.len(), number))
    }
}

/// A way that is done: what it gives, whether that validates in the mode, and its reduction there.
struct Done {
    given: Reply,
    is_valid: bool,
    reduction: Reply,
}

/// A handle cut in three ways, by the library.
pub struct Trial {
    handle: HandleBytes,
    is_valid: bool,
    pub cuts: [Cut; 3],
    done: Vec<Done>,
    /// The segments that the handle references and both masks keep.
    kept: Vec<usize>,
    /// The first of the reductions, reduced again.
    again: Option<Reply>,
    /// Image and memory are as they were; refusals give nothing but their number.
    nothing_changed: bool,
    nothing_given: bool,
}

/// The laws, in the order in which they are told: each is asked only where those before it hold.
pub const LAWS: [(&str, fn(&Trial) -> bool); 14] = [
    ("a call changes image or memory", |it| it.nothing_changed),
    ("a refusal gives something", |it| it.nothing_given),
    ("a handle that is valid does not validate", |it| it.is_valid),
    ("a cut handle has another name or length", |it| {
        it.steps().all(|step| !step.reply.is_done() || is_named_alike(&it.handle, &step.reply.first))
    }),
    ("a cut handle references other segments", |it| it.done.iter().all(|done| it.is_kept(&done.given.first))),
    ("a cut handle does not validate", |it| it.done.iter().all(|done| done.is_valid)),
    ("a cut handle is not reduced", |it| it.done.iter().all(|done| done.reduction.is_done())),
    ("a reduction has another name or length", |it| {
        it.reductions().all(|reduction| is_named_alike(&it.handle, reduction))
    }),
    ("a reduction references other segments", |it| it.reductions().all(|reduction| it.is_kept(reduction))),
    ("the reductions differ", |it| it.reductions().all(|reduction| Some(reduction) == it.reductions().next())),
    ("a reduction is not valid, or is reduced to another", |it| {
        let mut reductions = it.reductions();
        it.again.as_ref().is_none_or(|again| again.is_done() && Some(&again.first) == reductions.next())
    }),
    ("one cut is refused where two are done", |it| {
        let [one, other, once] = it.cuts.each_ref().map(|cut| cut.given().is_some());
        once || !(one || other)
    }),
    ("a cut comes to another number than it must", |it| {
        it.steps().all(|step| step.reply.number == due(&step.from, step.mask))
    }),
    ("a cut tells another count", |it| it.done.iter().all(|done| done.given.count as usize == it.kept.len())),
];

impl Trial {
    pub fn of(asked: &mut Asked) -> Trial {
        let (handle, masks) = (asked.case.handle.to_bytes(), asked.case.masks);
        let is_valid = asked.validates(&handle);
        let cuts = Way::ALL.map(|way| Cut::along(asked, &handle, &masks.along(way)));
        let mut done = Vec::new();
        for given in cuts.iter().filter_map(Cut::given) {
            let (is_valid, reduction) = (asked.validates(&given.first), asked.reduce(&given.first));
            done.push(Done { given: given.clone(), is_valid, reduction });
        }
        let again = done.first().map(|done| asked.reduce(&done.reduction.first));
        let both = |segment: &usize| (masks.first & masks.second) >> segment & 1 == 1;
        let kept = referenced(&handle).filter(both).collect();
        let nothing_changed = asked.held == asked.case.held;
        let is_bare = |reply: &Reply| reply.is_done() || *reply == Reply::refused(reply.number);
        let nothing_given = asked.all.iter().all(|(_, answer)| is_bare(&answer.reply));
        Trial { handle, is_valid, cuts, done, kept, again, nothing_changed, nothing_given }
    }

    /// The first law that is broken: its place, and what is told.
    pub fn broken(&self) -> Option<(usize, &'static str)> {
        LAWS.iter().enumerate().find(|(_, (_, holds))| !holds(self)).map(|(at, (what, _))| (at, *what))
    }

    fn steps(&self) -> impl Iterator<Item = &Step> {
        self.cuts.iter().flat_map(|cut| &cut.0)
    }

    fn reductions(&self) -> impl Iterator<Item = &HandleBytes> {
        self.done.iter().map(|done| &done.reduction.first)
    }

    /// Whether just the segments are referenced that are to be kept.
    fn is_kept(&self, handle: &[u8]) -> bool {
        referenced(handle).eq(self.kept.iter().copied())
    }
}

/// The number that the weakening has to come to.
fn due(handle: &[u8], mask: u16) -> u8 {
    let kept = referenced(handle).filter(|segment| mask >> segment & 1 == 1).count();
    let is_flat = |part: usize| segments(handle).all(|segment| has(handle, part, segment));
    match kept {
        0 => EMPTY,
        _ if kept == referenced(handle).count() || (0..SUBSELECTORS).any(is_flat) => DONE,
        _ => SPENT,
    }
}

/// Node, local number and length are the same.
fn is_named_alike(one: &[u8], other: &[u8]) -> bool {
    one.len() == other.len() && one[..NAME_BYTES] == other[..NAME_BYTES]
}

/// The segments of which every subselector has the bit.
fn referenced(handle: &[u8]) -> impl Iterator<Item = usize> + '_ {
    segments(handle).filter(|segment| (0..SUBSELECTORS).all(|part| has(handle, part, *segment)))
}

/// As many as a subselector has bits.
fn segments(handle: &[u8]) -> Range<usize> {
    0..2 * (handle.len() - SELECTOR_AT)
}

/// Whether a subselector has the bit of a segment: two of them share a byte, each has one, or each has two, the high one
/// first.
fn has(handle: &[u8], part: usize, segment: usize) -> bool {
    let selector = &handle[SELECTOR_AT..];
    let (byte, bit) = match selector.len() {
        2 => (part / 2, part % 2 * 4 + segment),
        4 => (part, segment),
        _ => (2 * part + 1 - segment / 8, segment % 8),
    };
    selector[byte] >> bit & 1 == 1
}
