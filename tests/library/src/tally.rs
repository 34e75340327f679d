//! What calls have to come to and what they came to: the numbers of each, fills, damages, selectors, modes, and what
//! [`damages`], [`sights`], [`widths`] and the model list.

use crate::{damages, sights, widths, words::*};
use model::met;
use std::{collections::BTreeMap, fmt};

/// What a call that validates handles may come to in any case, 0 for done among it.
const JUDGED: &[u8] = &[DONE, LENGTH, UNSOUND, NO_SUCH_PLACE, GAPPED, INACTIVE, VIOLATED_PROTECTION];
/// Weakening looks at no store: it has to come to each of these on damaged ones, too.
const WEAKENING: &[u8] = &[DONE, LENGTH, NO_SUCH_PLACE, GAPPED, EMPTY, SPENT];

/// The numbers that the table of refusals allows each call: these, and more.
const ALLOWED: [(u8, &[u8], &[u8]); 13] = [
    (NEW_CLUSTER, &[DONE, UNSOUND, NO_SUCH_PLACE, FIELD], &[IN_USE, TWINS]),
    (DELETE_CLUSTER, JUDGED, &[ELSEWHERE, NOT_PRIMARY, FROZEN]),
    (NEW_SEGMENT, JUDGED, &[FIELD, ELSEWHERE, NOT_PRIMARY, PRESENT, NO_ROOM]),
    (DELETE_SEGMENT, JUDGED, &[FIELD, ELSEWHERE, NOT_PRIMARY, ABSENT, FROZEN]),
    (READ, JUDGED, &[FIELD, NOT_REFERENCED, ABSENT, SHORT]),
    (WRITE, JUDGED, &[FIELD, NOT_REFERENCED, ABSENT, FROZEN, SHORT]),
    (WEAKEN, WEAKENING, &[]),
    (REDUCE, JUDGED, &[FIELD]),
    (NEW_PASSWORD, JUDGED, &[FIELD, NOT_PRIMARY, OLD_PASSWORD]),
    (FREEZE, JUDGED, &[FIELD, ELSEWHERE, NOT_PRIMARY, ABSENT]),
    (JOIN, JUDGED, &[FIELD, APART, WHOLE]),
    (VALIDATION, JUDGED, &[FIELD]),
    (LOOK, JUDGED, &[FIELD, ELSEWHERE, NOT_REFERENCED, ABSENT]),
];

/// Calls by their codes, each with a number that it may come to, and has to.
pub fn allowed() -> impl Iterator<Item = (u8, u8)> {
    ALLOWED.into_iter().flat_map(|(code, these, more)| [these, more].concat().into_iter().map(move |own| (code, own)))
}

/// Modes above a byte: right in the lowest byte, in the lowest two, or perhaps in the lowest four.
const WIDE_MODES: [u32; 5] = [257, 258, 65_537, 65_538, BEYOND];
/// What takes a mode.
const NAMING_A_MODE: [u8; 5] = [REDUCE, NEW_PASSWORD, JOIN, VALIDATION, BATCH];

pub struct Tally {
    pub pairs: BTreeMap<(u8, u8), u64>,
    pub met: Met,
}

impl Default for Tally {
    fn default() -> Tally {
        let pairs = allowed().map(in_words);
        let fills = Fill::ALL.map(|fill| format!("store {fill:?}"));
        let modes = NAMING_A_MODE.into_iter().flat_map(|code| WIDE_MODES.map(|mode| with_mode(code, mode)));
        let weakened = (0..=SUBSELECTORS).map(not_flat);
        let damaged = WEAKENING.iter().map(|number| beside_damage(*number));
        let due = pairs.chain(fills).chain(modes).chain(weakened).chain(damaged).chain(met::due());
        let due = due.chain(damages::due()).chain(widths::due()).chain(sights::due());
        Tally { pairs: BTreeMap::new(), met: Met::new("calls", due) }
    }
}

impl Tally {
    pub fn note(&mut self, question: &Question, answer: &Answer) {
        let (call, number) = (&question.call, answer.reply.number);
        let pair = (question.code(), number);
        *self.pairs.entry(pair).or_default() += 1;
        self.met.note(in_words(pair));
        for handle in call.presented().filter(|_| answer.reply.is_done()) {
            let (subselectors, flat) = (handle.selector.subselectors, handle.width().flat());
            self.met.note(not_flat(subselectors.iter().filter(|part| **part != flat).count()));
        }
        self.met.note_all(met::way(call, number));
        self.met.note_all(call.named_mode().map(|mode| with_mode(question.code(), mode)));
    }

    /// What a question came to that hangs on what it was put to, which is `held`.
    pub fn note_held(&mut self, held: &Held, question: &Question, answer: &Answer) {
        self.met.note_all(sights::met(held, question, answer));
        self.met.note_all(widths::met(question.code(), held, question, answer));
        if let Some(store) = decode(&held.image) {
            let found = Found::whole(&store, question.buffer.len());
            self.met.note_all(met::situations(&found, &question.call, answer.reply.number));
        }
    }

    /// A mode and a width that a batch was asked with.
    pub fn note_batch(&mut self, mode: u32, width: usize) {
        self.met.note(with_mode(BATCH, mode));
        self.met.note_all(widths::asked(BATCH, width));
    }

    /// A call on a store that was damaged before.
    pub fn note_beside_damage(&mut self, question: &Question, answer: &Answer) {
        if let Call::Weaken { .. } = question.call {
            self.met.note(beside_damage(answer.reply.number));
        }
    }

    /// Everything that was to be met and was not, and pairs that were met and may not be.
    pub fn faults(&self) -> Vec<String> {
        let allowed: Vec<(u8, u8)> = allowed().collect();
        let wrong = self.pairs.keys().filter(|pair| !allowed.contains(pair));
        let wrong = wrong.map(|pair| format!("not allowed: {}", in_words(*pair)));
        self.met.faults().into_iter().chain(wrong).collect()
    }
}

fn in_words((code, number): (u8, u8)) -> String {
    let word = word(number).unwrap_or("no such number");
    format!("{} with {number} ({word})", name(code))
}

fn with_mode(code: u8, mode: u32) -> String {
    format!("{} with mode {mode}", name(code))
}

/// Calls done, by how many subselectors of a handle that they present are not flat.
fn not_flat(count: usize) -> String {
    format!("a call with {count} subselectors not flat")
}

fn beside_damage(number: u8) -> String {
    format!("{}, damaged", in_words((WEAKEN, number)))
}

impl fmt::Display for Tally {
    fn fmt(&self, to: &mut fmt::Formatter) -> fmt::Result {
        let numbers: Vec<u8> = (0..=SPENT).chain(EMPTY..=LENGTH).collect();
        let codes = ALLOWED.into_iter().map(|(code, ..)| (code, name(code)));
        write!(to, "{}{}", met::table(codes, &numbers, &self.pairs), self.met)
    }
}
