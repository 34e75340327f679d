//! What lists of writers came to, and what they have to come to.

use super::{calls::written_part, freed::Freed};
use crate::pairs::{parts_of, validates, Pair};
use crate::words::*;

/// What the freedom of writers allows, by name.
pub type Deed = &'static str;

/// Done by handles that open the cluster for writing, if nothing else is said.
#[rustfmt::skip]
const DEEDS: [Deed; 30] = [
    "Written", "Made", "Deleted", "Frozen", "Reduced", "Joined", "Validated", "NewPassword", "ClusterDeleted",
    // By a handle that is not primary; data that lies there in one copy and not in the other.
    "WrittenByAWeaker", "WrittenGuess",
    // A segment of the cluster that lies where one of it was before.
    "MadeAgain",
    // A new write password that is the read password of one copy alone; anything by handles that open both modes in
    // one.
    "Guessed", "ByBothInOne",
    // Call 1 for the cluster, which was deleted; a write and a deletion from then on; at another width than it had.
    "MadeAnew", "WrittenAnew", "DeletedAnew", "MadeWider", "MadeSmaller",
    // 25, where a handle of another width asks for reading that has a password made from the read password.
    "ReaderOfAnotherWidth",
    // Call 7 with a handle that opens the cluster for reading.
    "ReaderWeakened",
    // 9 by handles that open the cluster for writing: for a read, for a look, and for another call in mode 1.
    "ReadRefused", "LookRefused", "Mode1Refused",
    // 9 by a handle that opens the cluster for reading alone, where writing is asked for.
    "WriteRefused",
    // 8 at the cluster, which was deleted; 22 for a write, and for the cluster.
    "WhileDeleted", "FrozenNotWritten", "FrozenNotDeleted",
    // Another cluster has a new segment where the cluster had one, and a read or a look of it shows zeros.
    "MadeByAnother", "ReadByAnother",
];

/// Both the bytes of the cluster's segments and its read passwords.
const DIFFERING: &str = "copies that differ to the end";

/// By a handle of this width.
fn written_at(width: Width) -> String {
    format!("WrittenAt({width:?})")
}

pub fn met() -> Met {
    Met::new("writers", DEEDS.into_iter().chain([DIFFERING]).map(String::from).chain(Width::ALL.map(written_at)))
}

/// One list, and what it has come to so far.
pub(super) struct Watch<'a> {
    met: &'a mut Met,
    freed: Freed,
    /// How wide the cluster was when it was there last.
    width: u8,
    anew: bool,
    guess: bool,
}

impl Watch<'_> {
    pub fn of<'a>(met: &'a mut Met, pair: &Pair, [store, _]: &[Store; 2]) -> Watch<'a> {
        Watch { met, freed: Freed::new(pair.apart), width: pair.cluster(store).width, anew: false, guess: false }
    }

    /// What can be told of a question only before it is asked.
    pub fn expect(&mut self, pair: &Pair, [store, _]: &[Store; 2], question: &Question) {
        self.guess = written_part(store, pair, question).is_some_and(|part| {
            let data = question.buffer.get(..part.len());
            let [one, other] = pair.copies.each_ref().map(|copy| data == Some(&copy.memory[part.clone()]));
            one != other
        });
    }

    /// The copies were the first two stores before the call, and are the others since.
    pub fn note(&mut self, pair: &Pair, [before, after]: [&[Store; 2]; 2], question: &Question, answer: &Answer) {
        let call = &question.call;
        if let Some(deed) = of_cluster(pair, before, call, answer.reply.number) {
            self.met.note(deed);
            self.note_more(deed, call);
        }
        self.note_width(pair, &after[0]);
        if !answer.reply.is_done() {
            return;
        }
        let judged = call.needed_mode().is_some() && call.presented().all(|handle| pair.is_apart(&handle));
        self.met.note_if(judged && pair.in_one(before, Cluster::has_equal_passwords), "ByBothInOne");
        let shown = match call {
            Call::Read { .. } => answer.buffer.get(..answer.reply.length as usize),
            _ => answer.shown(&pair.copies[0]),
        };
        self.met.note_all(self.freed.note([&before[0], &after[0]], call, shown.unwrap_or_default()));
    }

    /// What the cluster is since, if it is there.
    fn note_width(&mut self, pair: &Pair, store: &Store) {
        let width = pair.cluster(store).width;
        match width {
            0 => return,
            _ if width > self.width => self.met.note("MadeWider"),
            _ if width < self.width => self.met.note("MadeSmaller"),
            _ => {}
        }
        self.width = width;
    }

    /// What such a deed is besides.
    fn note_more(&mut self, deed: Deed, call: &Call) {
        if let ("Written", Some(handle)) = (deed, call.handle()) {
            self.met.note(written_at(handle.width()));
        }
        let weaker = call.presented().any(|handle| !handle.selector.is_primary());
        self.anew |= deed == "MadeAnew";
        let more: &[_] = match deed {
            "Written" => &[(weaker, "WrittenByAWeaker"), (self.guess, "WrittenGuess"), (self.anew, "WrittenAnew")],
            "Deleted" => &[(self.anew, "DeletedAnew")],
            "Guessed" => &[(true, "NewPassword")],
            _ => &[],
        };
        more.iter().for_each(|(is_so, deed)| self.met.note_if(*is_so, deed));
    }

    /// The copies are these stores at the end.
    pub fn note_end(self, pair: &Pair, stores: &[Store; 2]) {
        let [first, second] = &pair.copies;
        let bytes =
            parts_of(&stores[0], pair.apart).into_iter().any(|part| first.memory[part.clone()] != second.memory[part]);
        let [one, other] = stores.each_ref().map(|store| pair.cluster(store).read);
        self.met.note_if(bytes && one != other, DIFFERING);
    }
}

/// What a call with this number comes to at the cluster. The copies were these stores before it.
fn of_cluster(pair: &Pair, stores: &[Store; 2], call: &Call, number: u8) -> Option<Deed> {
    if let Call::NewCluster { node, local, .. } = call {
        let own = (*node as usize, *local as usize) == pair.apart;
        return (own && number == DONE).then_some("MadeAnew");
    }
    if !call.presented_bytes().all(|bytes| pair.is_named_by(bytes)) {
        return None;
    }
    let open = |mode: Mode| call.presented().all(|handle: Handle| validates(stores, &handle, &[mode]));
    match (call, number) {
        (Call::Weaken { .. }, DONE) => open(Mode::Read).then_some("ReaderWeakened"),
        (Call::Weaken { .. }, _) => None,
        (_, DONE) => done(pair, stores, call),
        (_, INACTIVE) => Some("WhileDeleted"),
        (_, LENGTH) if call.needed_mode() == Some(Mode::Read) => {
            let read = pair.cluster(&stores[0]).read;
            call.presented().any(|handle: Handle| handle.is_made_from(&read)).then_some("ReaderOfAnotherWidth")
        }
        (Call::Write { .. }, FROZEN) => Some("FrozenNotWritten"),
        (Call::DeleteCluster { .. }, FROZEN) => Some("FrozenNotDeleted"),
        (_, VIOLATED_PROTECTION) => match (call, call.needed_mode()?) {
            (_, Mode::Write) => open(Mode::Read).then_some("WriteRefused"),
            _ if !open(Mode::Write) => None,
            (Call::Read { .. }, _) => Some("ReadRefused"),
            (Call::Look { .. }, _) => Some("LookRefused"),
            _ => Some("Mode1Refused"),
        },
        _ => None,
    }
}

/// What a call comes to that was done by handles that open the cluster. No list has one that reads.
fn done(pair: &Pair, stores: &[Store; 2], call: &Call) -> Option<Deed> {
    match call {
        Call::DeleteCluster { .. } => Some("ClusterDeleted"),
        Call::NewSegment { .. } => Some("Made"),
        Call::DeleteSegment { .. } => Some("Deleted"),
        Call::Write { .. } => Some("Written"),
        Call::Reduce { .. } => Some("Reduced"),
        Call::NewPassword { password, .. } if pair.in_one(stores, |own| own.read == *password) => Some("Guessed"),
        Call::NewPassword { .. } => Some("NewPassword"),
        Call::Freeze { .. } => Some("Frozen"),
        Call::Join { .. } => Some("Joined"),
        Call::Validate { .. } => Some("Validated"),
        _ => None,
    }
}
