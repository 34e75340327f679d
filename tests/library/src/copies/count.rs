//! What lists of two copies came to, and what they have to come to.

use crate::{pairs::Pair, words::*};
use model::renewals::Renewal;

/// Calls of which some have to be done, and some to be kept from the cluster set apart by passwords alone: with
/// passwords that open it for each handle, the call would be done.
const KEPT: [&str; 4] = ["look", "freeze", "join", "new password"];

const DUE: [&str; 11] = [
    "a call done",
    "a call that names the cluster set apart",
    "a join of which the first handle alone names the cluster set apart",
    "a join of which the second handle alone names the cluster set apart",
    "a call refused with 22 (frozen)",
    "a cluster set apart with a frozen segment",
    "a cluster set apart with equal passwords in one copy alone",
    "a new password that the cluster set apart has in one copy alone",
    "a new password that makes two equal",
    "a call done by a handle that opens both modes",
    "a length that no handle has",
];

/// Where the handle has the password that one with these subselectors needs.
const OTHER: &str = "right but for its width, a handle of a cluster set apart of";
const APART_OF: &str = "a cluster set apart of width";
const BY: &str = "a call done by a handle of width";

fn with(what: &str, width: Width) -> String {
    format!("{what} {}", width.segments())
}

fn kept(what: &str) -> String {
    format!("a {what} that passwords alone keep from the cluster set apart")
}

pub fn met() -> Met {
    let calls = KEPT.into_iter().flat_map(|what| [format!("a {what} done"), kept(what)]);
    let widths = Width::ALL.into_iter().flat_map(|width| [APART_OF, OTHER, BY].map(|what| with(what, width)));
    Met::new("two copies", DUE.map(String::from).into_iter().chain(calls).chain(widths))
}

pub(super) fn note_pair(met: &mut Met, pair: &Pair, stores: &[Store; 2]) {
    let apart = pair.cluster(&stores[0]);
    met.note_if(apart.has_frozen(), "a cluster set apart with a frozen segment");
    met.note_all(apart.known_width().map(|width| with(APART_OF, width)));
    let in_one = pair.in_one(stores, Cluster::has_equal_passwords);
    met.note_if(in_one, "a cluster set apart with equal passwords in one copy alone");
}

/// The copies were `stores` before the call.
pub(super) fn note(met: &mut Met, pair: &Pair, stores: &[Store; 2], question: &Question, answer: &Answer) {
    note_passwords(met, stores, question, answer);
    note_widths(met, pair, stores, question, answer);
    let done = answer.reply.is_done();
    met.note_if(pair.names_apart(&question.call), "a call that names the cluster set apart");
    met.note_if(done, "a call done");
    met.note_if(answer.reply.number == FROZEN, "a call refused with 22 (frozen)");
    let what = match &question.call {
        Call::Look { .. } => "look",
        Call::Freeze { .. } => "freeze",
        Call::Join { handle, other, .. } => {
            let [first, second] = [handle, other].map(|bytes| pair.is_named_by(bytes));
            let which = if first { "first" } else { "second" };
            let alone = format!("a join of which the {which} handle alone names the cluster set apart");
            met.note_if(first != second, alone);
            "join"
        }
        Call::NewPassword { .. } => "new password",
        _ => return,
    };
    met.note_if(done, format_args!("a {what} done"));
    met.note_if(pair.kept_by_the_passwords(question, answer), kept(what));
}

fn note_widths(met: &mut Met, pair: &Pair, [store, _]: &[Store; 2], question: &Question, answer: &Answer) {
    let cluster = pair.cluster(store);
    let made_from = |handle: &Handle| Mode::ALL.iter().any(|mode| handle.is_made_from(cluster.primary(*mode)));
    let other = |handle: Handle| pair.is_apart(&handle) && !cluster.has_width(handle.width()) && made_from(&handle);
    let refused = answer.reply.number == LENGTH && question.call.presented().any(other);
    met.note_all(cluster.known_width().filter(|_| refused).map(|width| with(OTHER, width)));
    let done = question.call.presented().filter(|_| answer.reply.is_done());
    met.note_all(done.map(|handle| with(BY, handle.width())));
    let mut lengths = question.call.presented_bytes().map(<[u8]>::len);
    met.note_if(lengths.any(|length| Width::of_handle_bytes(length).is_none()), "a length that no handle has");
}

/// What is met in the two copies differs where the cluster set apart is concerned, and there alone.
fn note_passwords(met: &mut Met, stores: &[Store; 2], question: &Question, answer: &Answer) {
    let [first, second] = stores
        .each_ref()
        .map(|store| Renewal::of(&Found::whole(store, question.buffer.len()), &question.call, answer.reply.number));
    met.note_if(first != second, "a new password that the cluster set apart has in one copy alone");
    match first {
        Some(Renewal::MadeEqual(_)) => met.note("a new password that makes two equal"),
        Some(Renewal::ByPrimary(_) | Renewal::ByWeaker(_)) => met.note("a call done by a handle that opens both modes"),
        _ => {}
    }
}
