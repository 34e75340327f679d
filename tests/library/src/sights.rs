//! Which looks and freezes were met: what they came to, and what stood against those that were refused. Beside
//! them, where 22 and 25 met their neighbours, and each number of a join the next one.

use crate::words::*;

/// Nothing but the current node is wrong: another one, or one above 3. The next two are right in the lowest byte or the
/// lowest two alone, and the last is one that no four bytes hold.
const WRONG_NODES: [&str; 5] = ["OtherNode", "NodeAbove", "NodeOfOneByte", "NodeOfTwoBytes", "NodeBeyond"];

/// Numbers of which each has to meet the next in these calls. 25 comes first, and again between 8 and 9.
const NEIGHBOURS: [(&[u8], &[u8]); 12] = [
    (&VALIDATING, &[LENGTH, UNSOUND]),
    (&[LOOK, FREEZE, JOIN], &[UNSOUND, NO_SUCH_PLACE, FIELD, GAPPED]),
    (&[LOOK, FREEZE], &[GAPPED, ELSEWHERE, INACTIVE]),
    (&[JOIN], &[GAPPED, APART, INACTIVE]),
    (&VALIDATING, &[INACTIVE, LENGTH, VIOLATED_PROTECTION]),
    (&[LOOK], &[VIOLATED_PROTECTION, NOT_REFERENCED, ABSENT]),
    (&[FREEZE], &[VIOLATED_PROTECTION, NOT_PRIMARY, ABSENT]),
    (&[JOIN], &[VIOLATED_PROTECTION, WHOLE]),
    (&[DELETE_CLUSTER, DELETE_SEGMENT], &[VIOLATED_PROTECTION, NOT_PRIMARY, FROZEN]),
    (&[DELETE_SEGMENT], &[NOT_PRIMARY, ABSENT]),
    (&[WRITE], &[VIOLATED_PROTECTION, NOT_REFERENCED, FROZEN, SHORT]),
    (&[WRITE], &[NOT_REFERENCED, ABSENT]),
];

/// What each call has to come to where two numbers apply: the one that is given, and the next where that does not.
fn neighbours() -> impl Iterator<Item = (u8, u8, u8)> {
    let rows = NEIGHBOURS.into_iter().flat_map(|(codes, row)| codes.iter().map(move |code| (*code, row)));
    rows.flat_map(|(code, row)| row.windows(2).map(move |two| (code, two[0], two[1])))
}

/// Everything that has to be met.
pub fn due() -> impl Iterator<Item = String> {
    let shown = ["OneByte", "WholeNode", "LastOfANode", "LastOfAll"].map(|what| format!("look, {what}"));
    let marked = (0..SEGMENTS).map(|segment| format!("freeze, Marked({segment})"));
    let nodes = ["look", "freeze"].into_iter().flat_map(|call| {
        (0..NODES).map(in_node).chain(WRONG_NODES.map(String::from)).map(move |what| format!("{call}, {what}"))
    });
    let both = neighbours().map(|(code, given, next)| format!("{}, Both({given}, {next})", name(code)));
    shown.into_iter().chain(marked).chain(nodes).chain(both)
}

/// What a call has met; `held` is what it was put to.
pub fn met(held: &Held, question: &Question, answer: &Answer) -> impl Iterator<Item = String> {
    let sights = match answer.reply.number {
        DONE => done(held, &question.call, &answer.reply),
        number => refused(held, question, number),
    };
    let call = name(question.code());
    sights.into_iter().map(move |sight| format!("{call}, {sight}"))
}

fn in_node(node: usize) -> String {
    format!("InNode({node})")
}

fn done(held: &Held, call: &Call, reply: &Reply) -> Vec<String> {
    match (call, call.handle()) {
        (Call::Look { .. }, _) => shown(reply),
        (Call::Freeze { node, segment, .. }, Some(handle)) => {
            let (node, segment) = (*node as usize, *segment);
            let store = decode(&held.image);
            let cluster = store.map(|store| store.clusters[node][usize::from(handle.local)]);
            let was_frozen = cluster.is_some_and(|own| own.segments[segment as usize].frozen);
            (!was_frozen).then(|| format!("Marked({segment})")).into_iter().chain([in_node(node)]).collect()
        }
        _ => Vec::new(),
    }
}

fn shown(reply: &Reply) -> Vec<String> {
    let (from, length) = (reply.shown.from, reply.shown.length);
    let end = from + length;
    // The last byte of a node is shown; and that of the last node, which ends the memory.
    let sights = [
        (length == 1, "OneByte"),
        (length == NODE_BYTES, "WholeNode"),
        (end % NODE_BYTES == 0, "LastOfANode"),
        (end == MEMORY_BYTES, "LastOfAll"),
    ];
    let met = sights.into_iter().filter(|(is_met, _)| *is_met).map(|(_, sight)| sight.to_string());
    met.chain([in_node(from / NODE_BYTES)]).collect()
}

fn refused(held: &Held, question: &Question, number: u8) -> Vec<String> {
    let (Call::Look { node, .. } | Call::Freeze { node, .. }, Some(handle)) = (&question.call, question.call.handle())
    else {
        return both(held, question, number).into_iter().collect();
    };
    let wrong = wrong_node(*node, &handle).filter(|_| is_done_at_home(held, question, &handle)).map(String::from);
    both(held, question, number).into_iter().chain(wrong).collect()
}

/// The number that was given, and the next one that applies, where that is looked for; a damaged image has no store to
/// ask.
fn both(held: &Held, question: &Question, number: u8) -> Option<String> {
    let is_due = |(code, given, _)| (code, given) == (question.code(), number);
    let store = decode(&held.image).filter(|_| neighbours().any(is_due))?;
    let next = refusal_below(number, &question.call, &Found::whole(&store, question.buffer.len()))?;
    Some(format!("Both({number}, {next})"))
}

/// Whether the same call is done where its handle's node is the current one.
fn is_done_at_home(held: &Held, question: &Question, handle: &Handle) -> bool {
    let mut at_home = question.clone();
    if let [Some(node), ..] = at_home.numbers_mut() {
        *node = handle.node.into();
    }
    by_model(&mut held.clone(), &at_home).reply.is_done()
}

fn wrong_node(node: u32, handle: &Handle) -> Option<&'static str> {
    let right = u32::from(handle.node);
    match node {
        BEYOND => Some("NodeBeyond"),
        _ if node == right => None,
        _ if node < NODES as u32 => Some("OtherNode"),
        _ if node == right + (1 << 8) => Some("NodeOfOneByte"),
        _ if node == right + (1 << 16) => Some("NodeOfTwoBytes"),
        _ => Some("NodeAbove"),
    }
}
