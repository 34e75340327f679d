//! Which kinds of damage were met, in which calls and at which places.

use crate::words::*;
use std::collections::BTreeSet;

listed! {
    /// Where damage was done, as seen from the call that came upon it.
    pub enum Where {
        LastRecord, ItsRecord, ItsNode, Elsewhere,
    }
}

impl Where {
    /// The call is about the cluster at `own`, if about one; the damage is done at `place`.
    pub fn seen_from(own: Option<(usize, usize)>, place: (usize, usize)) -> Where {
        match own {
            _ if place == LAST_PLACE => Where::LastRecord,
            Some(own) if own == place => Where::ItsRecord,
            Some((node, _)) if node == place.0 => Where::ItsNode,
            _ => Where::Elsewhere,
        }
    }
}

/// The kind in the call, the kind at the place, and the place in the call.
pub fn met(code: u8, damage: Damage, place: Where) -> [String; 3] {
    let name = name(code);
    [format!("damage {damage:?}, {name}"), format!("damage {damage:?}, {place:?}"), format!("damage {place:?}, {name}")]
}

/// Everything that has to be met.
pub fn due() -> BTreeSet<String> {
    let all = CODES.into_iter().flat_map(|code| Damage::ALL.map(|damage| (code, damage)));
    let all = all.flat_map(|(code, damage)| Where::ALL.map(|place| (code, damage, place)));
    // A batch has handles of many clusters, so no record is its own.
    let all = all.filter(|(code, _, at)| *code != BATCH || [Where::LastRecord, Where::Elsewhere].contains(at));
    all.flat_map(|(code, damage, place)| met(code, damage, place)).collect()
}
