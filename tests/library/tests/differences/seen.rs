//! A question as a wrong library sees it.

use crate::wrong::in_one_byte;
use library::{pairs::parts_of, words::*};
use std::ops::Range;

/// A question by a handle of one of the three lengths, and what it is put to.
pub struct Seen {
    pub store: Option<Store>,
    /// The current node, the handle's where the call has none.
    pub node: u32,
    pub segment: u32,
    pub handle: Handle,
    pub held: Held,
    pub question: Question,
}

impl Seen {
    pub fn of(held: &Held, question: &Question) -> Option<Seen> {
        let handle = question.call.handle()?;
        Some(Seen {
            store: decode(&held.image),
            node: question.call.current_node().unwrap_or(handle.node.into()),
            segment: question.call.segment().unwrap_or(0),
            handle,
            held: held.clone(),
            question: question.clone(),
        })
    }

    /// Node and local number of the cluster that the handle names.
    pub fn place(&self) -> (usize, usize) {
        (self.handle.node.into(), self.handle.local.into())
    }

    pub fn cluster(&self) -> Option<Cluster> {
        let (node, local) = self.place();
        self.store.as_ref()?.cluster(node, local).copied()
    }

    /// That cluster, where it is active.
    pub fn active(&self) -> Option<Cluster> {
        self.cluster().filter(|cluster| cluster.active)
    }

    /// The segment of that cluster.
    pub fn own(&self) -> Option<Segment> {
        self.cluster()?.segments.get(self.segment as usize).copied()
    }

    /// The bytes of that segment, where it is present.
    pub fn there(&self) -> Option<&[u8]> {
        self.held.memory.get(self.own()?.extent()?.in_memory(self.handle.node.into()))
    }

    /// Those of all segments of that cluster.
    pub fn in_the_cluster(&self) -> Vec<&[u8]> {
        let store = self.store.as_ref().filter(|_| self.cluster().is_some());
        let parts = store.map(|store| parts_of(store, self.place()));
        parts.into_iter().flatten().map(|part| &self.held.memory[part]).collect()
    }

    pub fn is_no_segment(&self) -> bool {
        self.segment as usize >= self.handle.width().segments()
    }

    pub fn is_gapped(&self) -> bool {
        self.handle.selector.is_gapped()
    }

    pub fn is_elsewhere(&self) -> bool {
        self.node != u32::from(self.handle.node)
    }

    /// The handle's place is one, and the current node is none.
    pub fn is_in_no_node(&self) -> bool {
        let (node, local) = self.place();
        node < NODES && local < CLUSTERS && self.node as usize >= NODES
    }

    pub fn is_not_primary(&self) -> bool {
        !self.handle.selector.is_primary()
    }

    pub fn is_not_referenced(&self) -> bool {
        !self.handle.selector.references(self.segment as usize)
    }

    pub fn is_absent(&self) -> bool {
        self.own().is_some_and(|segment| !segment.is_present())
    }

    pub fn is_frozen(&self) -> bool {
        self.own().is_some_and(|segment| segment.frozen)
    }

    pub fn has_frozen(&self) -> bool {
        self.cluster().is_some_and(|cluster| cluster.has_frozen())
    }

    pub fn is_inactive(&self) -> bool {
        self.cluster().is_some_and(|cluster| !cluster.active)
    }

    pub fn has_equal_passwords(&self) -> bool {
        self.cluster().is_some_and(|cluster| cluster.has_equal_passwords())
    }

    pub fn mode(&self) -> Option<Mode> {
        self.question.call.needed_mode()
    }

    /// The password of the call's mode.
    pub fn primary(&self) -> Option<Password> {
        Some(*self.cluster()?.primary(self.mode()?))
    }

    pub fn is_forged(&self) -> bool {
        self.primary().is_some_and(|primary| !self.handle.is_made_from(&primary))
    }

    pub fn has_another_width(&self) -> bool {
        self.active().is_some_and(|cluster| !cluster.has_width(self.handle.width()))
    }

    /// What the library replies to the same call in the node of its handle.
    pub fn at_home(&self) -> Reply {
        self.asked(|_, question| {
            if let [Some(node), ..] = question.numbers_mut() {
                *node = self.handle.node.into();
            }
        })
    }

    pub fn done_at_home(&self) -> Option<Reply> {
        Some(self.at_home()).filter(Reply::is_done)
    }

    /// What it replies where some of its numbers are taken in their lowest byte alone, if that is done.
    pub fn done_in_one_byte(&self, numbers: Range<usize>) -> Option<Reply> {
        self.done(|_, question| question.numbers_mut()[numbers].iter_mut().flatten().for_each(|cut| in_one_byte(cut)))
    }

    /// What it replies where the call is by the primary handle of its mode, if that is done.
    pub fn done_by_the_primary_handle(&self) -> Option<Reply> {
        let (node, local) = self.handle.name();
        let primary = Handle::primary(self.handle.width(), node, local, self.primary()?);
        self.done(|_, question| *question.handle_mut().expect("there is one") = primary.to_bytes())
    }

    /// What it replies where the password of the call's mode is the other's, if that is done.
    pub fn done_in_the_other_mode(&self) -> Option<Reply> {
        let (mut store, mode, (node, local)) = (self.store.clone()?, self.mode()?, self.place());
        let cluster = &mut store.clusters[node][local];
        *cluster.primary_mut(mode) = *cluster.primary(mode.other());
        self.done(|held, _| held.image = encode(&store))
    }

    /// What the library replies to another call, or to this one on another store, if that is done.
    pub fn done(&self, change: impl FnOnce(&mut Held, &mut Question)) -> Option<Reply> {
        Some(self.asked(change)).filter(Reply::is_done)
    }

    pub fn asked(&self, change: impl FnOnce(&mut Held, &mut Question)) -> Reply {
        let (mut held, mut question) = (self.held.clone(), self.question.clone());
        change(&mut held, &mut question);
        guard::ask(&mut held, &question).reply
    }
}
