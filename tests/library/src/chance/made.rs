//! Calls 1, 7 and 11 by chance, in which widths, masks and pairs of handles matter.

use crate::words::*;
use model::generate::joins;

impl Maker<'_> {
    pub(super) fn new_cluster(&mut self) -> Call {
        let anywhere = self.random.one_in(5);
        let inactive = if anywhere { None } else { place(self.random, self.store, |cluster| !cluster.active) };
        let any = (below(self.random, NODES), below(self.random, CLUSTERS));
        let (node, local) = inactive.unwrap_or(any);
        let read = password(self.random);
        let write = if self.random.one_in(6) { read } else { password(self.random) };
        let (node, local) = (self.near(node, NODES), self.near(local, CLUSTERS));
        Call::NewCluster { node, local, width: self.width(), read, write }
    }

    /// Mostly one of the three; else a number about them, or one that is right in its lowest bytes alone.
    fn width(&mut self) -> usize {
        let right = width(self.random).segments();
        match self.random.below(32) {
            0..=2 => below(self.random, SEGMENTS + 5),
            3 => right + (1 << 8),
            4 => right + (1 << 16),
            5 => right + (1 << (32 + self.random.below(32))),
            6 => usize::MAX,
            7 => self.random.byte().into(),
            _ => right,
        }
    }

    pub(super) fn weaken(&mut self) -> Call {
        let (mode, _) = self.mode();
        let handle = self.handle(mode, false, true);
        let (width, referenced) = (handle.width(), handle.selector.referenced());
        let random = &mut *self.random;
        let mask = match random.below(8) {
            0 => width.flat(),
            1 => 0,
            2 => !bit(random, width),
            3 => bit(random, width),
            4 => referenced,
            // Keeps nothing that the handle references.
            5 => bits(random, width) & !referenced,
            _ => bits(random, width),
        };
        // Bits at or above the width: none, all, or any.
        let above = match random.below(4) {
            0 => 0,
            1 => u16::MAX,
            _ => random.number() as u16,
        };
        Call::weaken(mask & width.flat() | above & !width.flat(), self.presented(&handle))
    }

    /// Most joins are made as in lists, with handles of every width and of lengths that none has, and with modes that a
    /// list cannot name besides.
    pub(super) fn join(&mut self) -> Call {
        let aimed = if self.random.one_in(4) { None } else { joins::join_of_widths(self.random, self.store) };
        let Some(join) = aimed else { return self.as_other_calls() };
        let ([handle, other], right) = (join.handles, join.mode.number());
        let mode = if join.is_a_mode { right } else { no_mode(self.random, right) };
        Call::join(mode, handle, other)
    }

    /// The second handle is mostly one that was given for the cluster of the first.
    fn as_other_calls(&mut self) -> Call {
        let (mode, number) = self.mode();
        let handle = self.handle(mode, false, true);
        let same: Vec<Handle> = self.given.iter().filter(|given| given.name() == handle.name()).copied().collect();
        let chosen = self.random.pick(&same).copied();
        let other = chosen.unwrap_or_else(|| self.handle(mode, false, true));
        Call::join(number, self.presented(&handle), self.presented(&other))
    }
}

/// A number that is no mode, often one that is right in its lowest bytes alone.
fn no_mode(random: &mut Random, right: u32) -> u32 {
    match random.below(6) {
        0 => 0,
        1 => WRITE_MODE + 1,
        2 => right + (1 << 8),
        3 => right + (1 << 16),
        4 => 1 << random.below(32) | 1 << 3,
        _ => BEYOND,
    }
}
