//! Questions by chance, each made in knowledge of the store that it is asked of.

use crate::{ffi::HANDLE_MAX, guard::handles::Behind, words::*};

/// Codes for single calls: all alike.
pub const EVENLY: [u8; 13] = [1, 2, 3, 4, 5, 6, 7, 8, 9, 10, 11, VALIDATION, LOOK];
/// Codes for rows of calls: what fills the store comes more often than what empties it.
pub const FILLING: [u8; 34] = [
    1, 1, 1, 2, 3, 3, 3, 3, 3, 4, 5, 5, 5, 5, 6, 6, 6, 6, 7, 7, 8, 8, 9, 9, 10, 10, 11, 11, 11, VALIDATION, LOOK, LOOK,
    LOOK, LOOK,
];

/// Modes are numbered from 1.
const MODES: usize = WRITE_MODE as usize;

/// Buffers where there is no segment to go by.
const SMALL_BUFFER_BYTES: usize = 64;

/// What a question is made from; `given` are handles that earlier calls gave.
pub struct Maker<'a> {
    pub random: &'a mut Random,
    pub store: &'a Store,
    pub given: &'a [Handle],
}

impl Maker<'_> {
    pub fn question(&mut self, codes: &[u8]) -> Question {
        let call = match *self.random.pick(codes).expect("there are codes") {
            NEW_CLUSTER => self.new_cluster(),
            DELETE_CLUSTER => self.delete_cluster(),
            NEW_SEGMENT => self.new_segment(),
            DELETE_SEGMENT => self.delete_segment(),
            READ => self.moving(Mode::Read, Call::read),
            WRITE => self.moving(Mode::Write, Call::write),
            WEAKEN => self.weaken(),
            REDUCE => self.with_mode(Call::reduce),
            NEW_PASSWORD => self.new_password(),
            FREEZE => self.aimed(Mode::Write, Call::freeze),
            JOIN => self.join(),
            LOOK => self.aimed(Mode::Read, Call::look),
            _ => self.with_mode(Call::validate),
        };
        let buffer_bytes = self.buffer_bytes(&call);
        Question { call, beyond: self.beyond(), buffer: bytes(self.random, buffer_bytes), behind: self.behind() }
    }

    /// Zeros, as in a handle that was given, or anything.
    fn behind(&mut self) -> Behind {
        let mut behind = [0; HANDLE_MAX];
        if self.random.one_in(2) {
            fill(self.random, &mut behind);
        }
        behind
    }

    /// A number that no `u32` holds. In fewer bytes some of them would be small.
    fn beyond(&mut self) -> usize {
        let bound = if self.random.one_in(2) { NODES } else { SEGMENTS + 1 };
        let small = below(self.random, bound);
        match self.random.below(4) {
            0 => usize::MAX,
            1 => 1 << 63 | small,
            2 => 1 << 48 | small,
            _ => 1 << 32 | small,
        }
    }

    /// Mostly `likely`; else a number out of range, or a little above or below `bound`.
    pub(super) fn near(&mut self, likely: usize, bound: usize) -> u32 {
        let likely = likely as u32;
        match self.random.below(40) {
            0 => BEYOND,
            1 => likely + (1 << 8),
            2 => likely + (1 << 16),
            3 => self.random.number() as u32,
            4 | 5 => below(self.random, bound + 2) as u32,
            _ => likely,
        }
    }

    /// A mode, and mostly its number.
    pub(super) fn mode(&mut self) -> (Mode, u32) {
        let (mode, number) = if self.random.one_in(2) { (Mode::Read, READ_MODE) } else { (Mode::Write, WRITE_MODE) };
        match self.random.one_in(20) {
            true => (mode, self.random.byte().into()),
            false => (mode, self.near(number as usize, MODES)),
        }
    }

    pub(super) fn handle(&mut self, mode: Mode, primary: bool, segments: bool) -> Handle {
        handles::handle(self.random, self.store, self.given, Wish { mode, primary, segments, width: None })
    }

    /// The bytes that are presented for a handle, sometimes such as no handle has.
    pub(super) fn presented(&mut self, handle: &Handle) -> HandleBytes {
        handles::presented(self.random, handle)
    }

    pub(super) fn current_node(&mut self, handle: &Handle) -> u32 {
        match self.random.one_in(16) {
            true => below(self.random, NODES) as u32,
            false => self.near(handle.node.into(), NODES),
        }
    }

    /// A segment of the handle's cluster that is present, or is not, if there is one. Sometimes it is one that only
    /// clusters of another width have.
    pub(super) fn segment(&mut self, handle: &Handle, present: bool) -> u32 {
        let referenced_only = !self.random.one_in(4);
        let bound = handle.width().segments();
        let cluster = self.store.cluster_of(handle);
        let fits = |&segment: &usize| {
            let is_present = cluster.is_some_and(|cluster| cluster.segments[segment].is_present());
            is_present == present && (!referenced_only || handle.selector.references(segment))
        };
        let fitting: Vec<usize> = (0..bound).filter(fits).collect();
        let any = below(self.random, bound);
        let likely = self.random.pick(&fitting).copied().unwrap_or(any);
        match self.random.one_in(16) {
            true => below(self.random, SEGMENTS + 1) as u32,
            false => self.near(likely, bound),
        }
    }

    /// Often just what a gap of the node has room for, or one byte more.
    fn size(&mut self, handle: &Handle) -> u32 {
        let gap = self.random.pick(&gaps(self.store, usize::from(handle.node) % NODES)).map(|gap| gap.length);
        let likely = match (self.random.below(8), gap) {
            (0, Some(gap)) => gap,
            (1, Some(gap)) => gap + 1,
            (2, _) => NODE_BYTES - 1 + below(self.random, 3),
            (3, _) => 1 + below(self.random, NODE_BYTES),
            (4, _) => below(self.random, 2),
            _ => 1 + below(self.random, 100),
        };
        self.near(likely, NODE_BYTES)
    }

    /// For reads and writes, mostly about as many bytes as the segment has; nothing else is lent
    /// a buffer.
    fn buffer_bytes(&mut self, call: &Call) -> usize {
        let (true, Some(segment)) = (call.moves_bytes(), call.segment()) else { return 0 };
        let cluster = call.handle().and_then(|handle| self.store.cluster_of(&handle));
        let found = cluster.and_then(|cluster| cluster.segments.get(segment as usize));
        match (found.and_then(Segment::extent), self.random.below(8)) {
            (_, 0) => 0,
            (Some(extent), 1) => extent.length - 1,
            (Some(extent), 2) => below(self.random, extent.length),
            (Some(extent), 3) => extent.length + 1,
            (Some(extent), 4) => extent.length + below(self.random, NODE_BYTES),
            (Some(extent), _) => extent.length,
            (None, _) => below(self.random, SMALL_BUFFER_BYTES),
        }
    }

    fn delete_cluster(&mut self) -> Call {
        let segments = self.random.one_in(2);
        let handle = self.handle(Mode::Write, true, segments);
        Call::delete_cluster(self.current_node(&handle), self.presented(&handle))
    }

    fn new_segment(&mut self) -> Call {
        let segments = self.random.one_in(2);
        let handle = self.handle(Mode::Write, true, segments);
        let present = self.random.one_in(10);
        let (node, segment) = (self.current_node(&handle), self.segment(&handle, present));
        Call::new_segment(node, segment, self.size(&handle), self.presented(&handle))
    }

    fn delete_segment(&mut self) -> Call {
        let handle = self.handle(Mode::Write, true, true);
        let present = !self.random.one_in(8);
        Call::delete_segment(self.current_node(&handle), self.segment(&handle, present), self.presented(&handle))
    }

    /// A read or a write.
    fn moving(&mut self, mode: Mode, call: fn(u32, HandleBytes) -> Call) -> Call {
        let handle = self.handle(mode, false, true);
        let present = !self.random.one_in(8);
        call(self.segment(&handle, present), self.presented(&handle))
    }

    /// A reduction or a validation.
    fn with_mode(&mut self, call: fn(u32, HandleBytes) -> Call) -> Call {
        let (mode, number) = self.mode();
        let handle = self.handle(mode, false, true);
        call(number, self.presented(&handle))
    }

    fn new_password(&mut self) -> Call {
        let (mode, number) = self.mode();
        let handle = self.handle(mode, true, true);
        // Often one of those that the handle's cluster has already, or one bit off.
        let password = match (self.store.cluster_of(&handle).copied(), self.random.below(12)) {
            (Some(cluster), 0 | 1) => cluster.read,
            (Some(cluster), 2 | 3) => cluster.write,
            (Some(cluster), 4) => near(self.random, cluster.read),
            (Some(cluster), 5) => near(self.random, cluster.write),
            _ => password(self.random),
        };
        Call::new_password(number, self.presented(&handle), password)
    }
}
