//! Looks and freezes by chance. What speaks against one of them seldom meets by itself, so that half of them
//! are made from one that would be done: none, one or two things are made wrong in it.

use crate::words::*;

/// What a call about one segment of a node is asked with.
struct Aimed {
    node: u32,
    segment: u32,
    handle: Handle,
    /// False where it has to be asked with bytes of a length that no handle has.
    has_length: bool,
}

listed! {
    /// In the order in which two of them are put into one call.
    enum Fault {
        Absent,
        /// By a handle that is not primary either.
        NotReferenced,
        NotValid, OtherWidth, Inactive, Elsewhere, Gapped, NoSegment, NoNode, NoLength,
    }
}

impl Maker<'_> {
    /// A look or a freeze. What needs a write handle needs a primary one.
    pub(super) fn aimed(&mut self, mode: Mode, call: fn(u32, u32, HandleBytes) -> Call) -> Call {
        let aimed = self.aim(mode);
        call(aimed.node, aimed.segment, aimed.bytes(self.random))
    }

    fn aim(&mut self, mode: Mode) -> Aimed {
        let right = if self.random.one_in(2) { right(self.random, self.store, mode) } else { None };
        if let Some(aimed) = right {
            return with_faults(self.random, self.store, aimed);
        }
        // One that is made as other calls are.
        let handle = self.handle(mode, mode == Mode::Write, true);
        let present = !self.random.one_in(8);
        Aimed {
            node: self.current_node(&handle),
            segment: self.segment(&handle, present),
            has_length: !self.random.one_in(16),
            handle,
        }
    }
}

/// One of the segments of a cluster that are present, or of those that are not.
fn segment(random: &mut Random, cluster: &Cluster, present: bool) -> Option<u32> {
    let fits = |at: &usize| cluster.segments[*at].is_present() == present;
    random.pick(&segments_of(cluster).filter(fits).collect::<Vec<_>>()).map(|at| *at as u32)
}

/// What the call is done with, if any segment is present.
fn right(random: &mut Random, store: &Store, mode: Mode) -> Option<Aimed> {
    let (node, local) = handles::place(random, store, Cluster::has_segments)?;
    let segment = segment(random, &store.clusters[node][local], true)?;
    let mut handle = handles::primary(store, (node, local), mode);
    for _ in 0..if mode == Mode::Read { random.below(3) } else { 0 } {
        let mask = bits(random, handle.width()) | 1 << segment;
        handle = handle.weaken(mask).unwrap_or(handle);
    }
    Some(Aimed { node: node as u32, segment, handle, has_length: true })
}

fn with_faults(random: &mut Random, store: &Store, mut aimed: Aimed) -> Aimed {
    let mut all = Fault::ALL;
    random.shuffle(&mut all);
    let mut chosen = all[..below(random, 3)].to_vec();
    chosen.sort_by_key(|fault| *fault as u8);
    for fault in chosen {
        aimed.spoil(random, store, fault);
    }
    aimed
}

impl Aimed {
    fn bytes(&self, random: &mut Random) -> HandleBytes {
        match self.has_length {
            true => self.handle.to_bytes(),
            false => of_no_length(random, self.handle.to_bytes()),
        }
    }

    fn spoil(&mut self, random: &mut Random, store: &Store, fault: Fault) {
        let own = &store.clusters[usize::from(self.handle.node)][usize::from(self.handle.local)];
        match fault {
            Fault::Absent => self.segment = segment(random, own, false).unwrap_or(self.segment),
            Fault::NotReferenced => self.handle = self.handle.weaken(!(1 << self.segment)).unwrap_or(self.handle),
            // Where the two passwords are equal, the other mode's is no fault.
            Fault::NotValid if random.one_in(2) && self.handle.selector.is_primary() && !own.has_equal_passwords() => {
                self.handle.password = if self.handle.password == own.read { own.write } else { own.read };
            }
            Fault::NotValid => self.handle.password = near(random, self.handle.password),
            Fault::OtherWidth => self.handle = of_another_width(random, store, self.handle),
            Fault::Inactive => {
                if let Some((node, local)) = handles::place(random, store, |cluster| !cluster.active) {
                    (self.handle.node, self.handle.local) = (node as u16, local as u8);
                    self.node = node as u32;
                }
            }
            Fault::Elsewhere => {
                self.node = ((self.node as usize + 1 + below(random, NODES - 1)) % NODES) as u32;
            }
            Fault::Gapped => self.handle.selector = gapped(random, self.handle.width()),
            Fault::NoSegment => {
                self.segment = above(random, self.segment, self.handle.width().segments());
            }
            Fault::NoNode => self.node = above(random, self.node, NODES),
            Fault::NoLength => self.has_length = false,
        }
    }
}

/// A number that is out of range, often one that is right in its lowest bits or bytes alone.
fn above(random: &mut Random, right: u32, bound: usize) -> u32 {
    let bound = bound as u32;
    match random.below(6) {
        0 => bound,
        1 => right + bound,
        2 => right + (1 << 8),
        3 => right + (1 << 16),
        4 => bound + random.below(1 << 16) as u32,
        _ => BEYOND,
    }
}
