//! Records by chance, each made in knowledge of what those before it have left.

use super::handles::{self, is_inactive, Wish};
use super::joins;
use crate::call;
use crate::list::{
    Record, Session, CODE_AT, DATA_AT, DATA_LENGTH_AT, FIRST_PASSWORD_AT, HANDLE_AT, HANDLE_BYTES, MODE_AT,
    MOST_DATA_BYTES, NODE_AT, OTHER_HANDLE_AT, RECORD_BYTES, SECOND_PASSWORD_AT, SEGMENT_AT, SIZE_AT, WIDTH,
};
use crate::words::*;

const SEGMENTS: usize = WIDTH.segments();
/// A mask that keeps everything.
const ALL: u8 = WIDTH.flat() as u8;
/// Few passwords, so that equal ones meet.
const PASSWORDS: u64 = 5;
/// Codes as often as they are wanted: what fills the store comes more often than what empties it.
const CODES: [u8; 31] =
    [1, 1, 1, 2, 2, 3, 3, 3, 3, 3, 4, 4, 5, 5, 5, 5, 6, 6, 6, 6, 7, 7, 8, 8, 9, 9, 10, 10, 11, 11, 11];

pub struct Maker {
    random: Random,
    session: Session,
    /// Every handle that a call gave, revoked ones too.
    given: Vec<Handle>,
}

impl Maker {
    pub fn new(random: &mut Random) -> Maker {
        Maker { random: Random::from_seed(random.number()), session: Session::starting(), given: Vec::new() }
    }

    /// The records of a chain, in its order.
    pub fn records(mut self, count: usize) -> Vec<Record> {
        (0..count).map(|_| self.record()).collect()
    }

    fn record(&mut self) -> Record {
        let mut record = self.unused();
        let code = self.code();
        record[CODE_AT] = code;
        match code {
            call::NEW_CLUSTER => self.new_cluster(&mut record),
            call::DELETE_CLUSTER | call::NEW_SEGMENT | call::DELETE_SEGMENT | call::FREEZE => {
                self.local_call(&mut record);
            }
            call::READ => self.move_bytes(&mut record, Mode::Read),
            call::WRITE => self.move_bytes(&mut record, Mode::Write),
            call::WEAKEN => self.weaken(&mut record),
            call::JOIN => self.join(&mut record),
            _ => {
                self.call_with_mode(&mut record);
            }
        }
        let reply = self.session.run(&record);
        // Handles that a call does not give have no bytes.
        self.given.extend([reply.first, reply.second].iter().filter_map(|bytes| Handle::from_bytes(bytes)));
        record
    }

    fn code(&mut self) -> u8 {
        let store = &self.session.store;
        let empty = store.clusters.as_flattened().iter().all(is_inactive);
        match self.random.below(40) {
            0 => self.random.byte(),
            1..=30 if empty => call::NEW_CLUSTER,
            _ => self.random.one_of(&CODES),
        }
    }

    /// The bytes that no call is going to use: zeros or anything.
    fn unused(&mut self) -> Record {
        if self.random.one_in(2) {
            [0; RECORD_BYTES]
        } else {
            self.random.bytes()
        }
    }

    fn password(&mut self) -> Password {
        if self.random.one_in(3) {
            self.random.bytes()
        } else {
            [self.random.below(PASSWORDS) as u8; PASSWORD_BYTES]
        }
    }

    /// Mostly `likely`; else a number below `bound` or a little above, or any byte.
    fn near(&mut self, likely: u8, bound: usize) -> u8 {
        match self.random.below(24) {
            0 => self.random.byte(),
            1 | 2 => self.random.below(bound as u64 + 2) as u8,
            _ => likely,
        }
    }

    fn put_handle(&mut self, record: &mut Record, wish: Wish) -> Handle {
        let store = &self.session.store;
        let handle = handles::handle(&mut self.random, store, &self.given, wish);
        put(record, HANDLE_AT, &handle.to_bytes());
        handle
    }

    /// A segment of the handle's cluster that is present, or is not, if there is one.
    fn segment(&mut self, handle: &Handle, present: bool) -> u8 {
        let cluster = self.session.store.cluster_of(handle);
        let referenced_only = !self.random.one_in(4);
        let fits = |segment: &u8| {
            let at = usize::from(*segment);
            let is_present = cluster.is_some_and(|cluster| cluster.segments[at].is_present());
            is_present == present && (!referenced_only || handle.selector.references(at))
        };
        let fitting: Vec<u8> = (0..SEGMENTS as u8).filter(fits).collect();
        let any = self.random.below(SEGMENTS as u64) as u8;
        let likely = self.random.pick(&fitting).copied().unwrap_or(any);
        self.near(likely, SEGMENTS)
    }

    fn new_cluster(&mut self, record: &mut Record) {
        let place = handles::place(&mut self.random, &self.session.store, is_inactive);
        let (node, local) = place.unwrap_or((0, 0));
        record[NODE_AT] = self.near(node as u8, NODES);
        record[SEGMENT_AT] = self.near(local, CLUSTERS);
        let passwords = [self.password(), self.password()];
        record[FIRST_PASSWORD_AT..].copy_from_slice(&passwords.concat());
    }

    /// Calls 2, 3, 4 and 10.
    fn local_call(&mut self, record: &mut Record) {
        let wanted = matches!(record[CODE_AT], call::DELETE_SEGMENT | call::FREEZE);
        let wish = Wish { mode: Mode::Write, primary: true, segments: wanted || self.random.one_in(2) };
        let handle = self.put_handle(record, wish);
        record[NODE_AT] = self.near(handle.node as u8, NODES);
        let present = wanted ^ self.random.one_in(10);
        record[SEGMENT_AT] = self.segment(&handle, present);
        let size = self.size();
        record[SIZE_AT..SIZE_AT + 2].copy_from_slice(&size.to_be_bytes());
    }

    fn size(&mut self) -> u16 {
        let most = NODE_BYTES as u64;
        match self.random.below(16) {
            0 => 0,
            1 => self.random.number() as u16,
            2 => (most - 1 + self.random.below(3)) as u16,
            3..=5 => 1 + self.random.below(most) as u16,
            6..=8 => 1 + self.random.below(400) as u16,
            _ => 1 + self.random.below(MOST_DATA_BYTES as u64 + 2) as u16,
        }
    }

    /// Calls 5 and 6.
    fn move_bytes(&mut self, record: &mut Record, mode: Mode) {
        let wish = Wish { mode, primary: false, segments: true };
        let handle = self.put_handle(record, wish);
        let present = !self.random.one_in(8);
        record[SEGMENT_AT] = self.segment(&handle, present);
        if mode == Mode::Write {
            let data: [u8; MOST_DATA_BYTES] = self.random.bytes();
            record[DATA_AT..].copy_from_slice(&data);
            record[DATA_LENGTH_AT] = match self.random.below(4) {
                0 => self.random.below(MOST_DATA_BYTES as u64 + 4) as u8,
                _ => self.near(MOST_DATA_BYTES as u8, MOST_DATA_BYTES),
            };
        }
    }

    fn weaken(&mut self, record: &mut Record) {
        let mode = self.random.one_of(&Mode::ALL);
        let wish = Wish { mode, primary: false, segments: true };
        let handle = self.put_handle(record, wish);
        let referenced = handle.selector.referenced() as u8;
        record[SEGMENT_AT] = match (self.random.below(8), referenced) {
            (0, _) => self.random.byte(),
            (1 | 2, _) => !(1 << self.random.below(8)),
            (3, _) => 1 << self.random.below(8),
            // Keeps nothing; not even 255 does where nothing is referenced.
            (4 | 5, 0) => ALL,
            (4, referenced) => self.random.byte() & !referenced,
            _ => self.random.byte() | self.random.byte(),
        };
    }

    /// Calls 8 and 9, and codes that belong to no call.
    fn call_with_mode(&mut self, record: &mut Record) -> Handle {
        let mode = self.random.one_of(&Mode::ALL);
        let primary = record[CODE_AT] == call::NEW_PASSWORD;
        let segments = self.random.one_in(2);
        let wish = Wish { mode, primary, segments };
        let handle = self.put_handle(record, wish);
        record[MODE_AT] = self.near(number_of(mode), 2);
        let password = self.next_password(&handle);
        record[FIRST_PASSWORD_AT..SECOND_PASSWORD_AT].copy_from_slice(&password);
        handle
    }

    /// Often one of the two that the handle's cluster has.
    fn next_password(&mut self, handle: &Handle) -> Password {
        let cluster = self.session.store.cluster_of(handle).copied();
        match (cluster, self.random.below(5)) {
            (Some(cluster), 0) => cluster.read,
            (Some(cluster), 1) => cluster.write,
            _ => self.password(),
        }
    }

    /// Call 11. One in four has handles as other calls have them, the second mostly one that was given for the
    /// cluster of the first.
    fn join(&mut self, record: &mut Record) {
        let aimed = if self.random.one_in(4) { None } else { joins::join(&mut self.random, &self.session.store) };
        let Some(join) = aimed else {
            let handle = self.call_with_mode(record);
            return self.put_other(record, &handle);
        };
        put(record, HANDLE_AT, &join.handles[0]);
        put(record, OTHER_HANDLE_AT, &join.handles[1]);
        record[MODE_AT] = match join.is_a_mode {
            true => number_of(join.mode),
            false => self.random.one_of(&[0, 3, 255]),
        };
    }

    fn put_other(&mut self, record: &mut Record, handle: &Handle) {
        let given = self.given.iter().filter(|given| given.name() == handle.name());
        let given: Vec<Handle> = given.copied().collect();
        let given = self.random.pick(&given).copied();
        let other = given.unwrap_or_else(|| handles::any(&mut self.random));
        put(record, OTHER_HANDLE_AT, &other.to_bytes());
    }
}

fn put(record: &mut Record, at: usize, handle: &[u8]) {
    record[at..at + HANDLE_BYTES].copy_from_slice(handle);
}

fn number_of(mode: Mode) -> u8 {
    mode.number() as u8
}
