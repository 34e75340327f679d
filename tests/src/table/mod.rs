//! The numbers that a call may be turned down with, their words and their order.

mod rows;

use crate::words::*;
use Kind::*;
use Of::{AllBut, These};

/// Constants for numbers, and the list of them with their words.
macro_rules! numbered {
    ($(#[$about:meta])* $list:ident: $($name:ident = $number:literal $word:literal),* $(,)?) => {
        $(pub const $name: u8 = $number;)*
        $(#[$about])*
        pub const $list: [(u8, &str); [$($number),*].len()] = [$(($name, $word)),*];
    };
}
pub(crate) use numbered;

numbered! {
    /// All numbers, each at its own place.
    NUMBERS:
    DONE = 0 "done",
    UNSOUND = 1 "unsound",
    NO_SUCH_PLACE = 2 "no such place",
    FIELD = 3 "field",
    GAPPED = 4 "gapped",
    ELSEWHERE = 5 "elsewhere",
    IN_USE = 6 "in use",
    TWINS = 7 "twins",
    INACTIVE = 8 "inactive",
    VIOLATED_PROTECTION = 9 "violated protection",
    NOT_PRIMARY = 10 "not primary",
    NOT_REFERENCED = 11 "not referenced",
    OLD_PASSWORD = 12 "old password",
    PRESENT = 13 "present",
    ABSENT = 14 "absent",
    SHORT = 15 "short",
    NO_ROOM = 16 "no room",
    SPENT = 17 "spent",
    LIST_LENGTH = 18 "list length",
    LINK = 19 "link",
    LOOP = 20 "loop",
    EMPTY = 21 "empty",
    FROZEN = 22 "frozen",
    WHOLE = 23 "whole",
    APART = 24 "apart",
    LENGTH = 25 "length",
}

/// The word that stands beside `number` in the table.
pub fn word(number: u8) -> Option<&'static str> {
    NUMBERS.get(usize::from(number)).map(|(_, word)| *word)
}

/// What a call finds: the records, how long the memory is, how long the buffer (or the data) is.
pub struct Found<'a> {
    pub store: &'a Store,
    pub memory_bytes: usize,
    pub buffer_bytes: usize,
}

impl Found<'_> {
    /// With a memory that is as long as it should be.
    pub fn whole(store: &Store, buffer_bytes: usize) -> Found<'_> {
        Found { store, memory_bytes: MEMORY_BYTES, buffer_bytes }
    }
}

/// A call with the handles that it presents, read once, and what it finds.
struct Asked<'a> {
    call: &'a Call,
    handle: Option<Handle>,
    /// The second handle of a join.
    other: Option<Handle>,
    found: &'a Found<'a>,
}

impl<'a> Asked<'a> {
    fn of(call: &'a Call, found: &'a Found) -> Asked<'a> {
        let mut handles = call.presented_bytes().map(Handle::from_bytes);
        Asked { call, handle: handles.next().flatten(), other: handles.next().flatten(), found }
    }

    /// Every handle; none is missing below the first row.
    fn handles(&self) -> impl Iterator<Item = &Handle> {
        self.handle.iter().chain(&self.other)
    }

    /// The two of a join.
    fn both(&self) -> Option<(Handle, Handle)> {
        self.handle.zip(self.other)
    }

    fn handle_and_segment(&self) -> Option<(Handle, u32)> {
        self.handle.zip(self.call.segment())
    }

    fn handle_and_mask(&self) -> Option<(Handle, u16)> {
        match *self.call {
            Call::Weaken { mask, .. } => Some((self.handle?, mask)),
            _ => None,
        }
    }

    fn named_cluster(&self) -> Option<&Cluster> {
        self.found.store.cluster_of(self.handle.as_ref()?)
    }

    fn named_segment(&self) -> Option<&Segment> {
        let segment = self.call.segment()? as usize;
        self.named_cluster()?.segments.get(segment)
    }

    /// Whether the call has to validate its handles, and this is so of one of them and its cluster.
    fn any_judged(&self, test: impl Fn(&Handle, &Cluster, Mode) -> bool) -> bool {
        let judged = |handle, mode| {
            let cluster = self.found.store.cluster_of(handle);
            cluster.is_some_and(|cluster| test(handle, cluster, mode))
        };
        self.call.needed_mode().is_some_and(|mode| self.handles().any(|handle| judged(handle, mode)))
    }
}

/// The calls that a row concerns.
enum Of {
    These(&'static [Kind]),
    AllBut(&'static [Kind]),
}

impl Of {
    fn has(&self, kind: Kind) -> bool {
        match self {
            These(kinds) => kinds.contains(&kind),
            AllBut(kinds) => !kinds.contains(&kind),
        }
    }
}

type Row = (u8, Of, fn(&Asked) -> bool);

/// The rows that concern calls, in the table's order; a number added later stands at the place named
/// for it. Two have two places: 22, one for call 2 and one for calls 4 and 6, and 25, first for
/// lengths that no handle has, then for handles of another width than their cluster's. A row's test
/// may count on its concerning the call, and on the rows above it not applying.
#[rustfmt::skip]
const ROWS: [Row; 24] = [
    (LENGTH, AllBut(&[NewCluster]), rows::no_length),
    (UNSOUND, AllBut(&[Weaken]), |asked| !asked.found.store.is_sound(asked.found.memory_bytes)),
    (NO_SUCH_PLACE, AllBut(&[]), rows::no_such_place),
    (FIELD, AllBut(&[DeleteCluster, Weaken]), rows::field),
    (GAPPED, AllBut(&[NewCluster]), |asked| asked.handles().any(|handle| handle.selector.is_gapped())),
    (APART, These(&[Join]), |asked| asked.both().is_some_and(|(handle, other)| handle.name() != other.name())),
    (ELSEWHERE, These(&[DeleteCluster, NewSegment, DeleteSegment, Freeze, Look]), rows::elsewhere),
    (IN_USE, These(&[NewCluster]), rows::in_use),
    (TWINS, These(&[NewCluster]), |asked| matches!(asked.call, Call::NewCluster { read, write, .. } if read == write)),
    (INACTIVE, AllBut(&[NewCluster, Weaken]), |asked| asked.any_judged(|_, cluster, _| !cluster.active)),
    (LENGTH, AllBut(&[NewCluster, Weaken]), rows::other_width),
    (VIOLATED_PROTECTION, AllBut(&[NewCluster, Weaken]), rows::violated_protection),
    (WHOLE, These(&[Join]), rows::whole),
    (NOT_PRIMARY, These(&[DeleteCluster, NewSegment, DeleteSegment, NewPassword, Freeze]), rows::not_primary),
    (FROZEN, These(&[DeleteCluster]), |asked| asked.named_cluster().is_some_and(Cluster::has_frozen)),
    (NOT_REFERENCED, These(&[Read, Write, Look]), rows::not_referenced),
    (OLD_PASSWORD, These(&[NewPassword]), rows::old_password),
    (PRESENT, These(&[NewSegment]), |asked| asked.named_segment().is_some_and(Segment::is_present)),
    (ABSENT, These(&[DeleteSegment, Read, Write, Freeze, Look]), rows::absent),
    (FROZEN, These(&[DeleteSegment, Write]), |asked| asked.named_segment().is_some_and(|segment| segment.frozen)),
    (SHORT, These(&[Read, Write]), rows::short),
    (NO_ROOM, These(&[NewSegment]), rows::no_room),
    (EMPTY, These(&[Weaken]), |asked| asked.handle_and_mask().is_some_and(|(handle, mask)| handle.kept(mask) == 0)),
    (SPENT, These(&[Weaken]), rows::spent),
];

/// The numbers of the rows that concern calls, in the table's order; 22 and 25 come twice.
pub fn numbers_of_calls() -> impl Iterator<Item = u8> {
    ROWS.iter().map(|(number, ..)| *number)
}

/// The same for calls like this one, whatever it is asked with.
pub fn numbers_of(call: &Call) -> Vec<u8> {
    let rows = ROWS.iter().filter(|(_, of, _)| of.has(call.kind()));
    rows.map(|(number, ..)| *number).collect()
}

/// The first number of the table that applies.
pub fn refusal(call: &Call, found: &Found) -> Option<u8> {
    first_of(&ROWS, call, found)
}

/// The first number that applies of those standing above `row`; above 25 is above its first place.
pub fn refusal_above(row: u8, call: &Call, found: &Found) -> Option<u8> {
    let above = ROWS.iter().take_while(|(number, ..)| *number != row).count();
    first_of(&ROWS[..above], call, found)
}

/// The first number that applies of those standing below `row`, where none above it applies. Below 22
/// is below its second place: what stands between the two is nothing of call 2's, which alone comes to
/// the first. Below 25 is below the place at which it applies to this call.
pub fn refusal_below(row: u8, call: &Call, found: &Found) -> Option<u8> {
    let asked = Asked::of(call, found);
    let last = match row {
        LENGTH if rows::no_length(&asked) => 0,
        _ => ROWS.iter().rposition(|(number, ..)| *number == row)?,
    };
    first_of(&ROWS[last + 1..], call, found)
}

fn first_of(rows: &[Row], call: &Call, found: &Found) -> Option<u8> {
    let asked = Asked::of(call, found);
    let applying = rows.iter().find(|(_, of, applies)| of.has(call.kind()) && applies(&asked));
    applying.map(|(number, ..)| *number)
}
