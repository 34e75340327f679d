//! How the two handles of a join meet: what they reference where it is done, and to which of them a number applies
//! where it is refused. What is made by chance has to come to each.

use crate::met::{names, of_rows, Row};
use crate::words::*;
use Kind::Join;
use Whose::{Both, Call as Itself, First, Second};

/// What a number applies to: one handle and not the other, both, or the call itself.
#[derive(Clone, Copy, Debug, PartialEq, Eq)]
enum Whose {
    First,
    Second,
    Both,
    Call,
}

/// A number, and what it applies to.
type Applied = (u8, Whose);

/// 25 at its second place.
const OTHER_WIDTH: u8 = 125;

/// The two handles, where both have a width.
struct Two {
    first: Handle,
    second: Handle,
}

impl Two {
    /// Whether some segment is referenced by both, by the first alone, by the second alone.
    fn referenced(&self) -> [bool; 3] {
        let (one, two) = (self.first.selector.referenced(), self.second.selector.referenced());
        [one & two, one & !two, two & !one].map(|segments| segments != 0)
    }

    fn primary(&self) -> [bool; 2] {
        [self.first, self.second].map(|handle| handle.selector.is_primary())
    }

    /// Whether node and local number are the same.
    fn named_alike(&self) -> [bool; 2] {
        [self.first.node == self.second.node, self.first.local == self.second.local]
    }
}

/// More than one subselector is not flat.
fn often(handle: &Handle) -> bool {
    handle.selector.first_flat() != Some(1)
}

const MEETINGS: [Row<Two>; 15] = [
    // The two reference nothing in common; something, and either more; one of them all that the other does, and more;
    // the same by two handles; the two are one handle; neither references anything.
    ("Disjoint", &[Join], DONE, |two| matches!(two.referenced(), [false, true, _] | [false, _, true])),
    ("Overlapping", &[Join], DONE, |two| two.referenced() == [true, true, true]),
    ("FirstInside", &[Join], DONE, |two| two.referenced() == [true, false, true]),
    ("SecondInside", &[Join], DONE, |two| two.referenced() == [true, true, false]),
    ("Same", &[Join], DONE, |two| two.referenced() == [true, false, false] && two.first != two.second),
    ("OneHandle", &[Join], DONE, |two| two.referenced() == [true, false, false] && two.first == two.second),
    ("Nothing", &[Join], DONE, |two| two.referenced() == [false; 3]),
    ("FirstOften", &[Join], DONE, |two| often(&two.first)),
    ("SecondOften", &[Join], DONE, |two| often(&two.second)),
    // By two primary handles, by one beside another, by two of which neither is primary.
    ("Primaries", &[Join], WHOLE, |two| two.primary() == [true, true]),
    ("FirstPrimary", &[Join], WHOLE, |two| two.primary() == [true, false]),
    ("SecondPrimary", &[Join], WHOLE, |two| two.primary() == [false, true]),
    ("Together", &[Join], WHOLE, |two| two.primary() == [false, false]),
    // By the node alone, by the local number alone.
    ("OtherNode", &[Join], APART, |two| two.named_alike() == [false, true]),
    ("OtherLocal", &[Join], APART, |two| two.named_alike() == [true, false]),
];

#[rustfmt::skip]
const GIVEN: [Applied; 10] = [
    (NO_SUCH_PLACE, First), (NO_SUCH_PLACE, Second), (NO_SUCH_PLACE, Both), (GAPPED, First), (GAPPED, Second),
    (GAPPED, Both), (INACTIVE, Both), (VIOLATED_PROTECTION, First), (VIOLATED_PROTECTION, Second),
    (VIOLATED_PROTECTION, Both),
];

/// The number that is given, and one that comes later: what a program mixes up that judges one handle whole before the
/// other, or has two numbers in another order.
#[rustfmt::skip]
const BEFORE: [(Applied, Applied); 25] = [
    ((NO_SUCH_PLACE, First), (FIELD, Itself)), ((NO_SUCH_PLACE, Second), (FIELD, Itself)),
    ((NO_SUCH_PLACE, First), (GAPPED, Second)), ((NO_SUCH_PLACE, Second), (GAPPED, First)),
    ((NO_SUCH_PLACE, First), (INACTIVE, Second)), ((NO_SUCH_PLACE, Second), (INACTIVE, First)),
    ((NO_SUCH_PLACE, First), (VIOLATED_PROTECTION, Second)), ((NO_SUCH_PLACE, Second), (VIOLATED_PROTECTION, First)),
    ((FIELD, Itself), (GAPPED, First)), ((FIELD, Itself), (GAPPED, Second)), ((GAPPED, First), (APART, Itself)),
    ((GAPPED, Second), (APART, Itself)), ((GAPPED, First), (INACTIVE, Both)), ((GAPPED, Second), (INACTIVE, Both)),
    ((GAPPED, First), (VIOLATED_PROTECTION, Second)), ((GAPPED, Second), (VIOLATED_PROTECTION, First)),
    ((APART, Itself), (INACTIVE, First)), ((APART, Itself), (INACTIVE, Second)), ((APART, Itself), (INACTIVE, Both)),
    ((APART, Itself), (VIOLATED_PROTECTION, First)), ((APART, Itself), (VIOLATED_PROTECTION, Second)),
    ((INACTIVE, Both), (VIOLATED_PROTECTION, First)), ((INACTIVE, Both), (VIOLATED_PROTECTION, Second)),
    ((VIOLATED_PROTECTION, First), (WHOLE, Itself)), ((VIOLATED_PROTECTION, Second), (WHOLE, Itself)),
];

/// The same with 25 at one of its places, which lists do not come to. At the first it does not matter whose it is.
#[rustfmt::skip]
const BEFORE_OR_AFTER_LENGTH: [(Applied, Applied); 16] = [
    ((LENGTH, Itself), (UNSOUND, Itself)), ((LENGTH, Itself), (NO_SUCH_PLACE, First)),
    ((LENGTH, Itself), (NO_SUCH_PLACE, Second)), ((LENGTH, Itself), (FIELD, Itself)),
    ((LENGTH, Itself), (GAPPED, First)), ((LENGTH, Itself), (GAPPED, Second)),
    ((LENGTH, Itself), (VIOLATED_PROTECTION, First)), ((LENGTH, Itself), (VIOLATED_PROTECTION, Second)),
    ((FIELD, Itself), (OTHER_WIDTH, Both)), ((GAPPED, First), (OTHER_WIDTH, Second)),
    ((GAPPED, Second), (OTHER_WIDTH, First)), ((APART, Itself), (OTHER_WIDTH, First)),
    ((APART, Itself), (OTHER_WIDTH, Second)), ((OTHER_WIDTH, First), (VIOLATED_PROTECTION, Second)),
    ((OTHER_WIDTH, Second), (VIOLATED_PROTECTION, First)), ((OTHER_WIDTH, Both), (WHOLE, Itself)),
];

fn given(applied: Applied) -> String {
    match applied {
        (LENGTH, whose) => format!("NoLength({whose:?})"),
        (OTHER_WIDTH, whose) => format!("OtherWidth({whose:?})"),
        (number, whose) => format!("Given({number}, {whose:?})"),
    }
}

fn before((given, later): (Applied, Applied)) -> String {
    match (given, later) {
        ((LENGTH, _), later) => format!("NoLengthBefore({later:?})"),
        ((OTHER_WIDTH, whose), later) => format!("OtherWidthBefore({whose:?}, {later:?})"),
        (given, (OTHER_WIDTH, whose)) => format!("BeforeOtherWidth({given:?}, {whose:?})"),
        (given, later) => format!("Before({given:?}, {later:?})"),
    }
}

/// Everything that has to be met.
pub fn due() -> impl Iterator<Item = String> {
    let lengths =
        [LENGTH, OTHER_WIDTH].into_iter().flat_map(|number| [First, Second, Both].map(|whose| (number, whose)));
    let in_lists = names(&MEETINGS).chain(GIVEN.map(given)).chain(BEFORE.map(before));
    in_lists.chain(lengths.map(given)).chain(BEFORE_OR_AFTER_LENGTH.map(before))
}

/// What a join that came to `number` has met; `found` is what it was put to. Nothing of other calls.
pub fn met(found: &Found, call: &Call, number: u8) -> Vec<String> {
    let Call::Join { mode, handle, other } = call else { return Vec::new() };
    let handles = [handle, other].map(|bytes| Handle::from_bytes(bytes));
    let mut met = Vec::new();
    if let [Some(first), Some(second)] = handles {
        met.extend(of_rows(&MEETINGS, call, number, &Two { first, second }));
    }
    if ![DONE, WHOLE].contains(&number) {
        met.extend(Asked { found, mode: Mode::from_number(*mode), handles }.refused(number));
    }
    met
}

/// A join that is refused.
struct Asked<'a> {
    found: &'a Found<'a>,
    mode: Option<Mode>,
    /// None where the length is none of a handle's.
    handles: [Option<Handle>; 2],
}

impl Asked<'_> {
    fn refused(&self, number: u8) -> Vec<String> {
        let second_place = if number == LENGTH { self.applied(OTHER_WIDTH) } else { None };
        let Some(own) = self.applied(number).or(second_place) else { return Vec::new() };
        let known = if own.0 == LENGTH { (LENGTH, Itself) } else { own };
        let pairs = BEFORE.into_iter().chain(BEFORE_OR_AFTER_LENGTH);
        let pairs = pairs.filter(|(given, later)| *given == known && self.applied(later.0) == Some(*later));
        pairs.map(before).chain([given(own)]).collect()
    }

    /// What the number applies to, if it does.
    fn applied(&self, number: u8) -> Option<Applied> {
        let applies = match (number, self.handles) {
            (UNSOUND, _) => !self.found.store.is_sound(self.found.memory_bytes),
            (FIELD, _) => self.mode.is_none(),
            (APART, [Some(first), Some(second)]) => first.name() != second.name(),
            (WHOLE, [Some(first), Some(second)]) => {
                first.width() == second.width() && first.union(&second) == first.width().flat()
            }
            (_, handles) => {
                let whose = match handles.map(|handle| self.applies_to(number, handle)) {
                    [true, true] => Both,
                    [true, false] => First,
                    [false, true] => Second,
                    [false, false] => return None,
                };
                return Some((number, whose));
            }
        };
        applies.then_some((number, Itself))
    }

    /// 9 goes by the password alone.
    fn applies_to(&self, number: u8, handle: Option<Handle>) -> bool {
        let Some(handle) = handle else { return number == LENGTH };
        match (number, self.found.store.cluster_of(&handle), self.mode) {
            (NO_SUCH_PLACE, cluster, _) => cluster.is_none(),
            (GAPPED, ..) => handle.selector.is_gapped(),
            (INACTIVE, Some(cluster), _) => !cluster.active,
            (OTHER_WIDTH, Some(cluster), _) => cluster.active && !cluster.has_width(handle.width()),
            (VIOLATED_PROTECTION, Some(cluster), Some(mode)) => !handle.is_made_from(cluster.primary(mode)),
            _ => false,
        }
    }
}
