//! Damage is told before everything but a length that no handle has, weakening does not look at it, and nothing
//! changes.

use crate::support::faults::{self, Kind, LOCAL, NODE};
use crate::support::{joint, renewed};
use crate::wide::{asked, held, primary, refused, READ};
use library::words::*;

#[rustfmt::skip]
const KINDS: [Kind; 9] = [
    Kind::DeleteCluster, Kind::NewSegment, Kind::DeleteSegment, Kind::Read, Kind::Write, Kind::Reduce, Kind::Freeze,
    Kind::Look, Kind::Validate,
];
const PLACES: [(usize, usize); 3] = [(NODE, LOCAL), (0, 0), LAST_PLACE];
/// Of all joins with every set of faults, one in so many: it shares no factor with the numbers of ways but 2, so that
/// every two faults still meet.
const EVERY: usize = 13 * 8;

/// Refused beside the damage, whatever else is wrong with the call.
fn beside(random: &mut Random, (store, call): &(Store, Call), damage: Damage, place: (usize, usize)) {
    let mut held = stores::held(random, store);
    inflict(random, &mut held, damage, place);
    let mut lengths = call.presented_bytes().map(<[u8]>::len);
    let number = if lengths.all(|length| [21, 23, 27].contains(&length)) { 1 } else { 25 };
    refused(&held, call, number);
}

#[test]
fn whatever_else_is_wrong() {
    let random = &mut Random::from_seed(1);
    let faulty = KINDS.into_iter().flat_map(faults::all).map(|faulty| (faulty.faults, (faulty.store, faulty.call)));
    let joints = joint::all().step_by(EVERY).map(|joint| (joint.faults, (joint.store, joint.call)));
    let renewed = renewed::all().map(|renewed| (renewed.faults, (renewed.store, renewed.call)));
    for (faults, asked) in faulty.chain(joints).chain(renewed) {
        if !faults.contains(&1) {
            let damage = Damage::ALL[below(random, Damage::ALL.len())];
            let place = PLACES[below(random, PLACES.len())];
            beside(random, &asked, damage, place);
        }
    }
}

/// Every kind of damage beside calls that would be done, and beside new passwords that are one of the cluster's.
#[test]
fn where_nothing_else_is() {
    let random = &mut Random::from_seed(2);
    let right = KINDS.map(|kind| faults::all(kind).next().expect("the empty set is the first"));
    let right = right.map(|faulty| (faulty.store, faulty.call));
    let joined = joint::all().next().expect("the first is done");
    let renewed = renewed::all().filter(|new| new.faults.iter().all(|fault| *fault == 12));
    let renewed = renewed.map(|renewed| (renewed.store, renewed.call));
    for asked in right.into_iter().chain([(joined.store, joined.call)]).chain(renewed) {
        for damage in Damage::ALL {
            for place in PLACES {
                beside(random, &asked, damage, place);
            }
        }
    }
}

/// Each of its numbers, and one segment kept, beside every kind of damage.
#[test]
fn weakening_does_not_look_at_it() {
    let random = &mut Random::from_seed(3);
    for (damage, width) in Damage::ALL.into_iter().flat_map(|damage| Width::ALL.map(|width| (damage, width))) {
        let flat = width.flat();
        let with = |parts| Handle::converted(1, 2, &READ, Selector::new(width, parts));
        let primary = primary(width, READ);
        let spent = with([flat - 1, flat - 2, flat - 1, flat - 2]);
        let calls = [
            (primary.to_bytes()[..20].to_vec(), 0, 25),
            (Handle { node: 4, ..primary }.to_bytes(), 0, 2),
            (Handle { local: 8, ..primary }.to_bytes(), flat, 2),
            (with([flat, 1, flat, flat]).to_bytes(), 0, 4),
            (primary.to_bytes(), !flat, 21),
            (with([0, flat, flat, flat]).to_bytes(), flat, 21),
            (spent.to_bytes(), 3 | !flat, 21),
            (spent.to_bytes(), 4, 17),
        ];
        let mut held = held();
        inflict(random, &mut held, damage, LAST_PLACE);
        for (handle, mask, number) in calls {
            refused(&held, &Call::Weaken { mask, handle }, number);
        }
        let (mask, handle) = (4 | !flat, primary.to_bytes());
        let (reply, left) = asked(&held, &Call::Weaken { mask, handle });
        let kept = primary.weaken(4).expect("all are flat");
        let expected = Reply { count: mask.count_ones() - (!flat).count_ones(), ..Reply::with_handle(&kept) };
        assert!(reply == expected && left == held, "{damage:?}");
    }
}
