//! What is made by chance is what it says it is, and images read back as the stores they are of.

use library::chance::words::WORD;
use library::ffi::{gelmuszta_handle, HANDLE_MAX};
use library::words::*;
use library::{copies, cuts, registers, stays, untold, writers};

const HEADER: &str = include_str!("../../../../include/gelmuszta.h");
const TIMES: usize = 200;
/// All that the comparison of calls has to meet.
const DUE: usize = 1_527;

#[test]
fn images_have_the_header_s_size_and_read_back() {
    assert_eq!(IMAGE_BYTES, 3648);
    assert!(HEADER.contains(&format!("gelmuszta_image {{ uint8_t bytes[{IMAGE_BYTES}]; }}")));
    assert!(HEADER.contains(&format!("gelmuszta_memory {{ uint8_t bytes[{MEMORY_BYTES}]; }}")));
    assert!(HEADER.contains(&format!("#define GELMUSZTA_HANDLE_MAX {HANDLE_MAX}\n")));
    assert_eq!(size_of::<gelmuszta_handle>(), 28);
    assert_eq!(encode(&Store::starting()), [0; IMAGE_BYTES]);
    let mut random = Random::from_seed(1);
    for _ in 0..TIMES {
        for fill in Fill::ALL {
            let store = store(&mut random, fill);
            assert_eq!(decode(&encode(&store)), Some(store));
        }
    }
}

#[test]
fn stores_are_sound_and_as_full_as_they_say() {
    let mut random = Random::from_seed(2);
    let (mut marks, mut equal, mut widths) = ([0; 3], [0; 2], [0; 3]);
    for _ in 0..TIMES {
        for fill in Fill::ALL {
            let store = store(&mut random, fill);
            assert!(store.is_sound(MEMORY_BYTES));
            note_marks(&store, &mut marks);
            for cluster in store.clusters.as_flattened().iter().filter(|cluster| cluster.active) {
                equal[usize::from(cluster.has_equal_passwords())] += 1;
                widths[cluster.known_width().expect("it is active") as usize] += 1;
            }
            for node in 0..NODES {
                let taken: usize = extents(&store, node).iter().map(|part| part.length).sum();
                let free: usize = gaps(&store, node).iter().map(|part| part.length).sum();
                assert_eq!(taken + free, NODE_BYTES);
                match fill {
                    Fill::Empty => assert_eq!(taken, 0),
                    Fill::Partial => {}
                    // Where its segments begin and end.
                    Fill::AtWords => {
                        let mut borders = extents(&store, node).into_iter().flat_map(|own| [own.base, own.end()]);
                        assert!(borders.all(|byte| matches!(byte % WORD, 0 | 1 | 63)));
                    }
                    Fill::NoByteFree => assert_eq!(free, 0),
                    Fill::NoSegmentAbsent => {
                        let all: usize = store.clusters[node].iter().map(|own| usize::from(own.width)).sum();
                        assert_eq!(extents(&store, node).len(), all);
                    }
                }
            }
        }
    }
    assert!(marks.iter().all(|&count| count > TIMES / 8), "{marks:?}");
    assert!(equal[0] > 2 * equal[1] && equal[1] > TIMES, "{equal:?}");
    assert!(widths.iter().all(|&count| count > 20 * TIMES), "{widths:?}");
}

/// Counts stores with segments none of which is frozen, with some that are, and with all of them frozen.
fn note_marks(store: &Store, marks: &mut [usize; 3]) {
    let segments = store.clusters.as_flattened().iter();
    let present = segments.flat_map(|cluster| cluster.segments).filter(|segment| segment.is_present());
    let (frozen, free): (Vec<_>, Vec<_>) = present.partition(|segment| segment.frozen);
    match (frozen.len(), free.len()) {
        (0, 0) => {}
        (0, _) => marks[0] += 1,
        (_, 0) => marks[2] += 1,
        _ => marks[1] += 1,
    }
}

#[test]
fn damage_is_damage_whatever_it_is_done_to() {
    let random = &mut Random::from_seed(3);
    for _ in 0..TIMES {
        for (fill, damage) in Fill::ALL.iter().flat_map(|fill| Damage::ALL.map(|damage| (fill, damage))) {
            let store = store(random, *fill);
            let mut held = held(random, &store);
            let place = if random.one_in(4) { LAST_PLACE } else { (below(random, NODES), below(random, CLUSTERS)) };
            inflict(random, &mut held, damage, place);
            assert!(!is_sound(&held), "{damage:?} of {fill:?} at {place:?}");
        }
    }
}

/// What the comparison of calls has to meet, some of each kind; all that it has to meet is counted.
#[rustfmt::skip]
const CALLS: [&str; 77] = [
    "new segment with 16 (no room)", "new password with mode 258", "batch with mode 257",
    "damage ActiveByteTwo, batch", "damage LastRecord, new cluster", "damage OverlapAtAWord, ItsRecord",
    "weaken with 21 (empty)", "way to nothing, AllTakenNoneFlat", "way to nothing, Validated",
    "weaken with 21 (empty), damaged", "look with 5 (elsewhere)", "damage BaseAbove, look", "damage ItsNode, look",
    "look, LastOfAll", "look, NodeBeyond", "look, Both(5, 8)", "delete cluster with 22 (frozen)",
    "freeze with 14 (absent)", "damage AbsentWithMark, freeze", "something frozen, LastAlone", "freeze, Marked(7)",
    "freeze, Marked(15)", "new cluster with 3 (field)", "weaken with 25 (length)", "validation with 25 (length)",
    "weaken with 25 (length), damaged", "damage ActiveOfNoWidth, batch", "damage InactiveWithAnotherWidth, ItsRecord",
    "damage PresentAtTheWidth, read", "look, Both(25, 1)", "look, Both(8, 25)", "look, Both(25, 9)",
    "reduce, Both(25, 9)", "new segment, Both(25, 1)", "a join, NoLength(Second)", "a join, OtherWidth(First)",
    "widths, read, Seen(Done(Four))", "widths, weaken, Seen(Done(Sixteen))", "widths, join, OnDamaged",
    "widths, weaken, OnUnsound", "widths, look, NoLengthBefore(2)", "widths, reduce, NoLengthBefore(3)",
    "widths, freeze, Seen(Other(Eight, Four))", "widths, write, Seen(OtherMadeFrom)",
    "widths, new password, Seen(OtherForged)", "widths, read, NoSegment(Eight, 15)",
    "widths, read, NoSegment(Sixteen, 16)", "widths, delete segment, Segment(Sixteen, 8)",
    "widths, batch, Seen(Other(Sixteen, Eight))", "widths, KeptAbove", "widths, UpperSet", "a handle of 22 bytes",
    "a handle of 0 bytes", "a new cluster of width 0", "a new cluster of width 12",
    "new cluster of a width that is right in 1 bytes", "batch of a width that is right in 4 bytes",
    "freeze, NodeOfOneByte", "freeze, Both(9, 10)", "delete cluster, Both(10, 22)", "write, Both(22, 15)",
    "join with 23 (whole)", "join with 24 (apart)", "join with mode 65537", "damage MarkTwo, join",
    "join, Both(24, 8)", "join, Both(9, 23)", "a join, Overlapping", "a join, Given(9, Second)",
    "a join, Before((2, Second), (4, First))", "passwords, MadeEqual(Write)", "passwords, MadeUnequal(Read)",
    "passwords, Own(Write)", "passwords, OwnAndOther(Read)", "passwords, Before(10, Write)",
    "passwords, ByPrimary(Look)", "passwords, ByWeaker(Join(Read))",
];

#[test]
fn what_is_not_met_is_told() {
    let told =
        |met: &Met, name: &str| met.faults().iter().filter(|fault| fault.ends_with(&format!(", {name}"))).count();
    let laws = [(copies::met(), 28), (stays::met(), 3), (untold::met(), 8), (writers::met(), 34)];
    let laws = laws.into_iter().chain([(registers::due(), 285), (cuts::due(), 234)]);
    for (law, due) in laws.chain([(Tally::default().met, DUE)]) {
        assert_eq!(law.faults().len(), due);
        let names: Vec<String> = law.due().cloned().collect();
        for name in &names {
            let mut met = law.clone();
            met.note_all(names.iter().filter(|other| *other != name));
            assert_eq!((met.faults().len(), told(&met, name)), (1, 1), "{name}");
            met.note(name);
            assert!(met.faults().is_empty());
        }
    }
    let met = Tally::default().met;
    assert!(CALLS.iter().all(|name| met.due().any(|due| due == name)));
}

/// A call that comes to a number which it may not have.
#[test]
fn what_is_not_allowed_is_told() {
    for (pair, told) in [
        ((7, 1), "weaken with 1 (unsound)"),
        ((10, 22), "freeze with 22 (frozen)"),
        ((11, 10), "join with 10 (not primary)"),
        ((1, 25), "new cluster with 25 (length)"),
        ((LOOK, 15), "look with 15 (short)"),
    ] {
        let mut tally = Tally::default();
        tally.pairs.insert(pair, 1);
        assert!(tally.faults().contains(&format!("not allowed: {told}")));
    }
}
