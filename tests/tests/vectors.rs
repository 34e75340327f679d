//! The published handles, registers and cuts are those of the model, and are what the calls give.

use model::cuts::{End, Way, ENDS};
use model::hexadecimal::{decode, encode};
use model::{model::run, vectors, words::*};
use std::collections::{BTreeMap, BTreeSet, HashMap};

const PUBLISHED: &str = include_str!("../../docs/vectors/handles.txt");
const REGISTERS: &str = include_str!("../../docs/vectors/registers.txt");
const CUTS: &str = include_str!("../../docs/vectors/cuts.txt");

#[test]
fn published_as_made() {
    assert_eq!(PUBLISHED, vectors::text());
    assert_eq!(REGISTERS, vectors::registers::text());
    assert_eq!(CUTS, vectors::cuts::text());
}

/// The kind of a line and its values by their keys.
fn read(line: &str) -> (&str, HashMap<&str, &str>) {
    let (kind, pairs) = line.split_once(' ').unwrap();
    let pairs = pairs.split(' ').map(|pair| pair.split_once('=').unwrap());
    (kind, pairs.collect())
}

fn handle(text: &str) -> Handle {
    Handle::from_bytes(&decode(text).unwrap()).unwrap()
}

fn segments(width: Width) -> std::ops::Range<usize> {
    0..width.segments()
}

/// What a line about a weakening has to say: counted segment by segment.
fn weakening(old: &Handle, mask: u16) -> (&'static str, Option<&'static str>) {
    let referenced = || segments(old.width()).filter(|&segment| old.selector.references(segment));
    let kept = |segment: &usize| mask >> segment & 1 == 1;
    let left = referenced().filter(kept).count();
    let flat = old.width().flat();
    match left {
        0 => ("empty", Some("21")),
        _ if left == referenced().count() => ("weakened", None),
        _ if old.selector.subselectors.contains(&flat) => ("weakened", None),
        _ => ("spent", Some("17")),
    }
}

/// The segments that either of two handles references, one by one.
fn either(one: &Handle, two: &Handle) -> Vec<usize> {
    let references = |&segment: &usize| one.selector.references(segment) || two.selector.references(segment);
    segments(one.width()).filter(references).collect()
}

/// What a line about a join has to say; both handles have to validate where they are.
fn joining(one: &Handle, two: &Handle, primary: &Password) -> (&'static str, Option<&'static str>) {
    assert!(one.is_made_from(primary) && two.is_made_from(primary));
    assert_eq!(one.width(), two.width());
    match (one.node, one.local) == (two.node, two.local) {
        false => ("apart", Some("24")),
        true if either(one, two).len() == one.width().segments() => ("whole", Some("23")),
        true => ("joined", None),
    }
}

#[test]
fn joined_in_the_form_of_a_reduced_handle() {
    let lines = PUBLISHED.lines().filter(|line| line.starts_with("joined "));
    let mut with_itself = 0;
    for (_, values) in lines.map(read) {
        let [one, two, new] = ["one", "two", "new"].map(|key| handle(values[key]));
        assert_eq!((new.node, new.local), (one.node, one.local));
        let flat = new.width().flat();
        assert_eq!(new.width(), one.width());
        assert_eq!(new.selector.subselectors[1..], [flat; 3]);
        assert_ne!(new.selector.subselectors[0], flat);
        assert_eq!(either(&new, &new), either(&one, &two));
        if one == two {
            let reduced = format!("old={} new={} ", values["one"], values["new"]);
            assert!(PUBLISHED.contains(&reduced), "{reduced}");
            with_itself += 1;
        }
    }
    assert_eq!(with_itself, 12);
}

#[test]
fn every_handle_validates_and_every_count_is_right() {
    let lines = PUBLISHED.lines().filter(|line| !line.is_empty() && !line.starts_with('#'));
    let mut kinds: HashMap<&str, usize> = HashMap::new();
    for (kind, values) in lines.map(read) {
        *kinds.entry(kind).or_default() += 1;
        if let (Some(new), Some(primary)) = (values.get("new"), values.get("primary")) {
            let new = handle(new);
            assert!(new.is_made_from(&decode(primary).unwrap().try_into().unwrap()));
            assert_eq!(new.selector.count().to_string(), values["count"]);
            assert_ne!(values["count"], "0");
            assert!(!new.selector.is_gapped());
        }
        if kind == "length" {
            continue;
        }
        if let (Some(old), Some(mask)) = (values.get("old"), values.get("mask")) {
            let mask = u16::from_str_radix(mask, 16).unwrap();
            let number = values.get("number").copied();
            assert_eq!((kind, number), weakening(&handle(old), mask));
        }
        if let (Some(one), Some(two)) = (values.get("one"), values.get("two")) {
            let primary = decode(values["primary"]).unwrap().try_into().unwrap();
            let number = values.get("number").copied();
            let due = joining(&handle(one), &handle(two), &primary);
            assert_eq!((kind, number), due);
        }
    }
    let expected = [
        ("conversion", 48),
        ("primary", 12),
        ("weakened", 230),
        ("reduced", 230),
        ("joined", 102),
        ("whole", 60),
        ("apart", 18),
        ("empty", 48),
        ("spent", 18),
        ("length", 63),
        ("validation", 117),
    ];
    assert_eq!(kinds, HashMap::from(expected));
}

/// A cluster with the line's primary password in its mode, and with its width, or that of the handle's length.
fn cluster(values: &HashMap<&str, &str>, handle: &[u8]) -> Cluster {
    let primary: Password = decode(values["primary"]).unwrap().try_into().unwrap();
    let other = primary.map(|byte| !byte);
    let (read, write) = if values["mode"] == "read" { (primary, other) } else { (other, primary) };
    let width = match values.get("width") {
        Some(width) => Width::of_segments(width.parse().unwrap()),
        None => Width::of_handle_bytes(handle.len()),
    };
    Cluster::new(width.unwrap(), read, write)
}

/// The reply to a call where this cluster stands at node 0 to 3, local number 0 to 7.
fn reply(cluster: Cluster, call: Call) -> Reply {
    let mut store = Store::starting();
    store.clusters = [[cluster; CLUSTERS]; NODES];
    run(&mut store, &mut [0; MEMORY_BYTES], &mut [], &call)
}

fn number(cluster: Cluster, call: Call) -> u8 {
    reply(cluster, call).number
}

fn mode(values: &HashMap<&str, &str>) -> u32 {
    match values.get("mode") {
        Some(&"write") => 2,
        _ => 1,
    }
}

/// What validations say, and what is refused by a length.
#[test]
fn numbers_are_those_of_calls() {
    let lines = PUBLISHED.lines();
    let lines = lines.filter(|line| line.starts_with("length ") || line.starts_with("validation "));
    let mut other_widths = 0;
    for line in lines {
        let (kind, values) = read(line);
        let bytes = |key: &str| values.get(key).map(|text| decode(text).unwrap());
        let mode = mode(&values);
        let number = match (bytes("handle"), bytes("old"), bytes("one"), bytes("two")) {
            (Some(handle), ..) => number(cluster(&values, &handle), Call::Validate { mode, handle }),
            (_, Some(handle), ..) => {
                let mask = u16::from_str_radix(values["mask"], 16).unwrap();
                number(Cluster::INACTIVE, Call::Weaken { mask, handle })
            }
            (_, _, Some(handle), Some(other)) => {
                let cluster = cluster(&values, &handle);
                number(cluster, Call::join(mode, handle, other))
            }
            _ => panic!("{line}"),
        };
        assert_eq!(values["number"], number.to_string(), "{line}");
        assert!(kind != "length" || number == 25);
        other_widths += usize::from(values.contains_key("width") && number == 25);
    }
    assert!(other_widths > 80, "{other_widths}");
}

/// Each number is there, about the call as a whole or about an entry, and no line is of another kind.
#[test]
fn registers_with_every_number() {
    let lines: Vec<&str> = REGISTERS.lines().filter(|line| line.contains('=')).collect();
    let of = |kind: &str| lines.iter().filter(|line| line.starts_with(kind)).count();
    assert_eq!((of("register "), of("openers "), of("refused "), lines.len()), (4, 20, 34, 58));
    let refused = lines.iter().map(|line| read(line).1).filter(|values| values.contains_key("number"));
    let numbers: BTreeSet<(&str, bool)> = refused.map(|values| (values["number"], values["entry"] == "0")).collect();
    let whole = ["25", "2", "3", "4", "18", "15"].map(|number| (number, true));
    let of_entries = ["19", "20", "21", "17"].map(|number| (number, false));
    assert_eq!(numbers, whole.into_iter().chain(of_entries).collect());
}

/// The keys of each way: the mask of a cut, and what it gives.
const WAYS: [&[(&str, &str)]; 3] = [
    &[("first", "after-first"), ("second", "first-second")],
    &[("second", "after-second"), ("first", "second-first")],
    &[("shared", "once")],
];

fn bits(text: &str) -> u16 {
    u16::from_str_radix(text, 16).unwrap()
}

/// Follows one way by call 7. Gives its last handle, or how it ends; what is refused at the first cut has no second.
fn follow<'a>(values: &HashMap<&str, &'a str>, way: Way) -> Result<&'a str, (usize, u8)> {
    let mut old = values["old"];
    for (at, (mask, new)) in (1..).zip(WAYS[way as usize]) {
        let mask = bits(values[mask]);
        let reply = reply(Cluster::INACTIVE, Call::Weaken { mask, handle: decode(old).unwrap() });
        let due = weakening(&handle(old), mask).1.map_or(0, |number| number.parse().unwrap());
        assert_eq!(reply.number, due);
        if due != 0 {
            assert!(WAYS[way as usize][at - 1..].iter().all(|(_, new)| values[new] == due.to_string()));
            return Err((at, due));
        }
        assert_eq!(values[new], encode(&reply.first));
        old = values[new];
    }
    Ok(old)
}

/// Those that a handle references, one by one, and a mask has.
fn kept(handle: &Handle, mask: u16) -> Vec<usize> {
    let is_kept = |segment: &usize| handle.selector.references(*segment) && mask >> segment & 1 == 1;
    segments(handle.width()).filter(is_kept).collect()
}

/// A line about cuts: what the calls come to, and how many passwords the handles have that are done.
fn three_ways(values: &HashMap<&str, &str>) -> ([End; 3], usize) {
    let (old, mode) = (handle(values["old"]), mode(values));
    let cluster = cluster(values, &old.to_bytes());
    let [first, second, shared] = ["first", "second", "shared"].map(|key| bits(values[key]));
    assert_eq!((first & second ^ shared) & old.width().flat(), 0);
    assert_eq!(number(cluster, Call::validate(mode, old)), 0);
    let ways = Way::ALL.map(|way| follow(values, way));
    let done: Vec<Handle> = ways.iter().flatten().map(|way| handle(way)).collect();
    for given in &done {
        assert_eq!(number(cluster, Call::validate(mode, *given)), 0);
        assert_eq!(encode(&reply(cluster, Call::reduce(mode, *given)).first), values["reduced"]);
        assert_eq!(kept(given, u16::MAX), kept(&old, first & second));
        assert_eq!(given.selector.count().to_string(), values["count"]);
    }
    assert_eq!(values.contains_key("reduced") || values.contains_key("count"), !done.is_empty());
    (ways.map(Result::err), done.iter().map(|given| given.password).collect::<BTreeSet<_>>().len())
}

/// At each width and in each mode there is every end that three ways can come to, and there are handles with three
/// passwords that have one reduction. In a primary password no byte comes twice.
#[test]
fn cuts_in_three_ways() {
    let mut met: BTreeMap<(usize, &str), Vec<([End; 3], usize)>> = BTreeMap::new();
    for line in CUTS.lines().filter(|line| line.contains('=')) {
        let (kind, values) = read(line);
        assert_eq!(kind, "cuts");
        assert_eq!(decode(values["primary"]).unwrap().into_iter().collect::<BTreeSet<u8>>().len(), 16);
        met.entry((values["old"].len() / 2, values["mode"])).or_default().push(three_ways(&values));
    }
    let classes: Vec<(usize, &str)> = met.keys().copied().collect();
    assert_eq!(classes, [(21, "read"), (21, "write"), (23, "read"), (23, "write"), (27, "read"), (27, "write")]);
    for lines in met.values() {
        let ends: BTreeSet<[End; 3]> = lines.iter().map(|(ends, _)| *ends).collect();
        assert_eq!(ends, BTreeSet::from(ENDS));
        let three = lines.iter().filter(|(ends, passwords)| *ends == [None; 3] && *passwords == 3).count();
        assert_eq!((lines.len(), three), (22, 4));
    }
}
