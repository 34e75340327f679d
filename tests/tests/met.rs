//! What is counted of joins and of widths is met by what is made by chance, in stores with clusters of every width.

use model::{generate::joins::join_of_widths, joins, model::run, widths::Sight, words::*};
use std::collections::BTreeSet;

const STORES: usize = 1_000;
const JOINS: usize = 40;

/// Two thirds of the clusters are active, some with equal passwords; one segment each.
fn store(random: &mut Random) -> Store {
    let mut store = Store::starting();
    for (at, cluster) in store.clusters.as_flattened_mut().iter_mut().enumerate() {
        if random.one_in(3) {
            continue;
        }
        let width = random.one_of(&Width::ALL);
        let read = random.bytes();
        *cluster = Cluster::new(width, read, if random.one_in(4) { read } else { random.bytes() });
        let segment = random.below(width.segments() as u64) as usize;
        cluster.segments[segment] = Segment::present(at as u16, 1);
    }
    store
}

/// One byte too short now and then, which is not sound.
fn memory_bytes(random: &mut Random) -> usize {
    MEMORY_BYTES - usize::from(random.one_in(10))
}

#[test]
fn every_meeting_of_two_handles() {
    let random = &mut Random::from_seed(1);
    let mut met = BTreeSet::new();
    for _ in 0..STORES {
        let store = store(random);
        for _ in 0..JOINS {
            let Some(join) = join_of_widths(random, &store) else { continue };
            let [handle, other] = join.handles;
            let mode = if join.is_a_mode { join.mode.number() } else { 0 };
            let call = Call::join(mode, handle, other);
            let found = Found { store: &store, memory_bytes: memory_bytes(random), buffer_bytes: 0 };
            let number = refusal(&call, &found).unwrap_or(0);
            met.extend(joins::met(&found, &call, number));
        }
    }
    let missing: Vec<String> = joins::due().filter(|meeting| !met.contains(meeting)).collect();
    assert!(missing.is_empty(), "{missing:?}");
}

/// A handle of any cluster, of its width or of another, weakened or not, forged or not, cut or not.
fn handle(random: &mut Random, store: &Store) -> HandleBytes {
    let (node, local) = (random.below(NODES as u64), random.below(CLUSTERS as u64));
    let cluster = &store.clusters[node as usize][local as usize];
    let any = random.one_of(&Width::ALL);
    let own = cluster.known_width().filter(|_| !random.one_in(3));
    let width = own.unwrap_or(any);
    let mut handle = Handle::primary(width, node as u16, local as u8, cluster.write);
    if random.one_in(3) {
        handle = handle.weaken(random.number() as u16).unwrap_or(handle);
    }
    handle.password[0] ^= u8::from(random.one_in(4));
    let mut bytes = handle.to_bytes();
    if random.one_in(6) {
        bytes.resize(random.below(40) as usize, 0);
    }
    bytes
}

#[test]
fn every_sight_of_a_width() {
    let random = &mut Random::from_seed(2);
    let mut met = BTreeSet::new();
    for _ in 0..STORES {
        let mut store = store(random);
        for _ in 0..4 {
            let handle = handle(random, &store);
            let segment = random.below(18) as u32;
            let (node, local) = (random.below(4) as u32, random.below(8) as u32);
            let width = match random.below(6) {
                0 => random.below(20) as usize,
                1 => 256 + 4 * random.below(5) as usize,
                2 => 17 + random.below(9) as usize,
                _ => random.one_of(&Width::ALL).segments(),
            };
            let mask = match random.below(4) {
                0 => 0xff00 | random.number() as u16,
                1 => random.number() as u16 & 0x000f,
                2 => random.number() as u16 & 0xfff0,
                _ => random.number() as u16,
            };
            let call = match random.below(6) {
                0 => Call::new_cluster(node, local, width, random.bytes(), random.bytes()),
                1 => Call::weaken(mask, handle),
                2 => Call::reduce(2, handle),
                3 => Call::write(segment, handle),
                4 => Call::new_segment(node, segment, 1, handle),
                _ => Call::validate(2, handle),
            };
            let before = store.clone();
            let mut memory = vec![0; memory_bytes(random)];
            let number = run(&mut store, &mut memory, &mut [0; 9], &call).number;
            let found = Found { store: &before, memory_bytes: memory.len(), buffer_bytes: 9 };
            met.extend(Sight::of(&found, &call, number));
        }
    }
    let missing: Vec<Sight> = Sight::all().filter(|sight| !met.contains(sight)).collect();
    assert!(missing.is_empty(), "{missing:?}");
    assert!(met.iter().all(|sight| Sight::all().any(|due| due == *sight)));
}
