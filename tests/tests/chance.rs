//! Lists made by chance: what holds of the model on all of them.

use model::frozen::Watch;
use model::generate;
use model::list::{chain, output, reachable, records, request, run, Request, Session, CODE_AT};
use model::met::{due_in_lists, situations, way, Met};
use model::words::*;
use std::collections::BTreeSet;

const LISTS: usize = 300;
/// So many reach all that has to be reached.
const REACHING: usize = 500;

/// As many as are taken.
fn all(seed: u64) -> impl Iterator<Item = Vec<u8>> {
    let mut seeds = Random::from_seed(seed);
    std::iter::repeat_with(move || generate::list(&mut Random::from_seed(seeds.number())))
}

fn lists(seed: u64) -> impl Iterator<Item = Vec<u8>> {
    all(seed).take(LISTS)
}

#[test]
fn a_seed_repeats_its_lists() {
    assert!(lists(5).eq(lists(5)));
    assert!(lists(5).ne(lists(6)));
}

#[test]
fn lists_reach_what_can_be_reached() {
    let (mut pairs, mut refused) = (BTreeSet::new(), BTreeSet::new());
    let mut met = Met::new("lists", due_in_lists());
    for list in all(1).take(REACHING) {
        let text = run(&list, |found, record, reply| match request(record) {
            Request::BadCode => {}
            Request::Overlong(call) | Request::Call(call) => {
                pairs.insert((record[CODE_AT], reply.number));
                met.note_all(way(&call, reply.number));
                met.note_all(situations(found, &call, reply.number));
            }
        });
        refused.extend(text.strip_prefix(b"list ").map(<[u8]>::to_vec));
    }
    assert_eq!(pairs, reachable().collect());
    assert!(met.faults().is_empty(), "{:?}", met.faults());
    let mut beyond = met.not_due().filter(|what| !what.starts_with("a join, "));
    assert_eq!(beyond.next(), None);
    assert_eq!(refused.len(), 3);
}

#[test]
fn refused_calls_change_nothing_and_what_is_sound_or_frozen_stays() {
    let mut frozen = 0;
    for list in lists(2) {
        let Some(Ok((order, records))) = records(&list).map(|all| Ok::<_, u8>((chain(&all)?, all))) else { continue };
        let mut session = Session::starting();
        let mut watch = Watch::default();
        for number in order {
            let before = (session.store.clone(), session.memory.clone(), session.buffer.clone());
            let reply = session.run(records[usize::from(number) - 1]);
            if !reply.is_done() {
                assert!(before == (session.store.clone(), session.memory.clone(), session.buffer.clone()));
                assert!(reply.first.is_empty() && reply.second.is_empty());
                assert_eq!((reply.count, reply.length), (0, 0));
            }
            assert!(session.store.is_sound(MEMORY_BYTES));
            assert_eq!(watch.see(&session.store, &session.memory), Ok(()));
        }
        frozen += watch.met();
    }
    assert!(frozen > LISTS / 6, "{frozen}");
}

#[test]
fn every_output_ends_as_it_should() {
    for list in lists(3) {
        let text = String::from_utf8(output(&list)).unwrap();
        let last = text.strip_suffix('\n').unwrap().lines().last().unwrap();
        let (word, number) = last.split_once(' ').unwrap();
        let lines = text.lines().count() - 1;
        match word {
            "end" => assert_eq!(number.parse(), Ok(lines)),
            "list" => assert!(lines == 0 && matches!(number, "18" | "19" | "20")),
            _ => panic!("{last}"),
        }
    }
}
