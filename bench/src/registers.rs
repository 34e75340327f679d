//! Registers of 255 entries in several shapes: the library's two questions beside those of register.rs, and beside as many
//! single weakenings.

use crate::asked::{alike, asked, by_chance, primary, refusals};
use crate::asked::{gelmuszta_openers, gelmuszta_register, rust_openers, rust_register};
use crate::batch;
use crate::codec::HandleBytes;
use crate::register::{HANDLE, MOST};
use std::hint::black_box;

extern "C" {
    fn gelmuszta_weaken(
        handle: *const HandleBytes,
        mask: u16,
        given: *mut HandleBytes,
        count: *mut u8,
    ) -> u8;
}

const ROUNDS: usize = 1000;
const CALLS: usize = 10;

// ---- the shapes

/// All entries from one of them, which is from the handle supplied, or all from that where `parent` is 0. Each mask takes a
/// segment away and keeps one.
fn leaves(parent: usize) -> Vec<u8> {
    let all = if parent == 0 { 0xfe } else { 0x7e };
    let entry = |entry: usize| {
        if entry == parent {
            [0, 0x7f]
        } else {
            [parent as u8, (entry % all + 1) as u8]
        }
    };
    (1..=MOST).flat_map(entry).collect()
}

/// Chains of so many entries, as many as there is room for: each entry from the one before, or from the one after.
fn chains(length: usize, parents_first: bool, mask: fn(usize, usize) -> u8) -> Vec<u8> {
    let entry = |at: usize| {
        let (chain, place) = (at / length, at % length);
        let (depth, parent) = if parents_first {
            (place, at)
        } else {
            (length - 1 - place, at + 2)
        };
        let parent = if depth == 0 { 0 } else { parent };
        [parent as u8, mask(chain, depth)]
    };
    (0..MOST / length * length).flat_map(entry).collect()
}

/// Each step takes another segment away.
fn cutting(chain: usize, depth: usize) -> u8 {
    !(1 << ((chain + depth) % 8))
}

fn excluding_nothing(_: usize, _: usize) -> u8 {
    0xff
}

fn shapes() -> [(&'static str, Vec<u8>); 8] {
    let (first, last) = (true, false);
    [
        ("all from the handle supplied", leaves(0)),
        ("254 from entry 1", leaves(1)),
        ("254 from entry 255", leaves(MOST)),
        (
            "85 chains of three, parents first",
            chains(3, first, cutting),
        ),
        ("85 chains of three, parents last", chains(3, last, cutting)),
        ("63 chains of four, parents last", chains(4, last, cutting)),
        (
            "one chain, nothing excluded, parents first",
            chains(MOST, first, excluding_nothing),
        ),
        (
            "one chain, nothing excluded, parents last",
            chains(MOST, last, excluding_nothing),
        ),
    ]
}

// ---- the same steps by single calls

/// A step is the number of the parent, the mask, and the number of the entry.
struct Single {
    steps: Vec<(usize, u16, usize)>,
    handles: Vec<HandleBytes>,
}

impl Single {
    /// Parents before those that are weakened from them.
    fn of(entries: &[u8]) -> Single {
        let parent = |entry: usize| usize::from(entries[2 * entry - 2]);
        let up = |&entry: &usize| Some(parent(entry)).filter(|&parent| parent != 0);
        let depth = |&entry: &usize| std::iter::successors(Some(entry), up).count();
        let mut order: Vec<usize> = (1..=entries.len() / 2).collect();
        order.sort_by_cached_key(depth);
        let step = |entry: usize| (parent(entry), entries[2 * entry - 1].into(), entry);
        Single {
            steps: order.into_iter().map(step).collect(),
            handles: vec![primary(); MOST + 1],
        }
    }

    fn take(&mut self) {
        let handles = self.handles.as_mut_ptr();
        let (mut refused, mut count) = (0, 0);
        for &(parent, mask, entry) in black_box(&self.steps) {
            unsafe {
                let (stronger, weaker) = (handles.add(parent), handles.add(entry));
                refused |= gelmuszta_weaken(stronger, mask, weaker, &mut count);
            }
        }
        assert_eq!(refused, 0, "every step is taken");
    }

    /// How many steps exclude something.
    fn cuts(&self) -> usize {
        let cut = |&&(parent, _, entry): &&(usize, u16, usize)| {
            self.handles[parent] != self.handles[entry]
        };
        self.steps.iter().filter(cut).count()
    }

    fn bytes(&self) -> Vec<u8> {
        let given = self.handles[1..=self.steps.len()].iter();
        given.flat_map(|handle| handle.held().to_vec()).collect()
    }
}

// ---- the table

/// The best time of a call of each job, in nanoseconds, all measured turn about.
fn turn_about<const N: usize>(mut jobs: [&mut dyn FnMut(); N]) -> [f64; N] {
    let mut best = [f64::MAX; N];
    for _ in 0..ROUNDS {
        for (best, job) in best.iter_mut().zip(&mut jobs) {
            *best = best.min(batch(CALLS, job));
        }
    }
    best
}

fn report(name: &str, proved: f64, rust: f64, single: f64) {
    let ratios = (proved / rust, proved / single);
    println!(
        "{name:<44}{proved:>9.1}{rust:>9.1}{:>8.2}{single:>9.1}{:>8.2}",
        ratios.0, ratios.1
    );
}

fn shape(name: &str, entries: Vec<u8>) {
    let mut single = Single::of(&entries);
    let asked = asked(entries);
    let count = asked.entries.len() / 2;
    assert_eq!(alike(&asked, count), (0, 0), "every entry has a handle");
    let [mut handles, mut others] = [(); 2].map(|()| vec![0; count * HANDLE]);
    let [mut openers, mut other_openers] = [(); 2].map(|()| vec![0; count]);
    let [first, beside_first, weakenings, second, beside_second] = turn_about([
        &mut || assert_eq!(asked.handles(gelmuszta_register, &mut handles).0, 0),
        &mut || assert_eq!(asked.handles(rust_register, &mut others).0, 0),
        &mut || single.take(),
        &mut || assert_eq!(asked.openers(gelmuszta_openers, &mut openers).0, 0),
        &mut || assert_eq!(asked.openers(rust_openers, &mut other_openers).0, 0),
    ]);
    assert!(handles == others && handles == single.bytes() && openers == other_openers);
    assert!([0, count].contains(&single.cuts()), "all convert, or none");
    report(name, first, beside_first, weakenings);
    report(
        "  who can open a segment",
        second,
        beside_second,
        weakenings,
    );
}

pub fn registers() {
    let shapes = shapes();
    refusals(&asked(shapes[5].1.clone()));
    by_chance();
    println!(
        "\n{:<44}{:>9}{:>9}{:>8}{:>9}{:>8}",
        "a register of 255 entries", "proved", "Rust", "ratio", "single", "ratio"
    );
    for (name, entries) in shapes {
        shape(name, entries);
    }
}
