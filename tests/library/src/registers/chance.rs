//! Registers by chance. One is made such that all of its entries have handles; then faults are put into it.

use crate::words::*;
use model::generate::{noting, to_nothing};
use model::register::{step, Inquiry, WIDTH};

/// What may be wrong with the call as a whole.
pub const WHOLE: [u8; 6] = [LENGTH, NO_SUCH_PLACE, FIELD, GAPPED, LIST_LENGTH, SHORT];
const FAULTS_OF_ENTRIES: [u8; 5] = [LINK, LOOP, EMPTY, SPENT, SPENT];
const SEGMENTS_OF_NONE: [usize; 7] = [8, 9, 255, 256, 263, 1 << 32, usize::MAX];

/// How the entries hang together.
#[derive(Clone, Copy, PartialEq)]
enum Shape {
    Chain,
    /// A chain whose first is weakened from its last.
    Ring,
    Leaves,
    Tree,
}

/// An entry while the register is made: the place of the one that it is weakened from, in the order made, the mask, and
/// the handle.
#[derive(Clone, Copy)]
struct Link {
    from: Option<usize>,
    mask: u8,
    handle: Handle,
}

/// A register, and the faults that both questions have.
pub struct Register {
    handle: HandleBytes,
    entries: Vec<u8>,
    whole: Vec<u8>,
}

impl Register {
    pub fn by_chance(random: &mut Random) -> Register {
        let whole: Vec<u8> = match random.below(5) {
            0 | 1 => Vec::new(),
            faults => (1..faults).map(|_| random.one_of(&WHOLE)).collect(),
        };
        let supplied = supplied(random);
        let mut entries = entries(random, &supplied);
        if whole.contains(&LIST_LENGTH) {
            make_too_long(random, &mut entries);
        }
        let handle = with_faults(random, supplied, &whole);
        Register { handle, entries, whole }
    }

    /// One of the questions, and how long its buffer is.
    pub fn asked(&self, random: &mut Random, of_openers: bool) -> (Inquiry, usize) {
        let right = below(random, WIDTH.segments());
        let wrong = random.one_of(&SEGMENTS_OF_NONE);
        let segment = of_openers.then_some(if self.whole.contains(&FIELD) { wrong } else { right });
        let inquiry = Inquiry { handle: self.handle.clone(), segment, entries: self.entries.clone() };
        let needed = inquiry.needed();
        let bytes = match (self.whole.contains(&SHORT), random.below(3)) {
            (true, 0) => 0,
            (true, 1) => below(random, needed.max(1)),
            (true, _) => needed.saturating_sub(1),
            (false, 0) => needed + 1,
            (false, 1) => needed + below(random, 60),
            (false, _) => needed,
        };
        (inquiry, bytes)
    }
}

/// A handle of any place, with any number of flat subselectors, and sometimes to nothing.
fn supplied(random: &mut Random) -> Handle {
    let selector = match random.below(12) {
        0 => to_nothing(random, WIDTH),
        1..5 => Selector::primary(WIDTH),
        _ => {
            let segments = bits(random, WIDTH) | bits(random, WIDTH) | bit(random, WIDTH);
            noting(random, WIDTH, segments)
        }
    };
    let (node, local) = (random.below(4) as u16, random.below(8) as u8);
    Handle { node, local, password: password(random), selector }
}

/// The bytes of the handle with those of the faults that concern it.
fn with_faults(random: &mut Random, mut handle: Handle, whole: &[u8]) -> HandleBytes {
    if whole.contains(&NO_SUCH_PLACE) {
        match random.below(4) {
            0 => handle.node = 4 + random.below(3) as u16,
            1 => handle.node += 256,
            2 => handle.local = 8 + random.below(248) as u8,
            _ => (handle.node, handle.local) = (u16::MAX, u8::MAX),
        }
    }
    let parts = &mut handle.selector.subselectors;
    if whole.contains(&GAPPED) {
        // The same subselectors in another order, where there is a flat one and another.
        match parts.iter().filter(|part| **part == WIDTH.flat()).count() {
            0 => parts[0] = WIDTH.flat(),
            SUBSELECTORS => parts[1 + below(random, 3)] = bits(random, WIDTH) & !1,
            _ => parts.reverse(),
        }
    }
    if !whole.contains(&LENGTH) {
        return handle.to_bytes();
    }
    let other = random.one_of(&[Width::Four, Width::Sixteen]);
    let widened = parts.map(|part| if part == WIDTH.flat() { other.flat() } else { part & other.flat() & !1 });
    match random.one_in(2) {
        true => Handle { selector: Selector::new(other, widened), ..handle }.to_bytes(),
        false => of_no_length(random, handle.to_bytes()),
    }
}

/// A byte more, or more entries than there may be.
fn make_too_long(random: &mut Random, entries: &mut Vec<u8>) {
    match random.below(5) {
        0 => entries.push(random.byte()),
        1 => entries.truncate(entries.len().saturating_sub(1) | 1),
        2 => entries.resize(511, 0),
        3 => entries.resize(512, 0),
        _ => entries.resize(511 + below(random, 100), 255),
    }
}

fn entries(random: &mut Random, supplied: &Handle) -> Vec<u8> {
    let count = match random.below(14) {
        0 => 0,
        1 => 254 + below(random, 2),
        2 | 3 => 9 + below(random, 120),
        4 | 5 => 1,
        _ => 2 + below(random, 8),
    };
    let shapes = [Shape::Chain, Shape::Chain, Shape::Leaves, Shape::Leaves, Shape::Tree, Shape::Tree, Shape::Tree];
    let shape = if random.one_in(8) { Shape::Ring } else { random.one_of(&shapes) };
    let seldom = random.one_of(&[2, 2, 60]);
    let mut links: Vec<Link> = Vec::new();
    for at in 0..count {
        links.push(link(random, (shape, seldom), supplied, &links[..at]));
    }
    if let (Some(last), Shape::Ring) = (count.checked_sub(1), shape) {
        links[0].from = Some(last);
    } else if count > 0 && random.one_in(2) {
        for _ in 0..=random.below(4) {
            spoil(random, supplied, &mut links);
        }
    }
    in_order(random, &links)
}

/// The next entry, of which one in so many excludes something, where it may. It has a handle, unless the one supplied
/// references nothing.
fn link(random: &mut Random, (shape, seldom): (Shape, u64), supplied: &Handle, links: &[Link]) -> Link {
    let last = links.len().checked_sub(1);
    let from = match shape {
        Shape::Chain | Shape::Ring => last,
        Shape::Leaves => last.map(|_| 0),
        Shape::Tree => below(random, links.len() + 1).checked_sub(1),
    };
    let parent = from.map_or(supplied, |at| &links[at].handle);
    let referenced = parent.selector.referenced() as u8;
    let all = referenced | random.byte();
    let mask = if random.one_in(seldom) { all & (random.byte() | !referenced) } else { all };
    match step(*parent, mask) {
        Ok(handle) => Link { from, mask, handle },
        Err(_) => Link { from, mask: all, handle: *parent },
    }
}

/// Puts a fault of an entry into one of them.
fn spoil(random: &mut Random, supplied: &Handle, links: &mut [Link]) {
    let count = links.len();
    let at = below(random, count);
    match random.one_of(&FAULTS_OF_ENTRIES) {
        // A place beyond the last.
        LINK => links[at].from = Some(count + [0, 254, below(random, 255)][below(random, 3)]),
        LOOP => links[at].from = Some(at + [0, 1, 5, count][below(random, 4)].min(count - 1 - at)),
        EMPTY => links[at].mask &= !(links[at].handle.selector.referenced() as u8),
        // It is made from one that can exclude nothing more, and often another, which would leave nothing, from it.
        _ => {
            let places = [None].into_iter().chain((0..at).map(Some));
            let handles = places.map(|place| (place, place.map_or(supplied, |place| &links[place].handle).selector));
            let spent = handles.filter(|(_, selector)| selector.first_flat().is_none() && selector.count() > 1);
            if let Some(&(from, selector)) = random.pick(&spent.collect::<Vec<_>>()) {
                (links[at].from, links[at].mask) = (from, !(1 << selector.referenced().trailing_zeros()));
                if let Some(next) = links.get_mut(at + 1).filter(|_| random.one_in(2)) {
                    (next.from, next.mask) = (Some(at), 0);
                }
            }
        }
    }
}

/// The bytes of the entries, numbered as they were made, the other way round, or in any order. What is no entry's place
/// gets a number that none has, if there is one.
fn in_order(random: &mut Random, links: &[Link]) -> Vec<u8> {
    let count = links.len();
    let mut numbers: Vec<usize> = (1..=count).collect();
    match random.below(3) {
        0 => {}
        1 => numbers.reverse(),
        _ => random.shuffle(&mut numbers),
    }
    let mut entries = vec![0; 2 * count];
    for (link, number) in links.iter().zip(&numbers) {
        let from = link.from.map_or(0, |at| numbers.get(at).copied().unwrap_or(at + 1).min(255));
        entries[2 * (number - 1)..2 * number].copy_from_slice(&[from as u8, link.mask]);
    }
    entries
}
