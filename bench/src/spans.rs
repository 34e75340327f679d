//! The text of crates/spans in Rust.

const WORD: usize = 64;
fn bit(i: usize) -> u64 {
    1 << (i % WORD)
}

fn from_on(first: usize) -> u64 {
    !(bit(first) - 1)
}

fn up_to(last: usize) -> u64 {
    let b = bit(last);
    (b - 1) + b
}

fn touch(word: &mut u64, mask: u64) -> bool {
    let fresh = (*word & mask) == 0;
    *word |= mask;
    fresh
}

fn whole(map: &mut [u64], first: usize, last: usize) -> bool {
    let mut fresh = true;
    for word in &mut map[first..last] {
        fresh &= touch(word, u64::MAX);
    }
    fresh
}

pub fn mark(map: &mut [u64], from: usize, to: usize) -> bool {
    if to <= from {
        return false;
    }
    let end = to - 1;
    let first = from / WORD;
    let last = end / WORD;
    if map.len() <= last {
        return false;
    }
    let low = from_on(from);
    let high = up_to(end);
    if first == last {
        return touch(&mut map[first], low & high);
    }
    let a = touch(&mut map[first], low);
    let inner = whole(map, first + 1, last);
    let z = touch(&mut map[last], high);
    z & (inner & a)
}
