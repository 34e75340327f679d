//! What weakening has to come to, counted segment by segment and without sets of bits.
#![allow(dead_code)] // each test file uses its own part

use super::*;

/// Whether bit `segment` of `number` is set, by halving.
pub fn has(number: u16, segment: u32) -> bool {
    number / 2u16.pow(segment) % 2 == 1
}

/// All bits of a width: 15, 255 or 65,535.
pub fn flat(width: Width) -> u16 {
    match width {
        Width::Four => 15,
        Width::Eight => 255,
        Width::Sixteen => 65_535,
    }
}

/// How many segments every subselector has, and how many of these the mask has.
pub fn referenced_and_kept(width: Width, selector: [u16; 4], mask: u16) -> (u32, u32) {
    let (mut referenced, mut kept) = (0, 0);
    for segment in 0..u32::from(width.number()) {
        let in_all = selector.iter().filter(|&&part| has(part, segment)).count() == 4;
        referenced += u32::from(in_all);
        kept += u32::from(in_all && has(mask, segment));
    }
    (referenced, kept)
}

/// The number that weakening gives for a selector without gaps.
pub fn number(width: Width, selector: [u16; 4], mask: u16) -> u8 {
    let (referenced, kept) = referenced_and_kept(width, selector, mask);
    match kept {
        0 => 21,
        _ if kept == referenced || selector[3] == flat(width) => 0,
        _ => 17,
    }
}

/// Selectors without gaps that reference just the segments of `first`: it is one of their subselectors,
/// and the others that are not flat take nothing from it. One to four are not flat, save where all are.
pub fn selectors_of(width: Width, first: u16) -> Vec<[u16; 4]> {
    let flat = flat(width);
    let others: Vec<u16> = (0..u32::from(width.number()))
        .filter(|&segment| !has(first, segment))
        .map(|segment| flat - 2u16.pow(segment))
        .collect();
    let Some(&one) = others.first() else {
        return vec![[flat; 4]];
    };
    let last = others[others.len() - 1];
    vec![[first, flat, flat, flat], [one, first, flat, flat], [first, one, last, flat], [one, last, one, first]]
}

/// The selectors of every set of segments.
pub fn selectors(width: Width) -> impl Iterator<Item = [u16; 4]> {
    (0..=flat(width)).flat_map(move |first| selectors_of(width, first))
}

/// Every set of segments at widths 4 and 8, and many at width 16, each with all numbers of flat subselectors.
pub fn sets(width: Width) -> Vec<[u16; 4]> {
    if width != Width::Sixteen {
        return selectors(width).collect();
    }
    let random = &mut Random::from_seed(1);
    let sets = (0..800).map(|at| match at {
        0 => 0,
        1 => 0xffff,
        2..18 => 1 << (at - 2),
        18..34 => 0xffff - (1 << (at - 18)),
        _ => random.number() as u16,
    });
    sets.flat_map(|set| selectors_of(width, set)).collect()
}
