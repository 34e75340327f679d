//! Weakening, reducing and joining at each width; selector examples P1 to P9, and the points where weakening and
//! reducing are easily got wrong.

mod support;

use support::naive::{flat, has, number, sets};
use support::*;

const PASSWORD: Password = *b"a primary secret";
const MANY: usize = 3_000;

/// A handle with these subselectors and the password that goes with them.
fn valid(width: Width, subselectors: [u16; 4]) -> Handle {
    Handle::converted(0, 2, &PASSWORD, Selector::new(width, subselectors))
}

// Weakening.

/// Some masks of sixteen bits: every one of the width, with bits above it too.
fn masks(width: Width, random: &mut Random) -> Vec<u16> {
    match width {
        Width::Sixteen => (0..16).map(|_| random.number() as u16).collect(),
        _ => (0..=flat(width)).map(|mask| mask | random.number() as u16 & !flat(width)).collect(),
    }
}

#[test]
fn weakening_takes_the_excluded_and_nothing_else() {
    let random = &mut Random::from_seed(4);
    let mut done = [0; 3];
    for (at, width) in Width::ALL.into_iter().enumerate() {
        for parts in sets(width).into_iter().step_by(3) {
            let handle = valid(width, parts);
            for mask in masks(width, random) {
                let weaker = handle.weaken(mask);
                assert_eq!(weaker.is_some(), number(width, parts, mask) == 0);
                let Some(weaker) = weaker else { continue };
                let references = |segment: &u32| weaker.selector.references(*segment as usize);
                let kept = |segment: &u32| handle.selector.references(*segment as usize) && has(mask, *segment);
                assert!(segments(width).filter(references).eq(segments(width).filter(kept)));
                assert_eq!((weaker.width(), weaker.name()), (width, handle.name()));
                if weaker != handle {
                    let first = parts.iter().position(|part| *part == flat(width)).unwrap();
                    let noted = weaker.selector.subselectors[first];
                    // Bits of segments that were not referenced stay set.
                    let taken = segments(width)
                        .filter(|&segment| handle.selector.references(segment as usize) && !has(mask, segment));
                    let taken: u32 = taken.map(|segment| 1 << segment).sum();
                    assert_eq!(u32::from(noted), u32::from(flat(width)) - taken);
                    assert_eq!(weaker.password, convert(&handle.password, noted));
                    done[at] += 1;
                }
                assert!(weaker.is_made_from(&PASSWORD));
            }
        }
    }
    assert!(done.iter().all(|&done| done > 100), "{done:?}");
}

/// Every bit of the mask at or above the width, alone and with all others.
#[test]
fn upper_bits_of_a_mask_are_ignored() {
    let random = &mut Random::from_seed(5);
    for width in [Width::Four, Width::Eight] {
        for parts in sets(width).into_iter().step_by(5) {
            let handle = valid(width, parts);
            for mask in [0, 1, flat(width), random.number() as u16 & flat(width)] {
                let expected = handle.weaken(mask);
                for bit in u32::from(width.number())..16 {
                    assert_eq!(handle.weaken(mask | 1 << bit), expected);
                }
                assert_eq!(handle.weaken(mask | !flat(width)), expected);
            }
        }
    }
}

/// Four one after the other, and no fifth.
#[test]
fn each_weakening_validates() {
    for width in Width::ALL {
        let mut handle = Handle::primary(width, 3, 7, PASSWORD);
        for segment in 0..4 {
            let before = handle;
            handle = handle.weaken(!(1 << segment) | 8).unwrap_or(handle);
            assert!(handle.is_made_from(&PASSWORD));
            assert_eq!(handle != before, segment < 3);
        }
        if width != Width::Four {
            handle = handle.weaken(0x88).unwrap();
            assert_eq!(handle.selector.first_flat(), None);
            assert_eq!((handle.weaken(0x80), handle.weaken(0)), (None, None));
            assert_eq!(handle.weaken(0xff88), Some(handle));
        }
    }
}

// Reducing and joining.

#[test]
fn reduced_in_subselector_0_alone() {
    for width in Width::ALL {
        let flat = flat(width);
        for parts in sets(width) {
            let (handle, common) = (valid(width, parts), parts.iter().fold(flat, |a, b| a & b));
            let reduced = handle.reduce(&PASSWORD);
            if parts == [flat; 4] {
                assert_eq!(reduced, handle);
                continue;
            }
            let expected = Handle {
                password: convert(&PASSWORD, common),
                selector: Selector::new(width, [common, flat, flat, flat]),
                ..handle
            };
            assert_eq!(reduced, expected);
            assert_eq!(reduced.reduce(&PASSWORD), reduced);
            assert!(reduced.is_made_from(&PASSWORD));
        }
    }
}

#[test]
fn joined_is_what_either_references() {
    let random = &mut Random::from_seed(6);
    for width in Width::ALL {
        let (sets, flat) = (sets(width), flat(width));
        for _ in 0..MANY {
            let [one, two] = [(); 2].map(|_| valid(width, *random.pick(&sets).unwrap()));
            let both = one.selector.referenced() | two.selector.referenced();
            assert_eq!((one.union(&two), two.union(&one)), (both, both));
            let joined = one.join(&two, &PASSWORD);
            assert_eq!(joined, two.join(&one, &PASSWORD));
            assert_eq!(joined.selector, Selector::new(width, [both, flat, flat, flat]));
            assert_eq!(joined.password, convert(&PASSWORD, both));
        }
    }
}

// Examples, at width 8.

fn handle(selector: u32) -> Handle {
    let selector = eight(selector.to_be_bytes().map(u16::from));
    Handle { node: 1, local: 2, password: PASSWORD, selector }
}

fn weakened(selector: u32, mask: u16) -> (u32, u32) {
    let weaker = handle(selector).weaken(mask).expect("something is left, and a subselector is flat");
    (u32::from_be_bytes(weaker.selector.subselectors.map(|part| part as u8)), weaker.selector.count())
}

/// What call 7 replies.
fn reply(selector: u32, mask: u16) -> Reply {
    Bench::starting().reply(Call::weaken(mask, handle(selector)))
}

#[test]
fn p1_a_flat_selector_references_all() {
    let selector = handle(0xffff_ffff).selector;
    assert_eq!((selector.referenced(), selector.count()), (255, 8));
    assert!(selector.is_primary());
}

#[test]
fn p2_p3_weakening_leaves_other_bits_set() {
    assert_eq!(handle(0xfe7d_ffff).selector.referenced(), 124);
    assert_eq!(weakened(0xfe7d_ffff, 112), (0xfe7d_f3ff, 3));
    assert_eq!(weakened(0xfe7d_ffff, 243), (0xfe7d_f3ff, 3));
    let weaker = handle(0xfe7d_ffff).weaken(112).unwrap();
    assert_eq!(weaker.password, convert(&PASSWORD, 243));
    assert_ne!(weaker.password, convert(&PASSWORD, 112));
}

#[test]
fn p4_nothing_excluded_changes_nothing() {
    assert_eq!(handle(0xfe7d_ffff).weaken(124), Some(handle(0xfe7d_ffff)));
    assert_eq!(handle(0xffff_ffff).weaken(255), Some(handle(0xffff_ffff)));
    assert_ne!(PASSWORD, convert(&PASSWORD, 255));
}

#[test]
fn p5_everything_excluded_is_21() {
    assert_eq!(reply(0xfe7d_ffff, 0), Reply::refused(21));
    assert_eq!(handle(0xfe7d_ffff).weaken(0), None);
}

#[test]
fn p6_gapped() {
    assert!(handle(0xfffe_ffff).selector.is_gapped());
    assert!(handle(0xfeff_fffe).selector.is_gapped());
    assert!(handle(0xffff_fffe).selector.is_gapped());
    for ungapped in [0xffff_ffff, 0xfeff_ffff, 0xfe7d_ffff, 0x0000_00ff, 0] {
        assert!(!handle(ungapped).selector.is_gapped());
    }
}

#[test]
fn p7_p8_no_subselector_left() {
    assert_eq!(handle(0xfefd_fbf7).weaken(240), Some(handle(0xfefd_fbf7)));
    assert_eq!(handle(0xfefd_fbf7).weaken(239), None);
    assert_eq!(reply(0xfefd_fbf7, 239), Reply::refused(17));
}

#[test]
fn p9_reduced() {
    let reduced = handle(0xfefd_fbf7).reduce(&PASSWORD);
    assert_eq!(reduced.selector, eight([0xf0, 255, 255, 255]));
    assert_eq!(reduced.password, convert(&PASSWORD, 0xf0));
    assert!(reduced.is_made_from(&PASSWORD));
}

#[test]
fn reducing_a_primary_handle_converts_nothing() {
    let primary = Handle::primary(Width::Eight, 1, 2, PASSWORD);
    assert_eq!(primary.reduce(&PASSWORD), primary);
    assert!(primary.is_made_from(&PASSWORD));
    let converted = Handle { password: convert(&PASSWORD, 255), ..primary };
    assert!(!converted.is_made_from(&PASSWORD));
}

#[test]
fn conversions_go_up_from_subselector_0() {
    let selector = eight([0xfe, 0x7d, 0xf3, 255]);
    let up = [0xfe, 0x7d, 0xf3].iter().fold(PASSWORD, |password, &c| convert(&password, c));
    let down = [0xf3, 0x7d, 0xfe].iter().fold(PASSWORD, |password, &c| convert(&password, c));
    assert_eq!(derive(&PASSWORD, &selector), up);
    assert_ne!(derive(&PASSWORD, &selector), down);
}
