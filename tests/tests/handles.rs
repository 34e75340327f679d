//! Handles of each width: their bytes, the conversion, and what they reference.

mod support;

use model::aes::encrypt;
use model::hexadecimal::{decode, encode};
use model::words::*;
use support::naive::{flat, has, referenced_and_kept, sets};
use support::{others, segments};

const PASSWORD: Password = [0x11; 16];
/// Four different subselectors of each width.
const DIFFERENT: [(Width, [u16; 4]); 3] = [
    (Width::Four, [0x1, 0x2, 0x4, 0x8]),
    (Width::Eight, [0x12, 0x34, 0x56, 0x78]),
    (Width::Sixteen, [0x1234, 0x5678, 0x9abc, 0xdef0]),
];
const MANY: usize = 3_000;

fn handle(selector: Selector) -> Handle {
    Handle { node: 0xa1b2, local: 0xc3, password: std::array::from_fn(|at| 0x40 + at as u8), selector }
}

/// A handle with these subselectors and the password that goes with them.
fn valid(width: Width, subselectors: [u16; 4]) -> Handle {
    Handle::converted(0, 2, &PASSWORD, Selector::new(width, subselectors))
}

// Bytes.

#[test]
fn four_different_subselectors_as_bytes() {
    let name_and_password = "a1b2c3404142434445464748494a4b4c4d4e4f";
    let bytes = ["2184", "12345678", "123456789abcdef0"];
    for ((width, subselectors), selector) in DIFFERENT.into_iter().zip(bytes) {
        let handle = handle(Selector::new(width, subselectors));
        let text = format!("{name_and_password}{selector}");
        assert_eq!(encode(&handle.to_bytes()), text);
        assert_eq!(Handle::from_bytes(&decode(&text).unwrap()), Some(handle));
    }
}

/// Of a bit of subselector k, the selector's byte and the bit in there.
type Place = fn(usize, u32) -> (usize, u32);

/// Bit by bit: which of the selector's bits is which bit of which subselector.
#[test]
fn each_bit_at_its_place() {
    let places: [Place; 3] = [
        |k, bit| (k / 2, bit + if k % 2 == 1 { 4 } else { 0 }),
        |k, bit| (k, bit),
        |k, bit| (2 * k + usize::from(bit < 8), bit % 8),
    ];
    for (width, place) in Width::ALL.into_iter().zip(places) {
        for k in 0..4 {
            for bit in segments(width) {
                let mut subselectors = [0; 4];
                subselectors[k] = 1 << bit;
                let bytes = handle(Selector::new(width, subselectors)).to_bytes();
                let mut expected = vec![0; bytes.len() - 19];
                let (at, bit) = place(k, bit);
                expected[at] = 1 << bit;
                assert_eq!(bytes[19..], expected);
            }
        }
    }
}

#[test]
fn lengths_and_widths() {
    let known = [(21, Width::Four), (23, Width::Eight), (27, Width::Sixteen)];
    let random = &mut Random::from_seed(2);
    for length in 0..=40 {
        let known = known.iter().find(|(bytes, _)| *bytes == length);
        let width = known.map(|(_, width)| *width);
        assert_eq!(Width::of_handle_bytes(length), width);
        for _ in 0..100 {
            let bytes: Vec<u8> = (0..length).map(|_| random.byte()).collect();
            let read = Handle::from_bytes(&bytes);
            assert_eq!(read.map(|handle| handle.width()), width);
            // What was read is written as the bytes it was read from.
            assert!(read.is_none_or(|handle| handle.to_bytes() == bytes));
        }
    }
    assert_eq!(Handle::from_bytes(&[0; 1000]), None);
    for number in 0..100 {
        let segments = Width::of_segments(number).map(Width::segments);
        assert_eq!(segments, [4, 8, 16].contains(&number).then_some(number));
    }
}

/// Handles with every subselector at width 4, and with many at the others, are read as they were written.
#[test]
fn what_is_written_is_read() {
    let random = &mut Random::from_seed(3);
    for width in Width::ALL {
        for at in 0..=0xffff_u16 {
            let subselectors = match width {
                Width::Four => [at & 15, at >> 4 & 15, at >> 8 & 15, at >> 12],
                _ => [(); 4].map(|_| random.number() as u16 & flat(width)),
            };
            let handle = handle(Selector::new(width, subselectors));
            assert_eq!(Handle::from_bytes(&handle.to_bytes()), Some(handle));
        }
    }
}

// Conversion.

/// The parameter is a number of sixteen bytes, high byte first: a small one is in the last byte alone.
#[test]
fn the_parameter_fills_two_bytes() {
    for parameter in (0..=0xffff).step_by(7) {
        let mut block = [0; 16];
        (block[14], block[15]) = ((parameter / 256) as u8, (parameter % 256) as u8);
        assert_eq!(convert(&PASSWORD, parameter), encrypt(&PASSWORD, &block));
    }
    let worked_out = [
        (0x0000, "e0d541314e00102d6dfca8bc007b6c8a"),
        (0x000f, "ade1eb8b5fee5646f8c8e36a155df798"),
        (0x00ff, "2d9533b8c74e967336a11b33ad1a5796"),
        (0x0100, "42a6fb7ad65f03125cf988369a7a1ea9"),
        (0x0102, "8efce7e5bb136421b4cbaa2851d54895"),
        (0x7fff, "ea84b7695fa653f940727cb005a8fe3e"),
        (0xfffe, "87ef2f6a7ab17cc0390a29adfb886cf2"),
        (0xffff, "46c922a659036d0b6f32f9c05bac150c"),
    ];
    for (parameter, outcome) in worked_out {
        assert_eq!(encode(&convert(&PASSWORD, parameter)), outcome);
    }
}

/// Three weakenings and a reduction at each width, worked out with another AES.
#[test]
fn weakened_and_reduced_as_worked_out() {
    let expected = [
        ([0xe, 0xd, 0xb], "0000023f61b21b8f5f4b9cb818db55551d91ccdefb", "0000025693474b7b022dc8cb50d01a4bc94753f8ff"),
        (
            [0xfe, 0x7d, 0x70],
            "000002a8af3642823d8bc7f2c7e16831dbd45dfe7df3ff",
            "000002f3d7dab57daecc8059911f91f7bce98770ffffff",
        ),
        (
            [0xfffe, 0x7ffd, 0x0ff0],
            "0000028c410e09458581488d427c4b2702b4adfffe7ffd8ff3ffff",
            "00000250108f2f24f8786a29f0803c09c9150f0ff0ffffffffffff",
        ),
    ];
    for (width, (masks, weakened, reduced)) in Width::ALL.into_iter().zip(expected) {
        let primary = Handle::primary(width, 0, 2, PASSWORD);
        let weaken = |handle: Handle, mask: u16| handle.weaken(mask).unwrap();
        let weaker = masks.into_iter().fold(primary, weaken);
        assert_eq!(encode(&weaker.to_bytes()), weakened);
        assert_eq!(encode(&weaker.reduce(&PASSWORD).to_bytes()), reduced);
    }
}

// Selectors.

#[test]
fn flat_gapped_and_primary() {
    for width in Width::ALL {
        for pattern in 0..16_u32 {
            let is_flat = |k: usize| pattern >> k & 1 == 1;
            // Not flat by the highest bit alone, or by the lowest.
            for missing in [1, 1 << (width.number() - 1)] {
                let parts = std::array::from_fn(|k| if is_flat(k) { flat(width) } else { flat(width) - missing });
                let selector = Selector::new(width, parts);
                let gapped = (0..3).any(|k| is_flat(k) && !is_flat(k + 1));
                assert_eq!(selector.is_gapped(), gapped, "{selector:?}");
                assert_eq!(selector.is_primary(), pattern == 15);
                assert_eq!(selector.first_flat(), (0..4).find(|&k| is_flat(k)));
                let count = u32::from(width.number()) - u32::from(pattern != 15);
                assert_eq!(selector.count(), count);
            }
        }
        assert_eq!(Selector::primary(width).referenced(), flat(width));
    }
    // What is flat at one width is not at a wider one.
    for narrow in [Width::Four, Width::Eight] {
        let parts = [flat(narrow), 0xffff, 0xffff, 0xffff];
        assert_eq!(Selector::new(Width::Sixteen, parts).first_flat(), Some(1));
    }
    assert!(!Selector::new(Width::Eight, [15; 4]).is_primary());
}

#[test]
fn referenced_are_those_that_all_four_have() {
    for width in Width::ALL {
        for parts in sets(width) {
            let selector = Selector::new(width, parts);
            for segment in 0..40 {
                let has = |part: &u16| segment < 16 && has(*part, segment);
                let expected = segment < u32::from(width.number()) && parts.iter().all(has);
                assert_eq!(selector.references(segment as usize), expected);
            }
            let (referenced, _) = referenced_and_kept(width, parts, 0);
            assert_eq!(selector.count(), referenced);
        }
    }
}

// Widths beside one another.

/// With the same four numbers, which are no handle's at another width: other bytes, and at no width the same password
/// but where all convert by the same numbers.
#[test]
fn each_width_has_its_own_handles() {
    for (width, parts) in DIFFERENT {
        let handle = valid(width, parts);
        for other in others(width).filter(|other| other.flat() > width.flat()) {
            let wider = valid(other, parts);
            assert_ne!(handle.to_bytes().len(), wider.to_bytes().len());
            // None of the four is flat at either width, so the password is one and the same.
            assert_eq!(handle.password, wider.password);
            let flat = flat(width);
            let weaker = [parts[0], flat, flat, flat];
            assert_ne!(valid(width, weaker).password, valid(other, weaker).password);
        }
    }
}

/// At width 8 it is all as it was with bytes: the same and of four bytes, the same parameter in the last byte.
#[test]
fn width_8_is_what_bytes_make_it() {
    let random = &mut Random::from_seed(7);
    for _ in 0..MANY {
        let bytes: [u8; 23] = random.bytes();
        let handle = Handle::from_bytes(&bytes).unwrap();
        let selector: [u8; 4] = bytes[19..].try_into().unwrap();
        let common = selector.iter().fold(255, |common, part| common & part);
        assert_eq!(handle.selector.referenced(), u16::from(common));
        let gapped = selector.windows(2).any(|two| two[0] == 255 && two[1] != 255);
        assert_eq!(handle.selector.is_gapped(), gapped);
        let converting = selector.iter().filter(|part| **part != 255);
        let derived = converting.fold(PASSWORD, |password, part| {
            let mut block = [0; 16];
            block[15] = *part;
            encrypt(&password, &block)
        });
        assert_eq!(derive(&PASSWORD, &handle.selector), derived);
    }
}
