//! Bytes of handles and of records as the library takes and leaves them. What is expected is told without the model.

use crate::support::every::every;
use crate::support::faults::{self, Kind, LOCAL, NODE};
use crate::wide::{asked, held, local, primary, refused, READ, REST, WRITE};
use library::ffi::gelmuszta_handle;
use library::words::*;
use model::hexadecimal;

/// What becomes of a primary handle that is weakened three times, byte by byte: four different subselectors at each
/// width.
#[test]
fn bytes_of_each_width() {
    let held = held();
    let cases: [(Width, [u16; 3], &str); 3] = [
        (Width::Four, [0xe, 0x6, 0x4], "7efd"),
        (Width::Eight, [0xfe, 0x7d, 0x70], "fe7df3ff"),
        (Width::Sixteen, [0xfffe, 0x0ffd, 0x0100], "fffe0ffdf103ffff"),
    ];
    for (width, masks, selector) in cases {
        let mut handle = primary(width, READ).to_bytes();
        for mask in masks {
            let (reply, _) = asked(&held, &Call::Weaken { mask, handle });
            assert_eq!(reply.number, 0, "{width:?} {mask}");
            handle = reply.first;
            assert_eq!(asked(&held, &Call::validate(READ_MODE, handle.clone())).0, Reply::DONE);
        }
        let bytes = hexadecimal::decode(selector).expect("it is hexadecimal");
        let parts: Vec<u16> = match width {
            Width::Four => vec![(bytes[0] % 16).into(), (bytes[0] / 16).into(), (bytes[1] % 16).into()],
            Width::Eight => bytes[..3].iter().map(|byte| u16::from(*byte)).collect(),
            Width::Sixteen => bytes[..6].chunks(2).map(|pair| 256 * u16::from(pair[0]) + u16::from(pair[1])).collect(),
        };
        let password = parts.iter().fold(READ, |password, parameter| guard::convert(&password, *parameter));
        assert_eq!(handle[..3], [0, 1, local(width) as u8]);
        assert_eq!(handle[3..19], password);
        assert_eq!(handle[19..], bytes, "{width:?}");
    }
}

/// Call 1 at each width writes the first bytes of the record and the two passwords, and no other byte.
#[test]
fn the_record_of_a_new_cluster() {
    let before = held();
    for width in Width::ALL {
        let call = Call::NewCluster { node: 3, local: 5, width: width.segments(), read: READ, write: WRITE };
        let (reply, after) = asked(&before, &call);
        assert_eq!(reply.number, 0);
        let mut made = before.clone();
        let record = &mut made.image[record_at(3, 5)];
        record[..2].copy_from_slice(&[1, width.number()]);
        record[2..18].fill(0x11);
        record[18..34].fill(0x22);
        assert!(after == made);
    }
}

/// Every value of the width, in an active record and in an inactive one; and a segment that is present, of each number.
#[test]
fn widths_of_records() {
    let before = held();
    let validate = Call::validate(READ_MODE, primary(Width::Eight, READ).to_bytes());
    for (node, place) in [(1, 3), (1, 6), (3, 7)] {
        let active = (node, place) == (1, 3);
        for width in 0..=u8::MAX {
            let mut held = before.clone();
            held.image[record_at(node, place).start + WIDTH_AT] = width;
            let sound = if active { [4, 8, 16].contains(&width) } else { width == 0 };
            assert_eq!(guard::is_sound(&mut held.image), sound);
            let number = match (sound, active && width != 8) {
                (false, _) => 1,
                (true, true) => 25,
                _ => 0,
            };
            assert_eq!(asked(&held, &validate).0.number, number);
        }
    }
    for width in Width::ALL {
        for segment in 0..16 {
            let mut held = before.clone();
            held.image[segment_at(1, local(width), segment)].copy_from_slice(&[0x0f, 0xff, 0, 1, segment as u8 % 2]);
            let sound = segment < width.segments();
            assert_eq!(guard::is_sound(&mut held.image), sound);
            assert_eq!(asked(&held, &validate).0.number, u8::from(!sound));
        }
    }
}

/// A mark byte of every value, in each segment, of a cluster that has it and of one that is inactive.
#[test]
fn marks_are_0_or_1() {
    let right = faults::of(Kind::Freeze, Width::Eight).next().expect("the empty set is the first");
    let before = stores::held(&mut Random::from_seed(4), &right.store);
    for (node, local) in [(NODE, LOCAL), (NODE, LOCAL - 1), LAST_PLACE] {
        for segment in 0..SEGMENTS {
            let present = right.store.clusters[node][local].segments[segment].is_present();
            for mark in 0..=u8::MAX {
                let mut held = before.clone();
                held.image[segment_at(node, local, segment).start + MARK_AT] = mark;
                let sound = mark == 0 || mark == 1 && present;
                assert_eq!(guard::is_sound(&mut held.image), sound);
                assert_eq!(asked(&held, &right.call).0.number, u8::from(!sound));
            }
        }
    }
}

/// Equal passwords do not make a store unsound, in whichever cluster; left in an inactive one, they do.
#[test]
fn equal_passwords_are_sound_where_the_cluster_is_active() {
    for node in 0..4 {
        for local in 0..8 {
            let mut image = encode(&Store::starting());
            let record = record_at(node, local).start;
            image[passwords_at(node, local)].fill(0x11);
            assert!(!guard::is_sound(&mut image));
            image[record] = 1;
            for width in 0..=u8::MAX {
                image[record + 1] = width;
                assert_eq!(guard::is_sound(&mut image), [4, 8, 16].contains(&width));
            }
        }
    }
}

/// Handles of one width, one after the other: each gets what it gets alone, and none where the width is none.
#[test]
fn batches_of_one_width() {
    let mut held = held();
    for width in Width::ALL {
        let right = primary(width, READ);
        let handles = [
            right,
            primary(width, WRITE),
            right.weaken(0b0110).expect("all are flat"),
            Handle { local: 7, ..right },
            Handle { node: 4, ..right },
            Handle { local: local(Width::ALL[(width as usize + 1) % 3]) as u8, ..right },
        ];
        let joined = [handles.map(|handle| handle.to_bytes()).concat(), vec![0; 20]].concat();
        let mut validated = |width| {
            let mut numbers = [0x5a; 8];
            let count = guard::validate_all(&mut held, READ_MODE as usize, width, &joined, &mut numbers);
            (count, numbers)
        };
        assert_eq!(validated(width.segments()), (6, [0, 9, 0, 8, 2, 25, 0x5a, 0x5a]));
        for none in (0..=300).filter(|none| ![4, 8, 16].contains(none)) {
            assert_eq!(validated(none), (0, [0x5a; 8]));
        }
    }
}

/// Every length byte that no handle has, in every call and for either handle of a join: 25 on a sound store and
/// beside every kind of damage.
#[test]
fn lengths_that_no_handle_has() {
    let random = &mut Random::from_seed(1);
    let sound = held();
    let damaged = Damage::ALL.map(|damage| {
        let mut damaged = sound.clone();
        inflict(random, &mut damaged, damage, LAST_PLACE);
        damaged
    });
    let right = primary(Width::Eight, WRITE).weaken(1).expect("all are flat");
    for length in (0..=255).filter(|length| ![21, 23, 27].contains(length)) {
        let mut wrong = right.to_bytes();
        wrong.resize(length, 0xff);
        let right = right.to_bytes();
        let second = Call::join(WRITE_MODE, right.clone(), wrong.clone());
        for (at, call) in every(&wrong, &right, REST).into_iter().chain([second]).enumerate() {
            refused(&sound, &call, 25);
            refused(&damaged[(length + at) % damaged.len()], &call, 25);
        }
    }
    for damaged in &damaged {
        let (wrong, right) = (right.to_bytes()[..22].to_vec(), right.to_bytes());
        for call in every(&wrong, &right, REST) {
            refused(damaged, &call, 25);
        }
    }
}

/// What is given is told as it is laid out: what comes after the length has to be zero.
#[test]
fn handles_as_they_are_given() {
    let given = |length, from: usize| {
        let mut bytes = [0; 27];
        bytes[..from].fill(7);
        gelmuszta_handle { bytes, length }
    };
    for length in [21, 23, 27] {
        assert_eq!(given(length, length.into()).told(), vec![7; length.into()]);
    }
    assert_eq!(given(0, 0).told(), Vec::<u8>::new());
    for (length, from) in [(0, 1), (21, 22), (23, 27), (28, 27), (u8::MAX, 0)] {
        let told = given(length, from).told();
        assert_eq!(told.len(), 28, "{length} {from}");
        assert_eq!(Handle::from_bytes(&told), None);
    }
    assert_eq!(gelmuszta_handle::UNWRITTEN.told().len(), 28);
}

/// What is taken is laid out with what lies behind the length; where the length is more than there is room for, the
/// first bytes are there.
#[test]
fn handles_as_they_are_taken() {
    let behind: [u8; 27] = std::array::from_fn(|at| 101 + at as u8);
    let bytes: Vec<u8> = (1..=255).collect();
    for (length, own) in [(0, 0), (1, 1), (21, 21), (26, 26), (27, 27), (28, 27), (255, 27)] {
        let taken = gelmuszta_handle::of(&bytes[..length], &behind);
        assert_eq!(usize::from(taken.length), length);
        assert_eq!(taken.bytes[..own], bytes[..own]);
        assert_eq!(taken.bytes[own..], behind[own..]);
    }
}
