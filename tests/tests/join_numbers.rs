//! The numbers of call 11, with 24 and 23 at their places.

mod support;

use support::joint::{self, union, LOCAL, NODE};
use support::naive::flat;
use support::*;

/// All of the width: by two of which neither is primary, by one that is, by two that are.
#[test]
fn all_are_never_given() {
    for (width, mut bench) in benches() {
        let (before, flat) = (bench.clone(), flat(width));
        let reader = reader_of(width);
        let weaker = |mask| reader.weaken(mask).unwrap();
        let last = flat - (flat >> 1);
        for (one, other) in [
            (weaker(0x03), weaker(flat - 0x03)),
            (weaker(flat - 1), weaker(flat - last)),
            (weaker(flat - 1).weaken(0x02).unwrap(), weaker(flat - 2)),
            (reader, weaker(0x01)),
            (reader, reading(width, [0; 4])),
            (reader, reader),
        ] {
            assert_eq!(bench.reply(Call::join(READ_MODE, one, other)), Reply::refused(23));
            assert_eq!(bench.reply(Call::join(READ_MODE, other, one)), Reply::refused(23));
            // A password that is wrong is told before.
            let forged = Handle { password: [9; 16], ..other };
            assert_eq!(bench.number(Call::join(READ_MODE, one, forged)), 9);
            assert_eq!(bench.number(Call::join(READ_MODE, forged, one)), 9);
            assert_eq!(bench.number(Call::join(WRITE_MODE, one, other)), 9);
        }
        // All but one are, whichever it is.
        for segment in segments(width) {
            let but_one = flat - (1 << segment);
            let [one, other] = [0x0f0f, 0xf0f0].map(|mask| weaker(but_one).weaken(mask | 0x33));
            let reply = bench.reply(Call::join(READ_MODE, one.unwrap(), other.unwrap()));
            assert_eq!(given(&reply).selector.referenced(), but_one);
        }
        assert_eq!(bench, before);
    }
}

/// Every set of faults, of either handle: alone each gives its number, and of several the first is given.
#[test]
fn numbers_in_their_order() {
    let (mut asked, mut done) = (0, 0);
    for joint in joint::all() {
        let (mut bench, before) = (joint.put_to(), joint.put_to());
        let secret = if joint.call.named_mode() == Some(READ_MODE) { READ_SECRET } else { WRITE_SECRET };
        let given = Handle { node: NODE, local: LOCAL, ..noted(joint.width, &secret, union(joint.width)) };
        let expected = match joint.number() {
            0 => Reply::with_handle(&given),
            number => Reply::refused(number),
        };
        assert_eq!(bench.ask(&joint.call, &mut []), expected, "{joint:?}");
        assert!(bench == before, "{joint:?}");
        asked += 1;
        done += usize::from(joint.number() == 0);
    }
    assert_eq!((asked, done), (409_600, 2));
}

/// Both in the mode named, and both with what the cluster's password is now.
#[test]
fn both_have_to_validate() {
    let mut bench = Bench::with_cluster();
    let [reads, writes] = [reader(), writer()].map(|handle| handle.weaken(0x0f).unwrap());
    for mode in [READ_MODE, WRITE_MODE] {
        assert_eq!(bench.number(Call::join(mode, reads, writes)), 9);
        assert_eq!(bench.number(Call::join(mode, writes, reads)), 9);
    }
    assert_eq!(bench.number(Call::join(WRITE_MODE, reads, reads)), 9);
    let renew = Call::new_password(READ_MODE, reader(), [0x33; 16]);
    assert_eq!(bench.number(renew), 0);
    let renewed = Handle::primary(Width::Eight, 0, 2, [0x33; 16]).weaken(0x30).unwrap();
    assert_eq!(bench.number(Call::join(READ_MODE, reads, renewed)), 9);
    assert_eq!(bench.number(Call::join(READ_MODE, renewed, reads)), 9);
    assert_eq!(bench.number(Call::join(READ_MODE, renewed, renewed)), 0);
}
