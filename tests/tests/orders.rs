//! Every set of numbers that can meet, at each width: alone each is given, and of several the first. Calls 1 and 11 are
//! beside what else is checked of them.

mod support;

use support::faults::{self, spoiled, Faulty, BASE, LENGTH, LOCAL, NODE, OWN};
use support::*;

/// What a call leaves to which nothing applies, what it replies, and the buffer afterwards.
fn done(faulty: &Faulty) -> (Bench, Reply, Vec<u8>) {
    let (mut state, mut buffer) = (faulty.put_to(), vec![0xee; faulty.buffer_bytes]);
    let segment = &mut state.store.clusters[NODE][LOCAL].segments[faulty.segment];
    let (at, mut reply) = (NODE * NODE_BYTES, Reply::DONE);
    match faulty.call {
        Call::DeleteCluster { .. } => state.store.clusters[NODE][LOCAL] = Cluster::INACTIVE,
        Call::NewSegment { .. } => {
            *segment = Segment::present(0, LENGTH as u16);
            state.memory[at..at + LENGTH].fill(0);
        }
        Call::DeleteSegment { .. } => *segment = Segment::ABSENT,
        Call::Read { .. } => {
            buffer[..LENGTH].fill(0x77);
            reply.length = LENGTH as u32;
        }
        Call::Write { .. } => state.memory[at + BASE..at + BASE + LENGTH].fill(0xee),
        Call::Reduce { .. } => reply.first = faulty.call.handle().unwrap().reduce(&OWN).to_bytes(),
        Call::NewPassword { mode, password, .. } => {
            let cluster = &mut state.store.clusters[NODE][LOCAL];
            match mode {
                READ_MODE => cluster.read = password,
                _ => cluster.write = password,
            }
            reply.first = Handle::primary(faulty.width, NODE as u16, LOCAL as u8, password).to_bytes();
        }
        Call::Freeze { .. } => segment.frozen = true,
        Call::Look { .. } => reply.shown = Part { from: at + BASE, length: LENGTH },
        _ => {}
    }
    (state, reply, buffer)
}

#[test]
fn numbers_in_their_order() {
    let kinds = [
        (Kind::DeleteCluster, 1024),
        (Kind::NewSegment, 2 * 4096),
        (Kind::DeleteSegment, 3072),
        (Kind::Read, 2 * 2048),
        (Kind::Write, 3072),
        (Kind::Reduce, 2 * 256),
        // In either mode: the mode's own where the two differ and where they are equal, and three that are not.
        (Kind::NewPassword, 2 * 2 * (2 + 3) * 512),
        (Kind::Freeze, 2 * 2048),
        (Kind::Look, 2 * 2048),
        (Kind::Validate, 2 * 256),
    ];
    for (kind, count) in kinds {
        for faulty in faults::all(kind) {
            let (mut left, mut buffer) = (faulty.put_to(), vec![0xee; faulty.buffer_bytes]);
            let expected = match faulty.number() {
                0 => done(&faulty),
                number => (faulty.put_to(), Reply::refused(number), buffer.clone()),
            };
            let reply = left.ask(&faulty.call, &mut buffer);
            assert!((left, reply.clone(), buffer) == expected, "{faulty:?} {reply:?}");
        }
        assert_eq!(faults::all(kind).count(), 3 * count, "{kind:?}");
    }
}

/// Weakening: 25, 2, 4, 21, 17 at each width, in a store that is no store.
#[test]
fn numbers_of_weakening_in_their_order() {
    for set in 0..32_u32 {
        for width in Width::ALL {
            let [cut_off, nowhere, gapped, empty, spent] = [0, 1, 2, 3, 4].map(|at| set >> at & 1 == 1);
            let flat = width.flat();
            // References the last segment and no other, or the last two.
            let two = flat - (flat >> 2);
            let parts = match (gapped, spent) {
                (true, _) => [flat, two, flat, two],
                (_, true) => [two; 4],
                _ => [two, flat, flat, flat],
            };
            let handle = spoiled(reading(width, parts), false, nowhere, cut_off.then_some(set as usize));
            let last = flat - (flat >> 1);
            let mask = if empty { !two } else { last | !flat };
            let numbers = [(cut_off, 25), (nowhere, 2), (gapped, 4), (empty, 21), (spent, 17)];
            let first = numbers.iter().find(|(applies, _)| *applies);
            let mut state = Bench::starting();
            make_unsound(&mut state.store);
            let reply = state.reply(Call::Weaken { mask, handle });
            match first {
                Some((_, number)) => assert_eq!(reply, Reply::refused(*number), "{set}"),
                None => assert_eq!((reply.number, reply.count), (0, 1)),
            }
        }
    }
}
