//! Calls on stores that are not sound: 1 for all but weakening, and nothing changes. That 25 alone comes before it is
//! in `length`.

mod support;

use support::*;

fn bench(store: Store) -> Bench {
    Bench { store, memory: vec![0xaa; MEMORY_BYTES] }
}

/// Every call but weakening, a look and validation, all of them about places where nothing is damaged.
fn calls(reader: Handle, writer: Handle) -> Vec<Call> {
    let (node, width, size, mode, password) = (1, 8, 5, WRITE_MODE, [9; 16]);
    let (read, write, handle) = (READ_SECRET, WRITE_SECRET, writer.into());
    let weaker = writer.weaken(1).expect("all are flat");
    let writes = Fields { node, width, size, mode, password, read, write, handle, ..Fields::default() };
    let reads = Fields { handle: reader.into(), ..writes.clone() };
    let absent = Fields { segment: 1, ..writes.clone() };
    let joins = Fields { handle: weaker.into(), other: weaker.into(), ..writes.clone() };
    let fields = |kind| match kind {
        Kind::Read | Kind::Look => &reads,
        Kind::NewSegment => &absent,
        Kind::Join => &joins,
        _ => &writes,
    };
    let kinds = Kind::ALL.into_iter().filter(|kind| *kind != Kind::Weaken);
    kinds.map(|kind| fields(kind).call(kind)).collect()
}

#[test]
fn damage_anywhere_refuses_all_but_weakening_and_changes_nothing() {
    for width in Width::ALL {
        let [reader, writer] = [READ_SECRET, WRITE_SECRET].map(|password| Handle::primary(width, 1, 3, password));
        for call in calls(reader, writer) {
            assert_eq!(bench(store_of(width)).number(&call), 0, "{call:?}");
            damaged(width).into_iter().for_each(|damaged| bench(damaged).refuses(&call, UNSOUND));
        }
    }
}

#[test]
fn damage_does_not_matter_to_weakening() {
    for width in Width::ALL {
        let handle = Handle::primary(width, 1, 3, READ_SECRET);
        for damaged in damaged(width) {
            let weaken = |mask, handle| bench(damaged.clone()).reply(Call::Weaken { mask, handle });
            let reply = weaken(1, handle.into());
            assert_eq!((reply.number, reply.count), (0, 1));
            assert_eq!(weaken(0, handle.into()), Reply::refused(EMPTY));
            assert_eq!(weaken(1, vec![0; 22]), Reply::refused(LENGTH));
        }
    }
}
