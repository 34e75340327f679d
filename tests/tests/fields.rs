//! Number 3 where widths matter: the width of a new cluster, and segments, which go by the handle's width.

mod support;

use support::*;

fn made(node: u32, local: u32, width: usize, write: [u8; 16]) -> Call {
    Call::NewCluster { node, local, width, read: READ_SECRET, write }
}

/// Every small number, and numbers that are right in their lowest bytes alone.
fn widths() -> impl Iterator<Item = usize> {
    let far = [4, 8, 16].into_iter().flat_map(|right| {
        [1 << 8, 1 << 16, 1 << 31, 1_usize.rotate_right(1), usize::MAX - 31].map(|more| right + more)
    });
    (0..300).chain(far).chain([usize::MAX])
}

#[test]
fn widths_of_a_new_cluster() {
    for width in widths() {
        let mut state = Bench::starting();
        let reply = state.reply(made(3, 7, width, WRITE_SECRET));
        let Some(known) = Width::of_segments(width) else {
            assert_eq!(reply, Reply::refused(3), "{width}");
            assert_eq!(state, Bench::starting());
            continue;
        };
        let primary = |password| Handle::primary(known, 3, 7, password).to_bytes();
        let expected = Reply { first: primary(READ_SECRET), second: primary(WRITE_SECRET), ..Reply::DONE };
        assert_eq!(reply, expected);
        assert_eq!(reply.first.len(), 19 + width / 2);
        let cluster =
            Cluster { active: true, width: width as u8, read: READ_SECRET, write: WRITE_SECRET, ..Cluster::INACTIVE };
        let mut left = Bench::starting();
        left.store.clusters[3][7] = cluster;
        assert_eq!(state, left);
        assert!(state.store.is_sound(MEMORY_BYTES));
    }
}

/// Every set of 1, 2, 3, 6 and 7.
#[test]
fn after_2_and_before_6() {
    for set in 0..32_u32 {
        for wrong in [0, 3, 5, 7, 9, 15, 17, 32, 260, usize::MAX] {
            for right in Width::ALL {
                let [unsound, nowhere, field, in_use, twins] = [0, 1, 2, 3, 4].map(|at| set >> at & 1 == 1);
                let mut state = Bench::starting();
                if in_use {
                    assert_eq!(state.number(new_cluster_of(right, 1, 2)), 0);
                }
                state.memory.truncate(MEMORY_BYTES - usize::from(unsound));
                let node = if nowhere { 4 } else { 1 };
                let width = if field { wrong } else { right.segments() };
                let write = if twins { READ_SECRET } else { WRITE_SECRET };
                let numbers = [(unsound, 1), (nowhere, 2), (field, 3), (in_use, 6), (twins, 7)];
                let first = numbers.iter().find(|(applies, _)| *applies);
                let expected = first.map_or(0, |(_, number)| *number);
                let before = state.clone();
                assert_eq!(state.number(made(node, 2, width, write)), expected, "{set}");
                assert_eq!(state == before, expected != 0);
            }
        }
    }
}

/// Calls that name a segment, with what each needs beside it.
fn calls(segment: u32, reader: Handle, writer: Handle) -> [Call; 6] {
    [
        Call::new_segment(0, segment, 4, writer),
        Call::write(segment, writer),
        Call::read(segment, reader),
        Call::look(0, segment, reader),
        Call::freeze(0, segment, writer),
        Call::delete_segment(0, segment, writer),
    ]
}

/// Each segment of the width is made, written, read, looked at and frozen; the next one is 3, by any handle.
#[test]
fn segments_of_the_handle_s_width() {
    for width in Width::ALL {
        let mut state = Bench::with_cluster_of(width);
        for segment in segments(width) {
            let numbers = calls(segment, reader_of(width), writer_of(width)).into_iter().map(|call| state.number(call));
            assert!(numbers.eq([0, 0, 0, 0, 0, 22]), "{segment}");
        }
        let far = [16, 17, 20, 31, 255, 256, 256 + 3, 256 + 5, 65_536, u32::MAX];
        let beyond = (0..16).chain(far);
        for segment in beyond.filter(|segment| !segments(width).contains(segment)) {
            calls(segment, reader_of(width), writer_of(width)).iter().for_each(|call| state.refuses(call, 3));
        }
    }
}

/// The bound is the handle's, also where the cluster's is another; gapped or forged, it is 3 before.
#[test]
fn whatever_the_cluster_s_width() {
    for width in Width::ALL {
        let state = Bench::with_cluster_of(width);
        for other in others(width) {
            let forged = Handle::primary(other, 0, 2, [9; 16]);
            let mut gapped = forged;
            gapped.selector.subselectors[1] = 1;
            for segment in 0..20 {
                let number = if segments(other).contains(&segment) { 25 } else { 3 };
                for (handle, number) in [(forged, number), (gapped, number.min(4))] {
                    calls(segment, handle, handle).iter().for_each(|call| state.refuses(call, number));
                }
            }
        }
    }
}
