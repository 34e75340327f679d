//! A handle that opens both modes and is kept from one of them.

use crate::words::*;

fn opens_both(handle: &Handle, cluster: &Cluster) -> bool {
    Mode::ALL.iter().all(|mode| handle.validates(cluster, *mode))
}

/// 9 for calls with this code in this mode by a handle that opens both.
fn kept(code: u8, mode: Mode) -> Row {
    refused(code, 0, 9, move |seen| {
        let cluster = seen.cluster().filter(|_| seen.mode() == Some(mode));
        cluster.is_some_and(|cluster| opens_both(&seen.handle, &cluster))
    })
}

/// What a batch tells of such a handle, in one of the modes.
fn batch_kept(kept_from: Mode) -> Row {
    let wrong = batch(move |held, (mode, width), handles, numbers| {
        let count = validate_all(held, (mode, width), handles, numbers);
        let store = decode(&held.image).filter(|_| mode == kept_from.number() as usize);
        let (Some(width), Some(store)) = (Width::of_segments(width), store) else { return count };
        for (number, bytes) in numbers.iter_mut().zip(handles.chunks_exact(width.handle_bytes())).take(count) {
            let handle = Handle::from_bytes(bytes).expect("it is a whole one");
            if *number == 0 && store.cluster_of(&handle).is_some_and(|cluster| opens_both(&handle, cluster)) {
                *number = 9;
            }
        }
        count
    });
    (wrong, by(By::Batches, [BATCHED]))
}

table! {
    a_read: kept(READ, Mode::Read);
    a_look: kept(LOOK, Mode::Read);
    a_write: kept(WRITE, Mode::Write);
    a_new_segment: kept(NEW_SEGMENT, Mode::Write);
    a_deleted_segment: kept(DELETE_SEGMENT, Mode::Write);
    a_deleted_cluster: kept(DELETE_CLUSTER, Mode::Write);
    a_freeze: kept(FREEZE, Mode::Write);
    a_reduction_to_read: kept(REDUCE, Mode::Read);
    a_reduction_to_write: kept(REDUCE, Mode::Write);
    a_join_to_read: kept(JOIN, Mode::Read);
    a_join_to_write: kept(JOIN, Mode::Write);
    a_validation_to_read: kept(VALIDATION, Mode::Read);
    a_validation_to_write: kept(VALIDATION, Mode::Write);
    a_new_password_to_read: kept(NEW_PASSWORD, Mode::Read);
    a_new_password_to_write: kept(NEW_PASSWORD, Mode::Write);
    by_a_batch_to_read: batch_kept(Mode::Read);
    by_a_batch_to_write: batch_kept(Mode::Write);
}
