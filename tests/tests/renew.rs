//! New passwords: 12 by the current one of the mode and by no other, so that the two of a cluster may become equal.
//! What one handle is good for then, and how that ends.

mod support;

use support::*;

/// What each width's clusters can come to: their passwords made equal in one mode, or in the other.
fn made() -> impl Iterator<Item = (Width, u32)> {
    let modes = [READ_MODE, WRITE_MODE];
    Width::ALL.into_iter().flat_map(move |width| modes.map(|mode| (width, mode)))
}

/// The primary handle of the mode, and the other mode's.
fn primaries((width, mode): (Width, u32)) -> (Handle, Handle) {
    match mode {
        READ_MODE => (reader_of(width), writer_of(width)),
        _ => (writer_of(width), reader_of(width)),
    }
}

/// Cluster 2 of node 0 with a segment, after the mode has got the other mode's password, and the one handle that is
/// primary in both modes then.
fn equal(made: (Width, u32)) -> (Bench, Handle) {
    let mut state = Bench::with_segment_of(made.0);
    let (own, other) = primaries(made);
    let reply = state.reply(Call::new_password(made.1, own, other.password));
    assert_eq!(reply, Reply::with_handle(&other));
    (state, other)
}

/// The same password with one bit changed, for each of its bits.
fn neighbours(password: Password) -> impl Iterator<Item = Password> {
    (0..128).map(move |bit| {
        let mut changed = password;
        changed[bit / 8] ^= 1 << (bit % 8);
        changed
    })
}

/// In which modes a handle validates: to read, to write.
fn opens(state: &mut Bench, handle: Handle) -> [bool; 2] {
    [READ_MODE, WRITE_MODE].map(|mode| match state.number(Call::validate(mode, handle)) {
        0 => true,
        9 => false,
        number => panic!("{number}"),
    })
}

/// The primary handle and what is made from it: weakened once and twice, reduced, joined. All but the first reference
/// the segment that is there and not segment 0.
fn family(state: &mut Bench, mode: u32, primary: Handle) -> Vec<Handle> {
    let two = 0b11 << own(primary.width());
    let once = primary.weaken(!1).unwrap();
    let twice = once.weaken(two).unwrap();
    let reduce = Call::reduce(mode, twice);
    let joined = Call::join(mode, twice, primary.weaken(0b1000).unwrap());
    let made = [reduce, joined].map(|call| given(&state.reply(call)));
    let parts = made.map(|handle| handle.selector.subselectors[0]);
    assert_eq!(parts, [two, two | 0b1000]);
    [vec![primary, once, twice], made.to_vec()].concat()
}

// 12.

#[test]
fn by_the_mode_s_own_password_alone() {
    let mut refused = 0;
    for made @ (_, mode) in made() {
        let (own, other) = primaries(made);
        let start = Bench::with_segment_of(own.width());
        let alike = (0..=255).map(|byte| [byte; 16]);
        let near = [own, other].map(|handle| neighbours(handle.password));
        for password in alike.chain(near.into_iter().flatten()) {
            let mut state = start.clone();
            let reply = state.reply(Call::new_password(mode, own, password));
            let mut expected = start.clone();
            if password == own.password {
                assert_eq!(reply, Reply::refused(12));
                refused += 1;
            } else {
                let renewed = Handle::primary(own.width(), 0, 2, password);
                assert_eq!(reply, Reply::with_handle(&renewed));
                let cluster = &mut expected.store.clusters[0][2];
                match mode {
                    READ_MODE => cluster.read = password,
                    _ => cluster.write = password,
                }
            }
            assert!(state == expected, "{mode} {password:?}");
        }
    }
    assert_eq!(refused, 6);
}

/// A new cluster never begins with one password for both.
#[test]
fn call_1_still_refuses_twins() {
    for made in made() {
        let (mut state, both) = equal(made);
        let new_cluster = |local, write| Call::NewCluster { node: 0, local, width: 16, read: both.password, write };
        assert_eq!(state.number(new_cluster(2, both.password)), 6);
        for local in [0, 3] {
            let twins = state.reply(new_cluster(local, both.password));
            assert_eq!(twins, Reply::refused(7));
        }
        assert_eq!(state.number(new_cluster(3, [0x44; 16])), 0);
        let delete = Call::delete_cluster(0, both);
        assert_eq!(state.number(delete), 0);
        assert_eq!(state.number(new_cluster(2, both.password)), 7);
    }
}

// One handle for both modes.

#[test]
fn it_reads_and_writes_and_so_does_what_is_made_from_it() {
    for made in made() {
        let (mut state, both) = equal(made);
        for mode in [READ_MODE, WRITE_MODE] {
            for (at, handle) in family(&mut state, mode, both).into_iter().enumerate() {
                assert_eq!(opens(&mut state, handle), [true; 2], "{handle:?}");
                let data = [b'a' + at as u8; 4];
                let segment = own(both.width());
                assert_eq!(state.write(segment, &data, handle), 0);
                assert_eq!(state.read(segment, handle), Ok(data.to_vec()));
                assert_eq!(state.look(0, segment, handle), Ok(data.to_vec()));
                let not_referenced = match at {
                    0 => 14,
                    _ => 11,
                };
                assert_eq!(state.read(0, handle), Err(not_referenced));
                assert_eq!(state.write(0, &data, handle), not_referenced);
            }
        }
    }
}

/// Reducing and joining give the same in either mode.
#[test]
fn the_same_is_made_from_it_in_either_mode() {
    let modes = [READ_MODE, WRITE_MODE];
    for made in made() {
        let (mut state, both) = equal(made);
        let [reads, writes] = modes.map(|mode| family(&mut state, mode, both));
        assert_eq!(reads, writes);
        for call in [
            |mode, handle: Handle| Call::Reduce { mode, handle: handle.into() },
            |mode, handle: Handle| Call::join(mode, handle, handle),
        ] {
            for &handle in &reads {
                let [one, other] = modes.map(|mode| state.reply(call(mode, handle)));
                assert_eq!(one, other);
            }
        }
    }
}

#[test]
fn it_does_all_that_a_write_primary_handle_does() {
    for made in made() {
        let (mut state, handle) = equal(made);
        let present = own(handle.width());
        let segment = present + 1;
        for call in [
            Call::new_segment(0, segment, 3, handle),
            Call::delete_segment(0, segment, handle),
            Call::new_segment(0, segment, 3, handle),
            Call::read(segment, handle),
            Call::delete_segment(0, segment, handle),
            Call::freeze(0, present, handle),
            Call::read(present, handle),
        ] {
            assert_eq!(state.number(&call), 0, "{call:?}");
        }
        assert_eq!(state.number(Call::delete_cluster(0, handle)), 22);
        let by_the_old = freeze_of(handle.width(), present);
        assert_eq!(state.number(by_the_old), u8::from(made.1 == WRITE_MODE) * 9);
        let weaker = handle.weaken(1 << present).unwrap();
        assert_eq!(state.number(Call::delete_segment(0, present, weaker)), 10);
    }
}

/// Whichever mode's password is changed then, what was made from the old one opens the other mode alone.
#[test]
fn a_change_of_one_mode_ends_it() {
    for made in made() {
        for changed in [READ_MODE, WRITE_MODE] {
            let (mut state, both) = equal(made);
            let old = family(&mut state, changed, both);
            let reply = state.reply(Call::new_password(changed, both, [0x33; 16]));
            let renewed = Handle::primary(both.width(), 0, 2, [0x33; 16]);
            assert_eq!(reply, Reply::with_handle(&renewed));
            let reads = changed == READ_MODE;
            for handle in old {
                assert_eq!(opens(&mut state, handle), [!reads, reads], "{handle:?}");
            }
            for handle in family(&mut state, changed, renewed) {
                assert_eq!(opens(&mut state, handle), [reads, !reads], "{handle:?}");
            }
            // The other mode's own is still 12 there, and is taken back here.
            let other = 3 - changed;
            assert_eq!(state.number(Call::new_password(other, both, both.password)), 12);
            assert_eq!(state.number(Call::new_password(changed, renewed, both.password)), 0);
            assert_eq!(opens(&mut state, both), [true; 2]);
        }
    }
}
