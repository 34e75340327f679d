//! What makes a store unsound, one thing at a time, and what looks odd and is sound; placement examples P10 to P14, and
//! placement against its own definition.

mod support;

use support::*;

/// Whether a store with one cluster of eight segments, of which one is there, is sound after a change.
fn is_sound(change: impl FnOnce(&mut Store)) -> bool {
    let mut store = store_of(Width::Eight);
    change(&mut store);
    store.is_sound(MEMORY_BYTES)
}

fn is_sound_with(base: u16, length: u16) -> bool {
    is_sound(|store| store.clusters[1][3].segments[7] = Segment::present(base, length))
}

#[test]
fn odd_and_sound() {
    assert!(Store::starting().is_sound(MEMORY_BYTES));
    assert!([(0, 10), (30, 4066), (4095, 1)].iter().all(|(base, length)| is_sound_with(*base, *length)));
    // Twins, a password of zeros, the same bytes of another node.
    assert!(is_sound(|store| store.clusters[1][3].read = WRITE_SECRET));
    assert!(is_sound(|store| store.clusters[1][3].write = [0; 16]));
    assert!(is_sound(|store| store.clusters[2][3] = store.clusters[1][3]));
}

#[test]
fn lengths_of_the_slice() {
    for bytes in [0, MEMORY_BYTES - 1, MEMORY_BYTES + 1, 2 * MEMORY_BYTES] {
        assert!(!store_of(Width::Eight).is_sound(bytes));
    }
}

#[test]
fn segments_out_of_range_or_overlapping() {
    let wrong = [
        (0, 0),
        (4096, 1),
        (65535, 1),
        (65535, 65535),
        (100, 3997),
        (0, 4097),
        (4095, 2),
        (0, 11),
        (29, 1),
        (10, 20),
        (15, 2),
        (0, 4096),
    ];
    for (base, length) in wrong {
        assert!(!is_sound_with(base, length), "{base} {length}");
    }
    // The last byte of another cluster's segment.
    assert!(!is_sound(|store| {
        store.clusters[1][4] = Cluster::new(Width::Eight, READ_SECRET, WRITE_SECRET);
        store.clusters[1][4].segments[2] = Segment::present(29, 5);
    }));
}

#[test]
fn inactive_with_something_left() {
    assert!(!is_sound(|store| store.clusters[0][0].read[15] = 1));
    assert!(!is_sound(|store| store.clusters[3][7].write[0] = 1));
    assert!(!is_sound(|store| store.clusters[2][5].segments[6] = Segment::present(0, 1)));
}

/// In whichever segment, of an active cluster or an inactive one, also at or above the width.
#[test]
fn marks_on_absent_segments() {
    for width in Width::ALL {
        for segment in 0..SEGMENTS {
            let mut present = store_of(width);
            present.clusters[1][3].segments[segment] = Segment::present(100, 1).marked();
            let is_there = segment < width.segments();
            assert_eq!(present.is_sound(MEMORY_BYTES), is_there);
            for (node, local) in [(1, 3), (3, 7)] {
                let mut damaged = store_of(width);
                damaged.clusters[node][local].segments[segment] = Segment::ABSENT.marked();
                assert!(!damaged.is_sound(MEMORY_BYTES));
            }
        }
    }
}

// Widths.

/// One of the three where the cluster is active, 0 where it is not; whatever else it holds.
#[test]
fn widths_of_clusters() {
    for width in 0..=255 {
        let known = [4, 8, 16].contains(&width);
        assert_eq!(is_sound(|store| store.clusters[1][3].width = width), known);
        let empty = Cluster { width, segments: [Segment::ABSENT; SEGMENTS], ..store_of(Width::Eight).clusters[1][3] };
        assert_eq!(is_sound(|store| store.clusters[1][3] = empty), known);
        for (node, local) in [(0, 0), (1, 4), (3, 7)] {
            assert_eq!(is_sound(|store| store.clusters[node][local].width = width), width == 0, "{width}");
        }
    }
}

/// A segment at or above the width, though it is inside the node and shares no byte.
#[test]
fn segments_at_or_above_the_width() {
    for width in Width::ALL {
        for segment in 1..SEGMENTS {
            for present in [Segment::present(100, 1), Segment::present(30, 4066).marked()] {
                let mut store = store_of(width);
                store.clusters[1][3].segments[segment] = present;
                let is_there = segment < width.segments();
                assert_eq!(store.is_sound(MEMORY_BYTES), is_there, "{width:?} {segment}");
                // The bytes are taken, whoever asks.
                store.clusters[1][3].segments[segment] = Segment::present(29, 1);
                assert!(!store.is_sound(MEMORY_BYTES));
            }
        }
    }
}

/// All segments of all clusters of a node, as many as the widths allow; one more byte is too many.
#[test]
fn a_node_full_of_segments() {
    for width in Width::ALL {
        let mut store = Store::starting();
        let size = NODE_BYTES / (CLUSTERS * width.segments());
        for (local, cluster) in store.clusters[2].iter_mut().enumerate() {
            (cluster.active, cluster.width) = (true, width.number());
            for segment in 0..width.segments() {
                let base = (local * width.segments() + segment) * size;
                cluster.segments[segment] = Segment::present(base as u16, size as u16);
            }
        }
        assert!(store.is_sound(MEMORY_BYTES));
        assert_eq!((store.place(2, 1), store.place(1, NODE_BYTES)), (None, Some(0)));
        for (local, segment) in [(0, 0), (3, 2), (7, width.segments() - 1)] {
            let mut longer = store.clone();
            let place = &mut longer.clusters[2][local].segments[segment].place;
            let Place::Present { length, .. } = place else {
                panic!("it is present");
            };
            *length += 1;
            assert!(!longer.is_sound(MEMORY_BYTES));
        }
    }
}

// Placement.

/// A store whose node 0 has the given segments, in as many clusters of the width as they need.
fn placed(width: Width, extents: &[(u16, u16)]) -> Store {
    let mut store = Store::starting();
    for (at, &(base, length)) in extents.iter().enumerate() {
        let cluster = &mut store.clusters[0][at / width.segments()];
        (cluster.active, cluster.width) = (true, width.number());
        cluster.segments[at % width.segments()] = Segment::present(base, length);
    }
    store
}

#[test]
fn p10_to_p14() {
    let store = placed(Width::Eight, &[(0, 100), (150, 10)]);
    assert!(store.is_sound(MEMORY_BYTES));
    assert_eq!(store.place(0, 50), Some(100));
    assert_eq!(store.place(0, 51), Some(160));
    assert_eq!(store.place(0, 3936), Some(160));
    assert_eq!(store.place(0, 3937), None);
    assert_eq!(Store::starting().place(0, 4096), Some(0));
}

#[test]
fn other_nodes_take_no_room() {
    let store = placed(Width::Eight, &[(0, 4096)]);
    assert_eq!(store.place(0, 1), None);
    assert_eq!(store.place(1, 4096), Some(0));
}

/// The definition, tried base by base.
fn first_free(extents: &[Extent], size: usize) -> Option<usize> {
    (0..=NODE_BYTES - size)
        .find(|&base| extents.iter().all(|extent| extent.end() <= base || base + size <= extent.base))
}

/// Segments with gaps between them, by chance, in no order of their numbers; as many as the width allows, or as there
/// is room for.
fn scattered(random: &mut Random, width: Width) -> Store {
    let mut extents = Vec::new();
    let mut end = 0;
    let most = if width == Width::Sixteen { 32 } else { 90 };
    while extents.len() < CLUSTERS * width.segments() {
        let base = end + random.below(most) as usize;
        let length = 1 + random.below(most) as usize;
        end = base + length;
        if end > NODE_BYTES {
            break;
        }
        extents.push((base as u16, length as u16));
    }
    random.shuffle(&mut extents);
    placed(width, &extents)
}

#[test]
fn placement_is_the_smallest_base_that_fits() {
    let mut random = Random::from_seed(7);
    for at in 0..300 {
        let store = scattered(&mut random, Width::ALL[at % 3]);
        assert!(store.is_sound(MEMORY_BYTES));
        let segments = store.clusters[0].iter().flat_map(|cluster: &Cluster| &cluster.segments);
        let extents: Vec<Extent> = segments.filter_map(Segment::extent).collect();
        for size in [1, 2, 17, 60, 89, 90, 400, 4000, 4096] {
            assert_eq!(store.place(0, size), first_free(&extents, size));
        }
    }
}
