//! How much is tried of that which is not made by chance, and what the laws of copies come to.

use library::{batch, copies, cuts, edges, guard, registers, stays, untold, writers};
use model::met::Met;

/// Four nodes, nine stretches, and two looks or three freezes; of 20 rows of arguments, and as many more as there are
/// segments, two are right.
#[test]
fn looks_and_freezes_at_the_edges() {
    let rows = (20 + 4) + (20 + 8) + (20 + 16);
    let done = 4 * 9 * 2 * 3 * 2;
    assert_eq!(edges::looks(&guard::ask, 5), Ok((4 * 9 * 2 * rows, done)));
    assert_eq!(edges::freezes(&guard::ask, 5), Ok((4 * 9 * 3 * rows, done)));
}

/// Four nodes, two modes, three widths and five pairs of handles; of 89 rows of arguments one is right.
#[test]
fn joins_at_the_edges() {
    assert_eq!(edges::joins(&guard::ask, 3), Ok((4 * 2 * 3 * 5 * 89, 4 * 2 * 3 * 5)));
}

#[test]
fn widths_at_the_edges() {
    // Eleven calls with one handle and one with two, of which each and both are changed; 256 lengths, three stores.
    let (calls, done) = edges::lengths(&guard::ask, 5).expect("no difference");
    assert_eq!(calls, 3 * (11 + 3) * 256 * 3);
    assert!(done > 40, "{done}");
    // Six calls about a segment, with 24 numbers each, and six about none; two passwords, three widths of each.
    let (calls, done) = edges::segments(&guard::ask, 5).expect("no difference");
    assert_eq!(calls, 3 * 3 * 2 * (6 * 24 + 6));
    assert!(done > 50, "{done}");
    assert_eq!(edges::new_clusters(&guard::ask, 5), Ok((3 * 4 * 306, 3 * 3)));
    assert_eq!(batch::every_width(&guard::validate_all, 5).expect("no difference"), 3 * 38 + (43 + 47 + 55));
}

/// Often enough that another seed would do.
fn has_met(met: &Met, at_least: &[(&str, u64)]) {
    assert!(met.faults().is_empty(), "{met}");
    for (what, least) in at_least {
        assert!(met.count(what) > *least, "{what}: {}", met.count(what));
    }
}

#[test]
fn laws_come_to_all() {
    let met = stays::compare(&guard::ask, 6, 20).expect("everything stays");
    has_met(&met, &[("a frozen segment", 200), ("a call refused with 22 (frozen)", 100)]);
    let met = copies::compare(&guard::ask, 4, 60).expect("the copies agree");
    has_met(
        &met,
        &[
            ("a join done", 10),
            ("a join that passwords alone keep from the cluster set apart", 5),
            ("a join of which the first handle alone names the cluster set apart", 4),
            ("a join of which the second handle alone names the cluster set apart", 4),
            ("a cluster set apart with equal passwords in one copy alone", 3),
            ("a call done by a handle that opens both modes", 50),
            ("a new password that the cluster set apart has in one copy alone", 1),
            ("a new password that makes two equal", 3),
        ],
    );
    for width in [4, 8, 16] {
        let apart = format!("a cluster set apart of width {width}");
        let other = format!("right but for its width, a handle of a cluster set apart of {width}");
        let done = format!("a call done by a handle of width {width}");
        has_met(&met, &[(&apart, 4), (&other, 4), (&done, 4)]);
    }
    let met = untold::compare(&guard::ask, 3, 400).expect("the replies are the same");
    let guessed = ["Read", "Write"].map(|mode| format!("the {mode} password taken for the other mode"));
    has_met(&met, &[(&guessed[0], 100), (&guessed[1], 100)]);
    has_met(&writers::compare(&guard::ask, 6, 200).expect("the copies agree"), &[]);
}

/// Each way is done often, of each width and in each mode, and nothing is met that is not due.
#[test]
fn cuts_come_to_all() {
    let met = cuts::compare(&guard::ask, 6, 20_000).expect("the laws hold");
    has_met(&met, &[]);
    assert_eq!(met.not_due().count(), 0);
    for (width, mode) in [4, 8, 16].into_iter().flat_map(|width| ["Read", "Write"].map(|mode| (width, mode))) {
        for what in ["FirstSecond is done", "SecondFirst is done", "Once is done", "three passwords in three ways"] {
            has_met(&met, &[(&format!("width {width}, {mode}: {what}"), 100)]);
        }
    }
}

/// 256 lengths of handles, 521 of entries with two buffers each, 256 parents and twice as many masks; buffers of up to
/// 30 bytes more than are needed; and 308 segments of which 8 are right.
#[test]
fn registers_come_to_all() {
    let lengths = 256 + 521 * 2 + 256 * 3;
    let rooms = (3 * 23 + 31) + (3 + 31);
    let (asked, done) = registers::edges(&guard::look_up, 5).expect("no difference");
    assert_eq!(asked, 2 * lengths + rooms + 308);
    assert!(done > 1_500, "{done}");
    has_met(&registers::compare(&guard::look_up, 6, 10_000).expect("no difference"), &[]);
    let done = registers::laws(&guard::look_up, 6, 400).expect("the laws hold");
    assert!(done > 80, "{done}");
}
