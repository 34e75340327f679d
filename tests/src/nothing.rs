//! Ways to nothing: where a weakening would leave no segment, what stands next to that, and what is
//! still done with a handle that references none. What is made by chance has to come to each.

use crate::{met::Row, words::*};
use Kind::{Reduce, Validate, Weaken};

/// The handle of a call, and the mask where there is one.
pub struct Cut {
    referenced: u32,
    has_flat: bool,
    /// How many segments the mask leaves.
    left: u32,
    has_all_bits: bool,
}

impl Cut {
    pub fn of(call: &Call) -> Option<Cut> {
        let (handle, mask) = (call.handle()?, if let Call::Weaken { mask, .. } = *call { mask } else { 0 });
        Some(Cut {
            referenced: handle.selector.count(),
            has_flat: handle.selector.first_flat().is_some(),
            left: handle.kept(mask).count_ones(),
            has_all_bits: mask | !handle.width().flat() == u16::MAX,
        })
    }
}

pub const WAYS: [Row<Cut>; 9] = [
    // All that the handle references is taken away, and a subselector is flat.
    ("AllTaken", &[Weaken], EMPTY, |cut| cut.referenced > 0 && cut.has_flat),
    // The same where none is flat: 21 comes before 17.
    ("AllTakenNoneFlat", &[Weaken], EMPTY, |cut| cut.referenced > 0 && !cut.has_flat),
    // By a mask with all bits of the width: the handle references nothing.
    ("NothingThere", &[Weaken], EMPTY, |cut| cut.referenced == 0 && cut.has_all_bits && cut.has_flat),
    ("NothingThereNoneFlat", &[Weaken], EMPTY, |cut| cut.referenced == 0 && cut.has_all_bits && !cut.has_flat),
    // Nothing would be left, and the handle's place is none, or its selector is gapped: 2 and 4 come before 21.
    ("NowhereFirst", &[Weaken], NO_SUCH_PLACE, |cut| cut.left == 0),
    ("GappedFirst", &[Weaken], GAPPED, |cut| cut.left == 0),
    // Something is taken away, and one segment is left.
    ("OneLeft", &[Weaken], DONE, |cut| cut.referenced > 1 && cut.left == 1),
    // A handle that references nothing is reduced, or validates.
    ("Reduced", &[Reduce], DONE, |cut| cut.referenced == 0),
    ("Validated", &[Validate], DONE, |cut| cut.referenced == 0),
];
