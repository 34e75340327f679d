//! Two cuts and one cut: a handle is weakened by one mask and then by a second, in either order, or once by the bits that
//! both share. Which of these ways are refused, and where, hangs on what the masks keep and on how many subselectors are
//! flat; those that are done reference the same segments, and have one reduction.

use crate::{listed, words::*};

listed! {
    /// By the first mask and then by the second, the other way round, or by what they share.
    pub enum Way { FirstSecond, SecondFirst, Once }
}

/// The masks of all ways. Below the handle's width, `shared` has the bits that both others have; above it, any.
#[derive(Clone, Copy, Debug, PartialEq, Eq)]
pub struct Masks {
    pub first: u16,
    pub second: u16,
    pub shared: u16,
}

impl Masks {
    pub fn of(first: u16, second: u16) -> Masks {
        Masks { first, second, shared: first & second }
    }

    /// Those of one way, in the order of its cuts.
    pub fn along(&self, way: Way) -> Vec<u16> {
        match way {
            Way::FirstSecond => vec![self.first, self.second],
            Way::SecondFirst => vec![self.second, self.first],
            Way::Once => vec![self.shared],
        }
    }
}

/// One weakening, with the number of call 7 where that is refused.
pub fn step(handle: Handle, mask: u16) -> Result<Handle, u8> {
    let number = if handle.kept(mask) == 0 { EMPTY } else { SPENT };
    handle.weaken(mask).ok_or(number)
}

/// How a way ends: it is done, or the cut, 1 or 2, that is refused, and the number.
pub type End = Option<(usize, u8)>;

/// The handles that the cuts of one way give, up to the first that is refused, and how it ends.
pub fn cut(handle: Handle, masks: &[u16]) -> (Vec<Handle>, End) {
    let mut given = vec![handle];
    for (at, mask) in (1..).zip(masks) {
        match step(given[at - 1], *mask) {
            Ok(weaker) => given.push(weaker),
            Err(number) => return (given.split_off(1), Some((at, number))),
        }
    }
    (given.split_off(1), None)
}

const fn empty(cut: usize) -> End {
    Some((cut, EMPTY))
}

const fn spent(cut: usize) -> End {
    Some((cut, SPENT))
}

/// All that the three ways can come to together, in the order of [`Way::ALL`].
#[rustfmt::skip]
pub const ENDS: [[End; 3]; 14] = [
    [None, None, None],
    // One subselector is flat, and the first of two cuts takes it; a second is done where it excludes nothing more.
    [spent(2), spent(2), None], [spent(2), None, None], [None, spent(2), None],
    // None is flat, and one of the masks excludes nothing, or neither.
    [spent(2), spent(1), spent(1)], [spent(1), spent(2), spent(1)], [spent(1), spent(1), spent(1)],
    // The masks share no segment that is referenced: each keeps one, one of them keeps none, or neither.
    [empty(2), empty(2), empty(1)], [empty(1), empty(2), empty(1)], [empty(2), empty(1), empty(1)],
    [empty(1), empty(1), empty(1)],
    // The same where none is flat: what is left after the first cut is not looked at.
    [spent(1), spent(1), empty(1)], [empty(1), spent(1), empty(1)], [spent(1), empty(1), empty(1)],
];
