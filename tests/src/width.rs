//! The three widths: how many segments a cluster has, and what its handles are like.

use crate::{listed, sizes::*};

/// Node and local number of a handle.
const NAME_BYTES: usize = 3;

listed! {
    pub enum Width { Four, Eight, Sixteen }
}

impl Width {
    /// The width of a cluster with so many segments, if there may be one.
    pub fn of_segments(segments: usize) -> Option<Width> {
        Width::ALL.into_iter().find(|width| width.segments() == segments)
    }

    /// The width that the length of a handle tells; `None` for every length but 21, 23 and 27.
    pub fn of_handle_bytes(bytes: usize) -> Option<Width> {
        Width::ALL.into_iter().find(|width| width.handle_bytes() == bytes)
    }

    pub const fn segments(self) -> usize {
        match self {
            Width::Four => 4,
            Width::Eight => 8,
            Width::Sixteen => 16,
        }
    }

    /// As a cluster's record has it.
    pub const fn number(self) -> u8 {
        self.segments() as u8
    }

    /// Bytes of a selector: four subselectors of half a byte, of a byte, of two bytes.
    pub const fn selector_bytes(self) -> usize {
        SUBSELECTORS * self.segments() / 8
    }

    /// Name, password and selector: 21, 23 or 27 bytes together.
    pub const fn handle_bytes(self) -> usize {
        NAME_BYTES + PASSWORD_BYTES + self.selector_bytes()
    }

    /// A flat subselector takes no segment away: all bits of the width are set.
    pub const fn flat(self) -> u16 {
        u16::MAX >> (16 - self.segments())
    }
}
