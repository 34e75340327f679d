//! Selectors, handles and what becomes of a password on the way to a weaker handle.

use crate::{aes, sizes::*, store::*};

pub use crate::width::Width;

pub type Password = [u8; PASSWORD_BYTES];
/// A handle as calls take and give it. What they take may have any length; they give the bytes of one
/// width, or none.
pub type HandleBytes = Vec<u8>;

const LOCAL_AT: usize = 2;
const PASSWORD_AT: usize = 3;
const SELECTOR_AT: usize = PASSWORD_AT + PASSWORD_BYTES;
/// In a small selector a subselector is half a byte.
const HALF: u32 = 4;
const LOW_HALF: u8 = 0x0f;

/// Four subselectors of one width; none has a bit at or above it.
#[derive(Clone, Copy, Debug, PartialEq, Eq)]
pub struct Selector {
    pub width: Width,
    pub subselectors: [u16; SUBSELECTORS],
}

impl Selector {
    pub fn new(width: Width, subselectors: [u16; SUBSELECTORS]) -> Selector {
        assert!(subselectors.iter().all(|part| part & !width.flat() == 0));
        Selector { width, subselectors }
    }

    pub fn primary(width: Width) -> Selector {
        Selector::new(width, [width.flat(); SUBSELECTORS])
    }

    /// `None` where there are not as many bytes as one of the widths has.
    fn from_bytes(bytes: &[u8]) -> Option<Selector> {
        let selector = match *bytes {
            [first, second] => {
                let halves = [first & LOW_HALF, first >> HALF, second & LOW_HALF, second >> HALF];
                Selector::new(Width::Four, halves.map(u16::from))
            }
            [a, b, c, d] => Selector::new(Width::Eight, [a, b, c, d].map(u16::from)),
            [a, b, c, d, e, f, g, h] => {
                let pairs = [[a, b], [c, d], [e, f], [g, h]];
                Selector::new(Width::Sixteen, pairs.map(u16::from_be_bytes))
            }
            _ => return None,
        };
        Some(selector)
    }

    fn to_bytes(self) -> Vec<u8> {
        let parts = self.subselectors;
        match self.width {
            Width::Four => {
                let [s0, s1, s2, s3] = parts.map(|part| part as u8);
                vec![s1 << HALF | s0, s3 << HALF | s2]
            }
            Width::Eight => parts.map(|part| part as u8).to_vec(),
            Width::Sixteen => parts.map(u16::to_be_bytes).concat(),
        }
    }

    fn is_flat(&self, subselector: u16) -> bool {
        subselector == self.width.flat()
    }

    /// The referenced segments as a set of bits: those set in every subselector.
    pub fn referenced(&self) -> u16 {
        self.subselectors.iter().fold(self.width.flat(), |common, subselector| common & subselector)
    }

    /// Nothing references a segment that there is not.
    pub fn references(&self, segment: usize) -> bool {
        segment < self.width.segments() && self.referenced() >> segment & 1 == 1
    }

    /// How many segments are referenced.
    pub fn count(&self) -> u32 {
        self.referenced().count_ones()
    }

    /// Whether a flat subselector has a non-flat one somewhere above it.
    pub fn is_gapped(&self) -> bool {
        self.subselectors.windows(2).any(|pair| self.is_flat(pair[0]) && !self.is_flat(pair[1]))
    }

    pub fn is_primary(&self) -> bool {
        *self == Selector::primary(self.width)
    }

    pub fn first_flat(&self) -> Option<usize> {
        self.subselectors.iter().position(|&subselector| self.is_flat(subselector))
    }
}

/// The conversion f: `password` is the key, `parameter` the last two bytes of a block of zeros, high
/// byte first. One of four or eight bits is in the last byte alone.
pub fn convert(password: &Password, parameter: u16) -> Password {
    let mut block = [0; aes::BLOCK_BYTES];
    block[aes::BLOCK_BYTES - 2..].copy_from_slice(&parameter.to_be_bytes());
    aes::encrypt(password, &block)
}

/// The password that a handle with `selector` needs where `primary` is the primary password.
pub fn derive(primary: &Password, selector: &Selector) -> Password {
    let converting = selector.subselectors.iter().filter(|&&subselector| !selector.is_flat(subselector));
    converting.fold(*primary, |password, &subselector| convert(&password, subselector))
}

#[derive(Clone, Copy, Debug, PartialEq, Eq)]
pub struct Handle {
    pub node: u16,
    pub local: u8,
    pub password: Password,
    pub selector: Selector,
}

impl From<Handle> for HandleBytes {
    fn from(handle: Handle) -> HandleBytes {
        handle.to_bytes()
    }
}

impl Handle {
    pub fn primary(width: Width, node: u16, local: u8, password: Password) -> Handle {
        Handle { node, local, password, selector: Selector::primary(width) }
    }

    /// The handle with `selector` that validates where `primary` is the primary password: one that
    /// references nothing, too, which no weakening gives.
    pub fn converted(node: u16, local: u8, primary: &Password, selector: Selector) -> Handle {
        Handle { node, local, password: derive(primary, &selector), selector }
    }

    /// `None` where the length is none of a handle's.
    pub fn from_bytes(bytes: &[u8]) -> Option<Handle> {
        let selector = Selector::from_bytes(bytes.get(SELECTOR_AT..)?)?;
        let mut password = [0; PASSWORD_BYTES];
        password.copy_from_slice(&bytes[PASSWORD_AT..SELECTOR_AT]);
        Some(Handle { node: u16::from_be_bytes([bytes[0], bytes[1]]), local: bytes[LOCAL_AT], password, selector })
    }

    pub fn to_bytes(&self) -> HandleBytes {
        let mut bytes = Vec::with_capacity(self.width().handle_bytes());
        bytes.extend(self.node.to_be_bytes());
        bytes.push(self.local);
        bytes.extend(self.password);
        bytes.extend(self.selector.to_bytes());
        bytes
    }

    pub fn width(&self) -> Width {
        self.selector.width
    }

    /// Node and local number of the cluster that the handle names.
    pub fn name(&self) -> (u16, u8) {
        (self.node, self.local)
    }

    /// Whether the password is the one that the selector and `primary` define.
    pub fn is_made_from(&self, primary: &Password) -> bool {
        derive(primary, &self.selector) == self.password
    }

    /// Whether it validates, the cluster being the one that it names: of the cluster's width, and made
    /// from the mode's primary password.
    pub fn validates(&self, cluster: &Cluster, mode: Mode) -> bool {
        cluster.has_width(self.width()) && self.is_made_from(cluster.primary(mode))
    }

    /// The referenced segments that `mask` would take away. Bits at or above the width do not matter.
    pub fn excluded(&self, mask: u16) -> u16 {
        self.selector.referenced() & !mask
    }

    /// The referenced segments that `mask` would leave.
    pub fn kept(&self, mask: u16) -> u16 {
        self.selector.referenced() & mask
    }

    /// The handle without the excluded segments; `None` where none would be left, or where no
    /// subselector is left to note the excluded ones.
    pub fn weaken(self, mask: u16) -> Option<Handle> {
        if self.kept(mask) == 0 {
            return None;
        }
        let excluded = self.excluded(mask);
        if excluded == 0 {
            return Some(self);
        }
        let first_flat = self.selector.first_flat()?;
        let noted = self.width().flat() - excluded;
        let mut weaker = self;
        weaker.selector.subselectors[first_flat] = noted;
        weaker.password = convert(&self.password, noted);
        Some(weaker)
    }

    /// The handle for the same segments that notes them in subselector 0 alone.
    pub fn reduce(self, primary: &Password) -> Handle {
        if self.selector.is_primary() {
            return self;
        }
        self.noting(self.selector.referenced(), primary)
    }

    /// The segments that either handle references.
    pub fn union(&self, other: &Handle) -> u16 {
        self.selector.referenced() | other.selector.referenced()
    }

    /// The handle for the segments that this one or another of the same cluster references, in the
    /// form of a reduced one; asked where they are not all, of two of one width.
    pub fn join(self, other: &Handle, primary: &Password) -> Handle {
        self.noting(self.union(other), primary)
    }

    /// The cluster's handle that has these segments in subselector 0, and the others flat.
    fn noting(self, segments: u16, primary: &Password) -> Handle {
        let mut selector = Selector::primary(self.width());
        selector.subselectors[0] = segments;
        Handle { password: convert(primary, segments), selector, ..self }
    }
}
