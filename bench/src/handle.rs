//! The text of crates/handle in Rust, as far as weakening, validation, reads and looks need it; bytes are in codec.rs.

use crate::aes::{self, Tables};
use crate::codec;

const NODES: usize = 4;
const CLUSTERS: usize = 8;
pub const SUBSELECTORS: usize = 4;
const ROOM: usize = 16;
const PASSWORD_BYTES: usize = 16;
const HIGH_AT: usize = 14;
const LOW_AT: usize = 15;
pub const NO_SUCH_PLACE: u8 = 2;
pub const GAPPED: u8 = 4;
const SPENT: u8 = 17;
const EMPTY: u8 = 21;
pub const LENGTH: u8 = 25;

#[derive(Clone, Copy)]
pub enum Width {
    None,
    Four,
    Eight,
    Sixteen,
}

impl Width {
    pub fn bits(self) -> u8 {
        match self {
            Width::None => 0,
            Width::Four => 4,
            Width::Eight => 8,
            Width::Sixteen => 16,
        }
    }

    fn full(self) -> u16 {
        match self {
            Width::None => 0,
            Width::Four => 0xf,
            Width::Eight => 0xff,
            Width::Sixteen => 0xffff,
        }
    }
}

#[derive(Clone, Copy)]
pub struct Handle {
    pub node: u16,
    pub local: u8,
    pub password: [u8; 16],
    pub width: Width,
    pub selector: [u16; SUBSELECTORS],
}

pub struct Weakened {
    pub number: u8,
    pub handle: Handle,
    pub count: u8,
}

fn convert_with(tables: &Tables, password: [u8; 16], parameter: u16) -> [u8; 16] {
    let mut block = [0u8; 16];
    block[HIGH_AT] = codec::high(parameter);
    block[LOW_AT] = codec::low(parameter);
    aes::encrypt_with(tables, password, block)
}

fn converted_with(tables: &Tables, width: Width, password: [u8; 16], subselector: u16) -> [u8; 16] {
    let flat = width.full();
    if subselector == flat {
        return password;
    }
    convert_with(tables, password, subselector)
}

fn same(a: [u8; 16], b: [u8; 16]) -> bool {
    let mut differing = 0u8;
    for i in 0..PASSWORD_BYTES {
        differing = (a[i] ^ b[i]) | differing;
    }
    differing == 0
}

fn refused(number: u8) -> Weakened {
    let none = Handle::none();
    Weakened {
        number,
        handle: none,
        count: 0,
    }
}

fn done(handle: Handle) -> Weakened {
    let count = handle.count();
    Weakened {
        number: 0,
        handle,
        count,
    }
}

impl Handle {
    pub fn node(self) -> usize {
        self.node as usize
    }

    fn shared(self) -> u16 {
        let s = self.selector;
        s[0] & (s[1] & (s[2] & s[3]))
    }

    fn common(self) -> u16 {
        let width = self.width;
        self.shared() & width.full()
    }

    fn count(self) -> u8 {
        let common = self.common();
        u16::count_ones(common) as u8
    }

    pub fn references(self, segment: usize) -> bool {
        if ROOM <= segment {
            return false;
        }
        let shared = self.shared();
        (shared & (1 << segment)) != 0
    }

    pub fn gapped(self) -> bool {
        let width = self.width;
        let flat = width.full();
        let s = self.selector;
        let a = s[0] == flat;
        let b = s[1] == flat;
        let c = s[2] == flat;
        let d = s[3] == flat;
        (a & !(b & (c & d))) | ((b & !(c & d)) | (c & !d))
    }

    fn first_flat(self) -> usize {
        let width = self.width;
        let flat = width.full();
        let s = self.selector;
        for k in 0..SUBSELECTORS {
            if s[k] == flat {
                return k;
            }
        }
        SUBSELECTORS
    }

    fn opened_with(self, tables: &Tables, primary: [u8; 16]) -> [u8; 16] {
        let width = self.width;
        let s = self.selector;
        let a = converted_with(tables, width, primary, s[0]);
        let b = converted_with(tables, width, a, s[1]);
        let c = converted_with(tables, width, b, s[2]);
        converted_with(tables, width, c, s[3])
    }

    pub fn validates_with(self, tables: &Tables, primary: [u8; 16]) -> bool {
        let opened = self.opened_with(tables, primary);
        let password = self.password;
        same(opened, password)
    }

    fn standing(self) -> u8 {
        let width = self.width;
        if width.bits() == 0 {
            return LENGTH;
        }
        if NODES <= self.node() {
            return NO_SUCH_PLACE;
        }
        if CLUSTERS <= self.local as usize {
            return NO_SUCH_PLACE;
        }
        if self.gapped() {
            return GAPPED;
        }
        0
    }

    fn cut_with(self, tables: &Tables, place: usize, parameter: u16) -> Handle {
        let width = self.width;
        let old = self.password;
        let password = convert_with(tables, old, parameter);
        let mut selector = self.selector;
        selector[place] = parameter;
        Handle {
            node: self.node,
            local: self.local,
            password,
            width,
            selector,
        }
    }

    // In line, here and below, as in a program that has no other use for it: a register's loop calls it for each entry.
    #[inline]
    pub fn weaken_with(self, tables: &Tables, mask: u16) -> Weakened {
        let number = self.standing();
        if number != 0 {
            return refused(number);
        }
        let common = self.common();
        let kept = common & mask;
        if kept == 0 {
            return refused(EMPTY);
        }
        let excluded = common & !mask;
        if excluded == 0 {
            return done(self);
        }
        let place = self.first_flat();
        if SUBSELECTORS <= place {
            return refused(SPENT);
        }
        let width = self.width;
        let parameter = width.full() - excluded;
        let weaker = self.cut_with(tables, place, parameter);
        done(weaker)
    }

    pub fn weaken(self, mask: u16) -> Weakened {
        let tables = aes::tables();
        self.weaken_with(&tables, mask)
    }

    fn cut_bare(self, place: usize, excluded: u16) -> Handle {
        let width = self.width;
        let parameter = width.full() - excluded;
        let password = self.password;
        let mut selector = self.selector;
        selector[place] = parameter;
        Handle {
            node: self.node,
            local: self.local,
            password,
            width,
            selector,
        }
    }

    #[inline]
    pub fn weaken_bare(self, mask: u16) -> Weakened {
        let number = self.standing();
        if number != 0 {
            return refused(number);
        }
        let common = self.common();
        let kept = common & mask;
        if kept == 0 {
            return refused(EMPTY);
        }
        let excluded = common & !mask;
        if excluded == 0 {
            return done(self);
        }
        let place = self.first_flat();
        if SUBSELECTORS <= place {
            return refused(SPENT);
        }
        let weaker = self.cut_bare(place, excluded);
        done(weaker)
    }
}
