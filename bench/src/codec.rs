//! The text of crates/handle's codec in Rust: a handle from its bytes, and back.

use crate::handle::{Handle, Width, SUBSELECTORS};

pub const HANDLE_BYTES: usize = 27;
const SMALL: usize = 21;
const MIDDLE: usize = 23;
const LARGE: usize = 27;
const SHORT: u8 = 21;
const LONGER: u8 = 23;
const LONGEST: u8 = 27;
const HALF: u16 = 16;
const BYTE: u16 = 256;

/// As the library holds a handle.
#[derive(Clone, Copy, Debug, PartialEq, Eq)]
#[repr(C)]
pub struct HandleBytes {
    pub bytes: [u8; HANDLE_BYTES],
    pub length: u8,
}

impl HandleBytes {
    pub const NONE: HandleBytes = HandleBytes {
        length: 0,
        bytes: [0; HANDLE_BYTES],
    };

    /// The handle alone, without the zeros after it.
    pub fn held(&self) -> &[u8] {
        &self.bytes[..self.length as usize]
    }
}

fn wide(byte: u8) -> u16 {
    byte as u16
}

fn word(high: u8, low: u8) -> u16 {
    (high as u16) * BYTE + (low as u16)
}

pub fn low(s: u16) -> u8 {
    (s % BYTE) as u8
}

pub fn high(s: u16) -> u8 {
    (s / BYTE) as u8
}

fn halves(a: u16, b: u16) -> u8 {
    (a % HALF + b % HALF * HALF) as u8
}

impl Handle {
    pub fn none() -> Handle {
        Handle {
            node: 0,
            local: 0,
            password: [0u8; 16],
            width: Width::None,
            selector: [0u16; SUBSELECTORS],
        }
    }

    fn with(bytes: &[u8], width: Width, selector: [u16; SUBSELECTORS]) -> Handle {
        let b = bytes;
        Handle {
            node: word(b[0], b[1]),
            local: b[2],
            password: [
                b[3], b[4], b[5], b[6], b[7], b[8], b[9], b[10], b[11], b[12], b[13], b[14], b[15],
                b[16], b[17], b[18],
            ],
            width,
            selector,
        }
    }

    pub fn decode(bytes: &[u8]) -> Handle {
        let n = bytes.len();
        if n == SMALL {
            let a = wide(bytes[19]);
            let b = wide(bytes[20]);
            return Handle::with(bytes, Width::Four, [a % HALF, a / HALF, b % HALF, b / HALF]);
        }
        if n == MIDDLE {
            let a = wide(bytes[19]);
            let b = wide(bytes[20]);
            let c = wide(bytes[21]);
            let d = wide(bytes[22]);
            return Handle::with(bytes, Width::Eight, [a, b, c, d]);
        }
        if n == LARGE {
            let a = word(bytes[19], bytes[20]);
            let b = word(bytes[21], bytes[22]);
            let c = word(bytes[23], bytes[24]);
            let d = word(bytes[25], bytes[26]);
            return Handle::with(bytes, Width::Sixteen, [a, b, c, d]);
        }
        Handle::none()
    }

    fn laid(self, length: u8, tail: [u8; 8]) -> HandleBytes {
        let node = self.node;
        let local = self.local;
        let p = self.password;
        let t = tail;
        HandleBytes {
            length,
            bytes: [
                (node / BYTE) as u8,
                (node % BYTE) as u8,
                local,
                p[0],
                p[1],
                p[2],
                p[3],
                p[4],
                p[5],
                p[6],
                p[7],
                p[8],
                p[9],
                p[10],
                p[11],
                p[12],
                p[13],
                p[14],
                p[15],
                t[0],
                t[1],
                t[2],
                t[3],
                t[4],
                t[5],
                t[6],
                t[7],
            ],
        }
    }

    pub fn encode(self) -> HandleBytes {
        let width = self.width;
        let s = self.selector;
        match width {
            Width::None => HandleBytes::NONE,
            Width::Four => {
                let a = halves(s[0], s[1]);
                let b = halves(s[2], s[3]);
                self.laid(SHORT, [a, b, 0, 0, 0, 0, 0, 0])
            }
            Width::Eight => {
                let a = low(s[0]);
                let b = low(s[1]);
                let c = low(s[2]);
                let d = low(s[3]);
                self.laid(LONGER, [a, b, c, d, 0, 0, 0, 0])
            }
            Width::Sixteen => self.laid(
                LONGEST,
                [
                    high(s[0]),
                    low(s[0]),
                    high(s[1]),
                    low(s[1]),
                    high(s[2]),
                    low(s[2]),
                    high(s[3]),
                    low(s[3]),
                ],
            ),
        }
    }
}
