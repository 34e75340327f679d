//! The two questions that a register answers, asked of the library and of register.rs, which come to the same.

use crate::codec::HandleBytes;
use crate::handle::{Handle, Width};
use crate::register::{self, HANDLE, MOST};
use std::hint::black_box;
use std::slice::{from_raw_parts, from_raw_parts_mut};

extern "C" {
    pub fn gelmuszta_register(
        handle: *const HandleBytes,
        entries: *const u8,
        entries_length: usize,
        handles: *mut u8,
        handles_length: usize,
        entry: *mut usize,
    ) -> u8;
    pub fn gelmuszta_openers(
        handle: *const HandleBytes,
        segment: usize,
        entries: *const u8,
        entries_length: usize,
        openers: *mut u8,
        openers_length: usize,
        count: *mut usize,
        entry: *mut usize,
    ) -> u8;
}

// The Rust text behind the same boundary as the proved one.

#[inline(never)]
pub unsafe extern "C" fn rust_register(
    handle: *const HandleBytes,
    entries: *const u8,
    entries_length: usize,
    handles: *mut u8,
    handles_length: usize,
    entry: *mut usize,
) -> u8 {
    let entries = from_raw_parts(entries, entries_length);
    let handles = from_raw_parts_mut(handles, handles_length);
    let (number, failing) = match register::handles(presented(&*handle), entries, handles) {
        Ok(()) => (0, 0),
        Err(refusal) => (refusal.number, refusal.entry),
    };
    *entry = failing;
    number
}

#[inline(never)]
pub unsafe extern "C" fn rust_openers(
    handle: *const HandleBytes,
    segment: usize,
    entries: *const u8,
    entries_length: usize,
    openers: *mut u8,
    openers_length: usize,
    count: *mut usize,
    entry: *mut usize,
) -> u8 {
    let entries = from_raw_parts(entries, entries_length);
    let openers = from_raw_parts_mut(openers, openers_length);
    let (number, found, failing) =
        match register::openers(presented(&*handle), segment, entries, openers) {
            Ok(count) => (0, count, 0),
            Err(refusal) => (refusal.number, 0, refusal.entry),
        };
    *count = found;
    *entry = failing;
    number
}

/// The bytes of a handle; none where it says that it has more than there is room for.
fn presented(handle: &HandleBytes) -> &[u8] {
    handle.bytes.get(..handle.length.into()).unwrap_or(&[])
}

pub type First =
    unsafe extern "C" fn(*const HandleBytes, *const u8, usize, *mut u8, usize, *mut usize) -> u8;
pub type Second = unsafe extern "C" fn(
    *const HandleBytes,
    usize,
    *const u8,
    usize,
    *mut u8,
    usize,
    *mut usize,
    *mut usize,
) -> u8;

/// What a question gets, the buffer apart.
#[derive(Clone)]
pub struct Asked {
    pub handle: HandleBytes,
    pub segment: usize,
    pub entries: Vec<u8>,
}

impl Asked {
    /// The number and the entry.
    pub fn handles(&self, by: First, buffer: &mut [u8]) -> (u8, usize) {
        let (asked, mut entry) = (black_box(self), usize::MAX);
        let entries = &asked.entries;
        let (from, length, to, room) = (
            entries.as_ptr(),
            entries.len(),
            buffer.as_mut_ptr(),
            buffer.len(),
        );
        let number = unsafe { by(&asked.handle, from, length, to, room, &mut entry) };
        (number, entry)
    }

    /// The number, how many, and the entry.
    pub fn openers(&self, by: Second, buffer: &mut [u8]) -> (u8, usize, usize) {
        let (asked, mut count, mut entry) = (black_box(self), usize::MAX, usize::MAX);
        let number = unsafe {
            by(
                &asked.handle,
                asked.segment,
                asked.entries.as_ptr(),
                asked.entries.len(),
                buffer.as_mut_ptr(),
                buffer.len(),
                &mut count,
                &mut entry,
            )
        };
        (number, count, entry)
    }
}

const SEGMENT: usize = 3;

pub fn primary() -> HandleBytes {
    let handle = Handle {
        node: 2,
        local: 3,
        password: [0x22; 16],
        width: Width::Eight,
        selector: [0xff; 4],
    };
    handle.encode()
}

pub fn asked(entries: Vec<u8>) -> Asked {
    Asked {
        handle: primary(),
        segment: SEGMENT,
        entries,
    }
}

/// Both questions on both sides, with room for so many entries and five bytes: the same numbers, counts and entries, and
/// every byte of the buffers. What the first gives.
pub fn alike(asked: &Asked, room: usize) -> (u8, usize) {
    let mut buffers = [(); 2].map(|()| vec![7; room * HANDLE + 5]);
    let [proved, rust] = &mut buffers;
    let told = asked.handles(gelmuszta_register, proved);
    assert_eq!(told, asked.handles(rust_register, rust));
    assert_eq!(proved, rust, "the two give the same handles");
    let mut buffers = [(); 2].map(|()| vec![7; room + 5]);
    let [proved, rust] = &mut buffers;
    let opened = asked.openers(gelmuszta_openers, proved);
    assert_eq!(opened, asked.openers(rust_openers, rust));
    assert_eq!(proved, rust, "the two give the same openers");
    told
}

/// What is wrong with a call as a whole, and what is wrong with an entry.
pub fn refusals(right: &Asked) {
    let changes: [(u8, fn(&mut Asked)); 11] = [
        (25, |asked| asked.handle.length = 0),
        (25, |asked| asked.handle.length = 21),
        (25, |asked| asked.handle.length = 200),
        (2, |asked| asked.handle.bytes[0] = 1),
        (2, |asked| asked.handle.bytes[1] = 4),
        (2, |asked| asked.handle.bytes[2] = 8),
        (0, |asked| asked.segment = 8),
        (4, |asked| asked.handle.bytes[22] = 0),
        (18, |asked| asked.entries.truncate(1)),
        (18, |asked| asked.entries.resize(2 * MOST + 2, 0)),
        (21, |asked| asked.handle.bytes[19..23].fill(0)),
    ];
    for (number, change) in changes {
        let mut wrong = right.clone();
        change(&mut wrong);
        assert_eq!(alike(&wrong, MOST + 1).0, number);
    }
    assert_eq!(alike(right, 0), (15, 0));
    for (entries, told) in [
        (&[0, 1, 3, 1][..], (19, 2)),
        (&[2, 1, 3, 0], (19, 1)),
        (&[0, 1, 2, 1], (20, 2)),
        (&[2, 1, 3, 0, 2, 0], (20, 1)),
        (&[0, 0xf0, 1, 0x0f], (21, 2)),
        (&[2, 0xff, 0, 0], (21, 1)),
        (&[0, 0xfe, 1, 0xfd, 2, 0xfb, 3, 0xf7, 4, 0xef], (17, 5)),
        (
            &[6, 0, 0, 0xfe, 2, 0xfd, 3, 0xfb, 4, 0xf7, 5, 0xef],
            (17, 1),
        ),
    ] {
        assert_eq!(alike(&asked(entries.to_vec()), MOST), told);
    }
}

/// Registers of up to nine entries made by chance: most entries come from lower ones, and most buffers have room.
pub fn by_chance() {
    let mut state = 0x2545_f491_4f6c_dd1du64;
    let mut below = |bound: u64| {
        state ^= state << 13;
        state ^= state >> 7;
        state ^= state << 17;
        (state >> 33) % bound
    };
    for _ in 0..20_000 {
        let count = below(10);
        let mut asked = asked(Vec::new());
        asked.segment = below(9) as usize;
        for entry in 1..=count {
            let parents = if below(8) == 0 { count + 2 } else { entry };
            let mask = below(256) | below(256);
            asked.entries.extend([below(parents) as u8, mask as u8]);
        }
        for subselector in &mut asked.handle.bytes[19..23] {
            if below(16) == 0 {
                *subselector = below(256) as u8;
            }
        }
        alike(&asked, below(40) as usize);
    }
}
