//! The questions that are put to the proved library, by its interface in C.

use crate::text::{ALL, SEGMENTS};
use tools::values::HandleBytes;

const DONE: u8 = 0;
const EMPTY: u8 = 21;
const HANDLE_MAX: usize = 27;

/// Why the library refuses: the number, and the entry that it is about, or 0.
#[derive(Clone, Copy, Debug, PartialEq, Eq)]
pub struct Refusal {
    pub number: u8,
    pub entry: usize,
}

/// For each segment, in rising order, the numbers of those who can open it.
pub type Openers = [Vec<usize>; SEGMENTS];

/// As `include/gelmuszta.h` has them.
mod ffi {
    #[repr(C)]
    pub struct Handle {
        pub bytes: [u8; super::HANDLE_MAX],
        pub length: u8,
    }

    #[rustfmt::skip]
    extern "C" {
        pub fn gelmuszta_handle_of(bytes: *const u8, length: usize, handle: *mut Handle) -> u8;
        pub fn gelmuszta_register(handle: *const Handle, entries: *const u8, entries_length: usize,
            handles: *mut u8, handles_length: usize, entry: *mut usize) -> u8;
        pub fn gelmuszta_openers(handle: *const Handle, segment: usize, entries: *const u8, entries_length: usize,
            openers: *mut u8, openers_length: usize, count: *mut usize, entry: *mut usize) -> u8;
    }
}

fn answer(number: u8, entry: usize) -> Result<(), Refusal> {
    match number {
        DONE => Ok(()),
        _ => Err(Refusal { number, entry }),
    }
}

fn handle_of(bytes: &HandleBytes) -> Result<ffi::Handle, Refusal> {
    let mut handle = ffi::Handle { bytes: [0; HANDLE_MAX], length: 0 };
    // SAFETY: the pointers are those of values that outlive the call, with the length of the bytes beside them.
    let number = unsafe { ffi::gelmuszta_handle_of(bytes.as_ptr(), bytes.len(), &mut handle) };
    answer(number, 0).map(|()| handle)
}

/// The entries that can open a segment.
fn openers_of(handle: &ffi::Handle, segment: usize, entries: &[u8]) -> Result<Vec<usize>, Refusal> {
    let mut openers = vec![0; entries.len() / 2];
    let (mut count, mut entry) = (0, 0);
    // SAFETY: as above; what is written overlaps with nothing else that is lent.
    let number = unsafe {
        ffi::gelmuszta_openers(
            handle,
            segment,
            entries.as_ptr(),
            entries.len(),
            openers.as_mut_ptr(),
            openers.len(),
            &mut count,
            &mut entry,
        )
    };
    answer(number, entry)?;
    Ok(openers[..count].iter().copied().map(usize::from).collect())
}

/// Whether the handle supplied opens a segment. A register answers that, too: its one entry is the handle with nothing
/// excluded, which is the handle itself.
fn opens(handle: &ffi::Handle, segment: usize) -> Result<bool, Refusal> {
    match openers_of(handle, segment, &[0, ALL]) {
        Err(refusal) if refusal.number == EMPTY => Ok(false),
        found => found.map(|openers| !openers.is_empty()),
    }
}

/// Who can open which segment; 0 stands for the holder of the handle supplied.
pub fn openers(supplied: &HandleBytes, entries: &[u8]) -> Result<Openers, Refusal> {
    let handle = handle_of(supplied)?;
    let mut all = Openers::default();
    for (segment, openers) in all.iter_mut().enumerate() {
        *openers = openers_of(&handle, segment, entries)?;
        if opens(&handle, segment)? {
            openers.insert(0, 0);
        }
    }
    Ok(all)
}

/// The handles of all entries, in order.
pub fn handles(supplied: &HandleBytes, entries: &[u8]) -> Result<Vec<HandleBytes>, Refusal> {
    let handle = handle_of(supplied)?;
    let mut handles = vec![[0; size_of::<HandleBytes>()]; entries.len() / 2];
    let mut entry = 0;
    let buffer = handles.as_flattened_mut();
    // SAFETY: as above.
    let number = unsafe {
        ffi::gelmuszta_register(&handle, entries.as_ptr(), entries.len(), buffer.as_mut_ptr(), buffer.len(), &mut entry)
    };
    answer(number, entry).map(|()| handles)
}
