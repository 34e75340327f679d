//! The library's functions on borrowed bytes.
//!
//! Every call, here, in `calls` and in `registers`, is sound for one reason. Each pointer comes from a reference or a
//! slice that is borrowed for as long as the call takes, and the length beside it is that slice's. Image, memory and
//! passwords are lent as the header's structs, which have the bytes of these arrays and nothing else. Whatever
//! the library may write is borrowed exclusively, so it overlaps with nothing else that is lent.
//! Image and memory are borrowed exclusively also where the library promises to read them only,
//! so that a broken promise would be seen afterwards and not be undefined behaviour.

mod calls;
pub mod handles;
mod registers;

use crate::ffi::{self, gelmuszta_handle, gelmuszta_image, gelmuszta_memory, gelmuszta_password};
use crate::words::*;
use handles::Presented;
pub use registers::{look_up, weaken, where_it_lies};
use std::ptr::{from_mut, from_ref};

/// What outputs hold before the call, so that one that is not written is seen.
const UNWRITTEN: u8 = 0x5a;
const UNWRITTEN_NUMBER: usize = usize::from_ne_bytes([UNWRITTEN; size_of::<usize>()]);

fn image_of(image: &mut Image) -> *mut gelmuszta_image {
    from_mut(image).cast()
}

fn memory_of(memory: &mut Memory) -> *mut gelmuszta_memory {
    from_mut(memory).cast()
}

fn password_of(password: &Password) -> *const gelmuszta_password {
    from_ref(password).cast()
}

/// The version that the library tells.
pub fn version() -> u32 {
    // SAFETY: it is lent nothing.
    unsafe { ffi::gelmuszta_version() }
}

/// Writes the starting store's image.
pub fn start(image: &mut Image) {
    // SAFETY: see the head of this file.
    unsafe { ffi::gelmuszta_start(image_of(image)) }
}

pub fn is_sound(image: &mut Image) -> bool {
    // SAFETY: see the head of this file.
    unsafe { ffi::gelmuszta_sound(image_of(image)) }
}

/// The number, and the handle that holds the bytes.
pub fn handle_of(bytes: &[u8]) -> (u8, gelmuszta_handle) {
    let mut handle = gelmuszta_handle::UNWRITTEN;
    // SAFETY: see the head of this file.
    let number = unsafe { ffi::gelmuszta_handle_of(bytes.as_ptr(), bytes.len(), &mut handle) };
    (number, handle)
}

pub fn convert(password: &Password, parameter: u16) -> Password {
    let mut converted = gelmuszta_password { bytes: [UNWRITTEN; PASSWORD_BYTES] };
    // SAFETY: see the head of this file.
    unsafe { ffi::gelmuszta_convert(password_of(password), parameter, &mut converted) }
    converted.bytes
}

/// Validates the handles of one width that stand in `handles` one after the other; gives how many were judged.
pub fn validate_all(held: &mut Held, mode: usize, width: usize, handles: &[u8], numbers: &mut [u8]) -> usize {
    let image = image_of(&mut held.image);
    let (handles, length) = (handles.as_ptr(), handles.len());
    let (numbers, places) = (numbers.as_mut_ptr(), numbers.len());
    // SAFETY: see the head of this file.
    unsafe { ffi::gelmuszta_validate_all(image, mode, width, handles, length, numbers, places) }
}

/// Puts a question to the library.
pub fn ask(held: &mut Held, question: &Question) -> Answer {
    let mut buffer = question.buffer.clone();
    let lent = Lent { image: &mut held.image, memory: &mut held.memory, buffer: &mut buffer };
    let reply = lent.run(&question.call, &Presented::of(&question.call, &question.behind), question.beyond);
    Answer { reply, buffer }
}

/// Runs a call as the model does: on a store, a memory and a buffer, which hold afterwards what the library leaves. A
/// memory of another length cannot be lent, nor a handle whose length is no byte: the model answers then.
pub fn run(store: &mut Store, memory: &mut [u8], buffer: &mut [u8], call: &Call) -> Reply {
    let mut lengths = call.presented_bytes().map(<[u8]>::len);
    let (true, Ok(lent)) = (lengths.all(|length| u8::try_from(length).is_ok()), Memory::try_from(&*memory)) else {
        return model::model::run(store, memory, buffer, call);
    };
    let mut held = Held { image: encode(store), memory: lent };
    let mut question = Question::of(call.clone());
    question.buffer = buffer.to_vec();
    let answer = ask(&mut held, &question);
    *store = decode(&held.image).expect("the library leaves a store");
    assert_eq!(encode(store), held.image);
    memory.copy_from_slice(&held.memory);
    buffer.copy_from_slice(&answer.buffer);
    answer.reply
}

/// What one call gets: image, memory, and a read's buffer or a write's data.
pub struct Lent<'a> {
    pub image: &'a mut Image,
    pub memory: &'a mut Memory,
    pub buffer: &'a mut [u8],
}
