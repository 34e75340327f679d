//! The types and functions of `include/gelmuszta.h`, in its order and with its names.

#![allow(non_camel_case_types)]

use crate::image::IMAGE_BYTES;
use model::sizes::{MEMORY_BYTES, PASSWORD_BYTES};

/// Room for the bytes of a handle of any width.
pub const HANDLE_MAX: usize = 27;

#[repr(C)]
pub struct gelmuszta_image {
    pub bytes: [u8; IMAGE_BYTES],
}

#[repr(C)]
pub struct gelmuszta_memory {
    pub bytes: [u8; MEMORY_BYTES],
}

#[repr(C)]
pub struct gelmuszta_password {
    pub bytes: [u8; PASSWORD_BYTES],
}

#[repr(C)]
#[derive(Clone, Copy, Debug, PartialEq, Eq)]
pub struct gelmuszta_handle {
    pub bytes: [u8; HANDLE_MAX],
    pub length: u8,
}

pub type gelmuszta_mode = usize;
pub type gelmuszta_width = usize;
pub type gelmuszta_number = u8;

/// What a function reads, and what it writes.
type In<T> = *const T;
type Out<T> = *mut T;
use {
    gelmuszta_handle as handle, gelmuszta_image as image, gelmuszta_memory as memory, gelmuszta_password as password,
};
use {gelmuszta_mode as mode, gelmuszta_number as number, gelmuszta_width as width};

#[rustfmt::skip]
extern "C" {
    pub fn gelmuszta_version() -> u32;
    pub fn gelmuszta_start(image: Out<image>);
    pub fn gelmuszta_sound(image: In<image>) -> bool;
    pub fn gelmuszta_new_cluster(image: Out<image>, current: usize, local: usize, width: width, read: In<password>,
        write: In<password>, reader: Out<handle>, writer: Out<handle>) -> number;
    pub fn gelmuszta_delete_cluster(image: Out<image>, current: usize, handle: In<handle>) -> number;
    pub fn gelmuszta_new_password(image: Out<image>, mode: mode, handle: In<handle>, password: In<password>,
        given: Out<handle>) -> number;
    pub fn gelmuszta_new_segment(image: Out<image>, memory: Out<memory>, current: usize, segment: usize, size: usize,
        handle: In<handle>) -> number;
    pub fn gelmuszta_delete_segment(image: Out<image>, current: usize, segment: usize, handle: In<handle>) -> number;
    pub fn gelmuszta_freeze(image: Out<image>, current: usize, segment: usize, handle: In<handle>) -> number;
    pub fn gelmuszta_read(image: In<image>, memory: In<memory>, segment: usize, handle: In<handle>,
        buffer: Out<u8>, buffer_length: usize, length: Out<usize>) -> number;
    pub fn gelmuszta_write(image: In<image>, memory: Out<memory>, segment: usize, handle: In<handle>, data: In<u8>,
        data_length: usize) -> number;
    pub fn gelmuszta_look(image: In<image>, current: usize, segment: usize, handle: In<handle>, from: Out<usize>,
        length: Out<usize>) -> number;
    pub fn gelmuszta_handle_of(bytes: In<u8>, length: usize, handle: Out<handle>) -> number;
    pub fn gelmuszta_weaken(handle: In<handle>, mask: u16, given: Out<handle>, count: Out<u8>) -> number;
    pub fn gelmuszta_reduce(image: In<image>, mode: mode, handle: In<handle>, given: Out<handle>) -> number;
    pub fn gelmuszta_join(image: In<image>, mode: mode, handle: In<handle>, other: In<handle>,
        given: Out<handle>) -> number;
    pub fn gelmuszta_validate(image: In<image>, mode: mode, handle: In<handle>) -> number;
    pub fn gelmuszta_validate_all(image: In<image>, mode: mode, width: width, handles: In<u8>,
        handles_length: usize, numbers: Out<u8>, numbers_length: usize) -> usize;
    pub fn gelmuszta_convert(password: In<password>, parameter: u16, converted: Out<password>);
    pub fn gelmuszta_register(handle: In<handle>, entries: In<u8>, entries_length: usize, handles: Out<u8>,
        handles_length: usize, entry: Out<usize>) -> number;
    pub fn gelmuszta_openers(handle: In<handle>, segment: usize, entries: In<u8>, entries_length: usize,
        openers: Out<u8>, openers_length: usize, count: Out<usize>, entry: Out<usize>) -> number;
}
