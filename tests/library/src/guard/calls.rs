//! The calls, one function of the library each. Handles are lent as they are, with any length byte.

use super::{handles::Presented, image_of, memory_of, password_of, Lent, UNWRITTEN, UNWRITTEN_NUMBER};
use crate::ffi::{self, gelmuszta_handle};
use crate::words::*;

impl Lent<'_> {
    /// Runs one call by the handles that it presents, with `beyond` in the place of arguments that are [`BEYOND`].
    #[rustfmt::skip]
    pub fn run(self, call: &Call, presented: &Presented, beyond: usize) -> Reply {
        let wide = |number: &u32| match *number {
            BEYOND => beyond,
            number => number as usize,
        };
        let Presented { handle, other } = presented;
        let (image, memory) = (image_of(self.image), memory_of(self.memory));
        let (buffer, bytes) = (self.buffer.as_mut_ptr(), self.buffer.len());
        // SAFETY: see the head of `guard`.
        unsafe { match call {
            Call::NewCluster { node, local, width, read, write } => {
                let (read, write, mut second) = (password_of(read), password_of(write), gelmuszta_handle::UNWRITTEN);
                let (node, local, given) = (wide(node), wide(local), &mut second);
                let reply = giving(|first| {
                    ffi::gelmuszta_new_cluster(image, node, local, *width, read, write, first, given)
                });
                Reply { second: second.told(), ..reply }
            }
            Call::DeleteCluster { node, .. } => bare(ffi::gelmuszta_delete_cluster(image, wide(node), handle)),
            Call::NewSegment { node, segment, size, .. } => {
                let (node, segment, size) = (wide(node), wide(segment), wide(size));
                bare(ffi::gelmuszta_new_segment(image, memory, node, segment, size, handle))
            }
            Call::DeleteSegment { node, segment, .. } => {
                bare(ffi::gelmuszta_delete_segment(image, wide(node), wide(segment), handle))
            }
            Call::Read { segment, .. } => {
                let mut length = UNWRITTEN_NUMBER;
                let number = ffi::gelmuszta_read(image, memory, wide(segment), handle, buffer, bytes, &mut length);
                Reply { length: u32::try_from(length).unwrap_or(u32::MAX), ..bare(number) }
            }
            Call::Write { segment, .. } => {
                bare(ffi::gelmuszta_write(image, memory, wide(segment), handle, buffer, bytes))
            }
            Call::Weaken { mask, .. } => {
                let mut count = UNWRITTEN;
                let reply = giving(|given| ffi::gelmuszta_weaken(handle, *mask, given, &mut count));
                Reply { count: count.into(), ..reply }
            }
            Call::Reduce { mode, .. } => giving(|given| ffi::gelmuszta_reduce(image, wide(mode), handle, given)),
            Call::NewPassword { mode, password, .. } => {
                giving(|given| ffi::gelmuszta_new_password(image, wide(mode), handle, password_of(password), given))
            }
            Call::Freeze { node, segment, .. } => {
                bare(ffi::gelmuszta_freeze(image, wide(node), wide(segment), handle))
            }
            Call::Join { mode, .. } => giving(|given| ffi::gelmuszta_join(image, wide(mode), handle, other, given)),
            Call::Look { node, segment, .. } => {
                let (mut from, mut length) = (UNWRITTEN_NUMBER, UNWRITTEN_NUMBER);
                let (node, segment) = (wide(node), wide(segment));
                let number = ffi::gelmuszta_look(image, node, segment, handle, &mut from, &mut length);
                Reply { shown: Part { from, length }, ..bare(number) }
            }
            Call::Validate { mode, .. } => bare(ffi::gelmuszta_validate(image, wide(mode), handle)),
        } }
    }
}

/// A reply that gives nothing but its number.
fn bare(number: u8) -> Reply {
    Reply::refused(number)
}

/// The reply of a call that gives one handle, or might have given one.
fn giving(call: impl FnOnce(&mut gelmuszta_handle) -> u8) -> Reply {
    let mut given = gelmuszta_handle::UNWRITTEN;
    let number = call(&mut given);
    Reply { first: given.told(), ..bare(number) }
}
