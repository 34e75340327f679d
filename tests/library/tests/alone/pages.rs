//! Registers between pages that may not be touched: whatever is read or written beyond what is lent is a fault. Handle
//! and entries may not be written to.

use library::ffi::gelmuszta_handle;
use library::guard::{look_up, where_it_lies};
use library::words::*;
use model::register::{Finding, Inquiry};
use std::ffi::c_void;
use std::os::unix::process::ExitStatusExt;
use std::process::Command;
use std::ptr::{null_mut, slice_from_raw_parts_mut};

extern "C" {
    fn mmap(at: *mut c_void, length: usize, protection: i32, flags: i32, file: i32, offset: i64) -> *mut c_void;
    fn mprotect(at: *mut c_void, length: usize, protection: i32) -> i32;
    fn munmap(at: *mut c_void, length: usize) -> i32;
}

const NOTHING: i32 = 0;
const READING: i32 = 1;
const WRITING: i32 = 3;
/// Private to the process, and no file's.
const OWN: i32 = 0x22;
/// Whole pages of any size that there is.
const STRETCH: usize = 1 << 16;
const SEGFAULT: i32 = 11;
/// Tells a second run of this program what to touch.
const TOUCH: &str = "TOUCH";

/// Bytes at the beginning or at the end of a stretch; the stretches on either side may not be touched.
struct Fenced {
    mapped: *mut c_void,
    at: *mut u8,
    length: usize,
}

impl Fenced {
    fn new(bytes: &[u8], at_the_end: bool, protection: i32) -> Fenced {
        // SAFETY: the middle of three stretches that are mapped for this alone is long enough for the bytes.
        unsafe {
            let mapped = mmap(null_mut(), 3 * STRETCH, NOTHING, OWN, -1, 0);
            assert!(mapped as isize != -1 && bytes.len() <= STRETCH);
            let middle = mapped.cast::<u8>().add(STRETCH);
            assert_eq!(mprotect(middle.cast(), STRETCH, WRITING), 0);
            let at = if at_the_end { middle.add(STRETCH - bytes.len()) } else { middle };
            at.copy_from_nonoverlapping(bytes.as_ptr(), bytes.len());
            assert_eq!(mprotect(middle.cast(), STRETCH, protection), 0);
            Fenced { mapped, at, length: bytes.len() }
        }
    }

    /// The bytes, and so many more.
    fn part(&self, more: usize) -> *mut [u8] {
        slice_from_raw_parts_mut(self.at, self.length + more)
    }

    fn bytes(&self) -> &[u8] {
        // SAFETY: they are as many, and may be read.
        unsafe { &*self.part(0) }
    }
}

impl Drop for Fenced {
    fn drop(&mut self) {
        // SAFETY: nobody has it after this.
        assert_eq!(unsafe { munmap(self.mapped, 3 * STRETCH) }, 0);
    }
}

/// What is found, and the buffer afterwards; the bits of `ends` tell what lies at the end of its stretch. So many more
/// bytes are told than the entries and the buffer have.
fn fenced(inquiry: &Inquiry, buffer: &[u8], ends: usize, more: [usize; 2]) -> (Finding, Vec<u8>) {
    let put = |bit: usize, bytes: &[u8], protection| Fenced::new(bytes, ends >> bit & 1 == 1, protection);
    let handle = gelmuszta_handle::of(&inquiry.handle, &[0xff; 27]);
    let handle = put(0, &[&handle.bytes[..], &[handle.length]].concat(), READING);
    let (entries, buffer) = (put(1, &inquiry.entries, READING), put(2, buffer, WRITING));
    let told = [0, 2].map(|bit| put(bit, &[0x77; size_of::<usize>()], WRITING));
    // SAFETY: all of it lies in stretches of its own; a stretch begins and ends where a number may.
    let number = unsafe {
        let [count, entry] = [&told[0], &told[1]].map(|told| &mut *told.at.cast::<usize>());
        let (lent, room) = (entries.part(more[0]), buffer.part(more[1]));
        where_it_lies(handle.at.cast(), inquiry.segment, lent, room, (count, entry))
    };
    let [count, entry] = told.map(|told| usize::from_ne_bytes(told.bytes().try_into().expect("as many bytes")));
    let count = if inquiry.segment.is_some() { count } else { 0 };
    (Finding { number, entry, count }, buffer.bytes().to_vec())
}

/// By a handle with this length: nothing, half an entry, what is refused for an entry, five entries that are done, half
/// an entry more, 255 that are done, and 256.
fn inquiries(length: usize) -> [Inquiry; 8] {
    let mut handle = Handle::primary(Width::Eight, 0, 2, [0x11; 16]).to_bytes();
    handle.resize(length, 0xff);
    let five = vec![3, 0x3f, 0, 0xfe, 0, 0x7f, 2, 0x7d, 4, 0x70];
    let chain = (0..510).map(|at| if at % 2 == 0 { (at / 2) as u8 } else { 0xbf });
    let more = [&five[..], &[0]].concat();
    let all = [vec![], vec![0], vec![255, 255], vec![1, 0], five, more, chain.collect(), vec![0; 512]];
    all.map(|entries| Inquiry { handle: handle.clone(), segment: None, entries })
}

#[test]
fn nothing_beyond_is_touched() {
    let mut done = 0;
    for inquiry in [0, 1, 21, 23, 27, 28, 255].into_iter().flat_map(inquiries) {
        for segment in [None, Some(0), Some(7), Some(8), Some(usize::MAX)] {
            let inquiry = Inquiry { segment, ..inquiry.clone() };
            let needed = inquiry.needed();
            for room in [0, needed.saturating_sub(1), needed, needed + 1] {
                let mut buffer: Vec<u8> = (0..room).map(|at| at as u8 | 0x80).collect();
                let found = [0, 1, 2, 3, 4, 5, 6, 7].map(|ends| fenced(&inquiry, &buffer, ends, [0, 0]));
                let finding = look_up(&inquiry, &mut buffer);
                done += usize::from(finding.number == 0);
                assert!(found.iter().all(|found| *found == (finding, buffer.clone())), "{inquiry:?} {room}");
            }
        }
    }
    // The empty register with every room, two with the two that suffice; the first question, and two segments.
    assert_eq!(done, 3 * (4 + 2 + 2));
}

/// What a second run of this program does: it touches something beyond, or nothing.
#[test]
fn touch() {
    let Ok(what) = std::env::var(TOUCH) else { return };
    let [.., five, _, _, _] = inquiries(23);
    let (end, begin) = (Fenced::new(&[5], true, WRITING), Fenced::new(&[5], false, WRITING));
    let (read, none) = (Fenced::new(&[5], true, READING), Fenced::new(&[], true, READING));
    let ask = |more| fenced(&five, &[0; 5 * 23], 7, more).0;
    // SAFETY: none, but for the first: that the others end the program is what is asked.
    unsafe {
        match &what[..] {
            "nothing beyond" => assert!(*read.at == 5 && ask([0, 0]) == Finding::done(0)),
            "a byte behind" => println!("{}", end.at.add(1).read_volatile()),
            "a byte before" => println!("{}", begin.at.sub(1).read_volatile()),
            "a byte of none" => println!("{}", none.at.read_volatile()),
            "a byte written behind" => end.at.add(1).write_volatile(1),
            "a byte written that may be read" => read.at.write_volatile(1),
            "an entry too many" => println!("{:?}", ask([2, 23])),
            _ => panic!("{what}"),
        }
    }
}

/// That a touch would be seen: each of these ends a program that does it.
#[test]
fn what_is_beyond_is_a_fault() {
    let ended = |what: &str| {
        let program = std::env::current_exe().expect("it runs");
        let run = Command::new(program).args(["--exact", "pages::touch"]).env(TOUCH, what).output();
        run.expect("it can be run again").status
    };
    assert!(ended("nothing beyond").success());
    let beyond = ["a byte behind", "a byte before", "a byte of none", "a byte written behind"];
    for what in beyond.into_iter().chain(["a byte written that may be read", "an entry too many"]) {
        assert_eq!(ended(what).signal(), Some(SEGFAULT), "{what}");
    }
}
