//! The measurements of docs/PERFORMANCE.md: the proved code beside the same text in Rust, turn about, in one run.
//! A figure is the best of many short batches; a ratio is proved to Rust.

mod access;
mod aes;
mod asked;
mod codec;
mod handle;
mod handles;
mod image;
mod looks;
mod register;
mod registers;
mod spans;
mod store;

use image::IMAGE;
use std::hint::black_box;
use std::time::Instant;
use store::Table;

extern "C" {
    fn measured_encrypt(key: *const [u8; 16], block: *const [u8; 16], out: *mut [u8; 16]);
    fn measured_sound(bases: *const Table, lengths: *const Table, size: usize) -> bool;
    fn gelmuszta_sound(image: *const [u8; IMAGE]) -> bool;
}

const BATCHES: usize = 400;
const CALLS: usize = 500;

/// The best time of one call, in nanoseconds, for each of two jobs measured turn about.
fn beside(mut proved: impl FnMut(), mut rust: impl FnMut()) -> (f64, f64) {
    let mut best = (f64::MAX, f64::MAX);
    for _ in 0..BATCHES {
        best.0 = best.0.min(batch(CALLS, &mut proved));
        best.1 = best.1.min(batch(CALLS, &mut rust));
    }
    best
}

fn batch(calls: usize, job: &mut (impl FnMut() + ?Sized)) -> f64 {
    let start = Instant::now();
    for _ in 0..calls {
        job();
    }
    start.elapsed().as_nanos() as f64 / calls as f64
}

fn report(name: &str, (proved, rust): (f64, f64)) {
    println!("{name:<44}{proved:>9.1}{rust:>9.1}{:>8.2}", proved / rust);
}

// The Rust text behind the same boundary as the proved one.

#[inline(never)]
extern "C" fn rust_encrypt(key: &[u8; 16], block: &[u8; 16], out: &mut [u8; 16]) {
    *out = aes::encrypt(*key, *block);
}

#[inline(never)]
extern "C" fn rust_sound(bases: &Table, lengths: &Table, size: usize) -> bool {
    store::sound(store::store_from(bases, lengths), size)
}

#[inline(never)]
extern "C" fn rust_sound_in(image: &[u8; IMAGE]) -> bool {
    image::sound_in(image, store::MEMORY)
}

/// Each encryption takes the last one's result as its key and as its block.
fn encryption() {
    let mut a = [7u8; 16];
    let mut b = [7u8; 16];
    let times = beside(
        || {
            let k = black_box(a);
            unsafe { measured_encrypt(&k, &k, &mut a) }
        },
        || {
            let k = black_box(b);
            rust_encrypt(&k, &k, &mut b)
        },
    );
    assert_eq!(a, b, "the two give the same bytes");
    report("encryption, new key and block", times);
}

/// A store made of two tables and tested: `each` segments on every node, of `length` bytes, one after the other.
fn soundness(name: &str, each: usize, length: u16) {
    let (bases, lengths) = store::tables(each, length);
    let mut ends = (true, true);
    let size = store::MEMORY;
    let times = beside(
        || ends.0 &= unsafe { measured_sound(black_box(&bases), black_box(&lengths), size) },
        || ends.1 &= rust_sound(black_box(&bases), black_box(&lengths), size),
    );
    assert_eq!(ends, (true, true), "the store is sound");
    report(name, times);
    report_making(&bases, &lengths);
}

/// The line below a row whose calls make the store, on both sides: what that costs in Rust.
fn report_making(bases: &Table, lengths: &Table) {
    let made = beside(
        || {
            black_box(store::store_from(black_box(bases), black_box(lengths)));
        },
        || (),
    );
    println!(
        "{:<44}{:>9}{:>9.1}",
        "  of which making the store", "", made.0
    );
}

/// An image tested as it stands.
fn soundness_in(name: &str, image: [u8; IMAGE]) {
    let mut ends = (true, true);
    let times = beside(
        || ends.0 &= unsafe { gelmuszta_sound(black_box(&image)) },
        || ends.1 &= rust_sound_in(black_box(&image)),
    );
    assert_eq!(ends, (true, true), "the image is sound");
    report(name, times);
}

/// A mark is 0 or 1, and 1 only where the segment is present. In the typical store the first two segments of the first
/// five clusters are.
fn marks() {
    for (record, segment, mark, sound) in [
        (0, 1, 0, true),
        (0, 1, 1, true),
        (0, 1, 2, false),
        (0, 1, 255, false),
        (0, 2, 1, false),
        (7, 0, 1, false),
    ] {
        let mut image = image::image_of(5, 8, 2, 400);
        image[image::mark_at(record, segment)] = mark;
        judged_alike(&image, sound);
    }
}

/// An active cluster has one of the three widths, an inactive one 0, and no segment at or above the width is present.
fn widths() {
    for (record, width, sound) in [
        (0, 4, true),
        (0, 8, true),
        (0, 16, true),
        (0, 0, false),
        (0, 5, false),
        (0, 24, false),
        (7, 0, true),
        (7, 8, false),
    ] {
        let mut image = image::image_of(5, 8, 2, 400);
        image[image::width_at(record)] = width;
        judged_alike(&image, sound);
    }
    for (width, segments, sound) in [(4, 5, false), (8, 9, false), (16, 16, true)] {
        judged_alike(&image::image_of(8, width, segments, 32), sound);
    }
}

fn judged_alike(image: &[u8; IMAGE], sound: bool) {
    let proved = unsafe { gelmuszta_sound(image) };
    let rust = rust_sound_in(image);
    assert_eq!((proved, rust), (sound, sound), "the two judge alike");
}

fn main() {
    println!(
        "{:<44}{:>9}{:>9}{:>8}",
        "nanoseconds a call", "proved", "Rust", "ratio"
    );
    encryption();
    handles::validation();
    handles::weakening();
    soundness("soundness, empty store", 0, 1);
    soundness("soundness, 10 segments of 400 bytes a node", 10, 400);
    soundness("soundness, 64 segments of 64 bytes a node", 64, 64);
    soundness("soundness, 128 segments of 32 bytes a node", 128, 32);
    looks::looks();
    marks();
    widths();
    for (name, image) in [
        ("empty store", image::image_of(0, 0, 0, 0)),
        ("typical store", image::image_of(5, 8, 2, 400)),
        ("full store", image::image_of(8, 8, 8, 64)),
        ("typical store, 16 segments", image::image_of(5, 16, 2, 400)),
        ("full store, 16 segments", image::image_of(8, 16, 16, 32)),
    ] {
        soundness_in(&format!("on the image, {name}"), image);
    }
    registers::registers();
}
