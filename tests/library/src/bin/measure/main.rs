//! The library's measurements for docs/PERFORMANCE.md: the proved library and the model, turn about,
//! in one run.

mod calls;
mod repeated;
mod stores;

use calls::{groups, many_handles, weakening, Row};
use library::words::*;
use repeated::Repeated;
use std::{hint::black_box, time::Instant};
use stores::{full, held, typical};

const ROUNDS: usize = 1000;
const CALLS: usize = 200;
const BATCH_ROUNDS: usize = 40;
const BATCH_HANDLES: usize = 10_000;

const PREFACE: &str = "\
The library, the model on the same image, and the model on records that it keeps decoded take turns.
Ratios are library to model. Buffers are not cleared between calls. After each call the record of its
cluster is put back, which is in the figures. Typical: on each node ten segments of 400 bytes in five
clusters; full: 64 of 64 bytes, or with clusters of sixteen 128 of 32. Where nothing else is said
clusters and handles are of eight. Reads, looks and writes are of one segment.";

/// The best times of a call: the library's, the model's on the image, the model's on its records.
type Times = [f64; 3];

fn beside(
    rounds: usize,
    calls: usize,
    mut library: impl FnMut(),
    mut on_image: impl FnMut(),
    mut on_records: impl FnMut(),
) -> Times {
    let mut best = [f64::MAX; 3];
    for _ in 0..rounds {
        let times = [round(calls, &mut library), round(calls, &mut on_image), round(calls, &mut on_records)];
        best = std::array::from_fn(|at| best[at].min(times[at]));
    }
    best
}

fn round(calls: usize, job: &mut impl FnMut()) -> f64 {
    let start = Instant::now();
    for _ in 0..calls {
        job();
    }
    start.elapsed().as_nanos() as f64 / calls as f64
}

fn report(name: &str, [library, on_image, on_records]: Times) {
    println!(
        "{name:<44}{library:>10.1}{on_image:>10.1}{:>7.2}{on_records:>10.1}{:>7.2}",
        library / on_image,
        library / on_records
    );
}

/// Each conversion takes the last one's outcome as its password.
fn conversion() {
    let [mut first, mut second, mut third]: [Password; 3] = [[7; 16]; 3];
    let times = beside(
        ROUNDS,
        CALLS,
        || first = guard::convert(black_box(&first), black_box(3)),
        || second = convert(black_box(&second), black_box(3)),
        || third = convert(black_box(&third), black_box(3)),
    );
    assert!(first == second && second == third, "all give the same password");
    report("conversion", times);
}

fn soundness(name: &str, store: &Store) {
    let mut held = held(store);
    let image: Image = held.image;
    let mut sound = [true; 3];
    let [first, second, third] = &mut sound;
    let times = beside(
        ROUNDS,
        CALLS,
        || *first &= guard::is_sound(black_box(&mut held.image)),
        || *second &= decode(black_box(&image)).is_some_and(|store| store.is_sound(MEMORY_BYTES)),
        || *third &= black_box(store).is_sound(MEMORY_BYTES),
    );
    assert_eq!(sound, [true; 3], "the store is sound");
    report(name, times);
}

/// One call, done again and again on the same store. A look's reply tells where its part begins and
/// how long it is; where the memories are the same too, so are the bytes shown.
fn one_call(row: &Row) {
    let Row { name, call, .. } = row;
    let [mut first, mut second, mut third] = [(); 3].map(|()| Repeated::new(row));
    let times = beside(
        ROUNDS,
        CALLS,
        || first.by_library(black_box(call)),
        || second.on_image(black_box(call)),
        || third.on_records(black_box(call)),
    );
    assert_eq!(first.reply.number, DONE, "{name} is done");
    assert!(first.reply == second.reply && second.reply == third.reply, "all reply the same");
    assert!(first.buffer == second.buffer && second.buffer == third.buffer);
    assert!(first.held.memory == second.held.memory && second.held.memory == third.held.memory);
    report(name, times);
}

/// What the model does for a batch: soundness once, then for every handle the rows of the table
/// below the first, in their order.
fn validate_all(store: &Store, mode: u32, width: Width, handles: &[u8], numbers: &mut [u8]) {
    let found = Found::whole(store, 0);
    let sound = store.is_sound(found.memory_bytes);
    for (number, bytes) in numbers.iter_mut().zip(handles.chunks_exact(width.handle_bytes())) {
        let call = Call::validate(mode, bytes.to_vec());
        *number = if sound { refusal_below(UNSOUND, &call, &found).unwrap_or(DONE) } else { UNSOUND };
    }
}

/// A figure is for one handle of the batch.
fn batch(name: &str, width: Width) {
    let store = &typical(width);
    let mut held = held(store);
    let image = held.image;
    let handles = many_handles(store, BATCH_HANDLES);
    let mut numbers = [(); 3].map(|()| vec![u8::MAX; BATCH_HANDLES]);
    let [first, second, third] = &mut numbers;
    let times = beside(
        BATCH_ROUNDS,
        1,
        || {
            guard::validate_all(&mut held, READ_MODE as usize, width.segments(), black_box(&handles), first);
        },
        || {
            let store = decode(black_box(&image)).expect("the image is not damaged");
            validate_all(&store, READ_MODE, width, &handles, second);
        },
        || validate_all(store, READ_MODE, width, black_box(&handles), third),
    );
    assert!(numbers.iter().flatten().all(|&number| number == DONE), "every handle validates");
    report(name, times.map(|time| time / BATCH_HANDLES as f64));
}

fn main() {
    println!("Nanoseconds a call: the best of {ROUNDS} rounds of {CALLS} calls, {BATCH_ROUNDS} of a batch.");
    println!("{PREFACE}\n");
    println!("{:<44}{:>10}{:>10}{:>7}{:>10}{:>7}", "", "library", "on image", "ratio", "records", "ratio");
    conversion();
    one_call(&weakening("7 weaken, primary, of four", Width::Four));
    one_call(&weakening("7 weaken, primary", Width::Eight));
    one_call(&weakening("7 weaken, primary, of sixteen", Width::Sixteen));
    soundness("soundness, empty store", &Store::starting());
    soundness("soundness, typical store", &typical(Width::Eight));
    soundness("soundness, full store", &full(Width::Eight));
    soundness("soundness, full store of sixteen", &full(Width::Sixteen));
    batch("batch of 10,000, 4 not flat, for each handle", Width::Eight);
    batch("the same, of four", Width::Four);
    batch("the same, of sixteen", Width::Sixteen);
    for (name, rows) in groups() {
        println!("{name}");
        rows.iter().for_each(one_call);
    }
}
