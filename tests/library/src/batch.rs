//! Many validations by one call, against one call each and against the model.

use crate::damages::{self, Where};
use crate::edges::{around, count, each};
use crate::{widths, words::*};

/// Something that validates many handles, given the mode and the width; [`guard::validate_all`] is the one to be
/// compared.
pub type BatchGuard<'a> = &'a dyn Fn(&mut Held, usize, usize, &[u8], &mut [u8]) -> usize;

const MOST_HANDLES: usize = 40;

/// One batch by chance.
#[derive(Clone)]
struct Batch {
    held: Held,
    mode: usize,
    width: usize,
    handles: Vec<u8>,
    /// What the places for the numbers hold before.
    numbers: Vec<u8>,
}

impl Batch {
    /// The handles that are whole; none where the width is none.
    fn whole(&self) -> Vec<&[u8]> {
        let width = Width::of_segments(self.width);
        width.map(|width| self.handles.chunks_exact(width.handle_bytes())).into_iter().flatten().collect()
    }

    /// As many as there are whole handles and places for.
    fn expected_count(&self) -> usize {
        self.whole().len().min(self.numbers.len())
    }
}

/// Gives how many validations were compared. Every second batch is put to a damaged store, with each
/// kind of damage in turn.
pub fn compare(guard: BatchGuard, seed: u64, batches: u64, tally: &mut Tally) -> Result<u64, String> {
    let mut validations = 0;
    let mut damages = Damage::ALL.into_iter().cycle();
    let mut sound = false;
    cases(seed, batches, |random| {
        sound = !sound;
        let damage = if sound { None } else { damages.next() };
        let batch = by_chance(random, damage, tally);
        tally.note_batch(narrow(batch.mode), batch.width);
        validations += batch.expected_count() as u64;
        one(guard, &batch, tally)
    })?;
    Ok(validations)
}

/// Batches of every width up to a little above the greatest, and of some that are right in their low bytes alone; and
/// bytes of every length up to that of two handles. Gives how many batches there were.
pub fn every_width(guard: BatchGuard, seed: u64) -> Result<u64, String> {
    let compared = each(seed, Width::ALL, |random, own, asked| {
        let tally = &mut Tally::default();
        let batch = by_chance(random, None, tally);
        for width in around(own.segments(), 2 * SEGMENTS - 2) {
            one(guard, &Batch { width, ..batch.clone() }, tally)?;
            count(asked, true);
        }
        for length in 0..=2 * own.handle_bytes() {
            let (handles, numbers) = (bytes(random, length), bytes(random, 3));
            one(guard, &Batch { width: own.segments(), handles, numbers, ..batch.clone() }, tally)?;
            count(asked, true);
        }
        Ok(())
    });
    compared.map(|(batches, _)| batches)
}

fn one(guard: BatchGuard, batch: &Batch, tally: &mut Tally) -> Result<(), String> {
    let (mut held, mut found, width) = (batch.held.clone(), batch.numbers.clone(), batch.width);
    let count = guard(&mut held, batch.mode, width, &batch.handles, &mut found);
    let expected_count = batch.expected_count();
    if count != expected_count {
        return Err(format!("{count} numbers are told for width {width}, {expected_count} are due"));
    }
    let mut expected = batch.numbers.clone();
    for (number, bytes) in expected.iter_mut().zip(batch.whole()) {
        *number = validated_alone(batch, bytes, tally)?;
    }
    same_bytes("numbers of a batch", &expected, &found).map_err(|what| format!("width {width}, {what}"))?;
    same_bytes("image after a batch", &batch.held.image, &held.image)?;
    same_bytes("memory after a batch", &batch.held.memory, &held.memory)
}

/// The number on which the library's single validation and the model agree.
fn validated_alone(batch: &Batch, bytes: &[u8], tally: &mut Tally) -> Result<u8, String> {
    let call = Call::validate(narrow(batch.mode), bytes.to_vec());
    let question = Question { beyond: batch.mode, ..Question::of(call) };
    let answer = ask(&guard::ask, &mut Sides::both(batch.held.clone()), &question)?;
    tally.met.note_all(widths::met(BATCH, &batch.held, &question, &answer));
    Ok(answer.reply.number)
}

fn by_chance(random: &mut Random, damage: Option<Damage>, tally: &mut Tally) -> Batch {
    let fill = Fill::by_chance(random);
    let store = stores::store(random, fill);
    let mut held = stores::held(random, &store);
    if let Some(damage) = damage {
        let place = if random.one_in(2) { LAST_PLACE } else { (below(random, NODES), below(random, CLUSTERS)) };
        inflict(random, &mut held, damage, place);
        tally.met.note_all(damages::met(BATCH, damage, Where::seen_from(None, place)));
    }
    let count = below(random, MOST_HANDLES + 1);
    let places = match random.below(4) {
        0 => below(random, count + 1),
        1 => count + 1 + below(random, MOST_HANDLES),
        _ => count,
    };
    let width = width(random);
    Batch {
        held,
        mode: mode(random),
        width: asked_width(random, width),
        handles: handles(random, &store, width, count),
        numbers: bytes(random, places),
    }
}

fn mode(random: &mut Random) -> usize {
    let mode = if random.one_in(2) { READ_MODE as usize } else { WRITE_MODE as usize };
    match random.below(16) {
        0 => random.byte().into(),
        // Right in the lowest byte, the lowest two, or the lowest four, alone.
        1 => mode + (1 << 8),
        2 => mode + (1 << 16),
        3 => mode + (1 << (32 + random.below(32))),
        _ => mode,
    }
}

/// The handles' own, and sometimes another or none.
fn asked_width(random: &mut Random, own: Width) -> usize {
    let right = own.segments();
    match random.below(16) {
        0 => below(random, SEGMENTS + 5),
        1 => right + (1 << 8),
        2 => right + (1 << 16),
        3 => right + (1 << (32 + random.below(32))),
        4 => width(random).segments(),
        _ => right,
    }
}

/// The handles one after the other, all of this width, and often some bytes of one more.
fn handles(random: &mut Random, store: &Store, width: Width, count: usize) -> Vec<u8> {
    let mut joined = Vec::new();
    for _ in 0..count {
        let wish = Wish {
            mode: if random.one_in(2) { Mode::Read } else { Mode::Write },
            primary: false,
            segments: random.one_in(2),
            width: Some(width).filter(|_| !random.one_in(8)),
        };
        let handle = handle(random, store, &[], wish);
        joined.extend(if handle.width() == width { handle } else { at_width(&handle, width) }.to_bytes());
    }
    let more = below(random, width.handle_bytes());
    joined.extend(bytes(random, more));
    joined
}
