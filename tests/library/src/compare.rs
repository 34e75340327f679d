//! One question put to the library and to the model, and everything that has to be equal then.

use crate::words::*;
use model::model::run;

/// Something that answers questions; [`crate::guard::ask`] is the one to be compared.
pub type Guard<'a> = &'a dyn Fn(&mut Held, &Question) -> Answer;

/// What the guard and the model work on, each on its own.
#[derive(Clone)]
pub struct Sides {
    pub guard: Held,
    pub model: Held,
}

impl Sides {
    pub fn both(held: Held) -> Sides {
        Sides { guard: held.clone(), model: held }
    }
}

/// The model's answer. The model has no store for a damaged image: every call that looks at the
/// store is refused with 1 then, or with what comes before it.
pub fn by_model(held: &mut Held, question: &Question) -> Answer {
    let mut buffer = question.buffer.clone();
    let (image, memory) = (&mut held.image, &mut held.memory);
    let needs_no_store = matches!(question.call, Call::Weaken { .. });
    let reply = match decode(image) {
        None if needs_no_store => run(&mut Store::starting(), memory, &mut buffer, &question.call),
        None => {
            let found = Found { store: &Store::starting(), memory_bytes: 0, buffer_bytes: 0 };
            Reply::refused(refusal_above(UNSOUND, &question.call, &found).unwrap_or(UNSOUND))
        }
        Some(mut store) => {
            let reply = run(&mut store, memory, &mut buffer, &question.call);
            *image = encode(&store);
            reply
        }
    };
    Answer { reply, buffer }
}

/// Whether the model holds the store for sound; a damaged image has no sound store.
pub fn is_sound(held: &Held) -> bool {
    decode(&held.image).is_some_and(|store| store.is_sound(held.memory.len()))
}

/// Puts the question to both. Gives their answer, or tells in what they differ.
pub fn ask(guard: Guard, sides: &mut Sides, question: &Question) -> Result<Answer, String> {
    let before = sides.guard.clone();
    let expected = by_model(&mut sides.model, question);
    let found = guard(&mut sides.guard, question);
    let compared = changes_nothing_where_due(&before, question, &sides.guard, &found)
        .and_then(|()| same_answer(&expected, &found))
        .and_then(|()| same_shown([(&expected, &sides.model), (&found, &sides.guard)]))
        .and_then(|()| same_held(&sides.model, &sides.guard));
    match compared {
        Ok(()) => Ok(found),
        Err(what) => Err(format!("{what}\n  asked:   {question}\n  model:   {expected}\n  library: {found}")),
    }
}

/// The same reply and the same bytes in the buffer.
pub fn same_answer(expected: &Answer, found: &Answer) -> Result<(), String> {
    if expected.reply != found.reply {
        return Err("the replies differ".to_string());
    }
    same_bytes("the buffers", &expected.buffer, &found.buffer)
}

/// The same bytes shown, each in the memory that the one who answered was lent.
pub fn same_shown(both: [(&Answer, &Held); 2]) -> Result<(), String> {
    let [Some(expected), Some(found)] = both.map(|(answer, held)| answer.shown(held)) else {
        return Err("a part is shown that is not one of the memory".to_string());
    };
    same_bytes("the bytes shown", expected, found)
}

fn same_held(expected: &Held, found: &Held) -> Result<(), String> {
    same_bytes("the images", &expected.image, &found.image)?;
    same_bytes("the memories", &expected.memory, &found.memory)
}

/// What holds of refusals, and of looks and joins whatever comes of them. Judged on the library's side alone,
/// so that it does not hang on the model.
fn changes_nothing_where_due(before: &Held, question: &Question, after: &Held, found: &Answer) -> Result<(), String> {
    let kind = match (found.reply.is_done(), &question.call) {
        (false, _) => "a refusal",
        (true, Call::Look { .. }) => "a look",
        (true, Call::Join { .. }) => "a join",
        _ => return Ok(()),
    };
    if !found.reply.is_done() && found.reply != Reply::refused(found.reply.number) {
        return Err("a refusal gives more than its number".to_string());
    }
    same_held(before, after)
        .and_then(|()| same_bytes("the buffers", &question.buffer, &found.buffer))
        .map_err(|what| format!("{kind} changes something: {what}"))
}

/// `Err` tells the first place at which the two differ.
pub fn same_bytes(what: &str, expected: &[u8], found: &[u8]) -> Result<(), String> {
    if expected == found {
        return Ok(());
    }
    match expected.iter().zip(found).position(|(expected, found)| expected != found) {
        Some(at) => Err(format!("{what} differ at byte {at}: {} and {}", expected[at], found[at])),
        None => Err(format!("{what} differ in length: {} and {}", expected.len(), found.len())),
    }
}
