//! Single calls on sound and on damaged stores, with soundness and conversion beside them.

use crate::damages::{self, Where};
use crate::words::*;

pub fn compare(guard: Guard, seed: u64, calls: u64, tally: &mut Tally) -> Result<(), String> {
    cases(seed, calls, |random| one(guard, random, tally))
}

fn one(guard: Guard, random: &mut Random, tally: &mut Tally) -> Result<(), String> {
    let fill = Fill::by_chance(random);
    tally.met.note(format_args!("store {fill:?}"));
    let store = stores::store(random, fill);
    let mut held = stores::held(random, &store);
    let question = Maker { random, store: &store, given: &[] }.question(&EVENLY);
    let damaged = random.one_in(4);
    if damaged {
        let (damage, place) = damage(random, &mut held, &question);
        tally.met.note_all(damages::met(question.code(), damage, place));
        if is_sound(&held) {
            return Err(format!("{damage:?} does no damage"));
        }
    }
    same_soundness(&mut held)?;
    same_conversion(random)?;
    let answer = ask(guard, &mut Sides::both(held.clone()), &question)?;
    tally.note(&question, &answer);
    tally.note_held(&held, &question, &answer);
    if damaged {
        tally.note_beside_damage(&question, &answer);
    }
    Ok(())
}

/// Damages the store in any way: in the call's record or node, in the last record, or anywhere.
fn damage(random: &mut Random, held: &mut Held, question: &Question) -> (Damage, Where) {
    let damage = Damage::ALL[below(random, Damage::ALL.len())];
    let own = question.place().filter(|&(node, local)| node < NODES && local < CLUSTERS);
    let place = match (random.below(4), own) {
        (0, Some(own)) => own,
        (1, Some((node, _))) => (node, below(random, CLUSTERS)),
        (2, _) => LAST_PLACE,
        _ => (below(random, NODES), below(random, CLUSTERS)),
    };
    inflict(random, held, damage, place);
    (damage, Where::seen_from(own, place))
}

fn same_soundness(held: &mut Held) -> Result<(), String> {
    let expected = is_sound(held);
    let before = held.image;
    let found = guard::is_sound(&mut held.image);
    if found != expected {
        return Err(format!("sound is {expected} in the model, {found} in the library"));
    }
    same_bytes("images before and after asking for soundness", &before, &held.image)
}

fn same_conversion(random: &mut Random) -> Result<(), String> {
    let parameter = if random.one_in(2) { random.byte().into() } else { random.number() as u16 };
    let password = password(random);
    same_bytes("conversions", &convert(&password, parameter), &guard::convert(&password, parameter))
        .map_err(|what| format!("{password:?} with {parameter}: {what}"))
}
