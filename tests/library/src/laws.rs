//! What holds of joins whatever they join, judged by the library's side alone.

use crate::words::*;

/// Gives how many joins were done.
pub fn compare(guard: Guard, seed: u64, joins: u64) -> Result<u64, String> {
    let mut done = 0;
    cases(seed, joins, |random| {
        done += u64::from(one(guard, random)?);
        Ok(())
    })?;
    Ok(done)
}

/// Tells whether the join is done.
fn one(guard: Guard, random: &mut Random) -> Result<bool, String> {
    let fill = Fill::by_chance(random);
    let store = stores::store(random, fill);
    let held = stores::held(random, &store);
    let question = Maker { random, store: &store, given: &[] }.question(&[JOIN]);
    let Call::Join { mode, handle, other } = question.call.clone() else {
        return Err("another call was made".to_string());
    };
    let join = Join { guard, held, question, mode };
    let answer = join.asked(&handle, &other);
    join.holds(&answer, &handle, &other)
        .map_err(|what| format!("{what}\n  asked:   {}\n  library: {answer}", join.question))?;
    Ok(answer.reply.is_done())
}

/// A join, and what it is put to.
struct Join<'a> {
    guard: Guard<'a>,
    held: Held,
    question: Question,
    mode: u32,
}

impl Join<'_> {
    /// What the library replies to a call with the numbers of this one; it works on its own copy.
    fn call(&self, call: Call) -> Answer {
        (self.guard)(&mut self.held.clone(), &Question { call, ..self.question.clone() })
    }

    fn asked(&self, handle: &HandleBytes, other: &HandleBytes) -> Answer {
        self.call(Call::join(self.mode, handle.clone(), other.clone()))
    }

    fn reduced(&self, handle: &HandleBytes) -> Reply {
        self.call(Call::reduce(self.mode, handle.clone())).reply
    }

    fn holds(&self, answer: &Answer, one: &HandleBytes, other: &HandleBytes) -> Result<(), String> {
        let told = |holds: bool, what: &str| if holds { Ok(()) } else { Err(what.to_string()) };
        told(self.asked(other, one) == *answer, "a join hangs on which handle comes first")?;
        let read = [one, other].map(|bytes| Handle::from_bytes(bytes));
        for (bytes, handle) in [one, other].into_iter().zip(&read) {
            let primary = handle.is_some_and(|handle| handle.selector.is_primary());
            let reduced = self.asked(bytes, bytes).reply == self.reduced(bytes);
            told(reduced || primary, "a handle with itself does not give its reduction")?;
        }
        if !answer.reply.is_done() {
            return Ok(());
        }
        let given = &answer.reply.first;
        let [Some(first), Some(second)] = read else { return told(false, "bytes are joined that are no handle") };
        told(given.len() == one.len() && given.len() == other.len(), "what is given has another width")?;
        let again = Reply { first: given.clone(), ..Reply::DONE };
        told(self.reduced(given) == again, "what is given is not valid, or not in the form of a reduced handle")?;
        for handle in [one, other] {
            told(self.asked(given, handle).reply == again, "what was joined is not in what is given")?;
        }
        let primary = Handle::from_bytes(given).is_some_and(|given| given.selector.is_primary());
        told(!primary && self.counts(given, first.union(&second)), "what is given references other segments")
    }

    /// Whether weakening tells so many segments, and takes none of these away. It gives no handle to nothing.
    fn counts(&self, handle: &HandleBytes, segments: u16) -> bool {
        let count = |mask| self.call(Call::weaken(mask, handle.clone())).reply.count;
        count(u16::MAX) == segments.count_ones() && count(segments) == segments.count_ones()
    }
}
