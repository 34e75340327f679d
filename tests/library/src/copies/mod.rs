//! Two copies of a store that differ in the secrets of one cluster, of whatever width: whoever has no handle of that
//! cluster gets the same from both.

mod count;

use crate::pairs::{ask_both, parts_of, set_apart, validates, Pair};
use crate::words::*;
pub use count::met;
use std::ops::Range;

/// Calls of one list.
pub const LIST_CALLS: u64 = 100;

pub fn compare(guard: Guard, seed: u64, pairs: u64) -> Result<Met, String> {
    let mut met = met();
    cases(seed, pairs, |random| one(guard, random, &mut met))?;
    Ok(met)
}

fn one(guard: Guard, random: &mut Random, met: &mut Met) -> Result<(), String> {
    let mut pair = by_chance(random);
    let stores = pair.stores()?;
    count::note_pair(met, &pair, &stores);
    let own = parts_of(&stores[0], pair.apart);
    let start = pair.copies.clone();
    let mut given = Vec::new();
    for at in 1..=LIST_CALLS {
        let stores = pair.stores()?;
        let question = pair.question(random, &stores, &given);
        let answer = ask_both(guard, &mut pair.copies, &question, |_| Ok(()))
            .map_err(|what| format!("call {at} of the list: {what}"))?;
        count::note(met, &pair, &stores, &question, &answer);
        given.extend(answer.handles(&question));
    }
    pair.agree(&own)?;
    pair.kept_apart(&own, &start)
}

fn by_chance(random: &mut Random) -> Pair {
    let mut store = stores::store(random, Fill::Partial);
    let apart = set_apart(random, &store);
    let first = stores::held(random, &store);
    let cluster = &mut store.clusters[apart.0][apart.1];
    (cluster.read, cluster.write) = passwords(random);
    let mut second = first.with(&store);
    for part in parts_of(&store, apart) {
        fill(random, &mut second.memory[part]);
    }
    Pair { copies: [first, second], apart }
}

impl Pair {
    /// A question that a list of calls may have: each handle of the cluster set apart that it
    /// presents validates in neither mode and in neither copy. Weakening may present any.
    fn question(&self, random: &mut Random, stores: &[Store; 2], given: &[Handle]) -> Question {
        loop {
            let store = &stores[below(random, stores.len())];
            let mut question = Maker { random, store, given }.question(&FILLING);
            if random.one_in(4) {
                self.aim(random, store, &mut question);
            }
            let weakening = matches!(question.call, Call::Weaken { .. });
            let opens = |handle: Handle| self.is_apart(&handle) && validates(stores, &handle, &Mode::ALL);
            if weakening || !question.call.presented().any(opens) {
                return question;
            }
        }
    }

    /// Makes the question name the cluster set apart, mostly with a password that does not open it, sometimes with one
    /// that does and at another width. Of two handles mostly both name it, and else one of them.
    fn aim(&self, random: &mut Random, store: &Store, question: &mut Question) {
        let cluster = self.cluster(store);
        let mut aimed = question.call.presented_mut();
        if aimed.len() > 1 && random.one_in(3) {
            aimed.remove(below(random, 2));
        }
        // As wide as the cluster, as a rule, so that nothing but passwords speaks against it.
        let wide = if random.one_in(4) { width(random) } else { cluster.known_width().expect("it is active") };
        for bytes in aimed {
            change_handle(bytes, |handle| {
                handle.node = self.apart.0 as u16;
                handle.local = self.apart.1 as u8;
                if handle.width() != wide {
                    *handle = at_width(handle, wide);
                }
                self.guess(random, cluster, handle);
            });
        }
        let local = (&mut question.call, random.one_in(4));
        if let (Call::Look { node, .. } | Call::Freeze { node, .. }, false) = local {
            *node = self.apart.0 as u32;
        }
    }

    /// Often gives the handle another password; one that opens the cluster where it is of another width.
    fn guess(&self, random: &mut Random, cluster: &Cluster, handle: &mut Handle) {
        let near = |password: Password| std::array::from_fn(|at| password[at] ^ u8::from(at == 0));
        let choices = [password(random), near(cluster.read), near(cluster.write), cluster.read];
        if !cluster.has_width(handle.width()) {
            handle.password = derive(&[cluster.read, cluster.write][below(random, 2)], &handle.selector);
        } else if random.one_in(2) {
            handle.password = choices[below(random, choices.len())];
        }
    }

    /// Whether the call names the cluster set apart and is refused with 9, and would be done by handles that open the
    /// cluster.
    fn kept_by_the_passwords(&self, question: &Question, answer: &Answer) -> bool {
        let [copy, _] = &self.copies;
        let (Some(store), VIOLATED_PROTECTION) = (decode(&copy.image), answer.reply.number) else { return false };
        let Some(mode) = question.call.needed_mode().filter(|_| self.names_apart(&question.call)) else { return false };
        let primary = self.cluster(&store).primary(mode);
        let opening = question.with_handles(|handle| handle.password = derive(primary, &handle.selector));
        by_model(&mut copy.clone(), &opening).reply.is_done()
    }

    /// Everything but the secrets of the cluster set apart is equal in both copies.
    fn agree(&self, own: &[Range<usize>]) -> Result<(), String> {
        let [first, second] = self.copies.each_ref().map(|copy| {
            let mut others = copy.clone();
            others.image[passwords_at(self.apart.0, self.apart.1)].fill(0);
            own.iter().for_each(|part| others.memory[part.clone()].fill(0));
            others
        });
        same_bytes("images of the copies", &first.image, &second.image)?;
        same_bytes("memories of the copies", &first.memory, &second.memory)
    }

    /// The cluster set apart is in each copy what it was at the start.
    fn kept_apart(&self, own: &[Range<usize>], start: &[Held; 2]) -> Result<(), String> {
        let record = record_at(self.apart.0, self.apart.1);
        for (before, after) in start.iter().zip(&self.copies) {
            same_bytes("records set apart", &before.image[record.clone()], &after.image[record.clone()])?;
            for part in own {
                same_bytes("segments set apart", &before.memory[part.clone()], &after.memory[part.clone()])?;
            }
        }
        Ok(())
    }
}
