//! What the reply to a new password does not tell, judged by the library's side alone: two images that differ in one
//! cluster's password for the other mode get the same reply, and are left differing in that password alone.

use crate::pairs::ask_both;
use crate::words::*;

const OLD: &str = "one refused with 12 (old password)";

/// Done with the other mode's password in one of the images; done in a pair of which one image has equal passwords.
fn guessed(mode: Mode) -> String {
    format!("the {:?} password taken for the other mode", mode.other())
}

fn equal(mode: Mode) -> String {
    format!("{mode:?}, the two equal in one image")
}

fn of_width(width: Width) -> String {
    format!("width {}", width.segments())
}

pub fn met() -> Met {
    let modes = Mode::ALL.into_iter().flat_map(|mode| [guessed(mode), equal(mode)]);
    Met::new("new passwords in two images", modes.chain(Width::ALL.map(of_width)).chain([OLD.to_string()]))
}

/// Two images, and a cluster whose password for the other mode than this one is all that they differ in.
struct Pair {
    images: [Held; 2],
    place: (usize, usize),
    width: Width,
    mode: Mode,
    own: Password,
    others: [Password; 2],
}

pub fn compare(guard: Guard, seed: u64, pairs: u64) -> Result<Met, String> {
    let mut met = met();
    cases(seed, pairs, |random| one(guard, random, &mut met))?;
    Ok(met)
}

/// Four new passwords, each put to the pair as it is: the mode's own, the other mode's in either image, and any.
fn one(guard: Guard, random: &mut Random, met: &mut Met) -> Result<(), String> {
    let fill = Fill::by_chance(random);
    let mut store = stores::store(random, fill);
    let pair = by_chance(random, &mut store);
    let handle = pair.handle(random, &store);
    let [first, second] = pair.others;
    for password in [pair.own, first, second, password(random)] {
        let call = Call::new_password(pair.mode.number(), handle.clone(), password);
        let agree = |after: &[Held; 2]| pair.agree(after);
        let number = ask_both(guard, &mut pair.images.clone(), &Question::of(call), agree)?.reply.number;
        let done = number == DONE;
        met.note_if(number == OLD_PASSWORD, OLD);
        met.note_if(done && pair.others.contains(&password), guessed(pair.mode));
        met.note_if(done && pair.others.contains(&pair.own), equal(pair.mode));
        met.note_if(done, of_width(pair.width));
    }
    Ok(())
}

fn by_chance(random: &mut Random, store: &mut Store) -> Pair {
    let chosen = handles::place(random, store, |cluster| cluster.active);
    let place = chosen.unwrap_or((below(random, NODES), below(random, CLUSTERS)));
    let cluster = &mut store.clusters[place.0][place.1];
    if !cluster.active {
        *cluster = active(random);
    }
    let mode = Mode::ALL[below(random, Mode::ALL.len())];
    let own = *cluster.primary(mode);
    let width = cluster.known_width().expect("it is active");
    let mut others = [password(random), password(random)];
    if random.one_in(3) {
        others[below(random, 2)] = own;
    }
    while others[0] == others[1] {
        others[1] = password(random);
    }
    let first = stores::held(random, store);
    let images = others.map(|other| {
        let cluster = &mut store.clusters[place.0][place.1];
        *cluster.primary_mut(mode.other()) = other;
        first.with(store)
    });
    Pair { images, place, width, mode, own, others }
}

impl Pair {
    /// Mostly the mode's primary handle; else a weaker one, one of the other mode in either image, or any.
    fn handle(&self, random: &mut Random, store: &Store) -> HandleBytes {
        let primary = handles::primary(store, self.place, self.mode);
        let handle = match random.below(8) {
            0 => primary.weaken(bits(random, primary.width())).unwrap_or(primary),
            1 => Handle { password: self.others[below(random, 2)], ..primary },
            2 => {
                let wish = Wish { mode: self.mode, primary: true, segments: true, width: None };
                handles::handle(random, store, &[], wish)
            }
            3 => return handles::presented(random, &primary),
            _ => primary,
        };
        handle.to_bytes()
    }

    /// Each image has the other mode's password that it had, and but for that the two are equal.
    fn agree(&self, after: &[Held; 2]) -> Result<(), String> {
        let other = password_at(self.place.0, self.place.1, self.mode.other());
        let mut images = after.each_ref().map(|held| held.image);
        for (image, before) in images.iter_mut().zip(&self.others) {
            let found = &mut image[other.clone()];
            same_bytes("the other mode's passwords", before, found)?;
            found.fill(0);
        }
        let [first, second] = after;
        same_bytes("the two images", &images[0], &images[1])?;
        same_bytes("the two memories", &first.memory, &second.memory)
    }
}
