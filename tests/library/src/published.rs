//! The published handles, registers and cuts, each line confirmed through the library, on a store made for it where one
//! is needed.

use crate::words::*;
use model::hexadecimal::decode;
use model::register::{Finding, Inquiry, WIDTH};
use std::collections::HashMap;

/// What `docs/vectors/README.md` explains.
pub const TEXT: &str = include_str!("../../../docs/vectors/handles.txt");
pub const REGISTERS: &str = include_str!("../../../docs/vectors/registers.txt");
pub const CUTS: &str = include_str!("../../../docs/vectors/cuts.txt");
/// What buffers hold before, and so what stays.
const LEFT: u8 = 0xa5;
/// The masks of each way, and what they give.
const WAYS: [&[(&str, &str)]; 3] = [
    &[("first", "after-first"), ("second", "first-second")],
    &[("second", "after-second"), ("first", "second-first")],
    &[("shared", "once")],
];

/// Gives how many lines were confirmed.
pub fn confirm(text: &str) -> Result<usize, String> {
    let mut confirmed = 0;
    for text in text.lines().filter(|line| !line.is_empty() && !line.starts_with('#')) {
        match Line::read(text).and_then(|line| line.holds()) {
            Some(true) => confirmed += 1,
            Some(false) => return Err(format!("the library does not confirm: {text}")),
            None => return Err(format!("not a published line: {text}")),
        }
    }
    Ok(confirmed)
}

struct Line<'a> {
    kind: &'a str,
    values: HashMap<&'a str, &'a str>,
}

impl<'a> Line<'a> {
    fn read(text: &'a str) -> Option<Line<'a>> {
        let (kind, pairs) = text.split_once(' ')?;
        let pairs = pairs.split(' ').map(|pair| pair.split_once('='));
        let values = pairs.collect::<Option<HashMap<&str, &str>>>()?;
        Some(Line { kind, values })
    }

    /// Whether the library says the same; `None` where the line says nothing that could be asked.
    fn holds(&self) -> Option<bool> {
        Some(match self.kind {
            "conversion" => {
                guard::convert(&self.password("password")?, self.bits("parameter")?) == self.password("outcome")?
            }
            "primary" => self.is_made()? && self.counts("handle")? && self.validates("handle")?,
            "weakened" => {
                let given = Reply { count: self.number("count")?.into(), ..self.giving("new")? };
                self.weakening()? == given && self.validates("old")? && self.validates("new")?
            }
            "reduced" => {
                let call = Call::reduce(self.mode()?, self.handle("old")?);
                self.asked(&["old"], call)? == self.giving("new")? && self.counts("new")? && self.validates("new")?
            }
            "joined" => {
                let given = self.joining(self.giving("new")?)? && self.both_validate()?;
                given && self.counts("new")? && self.validates("new")?
            }
            "cuts" => self.validates("old")? && self.three_ways()?,
            "validation" => self.validation("handle")? == self.number("number")?,
            "register" => self.looked_up(Finding::done(0), &self.handle("handles")?)?,
            "openers" => self.looked_up(Finding::done(self.wide("count")?), &self.handle("openers")?)?,
            "refused" => self.looked_up(Finding::refused(self.number("number")?, self.wide("entry")?), &[])?,
            _ => self.is_refused()?,
        })
    }

    /// The handle is what making the cluster gives for the mode.
    fn is_made(&self) -> Option<bool> {
        let handle = self.handle("handle")?;
        let Cluster { width, read, write, .. } = self.cluster(&handle)?;
        let (node, local) = (self.bits("node")?.into(), self.bits("local")?.into());
        let made = self.asked(&[], Call::NewCluster { node, local, width: width.into(), read, write })?;
        let given = if self.mode()? == READ_MODE { made.first } else { made.second };
        Some(made.number == DONE && given == handle)
    }

    /// A weakening or a join that is refused: the line's kind is the number's word. Both handles of a join validate,
    /// unless it is for the length of one.
    fn is_refused(&self) -> Option<bool> {
        let number = (UNSOUND..=LENGTH).find(|number| word(*number) == Some(self.kind))?;
        let reply = Reply::refused(number);
        let refused = match self.values.contains_key("old") {
            true => self.weakening()? == reply,
            false => self.joining(reply)? && self.both_validate()? == (number != LENGTH),
        };
        Some(refused && self.number("number")? == number)
    }

    /// The single cut is by what both masks share; every weakening gives the handle that the line has, or is refused with
    /// its number, after which the way has no other; and each way that is done has the line's reduction.
    fn three_ways(&self) -> Option<bool> {
        let width = Width::of_handle_bytes(self.handle("old")?.len())?;
        let apart = self.bits("first")? & self.bits("second")? ^ self.bits("shared")?;
        let mut holds = apart & width.flat() == 0;
        let mut done = 0;
        for way in WAYS {
            let mut old = "old";
            for (mask, new) in way {
                let reply = match self.refusal(old) {
                    Some(number) => Reply::refused(number),
                    None => self.asked(&[], Call::weaken(self.bits(mask)?, self.handle(old)?))?,
                };
                let given = || Some(Reply { count: reply.count, ..self.giving(new)? });
                holds &= reply == self.refusal(new).map(Reply::refused).or_else(given)?;
                old = new;
            }
            if self.refusal(old).is_none() {
                holds &= self.is_reduced(old)?;
                done += 1;
            }
        }
        let told = ["reduced", "count"].map(|key| self.values.contains_key(key));
        Some(holds && told == [done > 0; 2])
    }

    /// The handle validates, references as many segments as the line says, and has the line's reduction.
    fn is_reduced(&self, key: &str) -> Option<bool> {
        let call = Call::reduce(self.mode()?, self.handle(key)?);
        Some(self.validates(key)? && self.counts(key)? && self.asked(&[key], call)? == self.giving("reduced")?)
    }

    /// The number that stands in the place of a handle.
    fn refusal(&self, key: &str) -> Option<u8> {
        self.values.get(key).filter(|value| value.len() <= 2)?.parse().ok()
    }

    /// Whether the question about a register finds this, and the buffer begins with these bytes and stays behind them.
    /// A refusal that tells neither a segment nor a buffer is that of both questions, whatever the segment.
    fn looked_up(&self, finding: Finding, begin: &[u8]) -> Option<bool> {
        let has = |key: &str| self.values.contains_key(key);
        let of_both = self.kind == "refused" && !has("segment") && !has("buffer");
        let others = (0..WIDTH.segments()).filter(|_| of_both).map(Some);
        let named = if has("segment") { Some(self.wide("segment")?) } else { None };
        for segment in others.chain([named]) {
            let inquiry = Inquiry { handle: self.handle("handle")?, segment, entries: self.handle("entries")? };
            let room = if has("buffer") { self.wide("buffer")? } else { inquiry.needed() };
            let mut buffer = vec![LEFT; room];
            let found = guard::look_up(&inquiry, &mut buffer);
            let stays = buffer.get(begin.len()..)?.iter().all(|byte| *byte == LEFT);
            if found != finding || !buffer.starts_with(begin) || !stays {
                return Some(false);
            }
        }
        Some(true)
    }

    fn weakening(&self) -> Option<Reply> {
        self.asked(&[], Call::weaken(self.bits("mask")?, self.handle("old")?))
    }

    /// Whether joining the two is replied to in this way, in either order.
    fn joining(&self, reply: Reply) -> Option<bool> {
        let join = |handle: &str, other: &str| {
            self.asked(&["one", "two"], Call::join(self.mode()?, self.handle(handle)?, self.handle(other)?))
        };
        Some(join("one", "two")? == reply && join("two", "one")? == reply)
    }

    fn both_validate(&self) -> Option<bool> {
        Some(self.validates("one")? && self.validates("two")?)
    }

    fn validates(&self, key: &str) -> Option<bool> {
        Some(self.validation(key)? == DONE)
    }

    /// The number that validating in the line's mode gives.
    fn validation(&self, key: &str) -> Option<u8> {
        Some(self.asked(&[key], Call::validate(self.mode()?, self.handle(key)?))?.number)
    }

    /// Whether the handle references as many segments as the line says: a mask that excludes
    /// nothing makes weakening tell it.
    fn counts(&self, key: &str) -> Option<bool> {
        let reply = self.asked(&[], Call::weaken(u16::MAX, self.handle(key)?))?;
        Some(reply == Reply { count: self.number("count")?.into(), ..self.giving(key)? })
    }

    /// What the library replies where the clusters of these handles are active and have the line's primary password.
    fn asked(&self, handles: &[&str], call: Call) -> Option<Reply> {
        let mut store = Store::starting();
        for key in handles {
            let handle = self.handle(key)?;
            let (node, local) = name(&handle);
            *store.clusters.get_mut(node)?.get_mut(local)? = self.cluster(&handle)?;
        }
        let mut held = Held { image: encode(&store), memory: [0; MEMORY_BYTES] };
        Some(guard::ask(&mut held, &Question::of(call)).reply)
    }

    /// Active, of the line's width or else of the handle's, with the line's primary password for its mode and another
    /// one for the other mode.
    fn cluster(&self, handle: &HandleBytes) -> Option<Cluster> {
        let primary = self.password("primary")?;
        let other = primary.map(|byte| !byte);
        let (read, write) = if self.mode()? == READ_MODE { (primary, other) } else { (other, primary) };
        let width = match self.values.contains_key("width") {
            true => Width::of_segments(self.number("width")?.into())?,
            false => Width::of_handle_bytes(handle.len())?,
        };
        Some(Cluster::new(width, read, write))
    }

    fn mode(&self) -> Option<u32> {
        match *self.values.get("mode")? {
            "read" => Some(READ_MODE),
            "write" => Some(WRITE_MODE),
            _ => None,
        }
    }

    fn password(&self, key: &str) -> Option<Password> {
        decode(self.values.get(key)?)?.try_into().ok()
    }

    /// The bytes of a handle, be they as many as one has or not.
    fn handle(&self, key: &str) -> Option<HandleBytes> {
        decode(self.values.get(key)?)
    }

    fn giving(&self, key: &str) -> Option<Reply> {
        Some(Reply { first: self.handle(key)?, ..Reply::DONE })
    }

    /// A mask, a parameter or a name, of two digits or of four.
    fn bits(&self, key: &str) -> Option<u16> {
        u16::from_str_radix(self.values.get(key)?, 16).ok()
    }

    fn number(&self, key: &str) -> Option<u8> {
        self.values.get(key)?.parse().ok()
    }

    fn wide(&self, key: &str) -> Option<usize> {
        self.values.get(key)?.parse().ok()
    }
}

/// Node and local number, where there are bytes for them, and else zeros.
fn name(handle: &HandleBytes) -> (usize, usize) {
    let byte = |at: usize| usize::from(handle.get(at).copied().unwrap_or(0));
    (byte(0) << 8 | byte(1), byte(2))
}
