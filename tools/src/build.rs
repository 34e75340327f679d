//! The list for a text. Its calls are tried in the order of the chain, because a handle that one of
//! them gives may stand in the next.

use crate::entry::Entry;
use crate::made::Made;
use crate::text::Text;
use crate::tokens::Mistake;
use crate::values::{HandleBytes, HandleText};
use model::call::Reply;
use model::handle::Handle;
use model::list::{Record, Session, HANDLE_BYTES, NEXT_AT};
use model::table::word;
use std::collections::HashMap;

/// The list, or the first mistake met on the way.
pub fn build(text: &Text) -> Result<Vec<u8>, Mistake> {
    let mut builder = Builder::of(text);
    builder.run_chain()?;
    builder.fill_others()?;
    let mut list = builder.records.concat();
    list.extend(&text.tail);
    Ok(list)
}

struct Builder<'a> {
    text: &'a Text,
    records: Vec<Record>,
    /// Which records the chain has met.
    met: Vec<bool>,
    session: Session,
    given: HashMap<&'a str, HandleBytes>,
}

impl<'a> Builder<'a> {
    fn of(text: &'a Text) -> Builder<'a> {
        Builder {
            text,
            records: linked(&text.entries),
            met: vec![false; text.entries.len()],
            session: Session::starting(),
            given: HashMap::new(),
        }
    }

    /// Tries the calls from record 1 on, until the chain ends, leaves the list or comes again.
    fn run_chain(&mut self) -> Result<(), Mistake> {
        let mut at = 0;
        while at < self.records.len() && !self.met[at] {
            self.met[at] = true;
            self.put_handles(at)?;
            let reply = self.session.run(&self.records[at]);
            check(&self.text.entries[at], &reply)?;
            self.name_given(at, &reply);
            match self.records[at][NEXT_AT] {
                0 => break,
                next => at = usize::from(next) - 1,
            }
        }
        Ok(())
    }

    /// The handles of records that the chain does not meet.
    fn fill_others(&mut self) -> Result<(), Mistake> {
        for at in 0..self.records.len() {
            if !self.met[at] {
                let entry = &self.text.entries[at];
                if entry.expect.is_some() || !entry.gives.is_empty() {
                    let what = "the chain does not come to this record, so it gives nothing";
                    return Err(mistake(entry, what));
                }
                self.put_handles(at)?;
            }
        }
        Ok(())
    }

    fn put_handles(&mut self, at: usize) -> Result<(), Mistake> {
        let entry = &self.text.entries[at];
        for (place, handle) in &entry.handles {
            let bytes = self.find(handle).ok_or_else(|| unknown(entry, handle))?;
            self.records[at][*place..*place + HANDLE_BYTES].copy_from_slice(&bytes);
        }
        Ok(())
    }

    fn find(&self, handle: &HandleText) -> Option<HandleBytes> {
        match handle {
            HandleText::Bytes(bytes) => Some(*bytes),
            HandleText::Name(name) => match self.given.get(name.as_str()) {
                Some(bytes) => Some(*bytes),
                None => self.find_made(self.text.made.get(name)?),
            },
        }
    }

    fn find_made(&self, made: &Made) -> Option<HandleBytes> {
        let base = match made.base() {
            Some(base) => Handle::from_bytes(&self.find(base)?)?,
            None => Made::nothing(),
        };
        made.apply(base).to_bytes().try_into().ok()
    }

    fn name_given(&mut self, at: usize, reply: &Reply) {
        let names = self.text.entries[at].gives.iter();
        for (name, handle) in names.zip([&reply.first, &reply.second]) {
            if let (Some(name), Ok(handle)) = (name, handle.as_slice().try_into()) {
                self.given.insert(name, handle);
            }
        }
    }
}

/// The records with their links: the following one, and 0 in the last.
fn linked(entries: &[Entry]) -> Vec<Record> {
    let following = |at: usize| {
        if at + 1 < entries.len() {
            at as u8 + 2
        } else {
            0
        }
    };
    let link = |(at, entry): (usize, &Entry)| {
        let mut record = entry.bytes;
        record[NEXT_AT] = entry.next.unwrap_or_else(|| following(at));
        record
    };
    entries.iter().enumerate().map(link).collect()
}

fn mistake(entry: &Entry, what: impl Into<String>) -> Mistake {
    Mistake {
        line: entry.line,
        what: what.into(),
    }
}

fn unknown(entry: &Entry, handle: &HandleText) -> Mistake {
    let HandleText::Name(name) = handle else {
        return mistake(entry, "expected the handle's bytes");
    };
    let what = format!("expected a handle that an earlier call gives, found '{name}'");
    mistake(entry, what)
}

/// Compares the number with the one that the line expects; a call that names handles must be done.
fn check(entry: &Entry, reply: &Reply) -> Result<(), Mistake> {
    let told = |number: u8| format!("{number} ({})", word(number).unwrap_or("no such number"));
    match entry.expect {
        Some(number) if number != reply.number => {
            let what = format!("expected {}, found {}", told(number), told(reply.number));
            Err(mistake(entry, what))
        }
        _ if !entry.gives.is_empty() && !reply.is_done() => {
            let what = format!("expected a call that is done, found {}", told(reply.number));
            Err(mistake(entry, what))
        }
        _ => Ok(()),
    }
}
