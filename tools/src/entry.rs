//! A record as its line describes it.

use crate::tokens::{Mistake, Tokens};
use crate::values::{self, HandleText};
use crate::words::{self, CallWord, Field, LENGTH};
use model::list::{
    Record, CODE_AT, DATA_AT, DATA_LENGTH_AT, MODE_AT, MOST_DATA_BYTES, NEXT_AT, RECORD_BYTES,
    SIZE_AT,
};
use model::sizes::PASSWORD_BYTES;

#[derive(Clone, Debug)]
pub struct Entry {
    pub line: usize,
    /// All bytes but those of the link and of the handles.
    pub bytes: Record,
    /// Where each handle goes, and which it is.
    pub handles: Vec<(usize, HandleText)>,
    pub next: Option<u8>,
    /// The number that the line says the call comes to.
    pub expect: Option<u8>,
    /// Names for the handles that the call gives; none for a handle nobody asks for again.
    pub gives: Vec<Option<String>>,
}

/// A record while its line is being read.
pub struct Draft {
    call: CallWord,
    bytes: [Option<u8>; RECORD_BYTES],
    fill: u8,
    seen: Vec<String>,
    entry: Entry,
}

impl Draft {
    pub fn of(line: usize, call: CallWord) -> Draft {
        let mut bytes = [None; RECORD_BYTES];
        bytes[CODE_AT] = Some(call.code);
        let entry = Entry {
            line,
            bytes: [0; RECORD_BYTES],
            handles: Vec::new(),
            next: None,
            expect: None,
            gives: Vec::new(),
        };
        Draft {
            call,
            bytes,
            fill: 0,
            seen: Vec::new(),
            entry,
        }
    }

    /// Reads the value of the field that `word` names.
    pub fn field(&mut self, tokens: &mut Tokens, word: String) -> Result<(), Mistake> {
        if self.seen.contains(&word) {
            return Err(tokens.mistake(format!("'{word}' stands twice")));
        }
        match word.as_str() {
            "next" => self.entry.next = Some(values::byte(tokens, &word)?),
            "expect" => self.entry.expect = Some(values::byte(tokens, &word)?),
            "fill" => self.fill = values::byte(tokens, &word)?,
            _ => match words::field(&word).filter(|_| self.call.takes(&word)) {
                Some(field) => self.value(tokens, &word, field)?,
                None => return Err(tokens.unexpected(&self.expected(), &word)),
            },
        }
        self.seen.push(word);
        Ok(())
    }

    fn value(&mut self, tokens: &mut Tokens, word: &str, field: Field) -> Result<(), Mistake> {
        match field {
            Field::Byte(at) => self.bytes[at] = Some(values::byte(tokens, word)?),
            Field::Mode => self.bytes[MODE_AT] = Some(values::mode(tokens)?),
            Field::Size => {
                let size = values::number(tokens, word, u16::MAX.into())? as u16;
                self.put(SIZE_AT, &size.to_be_bytes());
            }
            Field::Handle(at) => {
                let handle = values::handle(tokens, word)?;
                self.entry.handles.push((at, handle));
            }
            Field::Password(at) => {
                self.put(at, &values::exactly::<PASSWORD_BYTES>(tokens, word)?);
            }
            Field::Data => {
                let data = values::at_most(tokens, word, MOST_DATA_BYTES)?;
                self.put(DATA_AT, &data);
                if !self.seen.iter().any(|seen| seen == LENGTH) {
                    self.bytes[DATA_LENGTH_AT] = Some(data.len() as u8);
                }
            }
        }
        Ok(())
    }

    fn put(&mut self, at: usize, bytes: &[u8]) {
        for (place, &byte) in self.bytes[at..].iter_mut().zip(bytes) {
            *place = Some(byte);
        }
    }

    /// The words that could still stand in the line.
    fn expected(&self) -> String {
        let mut words = [self.call.needs, self.call.may_have].concat();
        words.extend(["next", "fill", "expect"]);
        if self.call.gives > 0 {
            words.push("->");
        }
        format!("one of {}", words.join(", "))
    }

    pub fn give(&mut self, names: Vec<Option<String>>) {
        self.entry.gives = names;
    }

    /// The record, if the line had all that its call needs.
    pub fn finish(mut self) -> Result<Entry, Mistake> {
        let needs = self.call.needs.iter();
        let missing = needs
            .copied()
            .find(|&need| !self.seen.iter().any(|seen| seen == need));
        if let Some(field) = missing {
            return Err(Mistake {
                line: self.entry.line,
                what: format!("'{}' needs '{field}'", self.call.word),
            });
        }
        self.entry.bytes = self.bytes.map(|byte| byte.unwrap_or(self.fill));
        Ok(self.entry)
    }
}

/// A record given byte by byte; what is left out is zero, and its own first byte is its link.
pub fn raw(mut tokens: Tokens) -> Result<Entry, Mistake> {
    let given = values::at_most(&mut tokens, "raw", RECORD_BYTES)?;
    let mut bytes = [0; RECORD_BYTES];
    bytes[..given.len()].copy_from_slice(&given);
    let mut next = bytes[NEXT_AT];
    let mut expect = None;
    while let Some(word) = tokens.word() {
        match word.as_str() {
            "next" => next = values::byte(&mut tokens, &word)?,
            "expect" => expect = Some(values::byte(&mut tokens, &word)?),
            _ => return Err(tokens.unexpected("one of next, expect", &word)),
        }
    }
    Ok(Entry {
        line: tokens.line(),
        bytes,
        handles: Vec::new(),
        next: Some(next),
        expect,
        gives: Vec::new(),
    })
}
