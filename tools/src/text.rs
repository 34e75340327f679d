//! A text of calls, read line by line into what its records will say.

use crate::entry::{raw, Draft, Entry};
use crate::made::Made;
use crate::tokens::{Mistake, Tokens};
use crate::values::{self, HandleText};
use crate::words::{self, CallWord};
use model::list::MOST_RECORDS;
use std::collections::HashMap;

/// Stands in place of a name for a handle that nobody asks for again.
const NO_NAME: &str = "_";
const GIVES: &str = "->";

#[derive(Clone, Debug, Default)]
pub struct Text {
    pub entries: Vec<Entry>,
    pub made: HashMap<String, Made>,
    /// Bytes after the last record.
    pub tail: Vec<u8>,
    /// The line that each name is given in.
    named_in: HashMap<String, usize>,
}

impl Text {
    pub fn read(text: &str) -> Result<Text, Mistake> {
        let mut read = Text::default();
        for (at, line) in text.lines().enumerate() {
            let mut tokens = Tokens::of(at + 1, line)?;
            if let Some(word) = tokens.word() {
                read.line(tokens, &word)?;
            }
        }
        Ok(read)
    }

    fn line(&mut self, mut tokens: Tokens, word: &str) -> Result<(), Mistake> {
        match word {
            "let" => self.let_line(tokens),
            "tail" => {
                self.tail.extend(values::bytes(&mut tokens, word)?);
                tokens.end()
            }
            "repeat" => {
                let times = values::byte(&mut tokens, word)?;
                let first = tokens.expect("a call after the number")?;
                let entry = self.entry(tokens, &first)?;
                self.push(entry, usize::from(times))
            }
            _ => {
                let entry = self.entry(tokens, word)?;
                self.push(entry, 1)
            }
        }
    }

    fn push(&mut self, entry: Entry, times: usize) -> Result<(), Mistake> {
        let mistake = |what: String| {
            let line = entry.line;
            Err(Mistake { line, what })
        };
        if self.entries.len() + times > MOST_RECORDS {
            return mistake(format!("a list has at most {MOST_RECORDS} records"));
        }
        if times != 1 && !entry.gives.is_empty() {
            return mistake("a repeated call cannot name what it gives".to_string());
        }
        self.entries.extend(vec![entry; times]);
        Ok(())
    }

    fn entry(&mut self, mut tokens: Tokens, word: &str) -> Result<Entry, Mistake> {
        if word == "raw" {
            return raw(tokens);
        }
        let call = match (word, words::call(word)) {
            ("code", _) => words::any_call(values::byte(&mut tokens, word)?),
            (_, Some(call)) => *call,
            _ => {
                let expected = format!("one of {}", words::beginnings());
                return Err(tokens.unexpected(&expected, word));
            }
        };
        let mut draft = Draft::of(tokens.line(), call);
        while let Some(word) = tokens.word() {
            if word == GIVES {
                draft.give(self.given(&mut tokens, &call)?);
            } else {
                draft.field(&mut tokens, word)?;
            }
        }
        draft.finish()
    }

    /// The names after the arrow, up to the end of the line.
    fn given(
        &mut self,
        tokens: &mut Tokens,
        call: &CallWord,
    ) -> Result<Vec<Option<String>>, Mistake> {
        let names: Vec<String> = std::iter::from_fn(|| tokens.word()).collect();
        if names.len() != call.gives || names.is_empty() {
            let (word, gives, found) = (call.word, call.gives, names.len());
            let what =
                format!("'{word}' gives {gives} handles, found {found} names after '{GIVES}'");
            return Err(tokens.mistake(what));
        }
        names
            .into_iter()
            .map(|name| self.new_name(tokens, name))
            .collect()
    }

    /// Notes a name that must not have been given before.
    fn new_name(&mut self, tokens: &Tokens, name: String) -> Result<Option<String>, Mistake> {
        if name == NO_NAME {
            return Ok(None);
        }
        if !values::is_name(&name) {
            return Err(tokens.unexpected("a name for a handle", &name));
        }
        match self.named_in.insert(name.clone(), tokens.line()) {
            Some(line) => {
                Err(tokens.mistake(format!("line {line} gives the name '{name}' already")))
            }
            None => Ok(Some(name)),
        }
    }

    fn let_line(&mut self, mut tokens: Tokens) -> Result<(), Mistake> {
        let name = tokens.expect("a name for a handle after 'let'")?;
        let equals = tokens.expect("'=' after the name")?;
        if equals != "=" {
            return Err(tokens.unexpected("'=' after the name", &equals));
        }
        let made = Made::read(&mut tokens)?;
        self.check_base(&tokens, &made)?;
        if let Some(name) = self.new_name(&tokens, name)? {
            self.made.insert(name, made);
        }
        Ok(())
    }

    /// Only earlier lines can be built on, so that no two lines wait for each other.
    fn check_base(&self, tokens: &Tokens, made: &Made) -> Result<(), Mistake> {
        match made.base() {
            Some(HandleText::Name(name)) if !self.named_in.contains_key(name) => {
                Err(tokens.unexpected("a handle that an earlier line names", name))
            }
            _ => Ok(()),
        }
    }
}
