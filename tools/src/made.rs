//! Handles made by hand: another one with some of its parts replaced.

use crate::tokens::{Mistake, Tokens};
use crate::values::{self, HandleText};
use model::handle::{Handle, Password, Selector};
use model::list::WIDTH;
use model::sizes::{PASSWORD_BYTES, SUBSELECTORS};

#[derive(Clone, Debug, Default)]
pub struct Made {
    base: Option<HandleText>,
    node: Option<u16>,
    local: Option<u8>,
    password: Option<Password>,
    selector: Option<[u8; SUBSELECTORS]>,
}

impl Made {
    /// Reads what follows `=`: a handle to start from, if any, and the parts to replace.
    pub fn read(tokens: &mut Tokens) -> Result<Made, Mistake> {
        let mut made = Made::default();
        let mut first = true;
        while let Some(word) = tokens.word() {
            if !made.part(tokens, &word)? {
                match values::handle_text(&word).filter(|_| first) {
                    Some(base) => made.base = Some(base),
                    None => {
                        let expected = "one of node, local, password, selector";
                        return Err(tokens.unexpected(expected, &word));
                    }
                }
            }
            first = false;
        }
        Ok(made)
    }

    /// Reads one part; false where `word` names none.
    fn part(&mut self, tokens: &mut Tokens, word: &str) -> Result<bool, Mistake> {
        match word {
            "node" => self.node = Some(values::number(tokens, word, u16::MAX.into())? as u16),
            "local" => self.local = Some(values::byte(tokens, word)?),
            "password" => self.password = Some(values::exactly(tokens, word)?),
            "selector" => self.selector = Some(values::exactly(tokens, word)?),
            _ => return Ok(false),
        }
        Ok(true)
    }

    pub fn base(&self) -> Option<&HandleText> {
        self.base.as_ref()
    }

    /// The handle, `base` being what the line starts from.
    pub fn apply(&self, base: Handle) -> Handle {
        let selector = |bytes: [u8; SUBSELECTORS]| Selector::new(WIDTH, bytes.map(u16::from));
        Handle {
            node: self.node.unwrap_or(base.node),
            local: self.local.unwrap_or(base.local),
            password: self.password.unwrap_or(base.password),
            selector: self.selector.map_or(base.selector, selector),
        }
    }

    /// What a line starts from that names no other handle.
    pub fn nothing() -> Handle {
        Handle::primary(WIDTH, 0, 0, [0; PASSWORD_BYTES])
    }
}
