//! One line of text in words, and mistakes that say which line they are in.

use std::fmt;

const COMMENT: char = '#';
const QUOTE: char = '"';

/// What is wrong with a text, and in which line.
#[derive(Clone, Debug, PartialEq, Eq)]
pub struct Mistake {
    pub line: usize,
    pub what: String,
}

impl fmt::Display for Mistake {
    fn fmt(&self, formatter: &mut fmt::Formatter) -> fmt::Result {
        write!(formatter, "{}: {}", self.line, self.what)
    }
}

/// The words of one line that are still to be read.
pub struct Tokens {
    line: usize,
    words: std::vec::IntoIter<String>,
}

impl Tokens {
    /// Splits a line at spaces, leaving out a comment. Quoted text stays in one piece.
    pub fn of(line: usize, text: &str) -> Result<Tokens, Mistake> {
        let mut words = Vec::new();
        let mut word = String::new();
        let mut quoted = false;
        for letter in text.chars() {
            if !quoted && letter == COMMENT {
                break;
            }
            quoted ^= letter == QUOTE;
            if !quoted && letter.is_whitespace() {
                words.push(std::mem::take(&mut word));
            } else {
                word.push(letter);
            }
        }
        words.push(word);
        words.retain(|word| !word.is_empty());
        let tokens = Tokens {
            line,
            words: words.into_iter(),
        };
        if quoted {
            return Err(tokens.mistake("a quotation mark is not closed"));
        }
        Ok(tokens)
    }

    pub fn line(&self) -> usize {
        self.line
    }

    pub fn word(&mut self) -> Option<String> {
        self.words.next()
    }

    /// The words that are left, as one text.
    pub fn rest(&self) -> String {
        self.words.as_slice().join(" ")
    }

    /// The next word; `expected` says what it should be where the line has ended.
    pub fn expect(&mut self, expected: &str) -> Result<String, Mistake> {
        let missing = self.mistake(format!("expected {expected}, found the end of the line"));
        self.word().ok_or(missing)
    }

    pub fn mistake(&self, what: impl Into<String>) -> Mistake {
        Mistake {
            line: self.line,
            what: what.into(),
        }
    }

    pub fn unexpected(&self, expected: &str, found: &str) -> Mistake {
        self.mistake(format!("expected {expected}, found '{found}'"))
    }

    /// Nothing may follow.
    pub fn end(mut self) -> Result<(), Mistake> {
        match self.word() {
            None => Ok(()),
            Some(word) => Err(self.unexpected("the end of the line", &word)),
        }
    }
}
