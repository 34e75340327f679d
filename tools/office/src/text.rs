//! A register as text: a line for the handle supplied, then a line for each entry.

use model::hexadecimal;
use std::collections::HashMap;
use tools::tokens::{Mistake, Tokens};
use tools::values::{self, HandleBytes};

/// A handle of 23 bytes is one of a cluster that can have so many segments.
pub const SEGMENTS: usize = 8;
pub const MOST_ENTRIES: usize = 255;
/// The mask that keeps every segment.
pub const ALL: u8 = u8::MAX;

/// Some editors put it before a text.
const BYTE_ORDER_MARK: char = '\u{feff}';
/// The words that have a meaning in the text, and can therefore be no names.
const WORDS: [&str; 5] = ["supplied", "from", "keeps", "mask", "all"];
const NAME: &str = "a name (a letter, then letters, digits, '-' and '_')";
const FROM_NAME: &str = "the name of another line after 'from'";
const MISPLACED: &str = "found what may be a handle: only the line 'supplied' has one";
const SEGMENTS_KEPT: &str = "segments from 0 to 7 after 'keeps', as in '5', '2 3', '0-3' or 'all'";

/// Whoever has a handle.
#[derive(Clone, Debug, PartialEq, Eq)]
pub struct Holder {
    pub name: String,
    /// The line that says so.
    pub line: usize,
    /// What was kept for the holder, in the text's own words; of the handle supplied, nothing is said.
    pub keeps: String,
}

#[derive(Clone, Debug, PartialEq, Eq)]
pub struct Register {
    /// The handle supplied.
    pub handle: HandleBytes,
    /// By number: 0 has the handle supplied, the others are the entries.
    pub holders: Vec<Holder>,
    /// For each entry the number that it was weakened from, and the mask.
    pub entries: Vec<[u8; 2]>,
}

impl Register {
    pub fn read(text: &str) -> Result<Register, Mistake> {
        let mut reader = Reader::default();
        let mut lines = 0;
        for line in text.trim_start_matches(BYTE_ORDER_MARK).lines() {
            lines += 1;
            let mut tokens = Tokens::of(lines, line)?;
            if let Some(word) = tokens.word() {
                reader.line(tokens, word)?;
            }
        }
        reader.finish(lines + 1)
    }

    /// The register as the library takes it.
    pub fn bytes(&self) -> Vec<u8> {
        self.entries.concat()
    }

    /// The number that an entry was weakened from.
    pub fn parent(&self, entry: usize) -> Option<usize> {
        let [from, _] = self.entries.get(entry.checked_sub(1)?)?;
        Some(usize::from(*from))
    }
}

/// What the lines have said so far.
#[derive(Default)]
struct Reader {
    handle: Option<HandleBytes>,
    holders: Vec<Holder>,
    /// By name, the number of each holder.
    numbers: HashMap<String, usize>,
    /// For each entry the name that it was weakened from, whose line may stand below, and the mask.
    entries: Vec<(String, u8)>,
}

impl Reader {
    fn line(&mut self, tokens: Tokens, word: String) -> Result<(), Mistake> {
        match (word.as_str(), self.handle) {
            ("supplied", None) => self.supplied(tokens),
            ("supplied", Some(_)) => {
                let line = self.holders[0].line;
                Err(tokens.mistake(format!("line {line} has the handle supplied already")))
            }
            _ if may_be_secret(&word) || may_be_secret(&tokens.rest()) => Err(tokens.mistake(MISPLACED)),
            (_, None) => Err(tokens.unexpected("'supplied' before any entry", &word)),
            (_, Some(_)) => self.entry(tokens, word),
        }
    }

    fn supplied(&mut self, mut tokens: Tokens) -> Result<(), Mistake> {
        let name = tokens.expect("a name after 'supplied'")?;
        if may_be_secret(&name) {
            return Err(tokens.mistake("expected a name between 'supplied' and the handle"));
        }
        self.hold(&tokens, name, String::new())?;
        let digits = tokens.rest().replace(' ', "");
        let bytes = hexadecimal::decode(&digits).and_then(|bytes| bytes.try_into().ok());
        self.handle = Some(bytes.ok_or_else(|| tokens.mistake(no_handle(&digits)))?);
        Ok(())
    }

    fn entry(&mut self, mut tokens: Tokens, name: String) -> Result<(), Mistake> {
        if self.entries.len() == MOST_ENTRIES {
            let what = format!("a register has at most {MOST_ENTRIES} entries");
            return Err(tokens.mistake(what));
        }
        let expected = "'from' after the entry's name";
        let word = tokens.expect(expected)?;
        if word != "from" {
            return Err(tokens.unexpected(expected, &word));
        }
        let from = tokens.expect(FROM_NAME)?;
        if !is_name(&from) {
            return Err(tokens.unexpected(FROM_NAME, &from));
        }
        let keeps = tokens.rest();
        self.entries.push((from, mask(&mut tokens)?));
        self.hold(&tokens, name, keeps)?;
        tokens.end()
    }

    /// Notes a name that must not have been given before.
    fn hold(&mut self, tokens: &Tokens, name: String, keeps: String) -> Result<(), Mistake> {
        if !is_name(&name) {
            return Err(tokens.unexpected(NAME, &name));
        }
        let number = self.holders.len();
        if let Some(earlier) = self.numbers.insert(name.clone(), number) {
            let line = self.holders[earlier].line;
            return Err(tokens.mistake(format!("line {line} gives the name '{name}' already")));
        }
        let line = tokens.line();
        self.holders.push(Holder { name, line, keeps });
        Ok(())
    }

    /// Puts numbers in the place of names; `end` is the line after the last.
    fn finish(self, end: usize) -> Result<Register, Mistake> {
        let mistake = |line, what| Mistake { line, what };
        let missing = "expected 'supplied', a name and a handle, found the end of the text";
        let handle = self.handle.ok_or_else(|| mistake(end, missing.to_string()))?;
        let mut entries = Vec::new();
        for ((from, mask), holder) in self.entries.iter().zip(&self.holders[1..]) {
            let unknown = || mistake(holder.line, format!("expected {FROM_NAME}, found '{from}'"));
            let number = *self.numbers.get(from).ok_or_else(unknown)?;
            entries.push([number as u8, *mask]);
        }
        Ok(Register { handle, entries, holders: self.holders })
    }
}

/// What an entry keeps: segments, or the mask itself.
fn mask(tokens: &mut Tokens) -> Result<u8, Mistake> {
    let expected = "'keeps' or 'mask' after the name";
    match tokens.expect(expected)?.as_str() {
        "keeps" => segments(tokens),
        "mask" => values::byte(tokens, "mask"),
        word => Err(tokens.unexpected(expected, word)),
    }
}

/// The segments as a mask. Commas are as good as spaces.
fn segments(tokens: &mut Tokens) -> Result<u8, Mistake> {
    let first = tokens.expect(SEGMENTS_KEPT)?;
    if first == "all" {
        return Ok(ALL);
    }
    let mut kept = 0;
    let mut next = Some(first);
    while let Some(word) = next {
        for part in word.trim_end_matches(',').split(',') {
            let mask = run(part).ok_or_else(|| tokens.unexpected(SEGMENTS_KEPT, part))?;
            if kept & mask != 0 {
                let twice = (kept & mask).trailing_zeros();
                return Err(tokens.mistake(format!("segment {twice} stands twice")));
            }
            kept |= mask;
        }
        next = tokens.word();
    }
    Ok(kept)
}

/// One segment, or a run of them by its first and its last.
fn run(part: &str) -> Option<u8> {
    let (first, last) = part.split_once('-').unwrap_or((part, part));
    let (first, last) = (segment(first)?, segment(last)?);
    (first <= last).then(|| (first..=last).map(|segment| 1 << segment).sum())
}

fn segment(digit: &str) -> Option<usize> {
    (0..SEGMENTS).find(|segment| segment.to_string() == digit)
}

fn is_name(word: &str) -> bool {
    values::is_name(word) && !WORDS.contains(&word)
}

/// Whether a text has a handle, or much of one. No message quotes it then.
fn may_be_secret(text: &str) -> bool {
    const MANY: usize = 12;
    let mut runs = text.split(|letter: char| !letter.is_ascii_hexdigit());
    runs.any(|run| run.len() >= MANY)
}

/// What stands in the place of a handle is counted, and not quoted.
fn no_handle(found: &str) -> String {
    let letters = found.chars().count();
    let digits = found.chars().filter(char::is_ascii_hexdigit).count();
    let among = if digits == letters { String::new() } else { format!(" among {letters} letters") };
    let wanted = 2 * size_of::<HandleBytes>();
    format!("expected {wanted} hexadecimal digits after the name, found {digits}{among}")
}
