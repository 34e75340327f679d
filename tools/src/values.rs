//! Numbers, bytes, modes and handles as a text writes them.

use crate::tokens::{Mistake, Tokens};
use model::hexadecimal;
use model::list::HANDLE_BYTES;

/// The most bytes that one value may stand for; far above any list.
const MOST_BYTES: usize = 1 << 20;
const BYTES_EXPECTED: &str = "bytes such as 0a0b, 11*16 or \"text\"";

/// A handle as a record carries it. Lists have clusters of eight segments alone, so this is the one length.
pub type HandleBytes = [u8; HANDLE_BYTES];

/// A handle as a text writes it.
#[derive(Clone, Debug, PartialEq, Eq)]
pub enum HandleText {
    Name(String),
    Bytes(HandleBytes),
}

fn plain_number(word: &str) -> Option<u32> {
    let radix = |digits, radix| u32::from_str_radix(digits, radix).ok();
    if word.starts_with('+') {
        return None;
    }
    if let Some(digits) = word.strip_prefix("0x") {
        radix(digits, 16)
    } else if let Some(digits) = word.strip_prefix("0b") {
        radix(digits, 2)
    } else {
        word.parse().ok()
    }
}

/// A number from 0 to `most`: decimal, or hexadecimal after 0x, or binary after 0b.
pub fn number(tokens: &mut Tokens, after: &str, most: u32) -> Result<u32, Mistake> {
    let expected = format!("a number from 0 to {most} after '{after}'");
    let word = tokens.expect(&expected)?;
    plain_number(&word)
        .filter(|&number| number <= most)
        .ok_or_else(|| tokens.unexpected(&expected, &word))
}

pub fn byte(tokens: &mut Tokens, after: &str) -> Result<u8, Mistake> {
    Ok(number(tokens, after, u8::MAX.into())? as u8)
}

/// `read`, `write`, or a number that need not be a mode.
pub fn mode(tokens: &mut Tokens) -> Result<u8, Mistake> {
    let expected = "'read', 'write' or a number from 0 to 255 after 'mode'";
    let word = tokens.expect(expected)?;
    match word.as_str() {
        "read" => Ok(1),
        "write" => Ok(2),
        _ => plain_number(&word)
            .and_then(|number| u8::try_from(number).ok())
            .ok_or_else(|| tokens.unexpected(expected, &word)),
    }
}

/// The bytes at the front of `text`: quoted text or hexadecimal digits; and what follows them.
fn leading_bytes(text: &str) -> Option<(Vec<u8>, &str)> {
    if let Some(quoted) = text.strip_prefix('"') {
        let (inside, rest) = quoted.split_once('"')?;
        return Some((inside.as_bytes().to_vec(), rest));
    }
    let end = text.find(['*', '+']).unwrap_or(text.len());
    let (digits, rest) = text.split_at(end);
    let bytes = hexadecimal::decode(digits)?;
    (!bytes.is_empty()).then_some((bytes, rest))
}

/// How often the bytes before `text` are to stand: `*N`, or once; and what follows.
fn leading_times(text: &str) -> Option<(usize, &str)> {
    let Some(counted) = text.strip_prefix('*') else {
        return Some((1, text));
    };
    let end = counted.find('+').unwrap_or(counted.len());
    let (digits, rest) = counted.split_at(end);
    let times = plain_number(digits)? as usize;
    (times <= MOST_BYTES).then_some((times, rest))
}

/// Parts joined by `+`; `None` where the text does not follow the rules.
fn plain_bytes(text: &str) -> Option<Vec<u8>> {
    let mut bytes = Vec::new();
    let mut rest = text;
    loop {
        let (part, after_part) = leading_bytes(rest)?;
        let (times, after_times) = leading_times(after_part)?;
        if bytes.len() + part.len() * times > MOST_BYTES {
            return None;
        }
        bytes.extend(part.repeat(times));
        if after_times.is_empty() {
            return Some(bytes);
        }
        rest = after_times.strip_prefix('+')?;
    }
}

pub fn bytes(tokens: &mut Tokens, after: &str) -> Result<Vec<u8>, Mistake> {
    let expected = format!("{BYTES_EXPECTED} after '{after}'");
    let word = tokens.expect(&expected)?;
    plain_bytes(&word).ok_or_else(|| tokens.unexpected(&expected, &word))
}

pub fn at_most(tokens: &mut Tokens, after: &str, most: usize) -> Result<Vec<u8>, Mistake> {
    let bytes = bytes(tokens, after)?;
    if bytes.len() > most {
        let found = bytes.len();
        let what = format!("expected at most {most} bytes after '{after}', found {found}");
        return Err(tokens.mistake(what));
    }
    Ok(bytes)
}

pub fn exactly<const N: usize>(tokens: &mut Tokens, after: &str) -> Result<[u8; N], Mistake> {
    let bytes = bytes(tokens, after)?;
    let found = bytes.len();
    bytes
        .try_into()
        .map_err(|_| tokens.mistake(format!("expected {N} bytes after '{after}', found {found}")))
}

/// Whether a word can name a handle: a letter, then letters, digits, `-` and `_`.
pub fn is_name(word: &str) -> bool {
    word.starts_with(|letter: char| letter.is_ascii_alphabetic())
        && word
            .chars()
            .all(|letter| letter.is_ascii_alphanumeric() || letter == '-' || letter == '_')
        && !is_handle(word)
}

fn is_handle(word: &str) -> bool {
    handle_bytes(word).is_some()
}

fn handle_bytes(word: &str) -> Option<HandleBytes> {
    hexadecimal::decode(word)?.try_into().ok()
}

/// A name, or the 46 hexadecimal digits of a handle.
pub fn handle_text(word: &str) -> Option<HandleText> {
    match handle_bytes(word) {
        Some(bytes) => Some(HandleText::Bytes(bytes)),
        None => is_name(word).then(|| HandleText::Name(word.to_string())),
    }
}

pub fn handle(tokens: &mut Tokens, after: &str) -> Result<HandleText, Mistake> {
    let digits = 2 * HANDLE_BYTES;
    let expected = format!("a handle's name or {digits} hexadecimal digits after '{after}'");
    let word = tokens.expect(&expected)?;
    handle_text(&word).ok_or_else(|| tokens.unexpected(&expected, &word))
}
