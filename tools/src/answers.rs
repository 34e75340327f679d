//! The text that `benchrun` prints, read back.

use crate::tokens::Mistake;
use crate::values::HandleBytes;
use model::call;
use model::hexadecimal;
use model::table::DONE;

/// What one record came to.
#[derive(Clone, Debug, PartialEq, Eq)]
pub struct Answer {
    /// The line of the text that says so.
    pub line: usize,
    pub record: u8,
    pub code: u8,
    pub number: u8,
    pub given: Given,
}

#[derive(Clone, Debug, PartialEq, Eq)]
pub enum Given {
    Nothing,
    Handles {
        read: HandleBytes,
        write: HandleBytes,
    },
    Handle(HandleBytes),
    Counted {
        handle: HandleBytes,
        count: u32,
    },
    Bytes(Vec<u8>),
}

#[derive(Clone, Debug, PartialEq, Eq)]
pub enum Answers {
    /// The list itself was refused.
    Refused(u8),
    Run(Vec<Answer>),
}

impl Answers {
    pub fn read(text: &str) -> Result<Answers, Mistake> {
        let mut lines: Vec<&str> = text.lines().collect();
        let last = lines.pop().unwrap_or_default();
        let each = lines.iter().enumerate();
        let answers: Vec<Answer> = each
            .map(|(at, line)| answer(at + 1, line))
            .collect::<Result<_, _>>()?;
        let number = |word: &str| word.parse().ok();
        match last.split_once(' ') {
            Some(("end", count)) if number(count) == Some(answers.len()) => {
                Ok(Answers::Run(answers))
            }
            Some(("list", word)) if answers.is_empty() => {
                let number = word
                    .parse()
                    .map_err(|_| unexpected(1, "a number after 'list'", word))?;
                Ok(Answers::Refused(number))
            }
            _ => {
                let expected = format!("a last line 'end {}'", answers.len());
                Err(unexpected(answers.len() + 1, &expected, last))
            }
        }
    }
}

fn unexpected(line: usize, expected: &str, found: &str) -> Mistake {
    let what = format!("expected {expected}, found '{found}'");
    Mistake { line, what }
}

fn answer(line: usize, text: &str) -> Result<Answer, Mistake> {
    let words: Vec<&str> = text.split(' ').collect();
    let read = |words: &[&str]| {
        let [record, code, number, rest @ ..] = words else {
            return None;
        };
        let (code, number) = (code.parse().ok()?, number.parse().ok()?);
        let given = if number == DONE {
            given(code, rest)?
        } else {
            nothing(rest)?
        };
        Some(Answer {
            line,
            record: record.parse().ok()?,
            code,
            number,
            given,
        })
    };
    read(&words).ok_or_else(|| unexpected(line, "a record's answer", text))
}

fn nothing(words: &[&str]) -> Option<Given> {
    words.is_empty().then_some(Given::Nothing)
}

fn given(code: u8, words: &[&str]) -> Option<Given> {
    let handle = |word: &str| -> Option<HandleBytes> { hexadecimal::decode(word)?.try_into().ok() };
    match (code, words) {
        (call::NEW_CLUSTER, [read, write]) => Some(Given::Handles {
            read: handle(read)?,
            write: handle(write)?,
        }),
        (call::REDUCE | call::NEW_PASSWORD | call::JOIN, [word]) => handle(word).map(Given::Handle),
        (call::WEAKEN, [word, count]) => Some(Given::Counted {
            handle: handle(word)?,
            count: count.parse().ok()?,
        }),
        (call::READ, [bytes]) => hexadecimal::decode(bytes).map(Given::Bytes),
        (
            call::DELETE_CLUSTER
            | call::NEW_SEGMENT
            | call::DELETE_SEGMENT
            | call::WRITE
            | call::FREEZE,
            words,
        ) => nothing(words),
        _ => None,
    }
}
