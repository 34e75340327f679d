//! The words that a text uses for calls and fields, and where in a record a field lies.

use model::call;
use model::list::{
    DATA_LENGTH_AT, FIRST_PASSWORD_AT, HANDLE_AT, NODE_AT, OTHER_HANDLE_AT, SECOND_PASSWORD_AT,
    SEGMENT_AT,
};

/// What a field's value is and where it goes.
#[derive(Clone, Copy, Debug, PartialEq, Eq)]
pub enum Field {
    Byte(usize),
    Mode,
    Size,
    Handle(usize),
    Password(usize),
    /// Bytes from 32 on; they set the data length too, unless `length` does.
    Data,
}

pub const LENGTH: &str = "length";

const FIELDS: [(&str, Field); 13] = [
    ("node", Field::Byte(NODE_AT)),
    ("mode", Field::Mode),
    ("local", Field::Byte(SEGMENT_AT)),
    ("segment", Field::Byte(SEGMENT_AT)),
    ("mask", Field::Byte(SEGMENT_AT)),
    (LENGTH, Field::Byte(DATA_LENGTH_AT)),
    ("size", Field::Size),
    ("handle", Field::Handle(HANDLE_AT)),
    ("other", Field::Handle(OTHER_HANDLE_AT)),
    ("read", Field::Password(FIRST_PASSWORD_AT)),
    ("password", Field::Password(FIRST_PASSWORD_AT)),
    ("write", Field::Password(SECOND_PASSWORD_AT)),
    ("data", Field::Data),
];

/// The field that a word stands for.
pub fn field(word: &str) -> Option<Field> {
    let found = FIELDS.iter().find(|(name, _)| *name == word)?;
    Some(found.1)
}

/// A call's word with the fields that it needs and those that it may have besides.
#[derive(Clone, Copy, Debug)]
pub struct CallWord {
    pub word: &'static str,
    pub code: u8,
    pub needs: &'static [&'static str],
    pub may_have: &'static [&'static str],
    /// How many handles a call done gives.
    pub gives: usize,
}

impl CallWord {
    pub fn takes(&self, field: &str) -> bool {
        self.needs.contains(&field) || self.may_have.contains(&field)
    }
}

const fn plain(
    word: &'static str,
    code: u8,
    needs: &'static [&'static str],
    gives: usize,
) -> CallWord {
    CallWord {
        word,
        code,
        needs,
        may_have: &[],
        gives,
    }
}

const CALLS: [CallWord; 11] = [
    plain(
        "new-cluster",
        call::NEW_CLUSTER,
        &["node", "local", "read", "write"],
        2,
    ),
    plain(
        "delete-cluster",
        call::DELETE_CLUSTER,
        &["node", "handle"],
        0,
    ),
    plain(
        "new-segment",
        call::NEW_SEGMENT,
        &["node", "segment", "size", "handle"],
        0,
    ),
    plain(
        "delete-segment",
        call::DELETE_SEGMENT,
        &["node", "segment", "handle"],
        0,
    ),
    plain("read", call::READ, &["segment", "handle"], 0),
    CallWord {
        may_have: &[LENGTH],
        ..plain("write", call::WRITE, &["segment", "handle", "data"], 0)
    },
    plain("weaken", call::WEAKEN, &["handle", "mask"], 1),
    plain("reduce", call::REDUCE, &["mode", "handle"], 1),
    plain(
        "new-password",
        call::NEW_PASSWORD,
        &["mode", "handle", "password"],
        1,
    ),
    plain("freeze", call::FREEZE, &["node", "segment", "handle"], 0),
    plain("join", call::JOIN, &["mode", "handle", "other"], 1),
];

/// A record with any code, to which every field can be given.
pub fn any_call(code: u8) -> CallWord {
    const EVERY: [&str; FIELDS.len()] = {
        let mut words = [""; FIELDS.len()];
        let mut at = 0;
        while at < FIELDS.len() {
            words[at] = FIELDS[at].0;
            at += 1;
        }
        words
    };
    CallWord {
        may_have: &EVERY,
        ..plain("code", code, &[], 0)
    }
}

pub fn call(word: &str) -> Option<&'static CallWord> {
    CALLS.iter().find(|call| call.word == word)
}

/// What a line can begin with, for messages.
pub fn beginnings() -> String {
    let mut words: Vec<&str> = CALLS.iter().map(|call| call.word).collect();
    words.extend(["code", "raw", "repeat", "let", "tail"]);
    words.join(", ")
}
