//! Lists of calls: records of 64 bytes, the chain through them, and the text that comes out.

use crate::{call, hexadecimal, model, words::*};

/// The one width of a list's clusters and handles.
pub const WIDTH: Width = Width::Eight;
/// Bytes of a list's handles: 23.
pub const HANDLE_BYTES: usize = WIDTH.handle_bytes();

pub const RECORD_BYTES: usize = 64;
pub const MOST_RECORDS: usize = 255;
pub const MOST_LIST_BYTES: usize = RECORD_BYTES * MOST_RECORDS;
/// The most bytes that a record's write can carry.
pub const MOST_DATA_BYTES: usize = 32;

pub const NEXT_AT: usize = 0;
pub const CODE_AT: usize = 1;
pub const NODE_AT: usize = 2;
pub const MODE_AT: usize = 3;
/// Segment, mask, or the local number of a new cluster.
pub const SEGMENT_AT: usize = 4;
pub const DATA_LENGTH_AT: usize = 5;
pub const SIZE_AT: usize = 6;
pub const HANDLE_AT: usize = 8;
pub const FIRST_PASSWORD_AT: usize = 32;
pub const SECOND_PASSWORD_AT: usize = 48;
pub const DATA_AT: usize = 32;
/// The second handle of a join.
pub const OTHER_HANDLE_AT: usize = 32;

pub type Record = [u8; RECORD_BYTES];

/// The pairs that a list can reach: the code of a call and a number, in the order of the numbers. A list starts from a
/// sound store, has one width alone and a buffer that any segment fits in, so 1 and 25 are not among them, nor 3 for a
/// new cluster, nor 15 for a read.
pub fn reachable() -> impl Iterator<Item = (u8, u8)> {
    let never = [(call::NEW_CLUSTER, FIELD), (call::READ, SHORT)];
    let numbers = (DONE..=LENGTH).filter(|number| ![UNSOUND, LENGTH].contains(number));
    let pairs = numbers.flat_map(|number| CALLS.map(|(code, _)| (code, number)));
    pairs.filter(move |pair| !never.contains(pair) && may_come_to(*pair))
}

fn may_come_to((code, number): (u8, u8)) -> bool {
    let call = call_of(&std::array::from_fn(|at| if at == CODE_AT { code } else { 0 }));
    number == DONE || call.is_some_and(|call| numbers_of(&call).contains(&number))
}

/// What a record asks for.
#[derive(Clone, Debug, PartialEq, Eq)]
pub enum Request {
    /// The code belongs to no call.
    BadCode,
    /// A write that says it has more data than a record can carry.
    Overlong(Call),
    Call(Call),
}

fn password_at(record: &Record, at: usize) -> Password {
    let mut password = [0; PASSWORD_BYTES];
    password.copy_from_slice(&record[at..at + PASSWORD_BYTES]);
    password
}

fn handle_at(record: &Record, at: usize) -> HandleBytes {
    record[at..at + HANDLE_BYTES].to_vec()
}

/// The call that a record's code stands for; bytes that it does not use do not matter.
fn call_of(record: &Record) -> Option<Call> {
    let place = CALLS.iter().position(|(code, _)| *code == record[CODE_AT])?;
    let [node, mode, segment] = [NODE_AT, MODE_AT, SEGMENT_AT].map(|at| u32::from(record[at]));
    let [read, write] = [FIRST_PASSWORD_AT, SECOND_PASSWORD_AT].map(|at| password_at(record, at));
    let [handle, other] = [HANDLE_AT, OTHER_HANDLE_AT].map(|at| handle_at(record, at));
    let size = u16::from_be_bytes([record[SIZE_AT], record[SIZE_AT + 1]]).into();
    let (local, mask, width, password) = (segment, segment as u16, WIDTH.segments(), read);
    let fields = Fields { node, local, width, segment, size, mask, mode, handle, other, read, write, password };
    Some(fields.call(Kind::ALL[place]))
}

/// Tells a call from what only looks like one.
pub fn request(record: &Record) -> Request {
    let overlong = usize::from(record[DATA_LENGTH_AT]) > MOST_DATA_BYTES;
    match call_of(record) {
        None => Request::BadCode,
        Some(call @ Call::Write { .. }) if overlong => Request::Overlong(call),
        Some(call) => Request::Call(call),
    }
}

/// The records of a list in file order; `None` where its length is none of a list's.
pub fn records(list: &[u8]) -> Option<Vec<&Record>> {
    let chunks = list.chunks_exact(RECORD_BYTES);
    if list.len() > MOST_LIST_BYTES || !chunks.remainder().is_empty() {
        return None;
    }
    chunks.map(|record| record.try_into().ok()).collect()
}

/// The numbers of the records that the chain meets, in its order, or the number of the refusal.
pub fn chain(records: &[&Record]) -> Result<Vec<u8>, u8> {
    let mut met = [false; MOST_RECORDS + 1];
    let mut order = Vec::with_capacity(records.len());
    let mut number = if records.is_empty() { 0 } else { 1 };
    while number != 0 {
        let place = usize::from(number);
        if place > records.len() {
            return Err(LINK);
        }
        if met[place] {
            return Err(LOOP);
        }
        met[place] = true;
        order.push(number);
        number = records[place - 1][NEXT_AT];
    }
    Ok(order)
}

/// What the records of a list work on, one after the other.
pub struct Session {
    pub store: Store,
    pub memory: Vec<u8>,
    pub buffer: Vec<u8>,
}

impl Session {
    /// The starting store, a memory of zeros and a buffer that any segment fits in.
    pub fn starting() -> Session {
        Session { store: Store::starting(), memory: vec![0; MEMORY_BYTES], buffer: vec![0; NODE_BYTES] }
    }

    /// What the call of a record finds in `store`: the memory, and the buffer or the write's data.
    fn found<'a>(&self, store: &'a Store, record: &Record) -> Found<'a> {
        let is_write = record[CODE_AT] == call::WRITE;
        Found::whole(store, if is_write { record[DATA_LENGTH_AT].into() } else { self.buffer.len() })
    }

    /// Runs the call of one record.
    pub fn run(&mut self, record: &Record) -> Reply {
        match request(record) {
            Request::BadCode => Reply::refused(FIELD),
            Request::Overlong(call) => {
                let found = Found::whole(&self.store, MOST_DATA_BYTES);
                Reply::refused(refusal_above(FIELD, &call, &found).unwrap_or(FIELD))
            }
            Request::Call(call @ Call::Write { .. }) => {
                let end = DATA_AT + usize::from(record[DATA_LENGTH_AT]);
                let mut data = *record;
                model::run(&mut self.store, &mut self.memory, &mut data[DATA_AT..end], &call)
            }
            Request::Call(call) => model::run(&mut self.store, &mut self.memory, &mut self.buffer, &call),
        }
    }

    /// Adds the line of a record that was just run: for a call done, what it gives stands after the number.
    fn push_line(&self, text: &mut Vec<u8>, number: u8, code: u8, reply: &Reply) {
        text.extend(format!("{number} {code} {}", reply.number).bytes());
        let read = &self.buffer[..reply.length as usize];
        for given in [&reply.first, &reply.second, read].into_iter().filter(|given| !given.is_empty()) {
            text.push(b' ');
            hexadecimal::push(text, given);
        }
        if reply.is_done() && code == call::WEAKEN {
            text.extend(format!(" {}", reply.count).bytes());
        }
        text.push(b'\n');
    }
}

/// Runs a list from the starting store and tells `each` of every record that the chain meets: what the
/// record's call found, the record, and the reply. Gives the whole text that `benchrun` prints for these bytes.
pub fn run(list: &[u8], mut each: impl FnMut(&Found, &Record, &Reply)) -> Vec<u8> {
    let mut text = Vec::new();
    let checked = records(list).ok_or(LIST_LENGTH);
    match checked.and_then(|records| Ok((chain(&records)?, records))) {
        Err(number) => text.extend(format!("list {number}\n").bytes()),
        Ok((order, records)) => {
            let mut session = Session::starting();
            for &number in &order {
                let record = records[usize::from(number) - 1];
                let store = session.store.clone();
                let reply = session.run(record);
                each(&session.found(&store, record), record, &reply);
                session.push_line(&mut text, number, record[CODE_AT], &reply);
            }
            text.extend(format!("end {}\n", order.len()).bytes());
        }
    }
    text
}

/// The whole text that `benchrun` prints for these bytes.
pub fn output(list: &[u8]) -> Vec<u8> {
    run(list, |_, _, _| {})
}
