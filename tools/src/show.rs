//! A list and its answers side by side, in words.

use crate::answers::{Answer, Answers, Given};
use crate::tokens::Mistake;
use crate::values::HandleBytes;
use model::call::Call;
use model::hexadecimal;
use model::list::{records, request, Record, Request, CODE_AT, DATA_LENGTH_AT};
use model::table::{word, LIST_LENGTH};
use std::collections::HashMap;

/// How many of a segment's bytes are printed at most.
const SHOWN_BYTES: usize = 32;

/// One line for each answer, then one for the list as a whole.
pub fn show(list: &[u8], answers: &Answers) -> Result<String, Mistake> {
    match answers {
        Answers::Refused(number) => Ok(format!("list refused: {}\n", in_words(*number))),
        Answers::Run(answers) => {
            let records = records(list).ok_or_else(|| Mistake {
                line: answers.len() + 1,
                what: format!("expected 'list {LIST_LENGTH}' for a list of this length"),
            })?;
            let table = columns(&rows(&records, answers)?);
            Ok(format!(
                "{table}end: {}\n",
                counted(answers.len(), "record")
            ))
        }
    }
}

pub(crate) fn counted(count: usize, of: &str) -> String {
    let plural = if count == 1 { "" } else { "s" };
    format!("{count} {of}{plural}")
}

fn in_words(number: u8) -> String {
    format!("{number} {}", word(number).unwrap_or("(no such number)"))
}

/// Record, what it asks, the number, what it gave.
type Row = [String; 4];

fn rows(records: &[&Record], answers: &[Answer]) -> Result<Vec<Row>, Mistake> {
    let mut known = Known::default();
    let mut rows = Vec::with_capacity(answers.len());
    for answer in answers {
        let record = usize::from(answer.record)
            .checked_sub(1)
            .and_then(|at| records.get(at));
        let record = record
            .filter(|record| record[CODE_AT] == answer.code)
            .ok_or_else(|| not_in_list(answer))?;
        rows.push([
            answer.record.to_string(),
            asks(record, &known),
            in_words(answer.number),
            gave(&answer.given),
        ]);
        known.note(answer);
    }
    Ok(rows)
}

fn not_in_list(answer: &Answer) -> Mistake {
    let (record, code) = (answer.record, answer.code);
    let what = format!("expected a record of the list, found record {record} with code {code}");
    let line = answer.line;
    Mistake { line, what }
}

/// The rows in columns; the last column is as wide as it wants.
fn columns(rows: &[Row]) -> String {
    let width = |column: usize| rows.iter().map(|row| row[column].chars().count()).max();
    let widths: [usize; 3] = std::array::from_fn(|column| width(column).unwrap_or(0));
    let [record_width, asks_width, number_width] = widths;
    let mut text = String::new();
    for [record, asks, number, gave] in rows {
        let line = format!(
            "{record:>record_width$}  {asks:<asks_width$}  {number:<number_width$}  {gave}"
        );
        text.push_str(line.trim_end());
        text.push('\n');
    }
    text
}

/// Handles that answers gave, with words for them.
#[derive(Default)]
struct Known(HashMap<HandleBytes, String>);

impl Known {
    fn note(&mut self, answer: &Answer) {
        let record = answer.record;
        match &answer.given {
            Given::Handles { read, write } => {
                self.name(read, format!("the read handle of record {record}"));
                self.name(write, format!("the write handle of record {record}"));
            }
            Given::Handle(handle) | Given::Counted { handle, .. } => {
                self.name(handle, format!("the handle of record {record}"));
            }
            Given::Nothing | Given::Bytes(_) => {}
        }
    }

    /// A handle keeps the first words it was given.
    fn name(&mut self, handle: &HandleBytes, words: String) {
        self.0.entry(*handle).or_insert(words);
    }

    fn words(&self, handle: &[u8]) -> String {
        let unknown = || format!("handle {}", hexadecimal::encode(handle));
        let known = self.0.get(handle);
        known.cloned().unwrap_or_else(unknown)
    }
}

fn asks(record: &Record, known: &Known) -> String {
    match request(record) {
        Request::BadCode => format!("code {}, which is no call", record[CODE_AT]),
        Request::Overlong(call) | Request::Call(call) => {
            call_in_words(&call, record[DATA_LENGTH_AT], known)
        }
    }
}

fn call_in_words(call: &Call, data_length: u8, known: &Known) -> String {
    let with = call
        .handle_bytes()
        .map_or(String::new(), |handle| known.words(handle));
    let from_node = |what: &str, node: u32, segment: u32| {
        format!("{what} segment {segment} from node {node} with {with}")
    };
    match *call {
        Call::NewCluster { node, local, .. } => format!("new cluster {local} in node {node}"),
        Call::DeleteCluster { node, .. } => format!("delete cluster from node {node} with {with}"),
        Call::NewSegment {
            node,
            segment,
            size,
            ..
        } => {
            format!(
                "new segment {segment} of {} from node {node} with {with}",
                counted(size as usize, "byte")
            )
        }
        Call::DeleteSegment { node, segment, .. } => from_node("delete", node, segment),
        Call::Read { segment, .. } => format!("read segment {segment} with {with}"),
        Call::Write { segment, .. } => {
            format!(
                "write {} to segment {segment} with {with}",
                counted(usize::from(data_length), "byte")
            )
        }
        Call::Weaken { mask, .. } => format!("weaken {with} by mask {mask:#04x}"),
        Call::Reduce { mode, .. } => format!("reduce {with} {}", for_mode(mode)),
        Call::NewPassword { mode, .. } => format!("new password {} with {with}", for_mode(mode)),
        Call::Freeze { node, segment, .. } => from_node("freeze", node, segment),
        Call::Join {
            mode, ref other, ..
        } => {
            format!("join {with} and {} {}", known.words(other), for_mode(mode))
        }
        // No list has these two: they have no code.
        Call::Look { node, segment, .. } => from_node("look at", node, segment),
        Call::Validate { mode, .. } => format!("validate {with} {}", for_mode(mode)),
    }
}

fn for_mode(mode: u32) -> String {
    match mode {
        1 => "to read".to_string(),
        2 => "to write".to_string(),
        _ => format!("for mode {mode}"),
    }
}

fn gave(given: &Given) -> String {
    match given {
        Given::Nothing => String::new(),
        Given::Handles { read, write } => {
            format!(
                "read {} write {}",
                hexadecimal::encode(read),
                hexadecimal::encode(write)
            )
        }
        Given::Handle(handle) => format!("handle {}", hexadecimal::encode(handle)),
        Given::Counted { handle, count } => {
            format!("handle {} segments {count}", hexadecimal::encode(handle))
        }
        Given::Bytes(bytes) => {
            let shown = &bytes[..bytes.len().min(SHOWN_BYTES)];
            let more = if bytes.len() > SHOWN_BYTES { "..." } else { "" };
            format!(
                "{} {}{more}",
                counted(bytes.len(), "byte"),
                hexadecimal::encode(shown)
            )
        }
    }
}
