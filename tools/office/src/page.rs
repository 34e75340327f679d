//! What is printed of a register: who opens what, by holder and by segment, and how each handle came.

use crate::library::{Openers, Refusal};
use crate::text::{Register, SEGMENTS};
use model::hexadecimal;
use model::table::word;
use tools::tokens::Mistake;
use tools::values::HandleBytes;

/// The page without any handle. There must be no ring: the library has to have answered first.
pub fn page(register: &Register, openers: &Openers) -> String {
    let [high, low, local, ..] = register.handle;
    let parts = [
        format!("cluster {local} of node {}\n", u16::from_be_bytes([high, low])),
        table(register, openers),
        by_segment(register, openers),
        tree(register),
    ];
    parts.join("\n")
}

/// A line for each holder, with what `told` has for its number.
fn lines(register: &Register, heading: &str, told: impl Fn(usize) -> String) -> String {
    let names = || register.holders.iter().map(|holder| &holder.name);
    let width = names().map(String::len).fold("name".len(), usize::max);
    let mut text = format!("entry  {:width$}  {heading}\n", "name");
    for (number, name) in names().enumerate() {
        text += &format!("{number:5}  {name:width$}  {}\n", told(number));
    }
    text
}

/// A column for each segment: its number where the handle opens it, else a point.
fn table(register: &Register, openers: &Openers) -> String {
    let mark = |number: usize, segment: usize| match openers[segment].contains(&number) {
        true => segment.to_string(),
        false => ".".to_string(),
    };
    let marks = |number| Vec::from_iter((0..SEGMENTS).map(|segment| mark(number, segment)));
    lines(register, "opens", |number| marks(number).join(" "))
}

fn by_segment(register: &Register, openers: &Openers) -> String {
    let mut text = String::new();
    for (segment, numbers) in openers.iter().enumerate() {
        let names = numbers.iter().map(|&number| register.holders[number].name.as_str());
        let names = match numbers.is_empty() {
            true => "nobody".to_string(),
            false => Vec::from_iter(names).join(", "),
        };
        text += &format!("segment {segment}: {names}\n");
    }
    text
}

/// The handle supplied at the root, and below each handle those that were weakened from it.
fn tree(register: &Register) -> String {
    let mut text = format!("{}\n", step(register, 0));
    branches(register, 0, "", &mut text);
    text
}

fn branches(register: &Register, parent: usize, before: &str, text: &mut String) {
    let numbers = 1..register.holders.len();
    let mut children = numbers.filter(|&number| register.parent(number) == Some(parent)).peekable();
    while let Some(number) = children.next() {
        *text += &format!("{before}+-- {}\n", step(register, number));
        let beside = if children.peek().is_some() { "|   " } else { "    " };
        branches(register, number, &format!("{before}{beside}"), text);
    }
}

/// A holder, and what was kept for it.
fn step(register: &Register, number: usize) -> String {
    let holder = &register.holders[number];
    format!("{} {}", holder.name, holder.keeps).trim_end().to_string()
}

/// The handles in hexadecimal: whoever sees them can use them.
pub fn secrets(register: &Register, handles: &[HandleBytes]) -> String {
    let all = Vec::from_iter(std::iter::once(&register.handle).chain(handles));
    lines(register, "handle", |number| hexadecimal::encode(all[number]))
}

/// A refusal of the library's, with the line that it is about.
pub fn refused(register: &Register, refusal: Refusal) -> Mistake {
    let Refusal { number, entry } = refusal;
    let holder = &register.holders[entry];
    let (name, word) = (&holder.name, word(number).unwrap_or("no such number"));
    let (who, way) = match entry {
        0 => (format!("the handle of '{name}'"), String::new()),
        _ => (format!("entry {entry} ('{name}')"), format!(": {}", way(register, entry))),
    };
    Mistake { line: holder.line, what: format!("{who} is refused with {number} ({word}){}{way}", why(number)) }
}

/// What a number means here. The others cannot come of a text, which has a handle of 46 digits, a parent for each entry,
/// and no more entries than a register may have.
fn why(number: u8) -> &'static str {
    match number {
        2 => ": its node is above 3 or its local number above 7",
        4 => ": its selector is gapped",
        17 => ": a handle takes four cuts at most",
        20 => ": its way comes to an entry again",
        21 => ": no segment would be left",
        _ => "",
    }
}

/// How an entry's handle came, from the entry back to the handle supplied or to an entry that was met before. Of a way
/// that is long the beginning is told.
fn way(register: &Register, entry: usize) -> String {
    const TOLD: usize = 12;
    let mut text = step(register, entry);
    let mut met = vec![entry];
    while let Some(parent) = register.parent(met[met.len() - 1]) {
        if met.len() == TOLD {
            return text + ", and so on";
        }
        text += &format!(", from {}", step(register, parent));
        if met.contains(&parent) {
            break;
        }
        met.push(parent);
    }
    text
}
