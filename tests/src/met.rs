//! Situations, each by its name: how often each was met, and which of those that are due was not.

use crate::frozen::{Marks, CASES};
use crate::nothing::{Cut, WAYS};
use crate::{joins, renewals::Renewal, words::*};
use std::collections::{BTreeMap, HashMap};
use std::fmt;

/// Those of which the fewest were met are told by name, so many.
const TOLD: usize = 5;

#[derive(Clone, Debug)]
pub struct Met {
    /// In what.
    of: &'static str,
    due: Vec<String>,
    counts: HashMap<String, u64>,
}

impl Met {
    pub fn new(of: &'static str, due: impl IntoIterator<Item = impl fmt::Display>) -> Met {
        Met { of, due: due.into_iter().map(|what| what.to_string()).collect(), counts: HashMap::new() }
    }

    pub fn note(&mut self, what: impl fmt::Display) {
        *self.counts.entry(what.to_string()).or_default() += 1;
    }

    pub fn note_if(&mut self, is_met: bool, what: impl fmt::Display) {
        if is_met {
            self.note(what);
        }
    }

    pub fn note_all(&mut self, all: impl IntoIterator<Item = impl fmt::Display>) {
        all.into_iter().for_each(|what| self.note(what));
    }

    pub fn count(&self, what: &str) -> u64 {
        self.counts.get(what).copied().unwrap_or(0)
    }

    pub fn due(&self) -> impl Iterator<Item = &String> {
        self.due.iter()
    }

    /// What was met and is not due.
    pub fn not_due(&self) -> impl Iterator<Item = &String> {
        self.counts.keys().filter(|what| !self.due.contains(what))
    }

    /// What is due and was not met.
    pub fn faults(&self) -> Vec<String> {
        let missing = self.due.iter().filter(|what| self.count(what) == 0);
        missing.map(|what| format!("not met: {}, {what}", self.of)).collect()
    }
}

impl fmt::Display for Met {
    fn fmt(&self, to: &mut fmt::Formatter) -> fmt::Result {
        let mut counts: Vec<(u64, &str)> = self.due.iter().map(|what| (self.count(what), what.as_str())).collect();
        counts.sort();
        let met = counts.iter().filter(|(count, _)| *count > 0).count();
        let seldom: Vec<String> = counts.iter().take(TOLD).map(|(count, what)| format!("{what} ({count})")).collect();
        write!(to, "{}: {met} of {} situations met; the fewest: {}", self.of, counts.len(), seldom.join("; "))
    }
}

/// A situation: its name, the calls that meet it, the number that they come to, and when.
pub type Row<T> = (&'static str, &'static [Kind], u8, fn(&T) -> bool);

pub fn names<T>(rows: &[Row<T>]) -> impl Iterator<Item = String> + '_ {
    rows.iter().map(|(name, ..)| name.to_string())
}

/// Those that a call which came to `number` has met.
pub fn of_rows<T>(rows: &[Row<T>], call: &Call, number: u8, it: &T) -> Vec<String> {
    let is_met = |row: &&Row<T>| row.1.contains(&call.kind()) && row.2 == number && row.3(it);
    rows.iter().filter(is_met).map(|(name, ..)| name.to_string()).collect()
}

fn named(of: &'static str, names: impl IntoIterator<Item = String>) -> impl Iterator<Item = String> {
    names.into_iter().map(move |name| format!("{of}, {name}"))
}

/// The way to nothing that a call which came to `number` has gone, by name.
pub fn way(call: &Call, number: u8) -> Option<String> {
    let gone = of_rows(&WAYS, call, number, &Cut::of(call)?);
    named("way to nothing", gone).next()
}

/// What it has met where something is frozen, in joins, and with new passwords; `found` is what it was put to.
pub fn situations(found: &Found, call: &Call, number: u8) -> impl Iterator<Item = String> {
    let frozen = Marks::of(found, call).map(|marks| of_rows(&CASES, call, number, &marks));
    let passwords = Renewal::of(found, call, number).map(|renewal| format!("{renewal:?}"));
    named("something frozen", frozen.unwrap_or_default())
        .chain(named("a join", joins::met(found, call, number)))
        .chain(named("passwords", passwords))
}

/// All of these that there are.
pub fn due() -> impl Iterator<Item = String> {
    named("way to nothing", names(&WAYS))
        .chain(named("something frozen", names(&CASES)))
        .chain(named("a join", joins::due()))
        .chain(named("passwords", Renewal::all().map(|renewal| format!("{renewal:?}"))))
}

/// Those that a list can come to: it asks for no look, for no validation by itself, and has one width.
pub fn due_in_lists() -> impl Iterator<Item = String> {
    let beyond = ["Shown", "Look", "Validat", "Length", "Width"];
    due().filter(move |name| !beyond.iter().any(|what| name.contains(what)))
}

/// A row for each of `codes`, and how often calls with it came to each of `numbers`.
pub fn table(
    codes: impl Iterator<Item = (u8, &'static str)>,
    numbers: &[u8],
    counts: &BTreeMap<(u8, u8), u64>,
) -> String {
    let cells = |cell: &dyn Fn(&u8) -> String| numbers.iter().map(|number| format!("{:>7}", cell(number))).collect();
    let row = |name: &str, cells: String| format!("{name:<15}{cells}\n");
    let heads = row("call \\ number", cells(&u8::to_string));
    let rows = codes.map(|(code, name)| {
        let count = |number: &u8| counts.get(&(code, *number)).map_or(".".to_string(), u64::to_string);
        row(name, cells(&count))
    });
    std::iter::once(heads).chain(rows).collect()
}

/// An enumeration, and all of it in order.
#[macro_export]
macro_rules! listed {
    ($(#[$about:meta])* $vis:vis enum $name:ident { $($(#[$doc:meta])* $one:ident),* $(,)? }) => {
        $(#[$about])*
        #[derive(Clone, Copy, Debug, PartialEq, Eq, PartialOrd, Ord)]
        $vis enum $name { $($(#[$doc])* $one),* }

        impl $name {
            pub const ALL: [$name; [$($name::$one),*].len()] = [$($name::$one),*];
        }
    };
}
