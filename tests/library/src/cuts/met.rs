//! What handles that are cut come to, of each width and in each mode: how the three ways end, what was cut, and which of
//! the handles given differ.

use super::{
    chance::{Case, Origin},
    law::Cut,
};
use crate::words::*;
use model::cuts::{End, Way, ENDS};
use std::collections::BTreeSet;

/// A handle of this width and in this mode, whatever came of it.
pub const HANDLE: &str = "a handle";

/// What was cut, and what came of it in the three ways.
pub struct Seen<'a> {
    case: &'a Case,
    ends: [End; 3],
    /// What is given by the ways that are done.
    given: Vec<Handle>,
}

/// Something that is so of a case, or is not.
type Row = (&'static str, fn(&Seen) -> bool);

const ROWS: [Row; 14] = [
    (HANDLE, |_| true),
    ("valid in both modes", |it| it.case.in_both && it.all_done()),
    ("equal masks, and something is cut", |it| it.case.masks.first == it.case.masks.second && it.is_cut()),
    ("one mask cuts nothing", |it| it.is_cut() && it.cutting() == 1),
    ("neither mask cuts anything", |it| it.all_done() && it.cutting() == 0),
    ("neither mask cuts anything, and no subselector is flat", |it| {
        it.all_done() && it.cutting() == 0 && it.flat() == 0
    }),
    ("17, and no subselector is flat", |it| it.flat() == 0 && it.ends[2] == Some((1, SPENT))),
    ("nothing is referenced", |it| it.case.handle.selector.count() == 0),
    ("one segment is left", |it| it.is_cut() && it.given[0].selector.count() == 1),
    ("other selectors in the two orders", |it| it.all_done() && it.given[0].selector != it.given[1].selector),
    ("other passwords in the two orders", |it| it.all_done() && it.given[0].password != it.given[1].password),
    ("one password in three ways", |it| it.is_cut() && it.passwords() == 1),
    ("two passwords in three ways", |it| it.is_cut() && it.passwords() == 2),
    ("three passwords in three ways", |it| it.is_cut() && it.passwords() == 3),
];

/// Where there are bits above the width: in the two masks, and others in that of the single cut.
const ABOVE: [Row; 2] = [
    ("bits above the width", |it| it.is_cut() && it.above(it.case.masks.first & it.case.masks.second) != 0),
    ("other bits above the width", |it| {
        it.is_cut() && it.above(it.case.masks.first & it.case.masks.second) != it.above(it.case.masks.shared)
    }),
];

pub fn classes() -> impl Iterator<Item = (Width, Mode)> {
    Width::ALL.into_iter().flat_map(|width| Mode::ALL.map(|mode| (width, mode)))
}

pub fn of(width: Width, mode: Mode, what: &str) -> String {
    format!("width {}, {mode:?}: {what}", width.segments())
}

pub fn done(way: Way) -> String {
    format!("{way:?} is done")
}

fn with(origin: Origin) -> String {
    format!("{origin:?}, and it is cut")
}

/// At width 4, one that was weakened three times has one segment left.
fn origins(width: Width) -> impl Iterator<Item = Origin> {
    Origin::ALL.into_iter().filter(move |origin| (width, *origin) != (Width::Four, Origin::Thrice))
}

fn ending(ends: &[End; 3]) -> String {
    let told = |end: &End| end.map_or("done".to_string(), |(cut, number)| format!("{number} at cut {cut}"));
    ends.iter().map(told).collect::<Vec<_>>().join(" / ")
}

fn rows(width: Width) -> impl Iterator<Item = Row> {
    ROWS.into_iter().chain(ABOVE.into_iter().filter(move |_| width != Width::Sixteen))
}

/// The names of all that has to be met.
pub fn due() -> Vec<String> {
    let each = |(width, mode)| {
        let all = ENDS.iter().map(ending).chain(Way::ALL.map(done)).chain(origins(width).map(with));
        let all = all.chain(rows(width).map(|(name, _)| name.to_string()));
        all.map(|what| of(width, mode, &what)).collect::<Vec<_>>()
    };
    classes().flat_map(each).collect()
}

impl Seen<'_> {
    pub fn of<'a>(case: &'a Case, cuts: &[Cut; 3]) -> Seen<'a> {
        let given = cuts.iter().filter_map(Cut::handle).filter_map(|bytes| Handle::from_bytes(bytes));
        Seen { case, ends: cuts.each_ref().map(Cut::end), given: given.collect() }
    }

    /// What it has met.
    pub fn met(&self) -> Vec<String> {
        let (width, mode) = (self.case.handle.width(), self.case.mode);
        let done_ways = Way::ALL.into_iter().zip(&self.ends).filter(|(_, end)| end.is_none());
        let mut met: Vec<String> = done_ways.map(|(way, _)| done(way)).collect();
        met.push(ending(&self.ends));
        met.extend(self.something_is_cut().then(|| with(self.case.origin)));
        met.extend(rows(width).filter(|(_, is_so)| is_so(self)).map(|(name, _)| name.to_string()));
        met.iter().map(|what| of(width, mode, what)).collect()
    }

    fn all_done(&self) -> bool {
        self.ends == [None; 3]
    }

    /// How many of the two masks exclude something.
    fn cutting(&self) -> usize {
        let masks = [self.case.masks.first, self.case.masks.second];
        masks.iter().filter(|mask| self.case.handle.excluded(**mask) != 0).count()
    }

    /// All ways are done, and something is excluded.
    fn is_cut(&self) -> bool {
        self.all_done() && self.cutting() > 0
    }

    /// Some way is done, and gives another handle.
    fn something_is_cut(&self) -> bool {
        self.given.iter().any(|given| *given != self.case.handle)
    }

    fn flat(&self) -> usize {
        let flat = self.case.handle.width().flat();
        self.case.handle.selector.subselectors.iter().filter(|part| **part == flat).count()
    }

    fn passwords(&self) -> usize {
        self.given.iter().map(|given| given.password).collect::<BTreeSet<_>>().len()
    }

    fn above(&self, mask: u16) -> u16 {
        mask & !self.case.handle.width().flat()
    }
}
