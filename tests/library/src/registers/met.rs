//! What inquiries come to: numbers, orders, ways of every depth, rings, missing entries, buffers, segments, lengths.

use super::chance::WHOLE;
use model::register::{step, Finding, Inquiry, OF_ENTRIES, WIDTH};
use model::words::*;

/// An inquiry, how long its buffer was, and what was found.
pub struct Seen<'a> {
    pub inquiry: &'a Inquiry,
    pub bytes: usize,
    pub finding: Finding,
}

/// Something that is so of an inquiry which comes to this number, or is not.
type Case = (&'static str, u8, fn(&Seen) -> bool);
/// Numbers that it has, each told by the first of these bounds that it is not above.
type Range = (&'static str, u8, &'static [usize], fn(&Seen) -> Vec<usize>);

const CASES: [Case; 18] = [
    ("a handle of another width", LENGTH, |it| it.inquiry.supplied().is_some()),
    ("no node", NO_SUCH_PLACE, |it| it.supplied().node > 3),
    ("no node, but for its high byte", NO_SUCH_PLACE, |it| it.supplied().node > 3 && it.supplied().node % 256 < 4),
    ("no local number", NO_SUCH_PLACE, |it| it.supplied().node < 4),
    ("an empty buffer", SHORT, |it| it.bytes == 0),
    ("an empty register and buffer", DONE, |it| it.inquiry.entries.is_empty() && it.bytes == 0),
    ("an empty register, nothing referenced", DONE, |it| it.supplied().selector.count() == 0),
    ("weakened from one above", DONE, |it| it.ways().any(|way| goes_up(&way))),
    ("weakened from one below", DONE, |it| it.ways().any(|way| goes_down(&way))),
    ("a way up and down", DONE, |it| it.ways().any(|way| goes_up(&way) && goes_down(&way))),
    ("the next number missing", LINK, |it| it.end() == it.inquiry.count() + 1),
    ("number 255 missing", LINK, |it| it.end() == 255),
    ("another missing", LINK, |it| it.end() != 255 && it.end() != it.inquiry.count() + 1),
    ("a tail into a ring", LOOP, |it| it.ring() < it.way().len()),
    ("nothing referenced", EMPTY, |it| it.supplied().selector.count() == 0),
    ("the last step refused", SPENT, |it| it.refused().1.is_empty()),
    ("21 before 17 at one step", EMPTY, |it| {
        let (handle, _) = it.refused();
        handle.selector.count() > 0 && handle.selector.first_flat().is_none()
    }),
    ("17 before 21 further down", SPENT, |it| {
        let (handle, below) = it.refused();
        below.iter().any(|mask| handle.kept((*mask).into()) == 0)
    }),
];

const OF_OPENERS: [Case; 6] = [
    ("no segment, but for its high bytes", FIELD, |it| it.inquiry.segment.is_some_and(|segment| segment % 256 < 8)),
    ("as many bytes as would be given", SHORT, |it| it.would_be_given().is_some_and(|given| given <= it.bytes)),
    ("opened by none", DONE, |it| it.finding.count == 0 && it.inquiry.count() > 1),
    ("opened by one", DONE, |it| it.finding.count == 1 && it.inquiry.count() > 1),
    ("opened by some", DONE, |it| it.finding.count > 1 && it.finding.count < it.inquiry.count()),
    ("opened by all", DONE, |it| it.finding.count == it.inquiry.count() && it.finding.count > 1),
];

const RANGES: [Range; 9] = [
    ("length of the handle", LENGTH, &[0, 20, 21, 22, 26, 27, 255], |it| vec![it.inquiry.handle.len()]),
    ("bytes of entries", LIST_LENGTH, &[1, 509, 511, 512, 1000], |it| vec![it.inquiry.entries.len()]),
    ("bytes too few", SHORT, &[1, 100, 6000], |it| vec![it.inquiry.needed() - it.bytes]),
    ("bytes too many", DONE, &[0, 1, 100], |it| vec![it.bytes - it.inquiry.needed()]),
    ("entries", DONE, &[0, 1, 2, 253, 254, 255], |it| vec![it.inquiry.count()]),
    ("depth", DONE, &[1, 2, 3, 4, 5, 20, 100, 254, 255], |it| it.ways().map(|way| way.len()).collect()),
    ("flat in the handle supplied", DONE, &[0, 1, 2, 3, 4], |it| vec![flat(&it.supplied())]),
    ("conversions", DONE, &[0, 1, 2, 3, 4], |it| {
        let handles = (1..=it.inquiry.count()).filter_map(|entry| it.inquiry.handle_of(entry).ok());
        handles.map(|handle| flat(&it.supplied()) - flat(&handle)).collect()
    }),
    ("ring", LOOP, &[1, 2, 9, 254, 255], |it| vec![it.ring()]),
];

const RANGES_OF_OPENERS: [Range; 2] = [
    ("no segment", FIELD, &[8, 255, 256, 1 << 32, usize::MAX], |it| it.inquiry.segment.into_iter().collect()),
    ("segment", DONE, &[0, 1, 2, 3, 4, 5, 6, 7], |it| {
        it.inquiry.segment.filter(|_| it.finding.count > 0).into_iter().collect()
    }),
];

fn flat(handle: &Handle) -> usize {
    handle.selector.subselectors.iter().filter(|part| **part == WIDTH.flat()).count()
}

fn goes_up(way: &[usize]) -> bool {
    way.windows(2).any(|two| two[0] < two[1])
}

fn goes_down(way: &[usize]) -> bool {
    way.windows(2).any(|two| two[0] > two[1])
}

/// The name of the question, and whether it is the second.
fn asked(inquiry: &Inquiry) -> (&'static str, bool) {
    if inquiry.segment.is_some() {
        ("openers", true)
    } else {
        ("handles", false)
    }
}

fn cases(of_openers: bool) -> impl Iterator<Item = Case> {
    CASES.into_iter().chain(OF_OPENERS.into_iter().filter(move |_| of_openers))
}

fn ranges(of_openers: bool) -> impl Iterator<Item = Range> {
    RANGES.into_iter().chain(RANGES_OF_OPENERS.into_iter().filter(move |_| of_openers))
}

/// The names of all that has to be met.
pub fn due() -> Vec<String> {
    let both = [None, Some(0)].map(|segment| Inquiry { handle: vec![], segment, entries: vec![] });
    both.iter().flat_map(due_of).collect()
}

fn due_of(inquiry: &Inquiry) -> Vec<String> {
    let ((asked, of_openers), numbers) = (asked(inquiry), inquiry.numbers());
    let mut due: Vec<String> = numbers.iter().chain(&[DONE]).map(|number| format!("with {number}")).collect();
    for (at, first) in numbers.iter().enumerate().filter(|(_, first)| WHOLE.contains(first)) {
        // Steps are not taken from a handle of another width.
        let others = numbers[at + 1..].iter().filter(|other| *first != LENGTH || ![EMPTY, SPENT].contains(other));
        due.extend(others.map(|other| format!("{first} before {other}")));
    }
    for number in OF_ENTRIES {
        due.extend(OF_ENTRIES.map(|other| format!("{number} before {other} further on")));
        due.push(format!("{number} handed on from one above"));
        let by_its_way = [EMPTY, SPENT].into_iter().filter(|_| [LINK, LOOP].contains(&number));
        due.extend(by_its_way.map(|other| format!("{number} before {other} on one way")));
    }
    due.extend(cases(of_openers).map(|(name, ..)| name.to_string()));
    due.extend(
        ranges(of_openers).flat_map(|(name, _, bounds, _)| bounds.iter().map(move |bound| format!("{name} {bound}"))),
    );
    due.iter().map(|name| format!("{asked}, {name}")).collect()
}

impl Seen<'_> {
    /// What it has met.
    pub fn met(&self) -> Vec<String> {
        let ((asked, of_openers), number) = (asked(self.inquiry), self.finding.number);
        let mut met = vec![format!("with {number}")];
        met.extend(
            cases(of_openers).filter(|(_, at, is_so)| *at == number && is_so(self)).map(|(name, ..)| name.to_string()),
        );
        for (name, _, bounds, of) in ranges(of_openers).filter(|(_, at, ..)| *at == number) {
            let mut found: Vec<usize> =
                of(self).iter().filter_map(|value| bounds.iter().copied().find(|bound| value <= bound)).collect();
            found.sort();
            found.dedup();
            met.extend(found.iter().map(|bound| format!("{name} {bound}")));
        }
        met.extend(self.orders());
        met.iter().map(|name| format!("{asked}, {name}")).collect()
    }

    /// What was not told, since something came before it.
    fn orders(&self) -> Vec<String> {
        let Finding { number, entry, .. } = self.finding;
        let fails = |entry: usize| self.inquiry.handle_of(entry).err();
        let further = (entry + 1..=self.inquiry.count().min(255)).filter_map(fails);
        if WHOLE.contains(&number) {
            let others = self.inquiry.applying(self.bytes).chain(further);
            return others.map(|other| format!("{number} before {other}")).collect();
        }
        if number == DONE {
            return vec![];
        }
        let mut orders: Vec<String> = further.map(|other| format!("{number} before {other} further on")).collect();
        let from = self.inquiry.entry(entry).0;
        let is_handed_on = from > entry && from <= self.inquiry.count();
        orders.extend(is_handed_on.then(|| format!("{number} handed on from one above")));
        let step = self.inquiry.steps(&self.way()).err().filter(|_| [LINK, LOOP].contains(&number));
        orders.extend(step.map(|other| format!("{number} before {other} on one way")));
        orders
    }

    fn supplied(&self) -> Handle {
        self.inquiry.supplied().expect("25 is told of all others")
    }

    fn ways(&self) -> impl Iterator<Item = Vec<usize>> + '_ {
        (1..=self.inquiry.count()).map(|entry| self.inquiry.way(entry).0)
    }

    /// The way from the entry told.
    fn way(&self) -> Vec<usize> {
        self.inquiry.way(self.finding.entry).0
    }

    /// The number that the last one met has for its parent: missing, or met before.
    fn end(&self) -> usize {
        self.way().last().map_or(0, |last| self.inquiry.entry(*last).0)
    }

    /// How many entries the ring has that the way comes to.
    fn ring(&self) -> usize {
        self.way().iter().skip_while(|entry| **entry != self.end()).count()
    }

    /// The handle at which the way down is refused, and the masks below that step.
    fn refused(&self) -> (Handle, Vec<u8>) {
        let (way, mut handle) = (self.way(), self.supplied());
        let mut masks = way.iter().rev().map(|entry| self.inquiry.entry(*entry).1);
        masks.find(|mask| step(handle, *mask).map(|weaker| handle = weaker).is_err());
        (handle, masks.collect())
    }

    /// How many would open the segment, were there room, and none refused.
    fn would_be_given(&self) -> Option<usize> {
        let room = &mut vec![0; self.inquiry.needed()];
        let finding = model::register::run(self.inquiry, room);
        (finding.number == DONE).then_some(finding.count)
    }
}
