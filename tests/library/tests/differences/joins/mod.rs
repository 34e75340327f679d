//! §5, joining. A join is put together from the rows that may refuse it and from the handle that it gives: a wrong
//! library has a row less, or another, or two in another order, or gives another handle.

mod given;
mod orders;
mod rows;

use crate::words::*;

/// A join, and what it is put to.
pub struct Asked {
    sound: bool,
    store: Store,
    mode: Option<Mode>,
    /// Whether their lengths are those of handles. Those that are not are read as if they were of eight, with zeros
    /// where bytes are missing.
    known: [bool; 2],
    handles: [Handle; 2],
}

impl Asked {
    /// A damaged image has no store.
    fn of(held: &Held, question: &Question) -> Option<Asked> {
        let Call::Join { mode, .. } = question.call else { return None };
        let mut both = question.call.presented_bytes();
        let both = [both.next()?, both.next()?];
        Some(Asked {
            sound: is_sound(held),
            store: decode(&held.image)?,
            mode: Mode::from_number(mode),
            known: both.map(|bytes| Handle::from_bytes(bytes).is_some()),
            handles: both.map(of_eight),
        })
    }

    /// The cluster that one of the two names, if there is such a place.
    fn cluster(&self, at: usize) -> Option<&Cluster> {
        let handle = self.handles[at];
        self.store.cluster(handle.node.into(), handle.local.into())
    }

    /// A primary password of that cluster; of the other mode, too.
    fn password(&self, at: usize, mode: Mode) -> Password {
        *self.cluster(at).unwrap_or(&Cluster::INACTIVE).primary(mode)
    }

    fn primary(&self, at: usize) -> Password {
        self.password(at, self.mode.unwrap_or(Mode::Read))
    }

    fn is_nowhere(&self, at: usize) -> bool {
        self.cluster(at).is_none()
    }

    fn is_gapped(&self, at: usize) -> bool {
        self.handles[at].selector.is_gapped()
    }

    fn is_inactive(&self, at: usize) -> bool {
        self.cluster(at).is_some_and(|cluster| !cluster.active)
    }

    fn has_another_width(&self, at: usize) -> bool {
        let width = self.handles[at].width();
        let cluster = self.cluster(at);
        !cluster.is_some_and(|cluster| cluster.has_width(width))
    }

    fn is_violated(&self, at: usize) -> bool {
        !self.handles[at].is_made_from(&self.primary(at))
    }

    fn is_primary(&self, at: usize) -> bool {
        self.handles[at].selector.is_primary()
    }

    fn are_apart(&self) -> bool {
        self.handles[0].name() != self.handles[1].name()
    }

    fn flat(&self) -> u16 {
        self.handles[0].width().flat()
    }

    /// What each of the two references.
    fn referenced(&self) -> [u16; 2] {
        self.handles.map(|handle| handle.selector.referenced())
    }

    fn union(&self) -> u16 {
        let [one, other] = self.referenced();
        one | other
    }

    fn is_whole(&self) -> bool {
        self.union() == self.flat()
    }

    fn has_no_mode(&self) -> bool {
        self.mode.is_none()
    }
}

/// The handle; bytes of no handle are cut or get more, so that they are one of eight.
fn of_eight(bytes: &[u8]) -> Handle {
    Handle::from_bytes(bytes).unwrap_or_else(|| {
        let mut bytes = bytes.to_vec();
        bytes.resize(Width::Eight.handle_bytes(), 0);
        Handle::from_bytes(&bytes).expect("it is as long as one")
    })
}

/// A number, and when it is given.
pub type JoinRow = (u8, fn(&Asked) -> bool);

/// As the table has them.
const RIGHT: [JoinRow; 16] = [
    (25, |it| !it.known[0]),
    (25, |it| !it.known[1]),
    (1, |it| !it.sound),
    (2, |it| it.is_nowhere(0)),
    (2, |it| it.is_nowhere(1)),
    (3, Asked::has_no_mode),
    (4, |it| it.is_gapped(0)),
    (4, |it| it.is_gapped(1)),
    (24, Asked::are_apart),
    (8, |it| it.is_inactive(0)),
    (8, |it| it.is_inactive(1)),
    (25, |it| it.has_another_width(0)),
    (25, |it| it.has_another_width(1)),
    (9, |it| it.is_violated(0)),
    (9, |it| it.is_violated(1)),
    (23, Asked::is_whole),
];

/// These segments in subselector 0, converted from this password.
fn noting(handle: Handle, password: &Password, segments: u16) -> HandleBytes {
    let mut selector = Selector::primary(handle.width());
    selector.subselectors[0] = segments;
    let password = guard::convert(password, segments);
    Handle { password, selector, ..handle }.to_bytes()
}

/// What a join that is done gives.
pub type Given = fn(&Asked) -> HandleBytes;

const RIGHTLY: Given = |it| noting(it.handles[0], &it.primary(0), it.union());

/// What joining by these rows comes to, the first that applies.
fn by_rows(held: &mut Held, question: &Question, rows: &[JoinRow], given: Given) -> Answer {
    let Some(asked) = Asked::of(held, question) else { return guard::ask(held, question) };
    let reply = match rows.iter().find(|(_, applies)| applies(&asked)) {
        Some((number, _)) => Reply::refused(*number),
        None => Reply { first: given(&asked), ..Reply::DONE },
    };
    Answer { reply, buffer: question.buffer.clone() }
}

fn joined(rows: Vec<JoinRow>, given: Given) -> Wrong {
    asked(move |held, question| by_rows(held, question, &rows, given))
}

/// The right rows but these.
fn without(left_out: &[usize]) -> Vec<JoinRow> {
    RIGHT.iter().enumerate().filter(|(at, _)| !left_out.contains(at)).map(|(_, row)| *row).collect()
}

/// By a join to which the model gives this.
fn joins(right: u8) -> Complaint {
    told([Asks(JOIN), Right(right)])
}

/// Joins that are put together rightly are not found out, be it without a row that nothing hangs on: where 24 does not
/// apply, the two name one cluster.
#[test]
fn the_right_rows_are_not_found_out() {
    for (name, rows) in [("right rows", RIGHT.to_vec()), ("no row 10", without(&[10]))] {
        run(name, (joined(rows, RIGHTLY), not_by([By::Single, By::Runs, By::Joins])));
    }
}

#[test]
fn rows_stand_where_they_are_cut() {
    assert_eq!(RIGHT.map(|(number, _)| number), [25, 25, 1, 2, 2, 3, 4, 4, 24, 8, 8, 25, 25, 9, 9, 23]);
}
