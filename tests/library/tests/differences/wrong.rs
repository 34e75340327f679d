//! Ways to be wrong that tables put together: another question, another answer, something left behind.

use crate::driver::{numbers, Row};
use crate::seen::Seen;
use library::{ffi::gelmuszta_handle, words::*};
use model::register::{Finding, Inquiry};
use std::{ops::Range, rc::Rc};

/// A library: what it answers, how it judges many handles, which images it holds for sound, what it makes of bytes, and
/// what it finds in registers. Mode and width of many handles are one argument.
#[derive(Clone)]
pub struct Wrong {
    pub ask: Rc<dyn Fn(&mut Held, &Question) -> Answer>,
    pub batch: Rc<dyn Fn(&mut Held, (usize, usize), &[u8], &mut [u8]) -> usize>,
    pub judge: Rc<dyn Fn(&mut Image) -> bool>,
    pub make: Rc<dyn Fn(&[u8]) -> (u8, gelmuszta_handle)>,
    pub office: Rc<dyn Fn(&Inquiry, &mut [u8]) -> Finding>,
}

/// The library as it is.
pub fn right() -> Wrong {
    Wrong {
        ask: Rc::new(guard::ask),
        batch: Rc::new(validate_all),
        judge: Rc::new(guard::is_sound),
        make: Rc::new(guard::handle_of),
        office: Rc::new(guard::look_up),
    }
}

pub fn validate_all(held: &mut Held, (mode, width): (usize, usize), handles: &[u8], numbers: &mut [u8]) -> usize {
    guard::validate_all(held, mode, width, handles, numbers)
}

/// Answers in another way.
pub fn asked(ask: impl Fn(&mut Held, &Question) -> Answer + 'static) -> Wrong {
    Wrong { ask: Rc::new(ask), ..right() }
}

/// Judges many handles in another way.
pub fn batch(batch: impl Fn(&mut Held, (usize, usize), &[u8], &mut [u8]) -> usize + 'static) -> Wrong {
    Wrong { batch: Rc::new(batch), ..right() }
}

/// Holds other images for sound.
pub fn judging(judge: impl Fn(&mut Image) -> bool + 'static) -> Wrong {
    Wrong { judge: Rc::new(judge), ..right() }
}

/// Makes another handle of bytes.
pub fn making(make: impl Fn(&[u8]) -> (u8, gelmuszta_handle) + 'static) -> Wrong {
    Wrong { make: Rc::new(make), ..right() }
}

/// Finds something else in registers.
pub fn finding(office: impl Fn(&Inquiry, &mut [u8]) -> Finding + 'static) -> Wrong {
    Wrong { office: Rc::new(office), ..right() }
}

/// Takes a question for another.
pub fn asking(change: impl Fn(&mut Question) + 'static) -> Wrong {
    asked(move |held, question| {
        let mut other = question.clone();
        change(&mut other);
        guard::ask(held, &other)
    })
}

/// Takes a mode or another number for what its low bytes say, where no four bytes hold it.
pub fn cut_to(bytes: usize) -> Wrong {
    asking(move |question| question.beyond &= (1 << (8 * bytes)) - 1)
}

/// The same in calls with this code alone, for the lowest four.
pub fn in_four_bytes(code: u8) -> Wrong {
    asking(move |question| {
        if question.code() == code {
            question.beyond &= 0xffff_ffff;
        }
    })
}

/// Takes a number that four bytes hold for what its lowest says.
pub fn in_one_byte(number: &mut u32) {
    if *number != BEYOND {
        *number &= 0xff;
    }
}

/// Takes mode and width of a batch for others.
pub fn batch_taking(taken: impl Fn(usize, usize) -> (usize, usize) + 'static) -> Wrong {
    batch(move |held, (mode, width), handles, numbers| validate_all(held, taken(mode, width), handles, numbers))
}

/// What a call was asked of, what it was, and what has come of it.
pub struct After<'a> {
    pub before: &'a Held,
    pub held: &'a mut Held,
    pub question: &'a Question,
    pub reply: Reply,
    pub buffer: Vec<u8>,
}

impl After<'_> {
    pub fn is_refused(&self, code: u8) -> bool {
        self.question.code() == code && !self.reply.is_done()
    }

    /// Node and local number of the cluster that it is about.
    pub fn cluster(&self) -> (usize, usize) {
        self.question.place().expect("it names one")
    }

    /// Where the record of a call that is done lies.
    pub fn record(&self) -> Range<usize> {
        record_at(self.cluster().0, self.cluster().1)
    }

    /// Where its segment's place and mark lie; of segment 0 where it names none.
    pub fn place(&self) -> Range<usize> {
        let (node, local) = self.cluster();
        segment_at(node, local, self.question.call.segment().unwrap_or(0) as usize)
    }

    /// The bytes of its record, and of its segment's place and mark.
    pub fn record_mut(&mut self) -> &mut [u8] {
        let record = self.record();
        &mut self.held.image[record]
    }

    pub fn place_mut(&mut self) -> &mut [u8] {
        let place = self.place();
        &mut self.held.image[place]
    }

    /// As it was before.
    pub fn seen(&self) -> Option<Seen> {
        Seen::of(self.before, self.question)
    }
}

/// Does something else besides, whatever was asked.
pub fn after(change: impl Fn(&mut After) + 'static) -> Wrong {
    after_some(|_| true, change)
}

/// The same for some questions.
fn after_some(meant: impl Fn(&Question) -> bool + 'static, change: impl Fn(&mut After) + 'static) -> Wrong {
    asked(move |held, question| {
        if !meant(question) {
            return guard::ask(held, question);
        }
        let before = held.clone();
        let Answer { reply, buffer } = guard::ask(held, question);
        let mut after = After { before: &before, held, question, reply, buffer };
        change(&mut after);
        let (reply, buffer) = (after.reply, after.buffer);
        Answer { reply, buffer }
    })
}

/// The same for calls that get this number.
pub fn at(number: u8, change: impl Fn(&mut After) + 'static) -> Wrong {
    after(getting(number, change))
}

/// The same for calls with this code that get this number.
pub fn on(code: u8, number: u8, change: impl Fn(&mut After) + 'static) -> Wrong {
    after_some(move |question| question.code() == code, getting(number, change))
}

fn getting(number: u8, change: impl Fn(&mut After) + 'static) -> impl Fn(&mut After) + 'static {
    move |after| {
        if after.reply.number == number {
            change(after);
        }
    }
}

/// Gives calls with this code that get this number what `other` has for them; nothing changes then.
pub fn instead(code: u8, number: u8, other: impl Fn(&Seen) -> Option<Reply> + 'static) -> Wrong {
    on(code, number, move |after| {
        if let Some(reply) = after.seen().and_then(|seen| other(&seen)) {
            *after.held = after.before.clone();
            after.reply = reply;
            after.buffer = after.question.buffer.clone();
        }
    })
}

/// The same with one that is done, found out by that.
pub fn done(code: u8, right: u8, other: impl Fn(&Seen) -> Option<Reply> + 'static) -> Row {
    (instead(code, right, other), numbers(code, right, 0))
}

/// Refuses with `wrong` what gets `right`, where this applies.
pub fn refusing(code: u8, right: u8, wrong: u8, applies: impl Fn(&Seen) -> bool + 'static) -> Wrong {
    instead(code, right, move |seen| refused_if(applies(seen), wrong))
}

/// The same, found out by the two numbers.
pub fn refused(code: u8, right: u8, wrong: u8, applies: impl Fn(&Seen) -> bool + 'static) -> Row {
    (refusing(code, right, wrong, applies), numbers(code, right, wrong))
}

pub fn refused_if(applies: bool, number: u8) -> Option<Reply> {
    applies.then_some(Reply::refused(number))
}

/// Takes any password in calls with this code.
pub fn by_any_password(code: u8) -> Wrong {
    on(code, 9, |it| {
        let primary = it.seen().and_then(|seen| seen.primary()).expect("9 comes after 2");
        let other = it.question.with_handles(|handle| handle.password = derive(&primary, &handle.selector));
        it.reply = guard::ask(it.held, &other).reply;
    })
}

/// A number that hangs on all of these bytes.
pub fn sum_of(bytes: &[u8]) -> u32 {
    bytes.iter().fold(0, |sum, byte| (sum * 31 + u32::from(*byte)) % 65_521)
}
