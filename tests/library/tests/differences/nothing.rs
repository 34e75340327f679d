//! §1, handles to nothing: libraries that give them, that refuse too much, or that look at 21 in another place.

use crate::words::*;

/// A weakening, and what it got.
pub struct Weakened {
    pub handle: Handle,
    pub mask: u16,
    pub reply: Reply,
}

impl Weakened {
    /// The mask leaves nothing.
    fn is_empty(&self) -> bool {
        self.handle.kept(self.mask) == 0
    }

    pub fn excludes_nothing(&self) -> bool {
        self.handle.excluded(self.mask) == 0
    }

    pub fn is_spent(&self) -> bool {
        self.handle.selector.first_flat().is_none()
    }

    /// A handle to nothing, given as weakening gave it when nothing spoke against it.
    pub fn to_nothing(&self) -> Reply {
        let mut weaker = self.handle;
        let referenced = weaker.selector.referenced();
        if let (Some(at), 1..) = (weaker.selector.first_flat(), referenced) {
            let noted = weaker.width().flat() - referenced;
            weaker.selector.subselectors[at] = noted;
            weaker.password = guard::convert(&self.handle.password, noted);
        }
        Reply::with_handle(&weaker)
    }
}

/// Replies as `other` has it to a weakening about which that has something to say.
pub fn weakening(other: impl Fn(&Weakened) -> Option<Reply> + 'static) -> Wrong {
    after(move |it| {
        if let (Call::Weaken { mask, .. }, Some(handle)) = (&it.question.call, it.question.call.handle()) {
            let (mask, reply) = (*mask, it.reply.clone());
            let weakened = Weakened { handle, mask, reply };
            it.reply = other(&weakened).unwrap_or(weakened.reply);
        }
    })
}

/// Gives a handle in the place of 21, where this applies.
fn giving(applies: fn(&Weakened) -> bool) -> Row {
    let wrong = weakening(move |it| (it.reply.number == 21 && applies(it)).then(|| it.to_nothing()));
    (wrong, numbers(WEAKEN, 21, 0))
}

/// Gives this number in the place of another, where this applies.
fn refusing(right: u8, wrong: u8, applies: fn(&Weakened) -> bool) -> Row {
    let refusing = weakening(move |it| refused_if(it.reply.number == right && applies(it), wrong));
    (refusing, numbers(WEAKEN, right, wrong))
}

table! {
    nothing_left_and_a_handle_given: giving(|it| it.handle.selector.referenced() != 0);
    nothing_left_looked_for_in_mask_0_alone: giving(|it| it.mask != 0);
    nothing_excluded_and_the_handle_given_back: giving(Weakened::excludes_nothing);
    spent_first: refusing(21, 17, |it| !it.excludes_nothing() && it.is_spent());
    empty_before_gapped: refusing(4, 21, Weakened::is_empty);
    empty_before_no_such_place: refusing(2, 21, Weakened::is_empty);
    a_damaged_store_looked_at_first: at(21, |it| it.reply.number -= 20 * u8::from(!is_sound(it.held)))
        => by(By::Single, [Right(21), Gives(1)]);
    one_segment_left_taken_for_none: refusing(0, 21, |it| it.reply.count == 1);
    a_reduction_refused: refused(REDUCE, 0, 21, |seen| seen.handle.selector.count() == 0);
    a_validation_refused: refused(VALIDATION, 0, 21, |seen| seen.handle.selector.count() == 0);
    a_refusal_that_gives_the_old_handle: weakening(|it| {
        (it.reply.number == 21).then_some(Reply { number: 21, ..Reply::with_handle(&it.handle) })
    }) => by(By::Single, [MORE]);
}
