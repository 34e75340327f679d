//! What a new password meets: the current one of its mode, the other mode's, or both where these are equal. Beside it,
//! what is done by a handle that opens both modes, as every handle of such a cluster does. What is made by chance has
//! to come to each.

use crate::words::*;
use Use::{Change, Join, Look, Read, Reduce, Validate, Write};

/// What a handle that opens both modes is good for, with the mode where the call names one.
#[derive(Clone, Copy, Debug, PartialEq, Eq, PartialOrd, Ord)]
pub enum Use {
    Read,
    Look,
    Write,
    /// Calls 2, 3, 4 and 10.
    Change,
    Reduce(Mode),
    Join(Mode),
    Validate(Mode),
}

#[derive(Clone, Copy, Debug, PartialEq, Eq, PartialOrd, Ord)]
pub enum Renewal {
    /// Done with the other mode's password: from then on the two are equal.
    MadeEqual(Mode),
    /// Done where they are equal: from then on they are not.
    MadeUnequal(Mode),
    /// 12 by the mode's own password, where the other mode has another, and where it has the same.
    Own(Mode),
    OwnAndOther(Mode),
    /// 9 or 10, with the mode's own password.
    Before(u8, Mode),
    /// Done by a handle that opens both modes: a primary one, and one that is not.
    ByPrimary(Use),
    ByWeaker(Use),
}

/// All but a join, which is never done with a primary handle.
const USES: [Use; 8] =
    [Read, Look, Write, Change, Reduce(Mode::Read), Reduce(Mode::Write), Validate(Mode::Read), Validate(Mode::Write)];

impl Renewal {
    /// Everything that has to be met.
    pub fn all() -> impl Iterator<Item = Renewal> {
        let renewed = Mode::ALL.into_iter().flat_map(|mode| {
            [
                Renewal::MadeEqual(mode),
                Renewal::MadeUnequal(mode),
                Renewal::Own(mode),
                Renewal::OwnAndOther(mode),
                Renewal::Before(VIOLATED_PROTECTION, mode),
                Renewal::Before(NOT_PRIMARY, mode),
            ]
        });
        let weaker = USES.into_iter().filter(|by| *by != Change);
        let weaker = weaker.chain(Mode::ALL.map(Join)).map(Renewal::ByWeaker);
        renewed.chain(USES.map(Renewal::ByPrimary)).chain(weaker)
    }

    /// What a call that came to `number` has met, if anything; `found` is what it was put to.
    pub fn of(found: &Found, call: &Call, number: u8) -> Option<Renewal> {
        let handle = call.handle()?;
        let cluster = found.store.cluster_of(&handle)?;
        if let Call::NewPassword { password, .. } = call {
            return renewed(cluster, call.needed_mode()?, password, number);
        }
        let opens_both = Mode::ALL.iter().all(|mode| handle.validates(cluster, *mode));
        let by = used(call).filter(|_| number == DONE && opens_both)?;
        match handle.selector.is_primary() {
            true => Some(Renewal::ByPrimary(by)),
            false => Some(Renewal::ByWeaker(by)),
        }
    }
}

fn renewed(cluster: &Cluster, mode: Mode, password: &Password, number: u8) -> Option<Renewal> {
    let own = cluster.primary(mode) == password;
    let other = cluster.primary(mode.other()) == password;
    match (number, own, other) {
        (DONE, _, true) => Some(Renewal::MadeEqual(mode)),
        (DONE, ..) if cluster.has_equal_passwords() => Some(Renewal::MadeUnequal(mode)),
        (OLD_PASSWORD, true, false) => Some(Renewal::Own(mode)),
        (OLD_PASSWORD, true, true) => Some(Renewal::OwnAndOther(mode)),
        (VIOLATED_PROTECTION | NOT_PRIMARY, true, _) => Some(Renewal::Before(number, mode)),
        _ => None,
    }
}

/// Weakening is nothing of these: it opens no mode.
fn used(call: &Call) -> Option<Use> {
    match (call.kind(), call.needed_mode()?) {
        (Kind::Read, _) => Some(Read),
        (Kind::Look, _) => Some(Look),
        (Kind::Write, _) => Some(Write),
        (Kind::Reduce, mode) => Some(Reduce(mode)),
        (Kind::Join, mode) => Some(Join(mode)),
        (Kind::Validate, mode) => Some(Validate(mode)),
        _ => Some(Change),
    }
}
