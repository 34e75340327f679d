//! §6, new passwords: compared with another than the mode's own or put in another place, equal ones that are not borne,
//! a handle of both modes that does not open one of them, and replies that tell of the other mode.

mod both;
mod untold;

use crate::words::*;

/// A new password to which no number before 12 applies, and the cluster that it is for.
pub struct Asked {
    cluster: Cluster,
    mode: Mode,
    handle: Handle,
    password: Password,
}

impl Asked {
    /// Whether this new password comes as far as 12 is seen by another one, which the cluster has in neither mode.
    fn of(held: &Held, question: &Question) -> Option<Asked> {
        let Call::NewPassword { password, .. } = question.call else { return None };
        let seen = Seen::of(held, question)?;
        let (cluster, handle) = (seen.cluster()?, seen.handle);
        let strange =
            (0..=u8::MAX).map(|byte| [byte; 16]).find(|strange| ![cluster.read, cluster.write].contains(strange))?;
        seen.done(|_, question| {
            if let Call::NewPassword { password, .. } = &mut question.call {
                *password = strange;
            }
        })?;
        Some(Asked { cluster, mode: seen.mode()?, handle, password })
    }

    /// The current passwords of the mode and of the other one.
    fn own(&self) -> Password {
        *self.cluster.primary(self.mode)
    }

    pub fn other(&self) -> Password {
        *self.cluster.primary(self.mode.other())
    }

    fn is_own(&self) -> bool {
        self.password == self.own()
    }

    fn is_other(&self) -> bool {
        self.password == self.other()
    }
}

/// What becomes of a new password: the cluster and the password of the handle that is given, or a number.
type Outcome = Result<(Cluster, Password), u8>;

/// This becomes of a new password that nothing before 12 speaks against.
fn renewed(outcome: impl Fn(&Asked) -> Outcome + 'static) -> Wrong {
    asked(move |held, question| {
        let Some(asked) = Asked::of(held, question) else { return guard::ask(held, question) };
        let reply = match outcome(&asked) {
            Err(number) => Reply::refused(number),
            Ok((cluster, password)) => {
                let (node, local) = asked.handle.name();
                *held = with(held, (node.into(), local.into()), cluster);
                Reply::with_handle(&Handle { password, ..asked.handle })
            }
        };
        Answer { reply, buffer: question.buffer.clone() }
    })
}

/// The same with another record.
fn with(held: &Held, (node, local): (usize, usize), cluster: Cluster) -> Held {
    let mut store = decode(&held.image).expect("it was asked of one");
    store.clusters[node][local] = cluster;
    held.with(&store)
}

/// Refused with 12 if so; else the mode's own is replaced, and its new primary handle given.
fn unless(old: bool, it: &Asked) -> Outcome {
    let mut cluster = it.cluster;
    *cluster.primary_mut(it.mode) = it.password;
    match old {
        true => Err(12),
        false => Ok((cluster, it.password)),
    }
}

fn rightly(it: &Asked) -> Outcome {
    unless(it.is_own(), it)
}

/// Compares a new password in this way.
pub fn compared(old: fn(&Asked) -> bool) -> Wrong {
    renewed(move |it| unless(old(it), it))
}

pub fn is_either(it: &Asked) -> bool {
    it.is_own() || it.is_other()
}

/// Leaves the cluster changed in this way where a new password is done.
fn leaving(change: fn(&mut Cluster, &Asked)) -> Wrong {
    renewed(move |it| {
        let (_, given) = rightly(it)?;
        let mut cluster = it.cluster;
        change(&mut cluster, it);
        Ok((cluster, given))
    })
}

/// Gives a handle with this password.
pub fn giving(given: fn(&Asked) -> Password) -> Wrong {
    renewed(move |it| rightly(it).map(|(cluster, _)| (cluster, given(it))))
}

/// Has this number where the two would become equal.
fn not_made_equal(number: u8) -> Wrong {
    renewed(move |it| match rightly(it) {
        Ok(_) if it.is_other() => Err(number),
        outcome => outcome,
    })
}

#[test]
fn the_right_way_is_not_found_out() {
    run("right", (renewed(rightly), not_by([By::Single, By::Runs])));
}

/// 12 where the new password is the mode's own, in the place of this number.
fn old_before(number: u8) -> Wrong {
    refusing(NEW_PASSWORD, number, 12, |seen| match seen.question.call {
        Call::NewPassword { password, .. } => seen.primary() == Some(password),
        _ => false,
    })
}

/// Call 1 makes clusters with equal passwords.
fn twins_made() -> Wrong {
    on(NEW_CLUSTER, 7, |it| {
        let Call::NewCluster { width, read, write, .. } = it.question.call else { return };
        let (node, local) = it.cluster();
        let width = Width::of_segments(width).expect("3 comes before 7");
        *it.held = with(it.held, (node, local), Cluster::new(width, read, write));
        let handle = |password| Handle::primary(width, node as u16, local as u8, password).to_bytes();
        (it.reply, it.reply.first, it.reply.second) = (Reply::DONE, handle(read), handle(write));
    })
}

fn has_equal(image: &Image) -> bool {
    decode(image).is_some_and(|store| store.clusters.as_flattened().iter().any(Cluster::has_equal_passwords))
}

/// Holds a store for unsound in which they are.
fn unsound_where_equal() -> Wrong {
    Wrong {
        judge: Rc::new(|image| guard::is_sound(image) && !has_equal(image)),
        ..asked(|held, question| match has_equal(&held.image) && question.code() != WEAKEN {
            true => Answer { reply: Reply::refused(1), buffer: question.buffer.clone() },
            false => guard::ask(held, question),
        })
    }
}

fn renewals(right: u8, wrong: u8) -> Complaint {
    numbers(NEW_PASSWORD, right, wrong)
}

table! {
    with_both: compared(is_either) => renewals(0, 12);
    with_both_in_mode_1: compared(|it| it.is_own() || it.mode == Mode::Read && it.is_other()) => renewals(0, 12);
    with_both_in_mode_2: compared(|it| it.is_own() || it.mode == Mode::Write && it.is_other()) => renewals(0, 12);
    with_nothing: compared(|_| false) => renewals(12, 0);
    in_mode_1_alone: compared(|it| it.mode == Mode::Read && it.is_own()) => renewals(12, 0);
    in_mode_2_alone: compared(|it| it.mode == Mode::Write && it.is_own()) => renewals(12, 0);
    not_where_the_two_are_equal: compared(|it| it.is_own() && !it.is_other()) => renewals(12, 0);
    where_the_two_are_equal_alone: compared(|it| it.is_own() && it.is_other()) => renewals(12, 0);
    in_the_first_half: compared(|it| it.password[..8] == it.own()[..8]) => renewals(0, 12);
    in_the_second_half: compared(|it| it.password[8..] == it.own()[8..]) => renewals(0, 12);
    before_9_and_before_10_nine: old_before(9) => renewals(9, 12);
    before_9_and_before_10_ten: old_before(10) => renewals(10, 12);
    a_number_for_a_new_password_that_makes_them_equal_7: not_made_equal(7) => renewals(0, 7);
    a_number_for_a_new_password_that_makes_them_equal_1: not_made_equal(1) => renewals(0, 1);
    twins_taken_by_call_1: twins_made() => numbers(NEW_CLUSTER, 7, 0);
    equal_ones_taken_for_unsound: unsound_where_equal()
        => told([Gives(1)]).and(By::EveryByte, [Says("sound is true in the model, false")]);
}

// Found out by a new password that is done or refused with 12: which of the two comes first hangs on chance.
table! {
    all => told([Asks(NEW_PASSWORD), Either(&["model: number 0,", "model: number 12,"])]);
    with_the_other_mode_s_instead: compared(Asked::is_other);
    with_the_read_password_always: compared(|it| it.password == it.cluster.read);
    with_the_write_password_always: compared(|it| it.password == it.cluster.write);
}

fn both_replaced(cluster: &mut Cluster, it: &Asked) {
    (cluster.read, cluster.write) = (it.password, it.password);
}

/// As by a search for the old one.
fn both_replaced_where_equal(cluster: &mut Cluster, it: &Asked) {
    for password in [&mut cluster.read, &mut cluster.write] {
        if *password == it.own() {
            *password = it.password;
        }
    }
}

/// The first that the search meets.
fn one_replaced_where_equal(cluster: &mut Cluster, it: &Asked, first: Mode) {
    let mode = if cluster.has_equal_passwords() { first } else { it.mode };
    *cluster.primary_mut(mode) = it.password;
}

fn the_other_replaced(cluster: &mut Cluster, it: &Asked) {
    *cluster.primary_mut(it.mode.other()) = it.password;
}

/// The old one goes to the other mode.
fn passed_on(cluster: &mut Cluster, it: &Asked) {
    *cluster.primary_mut(it.mode) = it.password;
    *cluster.primary_mut(it.mode.other()) = it.own();
}

table! {
    mod another_password_replaced;
    all => told([Asks(NEW_PASSWORD), IMAGES]);
    both_replaced: leaving(super::both_replaced);
    both_replaced_where_equal: leaving(super::both_replaced_where_equal);
    read_replaced_where_equal: leaving(|cluster, it| one_replaced_where_equal(cluster, it, Mode::Read));
    write_replaced_where_equal: leaving(|cluster, it| one_replaced_where_equal(cluster, it, Mode::Write));
    the_other_replaced: leaving(super::the_other_replaced);
    passed_on: leaving(super::passed_on);
    nothing_replaced: leaving(|_, _| {});
}

table! {
    all => told([Asks(NEW_PASSWORD), REPLIES]);
    another_handle_given_the_old: giving(Asked::own);
    another_handle_given_the_other: giving(Asked::other);
}
