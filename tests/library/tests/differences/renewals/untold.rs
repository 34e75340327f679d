//! Replies that tell of the other mode, found out without the model; and two copies with equal passwords in one of
//! them.

use super::*;

/// Those that are wrong without telling anything are not found out either.
#[test]
fn what_does_not_hang_on_the_other_mode_is_not_found_out() {
    for wrong in [right(), renewed(rightly), compared(|_| false)] {
        run("untold", (wrong, not_by([By::Untold])));
    }
}

/// Leaves something that hangs on the other mode's password elsewhere.
fn noting(note: fn(&mut Held, u8)) -> Wrong {
    asked(move |held, question| {
        let asked = Asked::of(held, question);
        let answer = guard::ask(held, question);
        if let Some(asked) = asked {
            let sum = asked.other().into_iter().fold(0, |sum: u8, byte| sum.wrapping_mul(31).wrapping_add(byte));
            note(held, sum);
        }
        answer
    })
}

/// 9 is 1 for calls with this code where the passwords of the handle's cluster are equal.
fn another_number_where_equal(code: u8) -> Wrong {
    refusing(code, 9, 1, Seen::has_equal_passwords)
}

fn untold(word: Word) -> Complaint {
    by(By::Untold, [word, Asks(NEW_PASSWORD)])
}

table! {
    all => untold(REPLIES);
    by_the_number_with_both: compared(is_either);
    by_the_number_with_the_other: compared(Asked::is_other);
    by_the_number_with_the_read_password: compared(|it| it.password == it.cluster.read);
    by_the_number_with_the_write_password: compared(|it| it.password == it.cluster.write);
    by_the_number_made_equal: not_made_equal(7);
    by_the_number_unsound: unsound_where_equal();
    by_the_handle: giving(Asked::other);
    by_what_is_left_elsewhere_image: noting(|held, told| held.image[0] = told) => untold(Says("the two images differ"));
    by_what_is_left_elsewhere_memory: noting(|held, told| held.memory[0] = told)
        => untold(Says("the two memories differ"));
}

table! {
    all => untold(Says("the other mode's passwords differ"));
    by_what_is_left_of_it_both: leaving(both_replaced);
    by_what_is_left_of_it_both_where_equal: leaving(both_replaced_where_equal);
    by_what_is_left_of_it_read: leaving(|cluster, it| one_replaced_where_equal(cluster, it, Mode::Read));
    by_what_is_left_of_it_write: leaving(|cluster, it| one_replaced_where_equal(cluster, it, Mode::Write));
    by_what_is_left_of_it_the_other: leaving(the_other_replaced);
    by_what_is_left_of_it_passed_on: leaving(passed_on);
}

table! {
    all => by(By::Copies, [REPLIES]);
    what_two_copies_tell_of_passwords_old: old_before(9);
    what_two_copies_tell_of_passwords_read: another_number_where_equal(READ);
    what_two_copies_tell_of_passwords_write: another_number_where_equal(WRITE);
    what_two_copies_tell_of_passwords_new: another_number_where_equal(NEW_PASSWORD);
    /// It tells of the other mode to those who open one: no list has such a handle of the cluster set apart.
    what_two_copies_tell_of_passwords_open: compared(is_either) => not_by([By::FewCopies]);
}
