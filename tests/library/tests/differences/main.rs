//! That the comparison can fail: libraries that are wrong in one way each, all of them found out. One table a request
//! of document 02; a row is a test of its own and has a name, what is wrong, and who has to find it out in which words.

/// `name: what is wrong => who has to find it out;`, or `name: both;`. A table may have a module of its own. What `all` of
/// its rows have in common is said once, before them; one that differs says so.
macro_rules! table {
    (mod $table:ident; $($rows:tt)*) => {
        mod $table {
            use super::*;
            table! { $($rows)* }
        }
    };
    (all => $all:expr; $($(#[$about:meta])* $name:ident: $wrong:expr $(=> $own:expr)?;)*) => {
        table! { $($(#[$about])* $name: table!(@row $wrong, $($own,)? $all);)* }
    };
    (@row $wrong:expr, $complaint:expr $(, $all:expr)?) => { ($wrong, $complaint) };
    ($($(#[$about:meta])* $name:ident: $wrong:expr $(=> $complaint:expr)?;)*) => {$(
        $(#[$about])*
        #[test]
        fn $name() {
            $crate::driver::run(stringify!($name), ($wrong $(, $complaint)?));
        }
    )*};
}

/// A row for each call that validates handles, of a library that is wrong in that call alone.
macro_rules! in_one_call {
    ($table:ident: $wrong:ident => $complaint:expr; $($more:tt)*) => {
        table! {
            mod $table;
            all => $complaint;
            delete_cluster: $wrong(DELETE_CLUSTER);
            new_segment: $wrong(NEW_SEGMENT);
            delete_segment: $wrong(DELETE_SEGMENT);
            read: $wrong(READ);
            write: $wrong(WRITE);
            reduce: $wrong(REDUCE);
            new_password: $wrong(NEW_PASSWORD);
            freeze: $wrong(FREEZE);
            join: $wrong(JOIN);
            look: $wrong(LOOK);
            validation: $wrong(VALIDATION);
            $($more)*
        }
    };
}

/// What every table is written in.
mod words {
    pub use crate::driver::Word::{Call as Asks, Either, Gives, Right, Says};
    pub use crate::driver::*;
    pub use crate::seen::Seen;
    pub use crate::wrong::*;
    pub use library::words::*;
    pub use std::{ops::Range, rc::Rc};
}

mod calls;
mod cuts;
mod damage;
mod driver;
mod freezes;
mod held;
mod joins;
mod looks;
mod nothing;
mod registers;
mod renewals;
mod seen;
mod widths;
mod writers;
mod wrong;
