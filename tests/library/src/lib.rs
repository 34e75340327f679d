//! The proved C library, and the comparison of what it does with what the model does.
//!
//! - [`ffi`], [`guard`]: the functions of `include/gelmuszta.h`, and a safe way to call them.
//! - [`image`]: the records of all clusters as the header lays them out.
//! - [`question`]: a call with everything it is asked with, and what is answered.
//! - [`compare`]: one question put to both, and everything that has to be equal afterwards.
//! - [`chance`]: stores, damage, handles and questions made by chance from a seed.
//! - [`single`], [`runs`], [`edges`], [`batch`], [`copies`], [`published`]: what is compared.
//! - [`stays`], [`laws`], [`untold`], [`writers`]: whether what is frozen stays, what holds of joins, what the reply to
//!   a new password does not tell, and that those who write learn nothing of what lies there, judged by the library's
//!   side alone.
//! - [`registers`]: registers of handles given out.
//! - [`cuts`]: handles cut twice, in either order, and once.
//! - [`pairs`]: what comparisons of two copies share.
//! - [`tally`], [`damages`], [`sights`], [`widths`]: which answers, fills, selectors, modes, damages, ways to nothing,
//!   frozen segments, looks, freezes, joins, new passwords and widths were met.

pub mod batch;
pub mod chance;
pub mod compare;
pub mod copies;
pub mod cuts;
pub mod damages;
pub mod edges;
pub mod ffi;
pub mod guard;
pub mod image;
pub mod laws;
pub mod pairs;
pub mod published;
pub mod question;
pub mod registers;
pub mod runs;
pub mod sights;
pub mod single;
pub mod stays;
pub mod tally;
pub mod untold;
pub mod widths;
pub mod writers;

/// What nearly every file speaks of.
pub mod words {
    pub use crate::chance::damage::*;
    pub use crate::chance::handles::*;
    pub use crate::chance::questions::*;
    pub use crate::chance::stores::*;
    pub use crate::chance::*;
    pub use crate::compare::*;
    pub use crate::image::*;
    pub use crate::question::*;
    pub use crate::{guard, tally::Tally};
    pub use model::{listed, met::Met, words::*};
}
