//! A second guard, written from the documents alone and in another language than the proved one.
//!
//! It shares no line with the proved guard, so whatever both of them answer to the same list was
//! understood the same way twice. Nothing here is proved.
//!
//! - [`aes`]: AES-128 of FIPS 197 by tables of words.
//! - [`width`]: the three widths.
//! - [`handle`]: selectors, the bytes of each width, conversion, weakening, reduction.
//! - [`store`]: records, soundness, placement.
//! - [`table`]: the numbers of refusal, their words, and the test behind each of them.
//! - [`call`]: the eleven calls, looks and validation with their arguments, and replies.
//! - [`made`]: calls by their arguments, and by their kind.
//! - [`model`]: the calls carried out.
//! - [`register`]: a register of handles given out, both questions.
//! - [`cuts`]: a handle cut by two masks in three ways, and how the ways end.
//! - [`list`]: records of 64 bytes, the chain, and the text that a list comes out as.
//! - [`vectors`]: the published handles, registers and cuts.
//! - [`nothing`]: the ways to a handle that would reference nothing, for those who count what was met.
//! - [`frozen`]: whether what is frozen stays, and what calls come to there, for those who watch them.
//! - [`joins`]: how the two handles of a join meet, for those who count what was met.
//! - [`renewals`]: what a new password meets, and what is done by a handle that opens both modes, for the same.
//! - [`widths`]: what calls come to by the widths of handles and clusters, for the same.
//! - [`met`]: the registry of what was met, and of what has to be.
//! - [`random`], [`generate`]: lists made by chance from a seed.
//! - [`command`]: how the programs of this package are started, and how they end.
//! - [`program`], [`streams`]: a program run, with its input and output in every way that they can come.

pub mod aes;
pub mod call;
pub mod command;
pub mod cuts;
pub mod frozen;
pub mod generate;
pub mod handle;
pub mod hexadecimal;
pub mod joins;
pub mod list;
pub mod made;
pub mod met;
pub mod model;
pub mod nothing;
pub mod program;
pub mod random;
pub mod register;
pub mod renewals;
pub mod sizes;
pub mod store;
pub mod streams;
pub mod table;
pub mod vectors;
pub mod width;
pub mod widths;

/// What nearly every file speaks of.
pub mod words {
    pub use crate::call::*;
    pub use crate::handle::*;
    pub use crate::made::*;
    pub use crate::random::Random;
    pub use crate::sizes::*;
    pub use crate::store::*;
    pub use crate::table::*;
    pub use crate::width::*;
}
