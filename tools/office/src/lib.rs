//! Who can open which segment, by a register of handles given out that is written as text.
//!
//! All answers are those of the proved library; what stands here reads the text and lays the answers out.
//! README.md of the folder above has the text's rules.
//!
//! - [`arguments`]: what the command is called with.
//! - [`text`]: a register, read from its text.
//! - [`library`]: the questions that are put to the library.
//! - [`page`]: the answers as a table, by segment, and as a tree; a refusal in words.

pub mod arguments;
pub mod library;
pub mod page;
pub mod text;
