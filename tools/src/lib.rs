//! Two helpers for people who work with lists of calls; they are outside the proved product.
//!
//! `calls2list` makes a list from readable text, `listshow` prints a list beside its answers.
//! README.md of this folder has the text's rules.
//!
//! - [`arguments`]: what a command is called with.
//! - [`tokens`]: a line in words, and mistakes that name their line.
//! - [`values`]: numbers, bytes, modes and handles as they are written.
//! - [`words`]: the words for calls and for fields, and where a field lies in a record.
//! - [`entry`]: a record as its line describes it.
//! - [`made`]: handles made by hand.
//! - [`text`]: a whole text of calls, read.
//! - [`build`]: the list for a text, its calls being tried on the way.
//! - [`answers`]: the lines that `benchrun` prints, read back.
//! - [`show`]: a list and its answers side by side.

pub mod answers;
pub mod arguments;
pub mod build;
pub mod entry;
pub mod made;
pub mod show;
pub mod text;
pub mod tokens;
pub mod values;
pub mod words;
