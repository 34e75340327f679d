//! What is asked of the library alone, and of that which compares it.

mod bytes;
mod cases;
mod damage;
mod exports;
mod pages;
mod reached;
mod rows;
#[path = "../../../tests/support/mod.rs"]
mod support;
mod wide;
