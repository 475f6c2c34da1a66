//! A second plain Rust path, written for speed: what the second program does, without its needless work.
//!
//! It validates without building records, migrates in place, edits a copy of the bytes and compares in blocks. It has a heap.
//! What is wrong with an invalid file is left to the second program to say.

pub mod address;
pub mod edit;
pub mod history;
mod layout;
pub mod migrate;
pub mod read;
pub mod validate;
