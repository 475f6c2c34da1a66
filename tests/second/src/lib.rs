//! A plain second implementation of the OBCF codeplug editor.
//!
//! "The paper" in the comments is document 01 (the codeplug editor and its
//! rules) as requests [5] and [10] of document 02 change it, read with its two
//! sources: 000 for the OBCF layout and 001 for M17 addresses. This crate exists
//! to be compared with another implementation, so it favours plainness over
//! speed.

pub mod address;
pub mod book;
pub mod codeplug;
mod cursor;
pub mod doubtful;
pub mod edit;
pub mod history;
pub mod legacy;
pub mod lists;
pub mod play;
pub mod record;
pub mod refusal;
pub mod sample;
pub mod script;
pub mod tone;

pub use address::Edition;
pub use codeplug::{validate, Codeplug, Counts};
pub use legacy::{migrate, validate_legacy};
pub use refusal::{Reason, Refusal};

/// The longest file that is read, and the largest number in a history
/// (paper: refusal 1, The history).
pub const LONGEST: usize = 1_048_576;
