//! Reads, validates, writes and edits OBCF 0.1.0 codeplug files, by the proved library of bindings/c/include/codeplug.h.
//!
//! [`Codeplug`] owns a codeplug and its history, and is what most programs want. The functions beside it work on slices that the caller
//! lends, one for each of the header's. A blank is Rust's own: a channel that calls nobody has the contact `None`, a tone that is off is
//! [`Tone::Disabled`], and neither can be taken for contact 0 or tone 0.
//!
//! ```
//! use codeplug::{Codeplug, Edition, Refused, FILE_MAX};
//!
//! let file = std::fs::read("../../samples/club.rtxc").unwrap();
//! let mut codeplug = Codeplug::open(&file, 65_536, FILE_MAX + 9, Edition::Older)?;
//! codeplug.rename_bank(0, "Daily")?;
//! assert_eq!(codeplug.bank(0)?.name, "Daily");
//! codeplug.undo()?;
//! assert_eq!(codeplug.bytes(), file);
//! # Ok::<(), Refused>(())
//! ```
//!
//! # Editions
//!
//! M17 addresses have two editions (document 02, \[10\]), and the caller chooses one: it is the last parameter of everything that sees an
//! address, and a [`Codeplug`] keeps it. By both of them the numbers 1 to 262,143,999,999,999 are callsigns of 1 to 9 characters. By
//! [`Edition::Newer`] the numbers 262,144,000,000,000 to 268,697,599,999,999 are hash addresses: a hash sign and then the text, of at most
//! eight characters, of the number less 262,144,000,000,000. Where this crate says callsign, that is by the newer edition a hash address
//! too.
//!
//! Use one edition throughout with a codeplug and its history. Nothing in a file says which. Every file that the older edition accepts the
//! newer accepts too, and reads alike: the two differ in refusal 8 of a file alone. A file that holds a hash address is refused by the
//! older, 8; and a history that was written under the newer may hold some, so that undo by the older may be refused, 8 for the file as it is
//! or 39 for what undo would bring back. The example `editions` shows each.
//!
//! ```
//! use codeplug::{decode_address, encode_callsign, validate, Edition, Refused};
//!
//! assert_eq!(encode_callsign("#A", Edition::Newer)?, 262_144_000_000_001);
//! assert_eq!(decode_address(262_144_000_000_000, Edition::Newer)?, Some("#".into()));
//! assert_eq!(encode_callsign("#A", Edition::Older), Err(Refused { number: 21, place: 0 }));
//! let file = std::fs::read("../../samples/hash.rtxc").unwrap();
//! assert_eq!(validate(&file, Edition::Older), Err(Refused { number: 8, place: 199 }));
//! assert_eq!(validate(&file, Edition::Newer)?.contacts, 7);
//! # Ok::<(), Refused>(())
//! ```
//!
//! # Legacy files
//!
//! A channel's bandwidth and a DMR contact's type stand in bits 0 and 1 of their byte, receive-only and rx tone in bit 2, as radios read
//! them. Before version 2 they stood in bits 7 and 6, and in bit 5. A file that was written so is a legacy file: it is migrated once,
//! before anything else is done with it, and its history is thrown away, since the entries are of the legacy bytes. [`validate_legacy`] and
//! [`migrate`] go by that legacy reading, everything else in this crate by the new one alone.
//!
//! Nothing in a file says how it was written. To find out, validate it by both readings, with one edition. Accepted by [`validate_legacy`]
//! alone it is a legacy file. Where [`validate`] accepts it, nothing is to be done; where both do, each of those bytes is 0 and reads the same either
//! way. The example `migrate` says which it is.
//!
//! ```
//! use codeplug::{migrate, validate, validate_legacy, Codeplug, Edition, Refused};
//!
//! let mut file = std::fs::read("../../samples/club-legacy.rtxc").unwrap();
//! if validate(&file, Edition::Older).is_err() && validate_legacy(&file, Edition::Older).is_ok() {
//!     migrate(&mut file, Edition::Older)?;
//! }
//! assert_eq!(Codeplug::open(&file, 0, 0, Edition::Older)?.channel(2)?.bandwidth, 2);
//! # Ok::<(), Refused>(())
//! ```
mod address;
mod buffers;
mod channel;
mod codeplug;
mod contact;
mod edition;
mod empty;
mod legacy;
mod read;
mod refused;
mod text;
mod tone;
mod version;

#[doc(hidden)]
pub mod c;
pub mod prevalidated;

pub use address::{decode_address, encode_callsign, Address};
pub use buffers::{edit, history_entries, undo, EditAnswer, EditKind};
pub use channel::{write_channel, Channel, Info};
pub use codeplug::Codeplug;
pub use contact::{write_contact, Contact, ContactInfo};
pub use edition::Edition;
pub use empty::write_empty;
pub use legacy::{migrate, validate_legacy};
pub use read::{bank, bank_entry, channel, contact, entries, header, validate, Bank, Counts, Entry, Header};
pub use refused::Refused;
pub use text::write_text;
pub use tone::{tone_frequency, tone_index, Tone};
pub use version::version;

/// The longest file, in bytes.
pub const FILE_MAX: usize = 1_048_576;
/// A file's header, and the empty codeplug, in bytes.
pub const HEADER_SIZE: usize = 88;
/// A contact's record, in bytes.
pub const CONTACT_SIZE: usize = 39;
/// A channel's record, in bytes.
pub const CHANNEL_SIZE: usize = 90;
/// A text field, in bytes.
pub const TEXT_SIZE: usize = 32;
/// Two text fields, one after the other, in bytes.
pub const TEXTS_SIZE: usize = 64;
/// The longest callsign, a hash sign included, in bytes.
pub const CALLSIGN_SIZE: usize = 9;
/// A channel index, low byte first, as [`EditKind::InsertEntry`] carries it, in bytes.
pub const BANK_ENTRY_SIZE: usize = 2;
/// Author, description and timestamp, as [`EditKind::SetHeader`] carries them, in bytes.
pub const SET_HEADER_SIZE: usize = 72;
