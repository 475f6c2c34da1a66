//! Editing a codeplug in place, in lent buffers. `room` holds the codeplug in its first `length` bytes and spare bytes after it; `history`
//! holds what undo needs in its first `used` bytes, at the start none. A refused call changes neither.
//!
//! Where the history is full, the oldest entries are dropped. An edit whose own entry is longer than the history is refused, 37: an
//! insertion or removal may need as much as the file's length and 9 bytes. One edition is used throughout with both.
use crate::refused::accepted;
use crate::{c, Edition, Refused};

/// The edits, with the two places and the record that each takes. An unused place is 0, else 33; an unused record is empty,
/// else 32.
#[derive(Clone, Copy, Debug, PartialEq, Eq)]
pub enum EditKind {
    /// A contact's 39 bytes, at a place up to the count. Channels go on naming the same contacts, whose numbers move.
    InsertContact = 1,
    /// 35 where a channel names it. Channels go on naming the same contacts, whose numbers move.
    RemoveContact = 2,
    /// The contact's place, and 39 bytes.
    ReplaceContact = 3,
    /// A channel's 90 bytes, at a place up to the count. Banks go on naming the same channels, whose numbers move.
    InsertChannel = 4,
    /// 35 where a bank names it. Banks go on naming the same channels, whose numbers move.
    RemoveChannel = 5,
    /// The channel's place, and 90 bytes.
    ReplaceChannel = 6,
    /// An empty bank's name of 32 bytes, at a place up to the count.
    InsertBank = 7,
    /// The bank's place. Its entries go with it.
    RemoveBank = 8,
    /// The bank's place, and a name of 32 bytes.
    RenameBank = 9,
    /// The bank's place, the entry's place up to the entry count, and a channel index of two bytes, low byte first.
    InsertEntry = 10,
    /// The bank's place and the entry's.
    RemoveEntry = 11,
    /// Author and description, 32 bytes each, then the timestamp, 8 bytes, low byte first: 72 bytes.
    SetHeader = 12,
}

/// What an edit or undo answers: both new lengths, and how many edits can still be undone.
#[derive(Clone, Copy, Debug, PartialEq, Eq)]
pub struct EditAnswer {
    pub length: usize,
    pub used: usize,
    pub entries: usize,
}

fn edit_answer(a: c::EditAnswer) -> Result<EditAnswer, Refused> {
    accepted(a.number, a.place, EditAnswer { length: a.length, used: a.used, entries: a.entries })
}

/// Makes an edit. Refusals: 30, the codeplug's own, 31, 32, 33, 34, 35, the result's own, 36, 37.
#[allow(clippy::too_many_arguments)]
pub fn edit(
    room: &mut [u8],
    length: usize,
    history: &mut [u8],
    used: usize,
    kind: EditKind,
    first: usize,
    second: usize,
    record: &[u8],
    edition: Edition,
) -> Result<EditAnswer, Refused> {
    edit_answer(unsafe {
        c::codeplug_edit(
            room.as_mut_ptr(),
            room.len(),
            length,
            history.as_mut_ptr(),
            history.len(),
            used,
            kind as usize,
            first,
            second,
            record.as_ptr(),
            record.len(),
            edition.number(),
        )
    })
}

/// Takes the last edit back. Refusals: 30, the codeplug's own, 31, 38, 39.
pub fn undo(room: &mut [u8], length: usize, history: &mut [u8], used: usize, edition: Edition) -> Result<EditAnswer, Refused> {
    let (room_size, history_size) = (room.len(), history.len());
    edit_answer(unsafe {
        c::codeplug_undo(room.as_mut_ptr(), room_size, length, history.as_mut_ptr(), history_size, used, edition.number())
    })
}

/// How many entries a stored history holds: how many edits can be undone. Refusal: 31.
pub fn history_entries(history: &[u8]) -> Result<usize, Refused> {
    let a = unsafe { c::codeplug_history_entries(history.as_ptr(), history.len()) };
    accepted(a.number, a.place, a.entries)
}
