//! The twelve edits and undo, on lent buffers (paper: The twelve edits, The
//! history).
//!
//! An edit works on a copy of the file's bytes; the lent buffers are written
//! only once the edit can no longer be refused.

use std::fmt;
use std::ops::Range;

use crate::address::Edition;
use crate::codeplug::{Bank, Codeplug, EMPTY_BANK_SIZE, HEADER_SIZE};
use crate::history::{self, Entry};
use crate::record::{ChannelInfo, CHANNEL_SIZE, CONTACT_SIZE, TEXT_SIZE};
use crate::refusal::{ensure, Reason, Refusal};

/// An edit as requested: nothing in it has been validated.
#[derive(Clone, Debug, PartialEq, Eq)]
pub struct Edit {
    /// 1 to 12; 12 is "set header".
    pub kind: u64,
    pub first: usize,
    pub second: usize,
    pub record: Vec<u8>,
}

/// The answer to an accepted call: both new lengths, and the number of
/// entries left in the history.
#[derive(Clone, Copy, Debug, PartialEq, Eq)]
pub struct Answer {
    pub length: usize,
    pub history_length: usize,
    pub entries: usize,
}

impl fmt::Display for Answer {
    fn fmt(&self, f: &mut fmt::Formatter<'_>) -> fmt::Result {
        let Answer {
            length,
            history_length,
            entries,
        } = self;
        write!(f, "done {length} {history_length} {entries}")
    }
}

/// Makes an edit in the file `room[..length]` with the history
/// `history[..history_length]`.
pub fn edit(
    room: &mut [u8],
    length: usize,
    history: &mut [u8],
    history_length: usize,
    edit: &Edit,
    edition: Edition,
) -> Result<Answer, Refusal> {
    let (old, codeplug, entries) = open(room, length, history, history_length, edition)?;
    let new = apply(old, &codeplug, edit)?;
    Codeplug::read(&new, edition)?;
    ensure(new.len() <= room.len(), Reason::RoomFull, 0)?;
    let mut kept = Entry::between(old, &new).to_bytes();
    ensure(kept.len() <= history.len(), Reason::HistoryFull, 0)?;

    let mut count = 1;
    for entry in entries {
        let bytes = entry.to_bytes();
        if kept.len() + bytes.len() > history.len() {
            break;
        }
        kept.extend(bytes);
        count += 1;
    }
    overwrite(room, length, &new);
    overwrite(history, history_length, &kept);
    Ok(Answer {
        length: new.len(),
        history_length: kept.len(),
        entries: count,
    })
}

/// Undoes the change of the newest entry.
pub fn undo(
    room: &mut [u8],
    length: usize,
    history: &mut [u8],
    history_length: usize,
    edition: Edition,
) -> Result<Answer, Refusal> {
    let (file, _, entries) = open(room, length, history, history_length, edition)?;
    let (top, rest) = entries
        .split_first()
        .ok_or(Refusal::from(Reason::HistoryEmpty))?;
    let fits = |file: &Vec<u8>| file.len() <= room.len() && Codeplug::read(file, edition).is_ok();
    let restored = top
        .take_back(file)
        .filter(fits)
        .ok_or(Refusal::from(Reason::EntryDoesNotFit))?;
    let kept: Vec<u8> = rest.iter().flat_map(Entry::to_bytes).collect();

    overwrite(room, length, &restored);
    overwrite(history, history_length, &kept);
    Ok(Answer {
        length: restored.len(),
        history_length: kept.len(),
        entries: rest.len(),
    })
}

/// What every call validates first: 30, the codeplug's own refusal, 31.
fn open<'a>(
    room: &'a [u8],
    length: usize,
    history: &[u8],
    history_length: usize,
    edition: Edition,
) -> Result<(&'a [u8], Codeplug, Vec<Entry>), Refusal> {
    let too_long = Refusal::from(Reason::StatedLength);
    let file = room.get(..length).ok_or(too_long)?;
    let history = history.get(..history_length).ok_or(too_long)?;
    let codeplug = Codeplug::read(file, edition)?;
    let entries = history::parse(history)?;
    Ok((file, codeplug, entries))
}

/// Writes `new` over the beginning of a buffer that held `old_length` bytes,
/// and zeros over what is left of those. Later bytes are unchanged.
fn overwrite(buffer: &mut [u8], old_length: usize, new: &[u8]) {
    buffer[..new.len()].copy_from_slice(new);
    if new.len() < old_length {
        buffer[new.len()..old_length].fill(0);
    }
}

/// The bytes of a file after an edit: 32, 33, 34, 35. The result has not
/// been read yet.
fn apply(file: &[u8], codeplug: &Codeplug, edit: &Edit) -> Result<Vec<u8>, Refusal> {
    let record_size = match edit.kind {
        1 | 3 => CONTACT_SIZE,
        4 | 6 => CHANNEL_SIZE,
        7 | 9 => TEXT_SIZE,
        10 => 2,
        12 => 72,
        2 | 5 | 8 | 11 => 0,
        _ => return Err(Reason::NoSuchEdit.into()),
    };
    ensure(edit.record.len() == record_size, Reason::NoSuchEdit, 0)?;

    let &Edit {
        kind,
        first,
        second,
        ref record,
    } = edit;
    let only_first = |valid: bool| ensure(valid && second == 0, Reason::NoSuchPlace, 0);
    let mut sheet = Sheet::new(file, codeplug);
    let contacts = codeplug.contacts.len();
    let channels = codeplug.channels.len();
    let banks = codeplug.banks.len();

    match kind {
        1 => {
            only_first(first <= contacts)?;
            sheet.grow(CONTACT_COUNT)?;
            sheet.map_contact_indexes(|n| if usize::from(n) >= first { n + 1 } else { n });
            sheet.insert(contact_at(first), record);
        }
        2 => {
            only_first(first < contacts)?;
            let named = codeplug
                .channels
                .iter()
                .any(|channel| contact_of(&channel.info).is_some_and(|n| usize::from(n) == first));
            ensure(!named, Reason::InUse, 0)?;
            sheet.shrink(CONTACT_COUNT);
            sheet.map_contact_indexes(|n| if usize::from(n) > first { n - 1 } else { n });
            sheet.remove(contact_at(first), CONTACT_SIZE);
        }
        3 => {
            only_first(first < contacts)?;
            sheet.replace(contact_at(first), record);
        }
        4 => {
            only_first(first <= channels)?;
            sheet.grow(CHANNEL_COUNT)?;
            sheet.map_entries(|n| if usize::from(n) >= first { n + 1 } else { n });
            sheet.insert(sheet.channel_at(first), record);
        }
        5 => {
            only_first(first < channels)?;
            let held = codeplug
                .banks
                .iter()
                .any(|bank| bank.entries.iter().any(|&n| usize::from(n) == first));
            ensure(!held, Reason::InUse, 0)?;
            sheet.shrink(CHANNEL_COUNT);
            sheet.map_entries(|n| if usize::from(n) > first { n - 1 } else { n });
            sheet.remove(sheet.channel_at(first), CHANNEL_SIZE);
        }
        6 => {
            only_first(first < channels)?;
            sheet.replace(sheet.channel_at(first), record);
        }
        7 => {
            only_first(first <= banks)?;
            sheet.grow(BANK_COUNT)?;
            let at = sheet.bank_at(first);
            let offset = (at - sheet.bank_at(0)) as u32;
            sheet.move_offsets(first..banks, |n| n + EMPTY_BANK_SIZE as u32);
            // The later insertion first, so that `at` is still right.
            sheet.insert(at, &[record.as_slice(), &[0, 0]].concat());
            sheet.insert(sheet.offset_at(first), &offset.to_le_bytes());
        }
        8 => {
            only_first(first < banks)?;
            sheet.shrink(BANK_COUNT);
            let size = bank_size(&codeplug.banks[first]);
            sheet.move_offsets(first + 1..banks, |n| n - size as u32);
            sheet.remove(sheet.bank_at(first), size);
            sheet.remove(sheet.offset_at(first), 4);
        }
        9 => {
            only_first(first < banks)?;
            sheet.replace(sheet.bank_at(first), record);
        }
        10 | 11 => {
            let bank = codeplug
                .banks
                .get(first)
                .ok_or(Refusal::from(Reason::NoSuchPlace))?;
            let entries = bank.entries.len();
            let valid = if kind == 10 {
                second <= entries
            } else {
                second < entries
            };
            ensure(valid, Reason::NoSuchPlace, 0)?;
            let count = sheet.bank_at(first) + TEXT_SIZE;
            let at = sheet.bank_at(first) + EMPTY_BANK_SIZE + 2 * second;
            if kind == 10 {
                sheet.grow(count)?;
                sheet.move_offsets(first + 1..banks, |n| n + 2);
                sheet.insert(at, record);
            } else {
                sheet.shrink(count);
                sheet.move_offsets(first + 1..banks, |n| n - 2);
                sheet.remove(at, 2);
            }
        }
        // 12: set header.
        _ => {
            only_first(first == 0)?;
            sheet.replace(10, record);
        }
    }
    Ok(sheet.bytes)
}

// Where the header holds its counts.
const CONTACT_COUNT: usize = 82;
const CHANNEL_COUNT: usize = 84;
const BANK_COUNT: usize = 86;

fn contact_at(n: usize) -> usize {
    HEADER_SIZE + CONTACT_SIZE * n
}

fn bank_size(bank: &Bank) -> usize {
    EMPTY_BANK_SIZE + 2 * bank.entries.len()
}

/// The contact a channel names. An FM channel has none.
fn contact_of(info: &ChannelInfo) -> Option<u16> {
    match *info {
        ChannelInfo::Fm { .. } => None,
        ChannelInfo::Dmr { contact, .. } | ChannelInfo::M17 { contact, .. } => contact,
    }
}

/// A copy of a file's bytes being changed. Places are those in the unchanged
/// file.
struct Sheet<'a> {
    codeplug: &'a Codeplug,
    bytes: Vec<u8>,
}

impl<'a> Sheet<'a> {
    fn new(file: &[u8], codeplug: &'a Codeplug) -> Self {
        Sheet {
            codeplug,
            bytes: file.to_vec(),
        }
    }

    fn channel_at(&self, n: usize) -> usize {
        contact_at(self.codeplug.contacts.len()) + CHANNEL_SIZE * n
    }

    fn offset_at(&self, n: usize) -> usize {
        self.channel_at(self.codeplug.channels.len()) + 4 * n
    }

    fn bank_at(&self, n: usize) -> usize {
        let before: usize = self.codeplug.banks[..n].iter().map(bank_size).sum();
        self.offset_at(self.codeplug.banks.len()) + before
    }

    fn insert(&mut self, at: usize, new: &[u8]) {
        self.bytes.splice(at..at, new.iter().copied());
    }

    fn remove(&mut self, at: usize, size: usize) {
        self.bytes.drain(at..at + size);
    }

    fn replace(&mut self, at: usize, new: &[u8]) {
        self.bytes[at..at + new.len()].copy_from_slice(new);
    }

    fn u16(&self, at: usize) -> u16 {
        u16::from_le_bytes([self.bytes[at], self.bytes[at + 1]])
    }

    /// Raises a count; 34 where it is 65,535.
    fn grow(&mut self, at: usize) -> Result<(), Refusal> {
        let raised = self
            .u16(at)
            .checked_add(1)
            .ok_or(Refusal::from(Reason::CountFull))?;
        self.replace(at, &raised.to_le_bytes());
        Ok(())
    }

    fn shrink(&mut self, at: usize) {
        let lowered = self.u16(at) - 1;
        self.replace(at, &lowered.to_le_bytes());
    }

    /// Changes the contact index of every channel that names a contact.
    fn map_contact_indexes(&mut self, change: impl Fn(u16) -> u16) {
        for (n, channel) in self.codeplug.channels.iter().enumerate() {
            let place = match channel.info {
                ChannelInfo::Fm { .. } => continue,
                ChannelInfo::Dmr { .. } => 87,
                ChannelInfo::M17 { .. } => 88,
            };
            if let Some(index) = contact_of(&channel.info) {
                self.replace(self.channel_at(n) + place, &change(index).to_le_bytes());
            }
        }
    }

    /// Changes every entry of every bank.
    fn map_entries(&mut self, change: impl Fn(u16) -> u16) {
        let mut at = self.bank_at(0);
        for bank in &self.codeplug.banks {
            at += EMPTY_BANK_SIZE;
            for &index in &bank.entries {
                self.replace(at, &change(index).to_le_bytes());
                at += 2;
            }
        }
    }

    /// Changes the offsets of some banks.
    fn move_offsets(&mut self, banks: Range<usize>, change: impl Fn(u32) -> u32) {
        for n in banks {
            let at = self.offset_at(n);
            let offset = u32::from_le_bytes([0, 1, 2, 3].map(|i| self.bytes[at + i]));
            self.replace(at, &change(offset).to_le_bytes());
        }
    }
}
