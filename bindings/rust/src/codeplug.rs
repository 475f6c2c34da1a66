//! A codeplug with its history.
use crate::{buffers, prevalidated, read, write_channel, write_contact, write_empty, write_text, FILE_MAX, TEXT_SIZE};
use crate::{Bank, Channel, Contact, Counts, EditAnswer, EditKind, Edition, Header, Refused};

/// A codeplug that is open for reading and editing, with what undo needs. What it holds is always an accepted file, so `contact`,
/// `channel`, `bank` and `entries` read it without validating it. Opening it, `header`, `counts`, each edit and `undo` validate the whole
/// file. A refused call changes nothing. It is read and edited by the edition that it was opened with.
#[derive(Clone, Debug)]
pub struct Codeplug {
    room: Vec<u8>,
    length: usize,
    history: Vec<u8>,
    used: usize,
    entries: usize,
    edition: Edition,
}

impl Codeplug {
    /// Opens a file, with as many spare bytes for edits (never past the longest file) and a history of the size given. Where the history is
    /// full, the oldest edits can no longer be undone. An edit whose own entry is longer than the history is refused, 37: an insertion or
    /// removal may need as much as the file's length and 9 bytes. Refusals: the file's, 1 to 12. A legacy file is
    /// [migrated](crate::migrate) first.
    pub fn open(file: &[u8], spare: usize, history_size: usize, edition: Edition) -> Result<Codeplug, Refused> {
        Codeplug::restore(file, &[], spare, history_size, edition)
    }

    /// The empty codeplug, opened in the same way.
    pub fn empty(spare: usize, history_size: usize, edition: Edition) -> Codeplug {
        Codeplug::open(&write_empty(), spare, history_size, edition).expect("the empty codeplug is an accepted file")
    }

    /// Opens a file with the history that was stored beside it, so that its edits can be undone. There are at least as many spare bytes as
    /// undo may need, and the history is at least as long as the one stored. Refusals: the file's, 31. Whether an entry fits the codeplug,
    /// only `undo` finds out, 39: so it is where the history was written under the newer edition and holds a hash address, and the codeplug is
    /// restored by the older. The history of a legacy file is not that of the file it is [migrated](crate::migrate) to.
    pub fn restore(file: &[u8], history: &[u8], spare: usize, history_size: usize, edition: Edition) -> Result<Codeplug, Refused> {
        read::validate(file, edition)?;
        let entries = buffers::history_entries(history)?;
        let (length, used) = (file.len(), history.len());
        let (mut room, mut history) = (file.to_vec(), history.to_vec());
        // Undo brings back bytes of the history, so never more than those.
        room.resize(length.saturating_add(spare.max(used)).min(FILE_MAX), 0);
        history.resize(used.max(history_size), 0);
        Ok(Codeplug { room, length, history, used, entries, edition })
    }

    /// The codeplug as a file.
    pub fn bytes(&self) -> &[u8] {
        &self.room[..self.length]
    }

    /// What undo needs, to be stored beside the file: `restore` takes both.
    pub fn history(&self) -> &[u8] {
        &self.history[..self.used]
    }

    /// The edition that it was opened with.
    pub fn edition(&self) -> Edition {
        self.edition
    }

    /// How many edits can be undone.
    pub fn undoable(&self) -> usize {
        self.entries
    }

    /// Validates the whole file, as `header` does.
    pub fn counts(&self) -> Counts {
        self.header().counts
    }

    /// Validates the whole file.
    pub fn header(&self) -> Header {
        read::header(self.bytes(), self.edition).expect("an open codeplug is an accepted file")
    }

    /// Contact n. Refusal: 33.
    pub fn contact(&self, n: usize) -> Result<Contact, Refused> {
        prevalidated::contact(self.bytes(), n, self.edition)
    }

    /// Channel n. Refusal: 33.
    pub fn channel(&self, n: usize) -> Result<Channel, Refused> {
        prevalidated::channel(self.bytes(), n)
    }

    /// Bank n. Refusal: 33.
    pub fn bank(&self, n: usize) -> Result<Bank, Refused> {
        prevalidated::bank(self.bytes(), n)
    }

    /// The channels that bank n names, in its order. Refusal: 33.
    pub fn entries(&self, n: usize) -> Result<Vec<u16>, Refused> {
        prevalidated::entries(self.bytes(), n)
    }
}

/// The edits. What is given for a record is validated first, by its writer: places in the record. Then the edit: 33, 34, 35, what reading
/// the result gives, with places in the result, 36, 37.
impl Codeplug {
    /// At a place up to the count. Channels go on naming the same contacts, whose numbers move.
    pub fn insert_contact(&mut self, place: usize, contact: &Contact) -> Result<EditAnswer, Refused> {
        self.edit(EditKind::InsertContact, place, 0, &write_contact(contact, self.edition)?)
    }

    /// 35 where a channel names it. Channels go on naming the same contacts, whose numbers move.
    pub fn remove_contact(&mut self, n: usize) -> Result<EditAnswer, Refused> {
        self.edit(EditKind::RemoveContact, n, 0, &[])
    }

    pub fn replace_contact(&mut self, n: usize, contact: &Contact) -> Result<EditAnswer, Refused> {
        self.edit(EditKind::ReplaceContact, n, 0, &write_contact(contact, self.edition)?)
    }

    /// At a place up to the count. Banks go on naming the same channels, whose numbers move.
    pub fn insert_channel(&mut self, place: usize, channel: &Channel) -> Result<EditAnswer, Refused> {
        self.edit(EditKind::InsertChannel, place, 0, &write_channel(channel)?)
    }

    /// 35 where a bank names it. Banks go on naming the same channels, whose numbers move.
    pub fn remove_channel(&mut self, n: usize) -> Result<EditAnswer, Refused> {
        self.edit(EditKind::RemoveChannel, n, 0, &[])
    }

    pub fn replace_channel(&mut self, n: usize, channel: &Channel) -> Result<EditAnswer, Refused> {
        self.edit(EditKind::ReplaceChannel, n, 0, &write_channel(channel)?)
    }

    /// An empty bank, at a place up to the count.
    pub fn insert_bank(&mut self, place: usize, name: &str) -> Result<EditAnswer, Refused> {
        self.edit(EditKind::InsertBank, place, 0, &write_text(name)?)
    }

    /// The bank and its entries.
    pub fn remove_bank(&mut self, n: usize) -> Result<EditAnswer, Refused> {
        self.edit(EditKind::RemoveBank, n, 0, &[])
    }

    pub fn rename_bank(&mut self, n: usize, name: &str) -> Result<EditAnswer, Refused> {
        self.edit(EditKind::RenameBank, n, 0, &write_text(name)?)
    }

    /// A channel into a bank, at a place up to its entry count. 11 where there is no such channel.
    pub fn insert_entry(&mut self, bank: usize, place: usize, channel: u16) -> Result<EditAnswer, Refused> {
        self.edit(EditKind::InsertEntry, bank, place, &channel.to_le_bytes())
    }

    pub fn remove_entry(&mut self, bank: usize, place: usize) -> Result<EditAnswer, Refused> {
        self.edit(EditKind::RemoveEntry, bank, place, &[])
    }

    /// 5 at 0 for the author, at 32 for the description. The timestamp is any; by the format a Unix timestamp. No other edit sets it.
    pub fn set_header(&mut self, author: &str, description: &str, timestamp: u64) -> Result<EditAnswer, Refused> {
        let author = write_text(author)?;
        let description = write_text(description).map_err(|r| Refused { place: TEXT_SIZE, ..r })?;
        self.edit(EditKind::SetHeader, 0, 0, &[&author[..], &description, &timestamp.to_le_bytes()].concat())
    }

    /// Takes the last edit back. Refusals: 38, and 39 where a history was restored that is not the codeplug's, or not the edition's.
    pub fn undo(&mut self) -> Result<EditAnswer, Refused> {
        let answer = buffers::undo(&mut self.room, self.length, &mut self.history, self.used, self.edition)?;
        Ok(self.take(answer))
    }

    fn edit(&mut self, kind: EditKind, first: usize, second: usize, record: &[u8]) -> Result<EditAnswer, Refused> {
        let (room, history) = (&mut self.room, &mut self.history);
        let answer = buffers::edit(room, self.length, history, self.used, kind, first, second, record, self.edition)?;
        Ok(self.take(answer))
    }

    fn take(&mut self, answer: EditAnswer) -> EditAnswer {
        self.length = answer.length;
        self.used = answer.used;
        self.entries = answer.entries;
        answer
    }
}
