//! Reading a file, which each call validates. Refusals: those of the file, 1 to 12; then 33 where there is no such record.
use crate::refused::accepted;
use crate::{c, prevalidated, text, Channel, Contact, Edition, Refused, TEXTS_SIZE, TEXT_SIZE};

/// How many of each a file has.
#[derive(Clone, Copy, Debug, PartialEq, Eq)]
pub struct Counts {
    pub contacts: u16,
    pub channels: u16,
    pub banks: u16,
}

#[derive(Clone, Debug, PartialEq, Eq)]
pub struct Header {
    pub author: String,
    pub description: String,
    /// Any; by the format a Unix timestamp.
    pub timestamp: u64,
    pub counts: Counts,
}

/// A bank: its name, and how many entries it has.
#[derive(Clone, Debug, PartialEq, Eq)]
pub struct Bank {
    pub name: String,
    pub entries: u16,
}

/// A bank's entry: its channel, and the place of the next entry.
#[derive(Clone, Copy, Debug, PartialEq, Eq)]
pub struct Entry {
    pub channel: u16,
    pub next: usize,
}

/// Whether a file is accepted, and its counts.
pub fn validate(file: &[u8], edition: Edition) -> Result<Counts, Refused> {
    counts(unsafe { c::codeplug_validate(file.as_ptr(), file.len(), edition.number()) })
}

/// The counts of a file that was accepted, by either reading.
pub(crate) fn counts(a: c::ValidateAnswer) -> Result<Counts, Refused> {
    accepted(a.number, a.place, Counts { contacts: a.contacts, channels: a.channels, banks: a.banks })
}

/// The header. It validates the whole file too: where only the counts are wanted, [`validate`] answers them.
pub fn header(file: &[u8], edition: Edition) -> Result<Header, Refused> {
    let mut texts = [0; TEXTS_SIZE];
    let a = unsafe { c::codeplug_header(file.as_ptr(), file.len(), texts.as_mut_ptr(), texts.len(), edition.number()) };
    let (author, description) = (text::text_of(&texts[..TEXT_SIZE]), text::text_of(&texts[TEXT_SIZE..]));
    let counts = Counts { contacts: a.contacts, channels: a.channels, banks: a.banks };
    accepted(a.number, a.place, Header { author, description, timestamp: a.timestamp, counts })
}

/// Contact n.
pub fn contact(file: &[u8], n: usize, edition: Edition) -> Result<Contact, Refused> {
    let mut name = [0; TEXT_SIZE];
    let a = unsafe { c::codeplug_contact(file.as_ptr(), file.len(), n, name.as_mut_ptr(), name.len(), edition.number()) };
    accepted(a.number, a.place, Contact::from_c(&name, a.values))
}

/// Channel n.
pub fn channel(file: &[u8], n: usize, edition: Edition) -> Result<Channel, Refused> {
    let mut texts = [0; TEXTS_SIZE];
    let a = unsafe { c::codeplug_channel(file.as_ptr(), file.len(), n, texts.as_mut_ptr(), texts.len(), edition.number()) };
    accepted(a.number, a.place, Channel::from_c(&texts, a.common, a.info))
}

/// Bank n.
pub fn bank(file: &[u8], n: usize, edition: Edition) -> Result<Bank, Refused> {
    let mut name = [0; TEXT_SIZE];
    let a = unsafe { c::codeplug_bank(file.as_ptr(), file.len(), n, name.as_mut_ptr(), name.len(), edition.number()) };
    accepted(a.number, a.place, Bank { name: text::text_of(&name), entries: a.entries })
}

/// Entry i of a bank. Begin with 0 and go on with `next` while it is not refused: 33 at the end.
pub fn bank_entry(file: &[u8], bank: usize, i: usize, edition: Edition) -> Result<Entry, Refused> {
    let a = unsafe { c::codeplug_bank_entry(file.as_ptr(), file.len(), bank, i, edition.number()) };
    accepted(a.number, a.place, Entry { channel: a.channel, next: a.next })
}

/// The channels that bank n names, in its order. The file is validated once.
pub fn entries(file: &[u8], n: usize, edition: Edition) -> Result<Vec<u16>, Refused> {
    bank(file, n, edition)?;
    prevalidated::entries(file, n)
}
