//! Reading a file that [`validate`](crate::validate) accepted, without validating it again: quicker, where many records are read. Of any
//! other bytes these answer too: 33 by the header's count, then the record's own first bad field (a bank: its offset, name and entry count;
//! an entry: 33 alone). Whether a channel's contact is there and of its mode is looked up in the file's contacts here too: 9. A bank is
//! read where its offset says, which is not compared with where it should be, and an entry's channel is not looked up: never 10, nor 11. So
//! the place of a refusal may lie past the end of the file. Only a contact's reader sees an address, and so only it takes an edition: the
//! one that the file was validated by.
use crate::refused::accepted;
use crate::{c, text, Bank, Channel, Contact, Edition, Entry, Refused, TEXTS_SIZE, TEXT_SIZE};

/// Contact n.
pub fn contact(file: &[u8], n: usize, edition: Edition) -> Result<Contact, Refused> {
    let mut name = [0; TEXT_SIZE];
    let a = unsafe { c::codeplug_contact_prevalidated(file.as_ptr(), file.len(), n, name.as_mut_ptr(), name.len(), edition.number()) };
    accepted(a.number, a.place, Contact::from_c(&name, a.values))
}

/// Channel n.
pub fn channel(file: &[u8], n: usize) -> Result<Channel, Refused> {
    let mut texts = [0; TEXTS_SIZE];
    let a = unsafe { c::codeplug_channel_prevalidated(file.as_ptr(), file.len(), n, texts.as_mut_ptr(), texts.len()) };
    accepted(a.number, a.place, Channel::from_c(&texts, a.common, a.info))
}

/// Bank n.
pub fn bank(file: &[u8], n: usize) -> Result<Bank, Refused> {
    let mut name = [0; TEXT_SIZE];
    let a = unsafe { c::codeplug_bank_prevalidated(file.as_ptr(), file.len(), n, name.as_mut_ptr(), name.len()) };
    accepted(a.number, a.place, Bank { name: text::text_of(&name), entries: a.entries })
}

/// Entry i of a bank. Begin with 0 and go on with `next` while it is not refused: 33 at the end.
pub fn bank_entry(file: &[u8], bank: usize, i: usize) -> Result<Entry, Refused> {
    let a = unsafe { c::codeplug_bank_entry_prevalidated(file.as_ptr(), file.len(), bank, i) };
    accepted(a.number, a.place, Entry { channel: a.channel, next: a.next })
}

/// The channels that bank n names, in its order.
pub fn entries(file: &[u8], n: usize) -> Result<Vec<u16>, Refused> {
    let bank = bank(file, n)?;
    let mut channels = Vec::with_capacity(bank.entries.into());
    let mut place = 0;
    while let Ok(entry) = bank_entry(file, n, place) {
        channels.push(entry.channel);
        place = entry.next;
    }
    Ok(channels)
}
