//! Legacy files: the legacy reading, which took the bits of traits and contact
//! settings from the top, and migrating a legacy file to the reading of
//! today (paper 02: request [5]).

use crate::address::Edition;
use crate::codeplug::{Codeplug, Counts, HEADER_SIZE};
use crate::record::{CHANNEL_SIZE, CONTACT_SIZE};
use crate::refusal::Refusal;

/// Traits and contact settings by the legacy reading: a number in bits 7 and
/// 6, a flag in bit 5 and five zeros.
fn split_legacy(byte: u8) -> Option<(u8, bool)> {
    let (number, flag, rest) = (byte >> 6, byte & 0x20 != 0, byte & 0x1F);
    (number <= 2 && rest == 0).then_some((number, flag))
}

/// A legacy file by the legacy reading; all but traits and contact settings is
/// read as ever.
pub fn read_legacy(bytes: &[u8], edition: Edition) -> Result<Codeplug, Refusal> {
    Codeplug::read_by(bytes, split_legacy, edition)
}

/// The counts of a file that is valid by the legacy reading, or its refusal.
pub fn validate_legacy(bytes: &[u8], edition: Edition) -> Result<Counts, Refusal> {
    Ok(read_legacy(bytes, edition)?.header.counts)
}

/// Migrates a legacy file in place, so that every field reads as it read by
/// the legacy reading. Answers what [`validate_legacy`] answers for the file as
/// it was; a refused file stays as it was.
pub fn migrate(file: &mut [u8], edition: Edition) -> Result<Counts, Refusal> {
    let codeplug = read_legacy(file, edition)?;
    let contacts_size = CONTACT_SIZE * codeplug.contacts.len();
    let (contacts, rest) = file[HEADER_SIZE..].split_at_mut(contacts_size);
    // Whole records are written anew: a writer gives back every byte that was
    // read, but for those that it writes in another order.
    let records = contacts.chunks_exact_mut(CONTACT_SIZE);
    for (contact, record) in codeplug.contacts.iter().zip(records) {
        let written = contact.write(record, edition);
        written.expect("a contact that was read");
    }
    let records = rest.chunks_exact_mut(CHANNEL_SIZE);
    for (channel, record) in codeplug.channels.iter().zip(records) {
        channel.write(record).expect("a channel that was read");
    }
    Ok(codeplug.header.counts)
}
