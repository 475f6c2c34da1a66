//! Migrating a legacy file in place: one look at all bytes, then the bytes that change.

use super::layout::Layout;
use super::validate::validate_legacy;
use obcf_second::{Counts, Edition, Refusal};

pub fn migrate(file: &mut [u8], edition: Edition) -> Result<Counts, Refusal> {
    let counts = validate_legacy(file, edition)?;
    let l = Layout::of(counts);
    let (contacts, rest) = file[l.contact_at(0)..].split_at_mut(39 * l.contacts);
    for contact in contacts.as_chunks_mut::<39>().0 {
        if contact[32] == 1 {
            contact[37] = migrated(contact[37]);
        }
    }
    for channel in rest[..90 * l.channels].as_chunks_mut::<90>().0 {
        channel[1] = migrated(channel[1]);
    }
    Ok(counts)
}

/// Traits or contact settings that the legacy reading takes.
fn migrated(byte: u8) -> u8 {
    byte >> 6 | (byte >> 3 & 0x04)
}
