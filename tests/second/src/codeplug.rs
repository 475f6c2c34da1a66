//! The whole file: validating it, reading its records and writing the empty one
//! (paper: The file).

use crate::address::Edition;
use crate::cursor::Cursor;
use crate::record::{split_settings, Channel, Contact, Split, Text, TEXT_SIZE};
use crate::refusal::{ensure, Reason, Refusal};
use crate::LONGEST;

pub const HEADER_SIZE: usize = 88;
/// A bank without entries: its name and its entry count.
pub const EMPTY_BANK_SIZE: usize = TEXT_SIZE + 2;

const MAGIC: [u8; 8] = *b"RTXC\0\0\0\0";
const VERSION: u16 = 1;

#[derive(Clone, Copy, Debug, PartialEq, Eq)]
pub struct Counts {
    pub contacts: u16,
    pub channels: u16,
    pub banks: u16,
}

#[derive(Clone, Debug, PartialEq, Eq)]
pub struct Header {
    pub author: Text,
    pub description: Text,
    pub timestamp: u64,
    pub counts: Counts,
}

#[derive(Clone, Debug, PartialEq, Eq)]
pub struct Bank {
    pub name: Text,
    pub entries: Vec<u16>,
}

/// A bank's name and entry count; the entries are read by [`bank_entries`].
#[derive(Clone, Debug, PartialEq, Eq)]
pub struct BankHead {
    pub name: Text,
    pub entry_count: u16,
}

/// A whole valid file.
#[derive(Clone, Debug, PartialEq, Eq)]
pub struct Codeplug {
    pub header: Header,
    pub contacts: Vec<Contact>,
    pub channels: Vec<Channel>,
    pub banks: Vec<Bank>,
}

/// The counts of a valid file, or its refusal.
pub fn validate(bytes: &[u8], edition: Edition) -> Result<Counts, Refusal> {
    Ok(Codeplug::read(bytes, edition)?.header.counts)
}

/// Writes the empty codeplug over the first 88 bytes of `out`: no author, no
/// description, timestamp 0, and no contacts, channels or banks. Later bytes
/// are unchanged. 25 where `out` is shorter.
pub fn write_empty(out: &mut [u8]) -> Result<(), Refusal> {
    let header = out
        .first_chunk_mut::<HEADER_SIZE>()
        .ok_or(Refusal::from(Reason::OutputBuffer))?;
    // Empty texts, timestamp and counts are all zeros.
    header.fill(0);
    header[..8].copy_from_slice(&MAGIC);
    header[8..10].copy_from_slice(&VERSION.to_le_bytes());
    Ok(())
}

impl Codeplug {
    /// Reads a file: 1 first, then fields in file order.
    pub fn read(bytes: &[u8], edition: Edition) -> Result<Codeplug, Refusal> {
        Codeplug::read_by(bytes, split_settings, edition)
    }

    /// `split` is how the reading splits traits and contact settings.
    pub(crate) fn read_by(
        bytes: &[u8],
        split: Split,
        edition: Edition,
    ) -> Result<Codeplug, Refusal> {
        ensure(bytes.len() <= LONGEST, Reason::TooLong, 0)?;
        let cursor = &mut Cursor::new(bytes);
        let header = Header::read_at(cursor)?;
        let counts = header.counts;

        let contacts = (0..counts.contacts)
            .map(|_| Contact::read_at(cursor, split, edition))
            .collect::<Result<Vec<_>, _>>()?;
        let channels = (0..counts.channels)
            .map(|_| {
                Channel::read_at(cursor, split, |mode, index| {
                    contacts
                        .get(usize::from(index))
                        .is_some_and(|contact| contact.info.mode() == mode)
                })
            })
            .collect::<Result<Vec<_>, _>>()?;

        let banks = Bank::read_all_at(cursor, counts)?;
        cursor.end()?;
        Ok(Codeplug {
            header,
            contacts,
            channels,
            banks,
        })
    }
}

impl Header {
    fn read_at(cursor: &mut Cursor) -> Result<Header, Refusal> {
        cursor
            .array()?
            .check(Reason::Magic, |&bytes| bytes == MAGIC)?;
        cursor.u16()?.check(Reason::Version, |&n| n == VERSION)?;
        let author = cursor.text()?;
        let description = cursor.text()?;
        let timestamp = cursor.u64()?.value;
        let contacts = cursor.u16()?.value;
        let channels = cursor.u16()?.value;
        let banks = cursor.u16()?.value;
        Ok(Header {
            author,
            description,
            timestamp,
            counts: Counts {
                contacts,
                channels,
                banks,
            },
        })
    }
}

impl Bank {
    /// Reads the offset table and the banks after it.
    fn read_all_at(cursor: &mut Cursor, counts: Counts) -> Result<Vec<Bank>, Refusal> {
        // The table must be inside the file at this point; each offset is
        // validated when its bank is reached.
        let offsets = (0..counts.banks)
            .map(|_| cursor.u32())
            .collect::<Result<Vec<_>, _>>()?;
        let origin = cursor.place();
        offsets
            .into_iter()
            .map(|offset| {
                let expected = cursor.place() - origin;
                offset.check(Reason::BankOffset, |&n| n as usize == expected)?;
                Bank::read_at(cursor, counts.channels)
            })
            .collect()
    }

    fn read_at(cursor: &mut Cursor, channels: u16) -> Result<Bank, Refusal> {
        let name = cursor.text()?;
        let entry_count = cursor.u16()?.value;
        let entries = (0..entry_count)
            .map(|_| cursor.u16()?.check(Reason::BankEntry, |&n| n < channels))
            .collect::<Result<Vec<_>, _>>()?;
        Ok(Bank { name, entries })
    }
}

// Reading one record of a file: the file's refusal, then 33.

pub fn header(bytes: &[u8], edition: Edition) -> Result<Header, Refusal> {
    Ok(Codeplug::read(bytes, edition)?.header)
}

pub fn contact(bytes: &[u8], n: usize, edition: Edition) -> Result<Contact, Refusal> {
    pick(Codeplug::read(bytes, edition)?.contacts, n)
}

pub fn channel(bytes: &[u8], n: usize, edition: Edition) -> Result<Channel, Refusal> {
    pick(Codeplug::read(bytes, edition)?.channels, n)
}

pub fn bank(bytes: &[u8], n: usize, edition: Edition) -> Result<BankHead, Refusal> {
    let bank = pick(Codeplug::read(bytes, edition)?.banks, n)?;
    Ok(BankHead {
        name: bank.name,
        entry_count: bank.entries.len() as u16,
    })
}

pub fn bank_entry(
    bytes: &[u8],
    bank: usize,
    place: usize,
    edition: Edition,
) -> Result<u16, Refusal> {
    let bank = pick(Codeplug::read(bytes, edition)?.banks, bank)?;
    pick(bank.entries, place)
}

/// The entries of bank `n`, to be read one at a time.
pub fn bank_entries(bytes: &[u8], n: usize, edition: Edition) -> Result<Entries, Refusal> {
    let bank = pick(Codeplug::read(bytes, edition)?.banks, n)?;
    Ok(Entries {
        rest: bank.entries.into_iter(),
    })
}

/// A walk over a bank's entries; each call continues from the last.
#[derive(Clone, Debug)]
pub struct Entries {
    rest: std::vec::IntoIter<u16>,
}

impl Entries {
    /// The next entry; 33 past the last.
    pub fn read_next(&mut self) -> Result<u16, Refusal> {
        self.rest.next().ok_or(Reason::NoSuchPlace.into())
    }
}

fn pick<T>(list: Vec<T>, n: usize) -> Result<T, Refusal> {
    list.into_iter().nth(n).ok_or(Reason::NoSuchPlace.into())
}
