//! Where a file's records and their fields stand, by document 01: for words alone, after the library has refused a file at a place.
use codeplug::{CHANNEL_SIZE, CONTACT_SIZE, HEADER_SIZE};

/// A field of a record that begins at an offset.
type Fields = &'static [(usize, &'static str)];

const HEADER: Fields = &[
    (0, "magic"),
    (8, "version"),
    (10, "author"),
    (42, "description"),
    (74, "timestamp"),
    (82, "contact count"),
    (84, "channel count"),
    (86, "bank count"),
];
const DMR_CONTACT: Fields = &[(0, "name"), (32, "mode"), (33, "id"), (SETTINGS, "settings"), (38, "pad")];
const M17_CONTACT: Fields = &[(0, "name"), (32, "mode"), (33, "address")];
const CHANNEL: Fields = &[
    (0, "mode"),
    (TRAITS, "traits"),
    (2, "power"),
    (3, "receive frequency"),
    (7, "transmit frequency"),
    (11, "scan list"),
    (12, "group list"),
    (13, "name"),
    (45, "description"),
    (77, "latitude"),
    (78, "latitude's ten-thousandths"),
    (80, "longitude"),
    (81, "longitude's ten-thousandths"),
    (83, "altitude"),
];
const FM_INFO: Fields = &[(85, "receive tone"), (86, "transmit tone"), (87, "pad"), (88, "pad"), (89, "pad")];
const DMR_INFO: Fields = &[(85, "colours"), (86, "slot"), (87, "contact"), (89, "pad")];
const M17_INFO: Fields = &[(85, "access numbers"), (86, "operation and encryption"), (87, "position"), (88, "contact")];
const BANK: Fields = &[(0, "name"), (32, "entry count")];

/// A bank's offset in the table.
pub const OFFSET_SIZE: usize = 4;
/// Where the header's author stands, and behind it all that edit 12 sets.
pub const AUTHOR: usize = 10;
/// Where a DMR contact's settings stand in its record.
pub const SETTINGS: usize = 37;
/// Where a channel's traits stand in its record.
pub const TRAITS: usize = 1;

fn at(fields: Fields, offset: usize) -> (usize, &'static str) {
    *fields.iter().rev().find(|(start, _)| *start <= offset).unwrap_or(&fields[0])
}

fn header_field(offset: usize) -> &'static str {
    at(HEADER, offset).1
}

pub fn contact_field(mode: u8, offset: usize) -> &'static str {
    at(if mode == 2 { M17_CONTACT } else { DMR_CONTACT }, offset).1
}

pub fn channel_field(mode: u8, offset: usize) -> &'static str {
    let info = [FM_INFO, DMR_INFO, M17_INFO][usize::from(mode.min(2))];
    at(if offset < 85 { CHANNEL } else { info }, offset).1
}

/// What stands at a place of a file.
pub enum Part {
    Header,
    Contact(usize),
    Channel(usize),
    Offset(usize),
    Bank(usize),
    Entry(usize, usize),
    /// Behind the last bank.
    Behind,
}

/// A place of a file: its record, where that begins, and the field's name.
pub struct Found {
    pub part: Part,
    pub start: usize,
    pub field: &'static str,
}

/// A number of two bytes, 0 where the file ends before.
pub fn two(file: &[u8], at: usize) -> usize {
    let byte = |at: usize| file.get(at).map_or(0, |b| usize::from(*b));
    byte(at) + 256 * byte(at + 1)
}

pub struct Counts {
    pub contacts: usize,
    pub channels: usize,
    pub banks: usize,
}

pub fn counts(file: &[u8]) -> Counts {
    Counts { contacts: two(file, 82), channels: two(file, 84), banks: two(file, 86) }
}

pub fn contact_start(n: usize) -> usize {
    HEADER_SIZE + CONTACT_SIZE * n
}

pub fn channel_start(counts: &Counts, n: usize) -> usize {
    contact_start(counts.contacts) + CHANNEL_SIZE * n
}

pub fn offsets_start(counts: &Counts) -> usize {
    channel_start(counts, counts.channels)
}

/// The record and field at a place, of a file whose fields before it are valid.
pub fn find(file: &[u8], place: usize) -> Found {
    let counts = counts(file);
    let (contacts, channels, offsets) = (contact_start(0), channel_start(&counts, 0), offsets_start(&counts));
    let banks = banks_start(&counts);
    let mode = |at: usize| file.get(at).copied().unwrap_or(0);
    if place < contacts {
        return Found { part: Part::Header, start: 0, field: header_field(place) };
    }
    if place < channels {
        let n = (place - contacts) / CONTACT_SIZE;
        let start = contact_start(n);
        return Found { part: Part::Contact(n), start, field: contact_field(mode(start + 32), place - start) };
    }
    if place < offsets {
        let n = (place - channels) / CHANNEL_SIZE;
        let start = channel_start(&counts, n);
        return Found { part: Part::Channel(n), start, field: channel_field(mode(start), place - start) };
    }
    if place < banks {
        let n = (place - offsets) / OFFSET_SIZE;
        return Found { part: Part::Offset(n), start: offsets + OFFSET_SIZE * n, field: "offset" };
    }
    find_in_banks(file, place, banks, counts.banks)
}

/// Banks touch without gaps, so the one at a place is found by going through those before it.
fn find_in_banks(file: &[u8], place: usize, first: usize, count: usize) -> Found {
    let mut start = first;
    for n in 0..count {
        let entries = start + 34;
        if place < entries {
            return Found { part: Part::Bank(n), start, field: at(BANK, place - start).1 };
        }
        let end = entries + 2 * two(file, start + 32);
        if place < end {
            return Found { part: Part::Entry(n, (place - entries) / 2), start, field: "channel" };
        }
        start = end;
    }
    Found { part: Part::Behind, start, field: "" }
}

/// Where bank n begins: at the end of the bank before it.
pub fn bank_start(file: &[u8], n: usize) -> usize {
    let end = |start: usize, _| start + 34 + 2 * two(file, start + 32);
    (0..n).fold(banks_start(&counts(file)), end)
}

pub fn banks_start(counts: &Counts) -> usize {
    offsets_start(counts) + OFFSET_SIZE * counts.banks
}
