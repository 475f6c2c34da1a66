//! Validating a file without building anything.

use obcf_second::address::Address;
use obcf_second::{Counts, Edition, Refusal, LONGEST};

/// The counts of a valid file, or its refusal.
pub fn validate(file: &[u8], edition: Edition) -> Result<Counts, Refusal> {
    match counts(file, settings, edition) {
        Some(counts) => Ok(counts),
        None => obcf_second::codeplug::validate(file, edition),
    }
}

/// The same by the legacy reading.
pub fn validate_legacy(file: &[u8], edition: Edition) -> Result<Counts, Refusal> {
    match counts(file, legacy_settings, edition) {
        Some(counts) => Ok(counts),
        None => obcf_second::legacy::validate_legacy(file, edition),
    }
}

fn u16_at(bytes: &[u8], at: usize) -> u16 {
    u16::from_le_bytes([bytes[at], bytes[at + 1]])
}

/// `settings` is the reading's test of traits and contact settings.
fn counts(file: &[u8], settings: impl Fn(u8) -> bool, edition: Edition) -> Option<Counts> {
    let (header, rest) = file.split_first_chunk::<88>()?;
    let begins = file.len() <= LONGEST && header[..10] == *b"RTXC\0\0\0\0\x01\0";
    if !begins || !text(&header[10..]) || !text(&header[42..]) {
        return None;
    }
    let counts = Counts {
        contacts: u16_at(header, 82),
        channels: u16_at(header, 84),
        banks: u16_at(header, 86),
    };
    let (contacts, rest) = rest.split_at_checked(39 * usize::from(counts.contacts))?;
    let (channels, rest) = rest.split_at_checked(90 * usize::from(counts.channels))?;
    let (offsets, banks) = rest.split_at_checked(4 * usize::from(counts.banks))?;
    let contacts = contacts.as_chunks::<39>().0;
    let all = contacts.iter().all(|c| contact(c, &settings, edition))
        && channels
            .as_chunks::<90>()
            .0
            .iter()
            .all(|c| channel(c, contacts, &settings));
    if !all {
        return None;
    }
    let mut at = 0;
    for offset in offsets.as_chunks::<4>().0 {
        let (bank, rest) = banks.get(at..)?.split_first_chunk::<34>()?;
        let entries = rest.split_at_checked(2 * usize::from(u16_at(bank, 32)))?.0;
        let below = entries.as_chunks::<2>().0.iter();
        let below = below.fold(true, |all, &n| {
            all & (u16::from_le_bytes(n) < counts.channels)
        });
        if u32::from_le_bytes(*offset) as usize != at || !text(bank) || !below {
            return None;
        }
        at += 34 + entries.len();
    }
    (at == banks.len()).then_some(counts)
}

/// Both tests look at all 32 bytes, so that they vectorise.
fn text(field: &[u8]) -> bool {
    let field: &[u8; 32] = field.first_chunk().expect("32 bytes");
    let foreign = |b: u8| b != 0 && !(0x20..=0x7E).contains(&b);
    let foreign = field.iter().fold(false, |bad, &b| bad | foreign(b));
    let resumed = (1..32).fold(false, |bad, i| {
        bad | ((field[i - 1] == 0) & (field[i] != 0))
    });
    !foreign & !resumed
}

/// Two bits of at most 2, a flag and five zeros, from the bottom.
fn settings(byte: u8) -> bool {
    byte & 0x03 <= 2 && byte & 0xF8 == 0
}

/// The same from the top.
fn legacy_settings(byte: u8) -> bool {
    byte >> 6 <= 2 && byte & 0x1F == 0
}

fn contact(c: &[u8; 39], settings: impl Fn(u8) -> bool, edition: Edition) -> bool {
    let [address @ .., _, _] = [c[33], c[34], c[35], c[36], c[37], c[38], 0, 0];
    let values = match c[32] {
        1 => settings(c[37]) && c[38] == 0,
        2 => Address::from_bytes(address, edition).is_some(),
        _ => false,
    };
    values && text(c)
}

fn channel(c: &[u8; 90], contacts: &[[u8; 39]], settings: impl Fn(u8) -> bool) -> bool {
    let names = |at: usize| {
        let index = u16_at(c, at);
        index == 65_535
            || contacts
                .get(usize::from(index))
                .is_some_and(|n| n[32] == c[0])
    };
    let info = match c[0] {
        0 => c[85] & 0x7F < 50 && c[86] & 0x7F < 50 && c[87..90] == [0; 3],
        1 => matches!(c[86], 1 | 2) && names(87) && c[89] == 0,
        2 => matches!(c[86] >> 4, 1..=3) && c[86] & 0x0F <= 2 && c[87] <= 1 && names(88),
        _ => false,
    };
    let latitude = c[77] as i8;
    let place = (-90..=90).contains(&latitude)
        && u16_at(c, 78) <= if latitude == 90 { 0 } else { 9_999 }
        && u16_at(c, 81) <= 9_999;
    info && settings(c[1])
        && c[11] <= 250
        && c[12] <= 128
        && place
        && text(&c[13..])
        && text(&c[45..])
}
