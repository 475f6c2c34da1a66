//! Readers of a validated file, of any bytes, by the record alone: 33 by the header's count, then the record's own first bad field. Bytes
//! of a number that are not there count as 0. The second program has no such readers; contacts and channels are read by its records.

use codeplug::c::{BankAnswer, ChannelAnswer, ContactAnswer, BankEntryAnswer};
use obcf_second::record::{Channel, Contact, CHANNEL_SIZE, CONTACT_SIZE, NO_CONTACT, TEXT_SIZE};
use obcf_second::{Edition, Reason, Refusal};

use crate::edition::edition_of;
use crate::refused::FromRefusal;
use crate::slices::{buffer, bytes, put_text};
use crate::readers::{channel_common, channel_info, contact_values, with_texts};

const HEADER_SIZE: usize = 88;
const BANK_HEAD: usize = TEXT_SIZE + 2;

fn number(file: &[u8], at: usize, size: usize) -> usize {
    (0..size).rev().fold(0, |n, i| n << 8 | usize::from(*file.get(at + i).unwrap_or(&0)))
}

fn contacts(file: &[u8]) -> usize {
    number(file, 82, 2)
}

fn channel_place(file: &[u8], n: usize) -> usize {
    HEADER_SIZE + CONTACT_SIZE * contacts(file) + CHANNEL_SIZE * n
}

fn offset_place(file: &[u8], n: usize) -> usize {
    channel_place(file, number(file, 84, 2)) + 4 * n
}

fn from(file: &[u8], place: usize) -> &[u8] {
    file.get(place..).unwrap_or(&[])
}

fn below(n: usize, count: usize) -> Result<(), Refusal> {
    if n < count { Ok(()) } else { Err(Refusal::from(Reason::NoSuchPlace)) }
}

fn moved(refusal: Refusal, by: usize) -> Refusal {
    Refusal { number: refusal.number, place: refusal.place + by }
}

fn contact(file: &[u8], n: usize, edition: Edition) -> Result<Contact, Refusal> {
    below(n, contacts(file))?;
    let place = HEADER_SIZE + CONTACT_SIZE * n;
    Contact::read(from(file, place), edition).map_err(|r| moved(r, place))
}

fn names(file: &[u8], index: usize, mode: u8) -> bool {
    let there = index < contacts(file) && file.get(HEADER_SIZE + CONTACT_SIZE * index + 32) == Some(&mode);
    index == usize::from(NO_CONTACT) || there
}

fn channel(file: &[u8], n: usize) -> Result<Channel, Refusal> {
    below(n, number(file, 84, 2))?;
    let place = channel_place(file, n);
    let record = from(file, place);
    let read = Channel::read(record);
    // The contact index, which a record by itself does not check, stands before DMR's pad at 89.
    let index_read = read.as_ref().err().is_none_or(|r| r.place == 89);
    let index_at = match record.first() {
        Some(1) => 87,
        Some(2) => 88,
        _ => 0,
    };
    if index_at > 0 && index_read && !names(file, number(record, index_at, 2), record[0]) {
        return Err(Refusal::at(Reason::ContactIndex, place + index_at));
    }
    read.map_err(|r| moved(r, place))
}

/// A text field's text; `None` where it is no text.
fn text(field: &[u8]) -> Option<&[u8]> {
    let end = field.iter().position(|&b| b == 0).unwrap_or(field.len());
    let (text, padding) = field.split_at(end);
    (text.iter().all(|b| (0x20..=0x7E).contains(b)) && padding.iter().all(|&b| b == 0)).then_some(text)
}

/// A bank's place, name and entry count.
fn bank(file: &[u8], n: usize) -> Result<(usize, &[u8], u16), Refusal> {
    let banks = number(file, 86, 2);
    below(n, banks)?;
    let offset = offset_place(file, n);
    if from(file, offset).len() < 4 {
        return Err(Refusal::at(Reason::CutOff, offset));
    }
    let place = offset_place(file, banks) + number(file, offset, 4);
    let bytes = from(file, place);
    let field = bytes.get(..TEXT_SIZE).ok_or(Refusal::at(Reason::CutOff, place))?;
    let name = text(field).ok_or(Refusal::at(Reason::Text, place))?;
    if bytes.len() < BANK_HEAD {
        return Err(Refusal::at(Reason::CutOff, place + TEXT_SIZE));
    }
    Ok((place, name, number(bytes, TEXT_SIZE, 2) as u16))
}

fn entry(file: &[u8], n: usize, i: usize) -> Option<u16> {
    let (place, _, count) = bank(file, n).ok()?;
    let all = from(file, place + BANK_HEAD);
    let all = &all[..all.len().min(2 * usize::from(count))];
    all.chunks_exact(2).nth(i).map(|pair| u16::from_le_bytes([pair[0], pair[1]]))
}

#[no_mangle]
pub unsafe extern "C" fn second_contact_prevalidated(
    file: *const u8,
    length: usize,
    n: usize,
    name: *mut u8,
    size: usize,
    edition: u32,
) -> ContactAnswer {
    let (file, name) = unsafe { (bytes(file, length), buffer(name, size)) };
    with_texts(name, TEXT_SIZE, |field| {
        let contact = contact(file, n, edition_of(edition))?;
        put_text(field, &contact.name);
        Ok(ContactAnswer { values: contact_values(&contact.info), ..ContactAnswer::default() })
    })
}

#[no_mangle]
pub unsafe extern "C" fn second_channel_prevalidated(file: *const u8, length: usize, n: usize, texts: *mut u8, size: usize) -> ChannelAnswer {
    let (file, texts) = unsafe { (bytes(file, length), buffer(texts, size)) };
    with_texts(texts, 2 * TEXT_SIZE, |fields| {
        let channel = channel(file, n)?;
        put_text(&mut fields[..TEXT_SIZE], &channel.name);
        put_text(&mut fields[TEXT_SIZE..], &channel.description);
        Ok(ChannelAnswer { common: channel_common(&channel), info: channel_info(&channel.info), ..ChannelAnswer::default() })
    })
}

#[no_mangle]
pub unsafe extern "C" fn second_bank_prevalidated(file: *const u8, length: usize, n: usize, name: *mut u8, size: usize) -> BankAnswer {
    let (file, buffer) = unsafe { (bytes(file, length), buffer(name, size)) };
    with_texts(buffer, TEXT_SIZE, |field| {
        let (_, name, entries) = bank(file, n)?;
        put_text(field, name);
        Ok(BankAnswer { entries, ..BankAnswer::default() })
    })
}

#[no_mangle]
pub unsafe extern "C" fn second_bank_entry_prevalidated(file: *const u8, length: usize, bank: usize, i: usize) -> BankEntryAnswer {
    match entry(unsafe { bytes(file, length) }, bank, i) {
        None => BankEntryAnswer::refused(Refusal::from(Reason::NoSuchPlace)),
        Some(channel) => BankEntryAnswer { channel, next: i + 1, ..BankEntryAnswer::default() },
    }
}
