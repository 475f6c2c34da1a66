//! Reading a file.

use codeplug::c::*;
use obcf_second::address::{Address, BROADCAST};
use obcf_second::codeplug as second;
use obcf_second::record::{self, ContactInfo};
use obcf_second::{Counts, Reason, Refusal};

use crate::edition::edition_of;
use crate::refused::FromRefusal;
use crate::slices::{buffer, bytes, put_text};

const TEXT: usize = record::TEXT_SIZE;

/// 25 where the buffer for texts is too short, then what the reader says.
pub fn with_texts<A: FromRefusal>(texts: &mut [u8], size: usize, read: impl FnOnce(&mut [u8]) -> Result<A, Refusal>) -> A {
    match texts.get_mut(..size) {
        None => A::refused(Refusal::from(Reason::OutputBuffer)),
        Some(fields) => read(fields).unwrap_or_else(A::refused),
    }
}

pub fn validated(result: Result<Counts, Refusal>) -> ValidateAnswer {
    match result {
        Err(refusal) => ValidateAnswer::refused(refusal),
        Ok(c) => ValidateAnswer { contacts: c.contacts, channels: c.channels, banks: c.banks, ..ValidateAnswer::default() },
    }
}

#[no_mangle]
pub unsafe extern "C" fn second_validate(file: *const u8, length: usize, edition: u32) -> ValidateAnswer {
    validated(second::validate(unsafe { bytes(file, length) }, edition_of(edition)))
}

#[no_mangle]
pub unsafe extern "C" fn second_header(file: *const u8, length: usize, texts: *mut u8, size: usize, edition: u32) -> HeaderAnswer {
    let (file, texts) = unsafe { (bytes(file, length), buffer(texts, size)) };
    with_texts(texts, 2 * TEXT, |fields| {
        let header = second::header(file, edition_of(edition))?;
        put_text(&mut fields[..TEXT], &header.author);
        put_text(&mut fields[TEXT..], &header.description);
        Ok(HeaderAnswer {
            timestamp: header.timestamp,
            contacts: header.counts.contacts,
            channels: header.counts.channels,
            banks: header.counts.banks,
            ..HeaderAnswer::default()
        })
    })
}

pub fn contact_values(info: &ContactInfo) -> ContactValues {
    let blank = ContactValues { mode: info.mode() as u8, ..ContactValues::default() };
    match *info {
        ContactInfo::Dmr { id, contact_type, rx_tone } => ContactValues { id, contact_type, rx_tone: rx_tone.into(), ..blank },
        ContactInfo::M17(Address::Callsign(address)) => ContactValues { address, ..blank },
        ContactInfo::M17(Address::Broadcast) => ContactValues { address: BROADCAST, broadcast: 1, ..blank },
    }
}

#[no_mangle]
pub unsafe extern "C" fn second_contact(
    file: *const u8,
    length: usize,
    n: usize,
    name: *mut u8,
    size: usize,
    edition: u32,
) -> ContactAnswer {
    let (file, name) = unsafe { (bytes(file, length), buffer(name, size)) };
    with_texts(name, TEXT, |field| {
        let contact = second::contact(file, n, edition_of(edition))?;
        put_text(field, &contact.name);
        Ok(ContactAnswer { values: contact_values(&contact.info), ..ContactAnswer::default() })
    })
}

pub fn channel_common(c: &record::Channel) -> ChannelCommon {
    ChannelCommon {
        receive_hz: c.rx_frequency,
        transmit_hz: c.tx_frequency,
        latitude_e4: c.location.latitude_ten_thousandths,
        longitude_e4: c.location.longitude_ten_thousandths,
        altitude_plus_500: c.location.altitude_plus_500,
        latitude: c.location.latitude_floor,
        longitude: c.location.longitude_floor,
        bandwidth: c.bandwidth,
        receive_only: c.receive_only.into(),
        power: c.power,
        scan_list: c.scan_list,
        group_list: c.group_list,
    }
}

pub fn channel_info(info: &record::ChannelInfo) -> ChannelInfo {
    let blank = ChannelInfo { mode: info.mode() as u8, contact: record::NO_CONTACT, ..ChannelInfo::default() };
    let index = |contact: Option<u16>| contact.unwrap_or(record::NO_CONTACT);
    match *info {
        record::ChannelInfo::Fm { rx_tone, tx_tone } => ChannelInfo {
            receive_tone: rx_tone.index,
            receive_tone_on: rx_tone.enabled.into(),
            transmit_tone: tx_tone.index,
            transmit_tone_on: tx_tone.enabled.into(),
            ..blank
        },
        record::ChannelInfo::Dmr { rx_colour, tx_colour, timeslot, contact } => ChannelInfo {
            receive_colour: rx_colour,
            transmit_colour: tx_colour,
            slot: timeslot,
            contact: index(contact),
            ..blank
        },
        record::ChannelInfo::M17 { rx_access, tx_access, operation, encryption, send_position, contact } => ChannelInfo {
            receive_access: rx_access,
            transmit_access: tx_access,
            operation,
            encryption,
            position: send_position.into(),
            contact: index(contact),
            ..blank
        },
    }
}

#[no_mangle]
pub unsafe extern "C" fn second_channel(
    file: *const u8,
    length: usize,
    n: usize,
    texts: *mut u8,
    size: usize,
    edition: u32,
) -> ChannelAnswer {
    let (file, texts) = unsafe { (bytes(file, length), buffer(texts, size)) };
    with_texts(texts, 2 * TEXT, |fields| {
        let channel = second::channel(file, n, edition_of(edition))?;
        put_text(&mut fields[..TEXT], &channel.name);
        put_text(&mut fields[TEXT..], &channel.description);
        Ok(ChannelAnswer { common: channel_common(&channel), info: channel_info(&channel.info), ..ChannelAnswer::default() })
    })
}

#[no_mangle]
pub unsafe extern "C" fn second_bank(file: *const u8, length: usize, n: usize, name: *mut u8, size: usize, edition: u32) -> BankAnswer {
    let (file, name) = unsafe { (bytes(file, length), buffer(name, size)) };
    with_texts(name, TEXT, |field| {
        let bank = second::bank(file, n, edition_of(edition))?;
        put_text(field, &bank.name);
        Ok(BankAnswer { entries: bank.entry_count, ..BankAnswer::default() })
    })
}

#[no_mangle]
pub unsafe extern "C" fn second_bank_entry(file: *const u8, length: usize, bank: usize, i: usize, edition: u32) -> BankEntryAnswer {
    match second::bank_entry(unsafe { bytes(file, length) }, bank, i, edition_of(edition)) {
        Err(refusal) => BankEntryAnswer::refused(refusal),
        Ok(channel) => BankEntryAnswer { channel, next: i + 1, ..BankEntryAnswer::default() },
    }
}
