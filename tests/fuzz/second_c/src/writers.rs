//! Writing a record from numbers, a text field and the empty codeplug. A mode that is not there is no record of the second program's, so it
//! is refused here, in its turn.

use codeplug::c::{self, ChannelCommon, ChannelInfo, ContactValues};
use obcf_second::address::Address;
use obcf_second::codeplug::write_empty;
use obcf_second::record::{self, Contact, ContactInfo, Location, CHANNEL_SIZE, CONTACT_SIZE};
use obcf_second::tone::Tone;
use obcf_second::{Edition, Reason, Refusal};

use crate::edition::edition_of;
use crate::refused::FromRefusal;
use crate::slices::{buffer, bytes};

fn written(result: Result<(), Refusal>) -> c::Refusal {
    result.err().map_or(c::Refusal::default(), c::Refusal::refused)
}

fn write_contact(out: &mut [u8], name: &[u8], v: ContactValues, edition: Edition) -> Result<(), Refusal> {
    let info = match v.mode {
        2 if v.broadcast != 0 => ContactInfo::M17(Address::Broadcast),
        2 => ContactInfo::M17(Address::Callsign(v.address)),
        1 => ContactInfo::Dmr { id: v.id, contact_type: v.contact_type, rx_tone: v.rx_tone != 0 },
        _ => {
            if out.len() < CONTACT_SIZE {
                return Err(Refusal::from(Reason::OutputBuffer));
            }
            // The name stands before the mode.
            let named = Contact { name: name.to_vec(), info: ContactInfo::M17(Address::Broadcast) };
            named.write(&mut [0; CONTACT_SIZE], edition)?;
            return Err(Refusal::at(Reason::Mode, 32));
        }
    };
    Contact { name: name.to_vec(), info }.write(out, edition)
}

#[no_mangle]
pub unsafe extern "C" fn second_write_contact(
    out: *mut u8,
    size: usize,
    name: *const u8,
    length: usize,
    values: ContactValues,
    edition: u32,
) -> c::Refusal {
    let (out, name) = unsafe { (buffer(out, size), bytes(name, length)) };
    written(write_contact(out, name, values, edition_of(edition)))
}

fn info_of(i: ChannelInfo) -> Option<record::ChannelInfo> {
    let contact = (i.contact != record::NO_CONTACT).then_some(i.contact);
    match i.mode {
        0 => Some(record::ChannelInfo::Fm {
            rx_tone: Tone { enabled: i.receive_tone_on != 0, index: i.receive_tone },
            tx_tone: Tone { enabled: i.transmit_tone_on != 0, index: i.transmit_tone },
        }),
        1 => Some(record::ChannelInfo::Dmr {
            rx_colour: i.receive_colour,
            tx_colour: i.transmit_colour,
            timeslot: i.slot,
            contact,
        }),
        2 => Some(record::ChannelInfo::M17 {
            rx_access: i.receive_access,
            tx_access: i.transmit_access,
            operation: i.operation,
            encryption: i.encryption,
            send_position: i.position != 0,
            contact,
        }),
        _ => None,
    }
}

fn write_channel(out: &mut [u8], texts: [&[u8]; 2], c: ChannelCommon, i: ChannelInfo) -> Result<(), Refusal> {
    if out.len() < CHANNEL_SIZE {
        return Err(Refusal::from(Reason::OutputBuffer));
    }
    let info = info_of(i).ok_or(Refusal::at(Reason::Mode, 0))?;
    let channel = record::Channel {
        bandwidth: c.bandwidth,
        receive_only: c.receive_only != 0,
        power: c.power,
        rx_frequency: c.receive_hz,
        tx_frequency: c.transmit_hz,
        scan_list: c.scan_list,
        group_list: c.group_list,
        name: texts[0].to_vec(),
        description: texts[1].to_vec(),
        location: Location {
            latitude_floor: c.latitude,
            latitude_ten_thousandths: c.latitude_e4,
            longitude_floor: c.longitude,
            longitude_ten_thousandths: c.longitude_e4,
            altitude_plus_500: c.altitude_plus_500,
        },
        info,
    };
    channel.write(out)
}

#[no_mangle]
pub unsafe extern "C" fn second_write_channel(
    out: *mut u8,
    size: usize,
    name: *const u8,
    name_length: usize,
    description: *const u8,
    description_length: usize,
    common: ChannelCommon,
    info: ChannelInfo,
) -> c::Refusal {
    let out = unsafe { buffer(out, size) };
    let texts = unsafe { [bytes(name, name_length), bytes(description, description_length)] };
    written(write_channel(out, texts, common, info))
}

#[no_mangle]
pub unsafe extern "C" fn second_write_text(out: *mut u8, size: usize, text: *const u8, length: usize) -> c::Refusal {
    let (out, text) = unsafe { (buffer(out, size), bytes(text, length)) };
    written(record::write_text(text, out))
}

#[no_mangle]
pub unsafe extern "C" fn second_write_empty(out: *mut u8, size: usize) -> c::Refusal {
    written(write_empty(unsafe { buffer(out, size) }))
}
