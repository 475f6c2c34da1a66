//! The second program's answers in the C interface's structures.

use codeplug::c;
use obcf_second::address::{Address, BROADCAST};
use obcf_second::codeplug::{Bank, Counts, Header};
use obcf_second::edit::Answer;
use obcf_second::record::{self, Channel, Contact, Location, CHANNEL_SIZE, NO_CONTACT};
use obcf_second::tone::Tone;
use obcf_second::{Edition, Reason, Refusal};

use crate::interface::*;

pub fn validated(answer: Result<Counts, Refusal>) -> ValidateAnswer {
    match answer {
        Ok(Counts { contacts, channels, banks }) => ValidateAnswer {
            contacts,
            channels,
            banks,
            ..Default::default()
        },
        Err(Refusal { number, place }) => ValidateAnswer {
            number,
            place,
            ..Default::default()
        },
    }
}

pub fn header(answer: Result<&Header, Refusal>) -> HeaderAnswer {
    match answer {
        Ok(header) => HeaderAnswer {
            timestamp: header.timestamp,
            contacts: header.counts.contacts,
            channels: header.counts.channels,
            banks: header.counts.banks,
            ..Default::default()
        },
        Err(Refusal { number, place }) => HeaderAnswer {
            number,
            place,
            ..Default::default()
        },
    }
}

pub fn contact(answer: Result<&Contact, Refusal>) -> ContactAnswer {
    match answer {
        Ok(contact) => ContactAnswer {
            number: 0,
            place: 0,
            values: contact_values(contact),
        },
        Err(Refusal { number, place }) => ContactAnswer {
            number,
            place,
            values: ContactValues {
                mode: 1,
                ..Default::default()
            },
        },
    }
}

fn contact_values(contact: &Contact) -> ContactValues {
    match contact.info {
        record::ContactInfo::Dmr { id, contact_type, rx_tone } => ContactValues {
            mode: 1,
            id,
            contact_type,
            rx_tone: rx_tone.into(),
            ..Default::default()
        },
        record::ContactInfo::M17(Address::Callsign(address)) => ContactValues {
            mode: 2,
            address,
            ..Default::default()
        },
        record::ContactInfo::M17(Address::Broadcast) => ContactValues {
            mode: 2,
            address: BROADCAST,
            broadcast: 1,
            ..Default::default()
        },
    }
}

pub fn channel(answer: Result<&Channel, Refusal>) -> ChannelAnswer {
    match answer {
        Ok(channel) => ChannelAnswer {
            number: 0,
            place: 0,
            common: common(channel),
            info: info(channel.info),
        },
        Err(Refusal { number, place }) => ChannelAnswer {
            number,
            place,
            common: ChannelCommon {
                receive_only: 1,
                ..Default::default()
            },
            info: ChannelInfo {
                contact: NO_CONTACT,
                ..Default::default()
            },
        },
    }
}

fn common(channel: &Channel) -> ChannelCommon {
    let location = channel.location;
    ChannelCommon {
        receive_hz: channel.rx_frequency,
        transmit_hz: channel.tx_frequency,
        latitude_e4: location.latitude_ten_thousandths,
        longitude_e4: location.longitude_ten_thousandths,
        altitude_plus_500: location.altitude_plus_500,
        latitude: location.latitude_floor,
        longitude: location.longitude_floor,
        bandwidth: channel.bandwidth,
        receive_only: channel.receive_only.into(),
        power: channel.power,
        scan_list: channel.scan_list,
        group_list: channel.group_list,
    }
}

fn info(info: record::ChannelInfo) -> ChannelInfo {
    match info {
        record::ChannelInfo::Fm { rx_tone, tx_tone } => ChannelInfo {
            contact: NO_CONTACT,
            mode: 0,
            receive_tone: rx_tone.index,
            receive_tone_on: rx_tone.enabled.into(),
            transmit_tone: tx_tone.index,
            transmit_tone_on: tx_tone.enabled.into(),
            ..Default::default()
        },
        record::ChannelInfo::Dmr {
            rx_colour,
            tx_colour,
            timeslot,
            contact,
        } => ChannelInfo {
            contact: contact.unwrap_or(NO_CONTACT),
            mode: 1,
            receive_colour: rx_colour,
            transmit_colour: tx_colour,
            slot: timeslot,
            ..Default::default()
        },
        record::ChannelInfo::M17 {
            rx_access,
            tx_access,
            operation,
            encryption,
            send_position,
            contact,
        } => ChannelInfo {
            contact: contact.unwrap_or(NO_CONTACT),
            mode: 2,
            receive_access: rx_access,
            transmit_access: tx_access,
            operation,
            encryption,
            position: send_position.into(),
            ..Default::default()
        },
    }
}

pub fn bank(answer: Result<&Bank, Refusal>) -> BankAnswer {
    match answer {
        Ok(bank) => BankAnswer {
            entries: bank.entries.len() as u16,
            ..Default::default()
        },
        Err(Refusal { number, place }) => BankAnswer {
            number,
            place,
            ..Default::default()
        },
    }
}

pub fn entry(answer: Result<u16, Refusal>, i: usize) -> BankEntryAnswer {
    match answer {
        Ok(channel) => BankEntryAnswer {
            channel,
            next: i + 1,
            ..Default::default()
        },
        Err(Refusal { number, place }) => BankEntryAnswer {
            number,
            place,
            ..Default::default()
        },
    }
}

/// Beside a refusal, the lengths that the call was given.
pub fn call(answer: Result<Answer, Refusal>, (given, given_used): (usize, usize)) -> EditAnswer {
    match answer {
        Ok(Answer {
            length,
            history_length,
            entries,
        }) => EditAnswer {
            length,
            used: history_length,
            entries,
            ..Default::default()
        },
        Err(Refusal { number, place }) => EditAnswer {
            number,
            place,
            length: given,
            used: given_used,
            entries: 0,
        },
    }
}

pub fn history(answer: Result<usize, Refusal>) -> HistoryAnswer {
    match answer {
        Ok(entries) => HistoryAnswer {
            entries,
            ..Default::default()
        },
        Err(Refusal { number, place }) => HistoryAnswer {
            number,
            place,
            ..Default::default()
        },
    }
}

pub fn written(answer: Result<(), Refusal>) -> c::Refusal {
    match answer {
        Ok(()) => c::Refusal::default(),
        Err(Refusal { number, place }) => c::Refusal { number, place },
    }
}

/// Writes a contact that is given as numbers. The second program has no
/// foreign modes: they are 6 at 32, after the name.
pub fn write_contact(out: &mut [u8], name: &[u8], values: ContactValues, edition: Edition) -> c::Refusal {
    let valid = record::ContactInfo::Dmr {
        id: 0,
        contact_type: 0,
        rx_tone: false,
    };
    let info = match (values.mode, values.broadcast) {
        (1, _) => record::ContactInfo::Dmr {
            id: values.id,
            contact_type: values.contact_type,
            rx_tone: values.rx_tone != 0,
        },
        (2, 0) => record::ContactInfo::M17(Address::Callsign(values.address)),
        (2, _) => record::ContactInfo::M17(Address::Broadcast),
        _ => {
            let probe = Contact {
                name: name.to_vec(),
                info: valid,
            };
            let mode = Err(Refusal::at(Reason::Mode, 32));
            return written(probe.write(&mut out.to_vec(), edition).and(mode));
        }
    };
    written(Contact { name: name.to_vec(), info }.write(out, edition))
}

/// A channel's numbers by its mode; `None` where the mode is foreign.
fn info_of(info: ChannelInfo) -> Option<record::ChannelInfo> {
    let contact = Some(info.contact).filter(|&n| n != NO_CONTACT);
    Some(match info.mode {
        0 => record::ChannelInfo::Fm {
            rx_tone: Tone {
                enabled: info.receive_tone_on != 0,
                index: info.receive_tone,
            },
            tx_tone: Tone {
                enabled: info.transmit_tone_on != 0,
                index: info.transmit_tone,
            },
        },
        1 => record::ChannelInfo::Dmr {
            rx_colour: info.receive_colour,
            tx_colour: info.transmit_colour,
            timeslot: info.slot,
            contact,
        },
        2 => record::ChannelInfo::M17 {
            rx_access: info.receive_access,
            tx_access: info.transmit_access,
            operation: info.operation,
            encryption: info.encryption,
            send_position: info.position != 0,
            contact,
        },
        _ => return None,
    })
}

/// Writes a channel that is given as numbers; a foreign mode is 6 at 0.
pub fn write_channel(out: &mut [u8], name: &[u8], description: &[u8], common: ChannelCommon, info: ChannelInfo) -> c::Refusal {
    let Some(info) = info_of(info) else {
        let too_short = out.len() < CHANNEL_SIZE;
        return written(Err(if too_short {
            Reason::OutputBuffer.into()
        } else {
            Refusal::at(Reason::Mode, 0)
        }));
    };
    let channel = Channel {
        bandwidth: common.bandwidth,
        receive_only: common.receive_only != 0,
        power: common.power,
        rx_frequency: common.receive_hz,
        tx_frequency: common.transmit_hz,
        scan_list: common.scan_list,
        group_list: common.group_list,
        name: name.to_vec(),
        description: description.to_vec(),
        location: Location {
            latitude_floor: common.latitude,
            latitude_ten_thousandths: common.latitude_e4,
            longitude_floor: common.longitude,
            longitude_ten_thousandths: common.longitude_e4,
            altitude_plus_500: common.altitude_plus_500,
        },
        info,
    };
    written(channel.write(out))
}
