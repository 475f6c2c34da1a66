//! What the tests share.
#![allow(dead_code)]
use codeplug::{Channel, Codeplug, Contact, ContactInfo, Edition, Info, Refused, Tone};

pub const ROOT: &str = concat!(env!("CARGO_MANIFEST_DIR"), "/../..");

pub const OLDER: Edition = Edition::Older;
pub const NEWER: Edition = Edition::Newer;

/// A file of samples/.
pub fn sample(name: &str) -> Vec<u8> {
    std::fs::read(format!("{ROOT}/samples/{name}.rtxc")).unwrap()
}

/// The club's codeplug: 6 contacts, 10 channels, 4 banks.
pub fn club() -> Codeplug {
    Codeplug::open(&sample("club"), 1000, 10_000, OLDER).unwrap()
}

pub fn no<T>(number: u8, place: usize) -> Result<T, Refused> {
    Err(Refused { number, place })
}

pub fn dmr(name: &str, id: u32) -> Contact {
    Contact { name: name.into(), info: ContactInfo::Dmr { id, contact_type: 0, rx_tone: false } }
}

/// An FM channel with both tones off.
pub fn fm(name: &str) -> Channel {
    Channel {
        name: name.into(),
        description: String::new(),
        receive_hz: 145_500_000,
        transmit_hz: 145_500_000,
        bandwidth: 0,
        receive_only: false,
        power: 135,
        scan_list: 0,
        group_list: 0,
        latitude: 0,
        latitude_e4: 0,
        longitude: 0,
        longitude_e4: 0,
        altitude_plus_500: 500,
        info: Info::Fm { receive_tone: Tone::Disabled(0), transmit_tone: Tone::Disabled(0) },
    }
}

pub fn dmr_channel(contact: Option<u16>) -> Channel {
    Channel { info: Info::Dmr { receive_colour: 1, transmit_colour: 15, slot: 2, contact }, ..fm("DMR") }
}

pub fn m17_channel(contact: Option<u16>) -> Channel {
    let info = Info::M17 { receive_access: 15, transmit_access: 1, operation: 3, encryption: 2, position: true, contact };
    Channel { info, ..fm("M17") }
}
