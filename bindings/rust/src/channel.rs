//! Channels.
use crate::c::{self, ChannelCommon, ChannelInfo};
use crate::refused::accepted;
use crate::{text, Refused, Tone, CHANNEL_SIZE, TEXT_SIZE};

/// A latitude is its floor in whole degrees and ten-thousandths above it: -33.8675 is -34 and 1325. So is a longitude.
#[derive(Clone, Debug, PartialEq, Eq)]
pub struct Channel {
    pub name: String,
    pub description: String,
    pub receive_hz: u32,
    pub transmit_hz: u32,
    /// 0, 1, 2: 12.5, 20 and 25 kHz.
    pub bandwidth: u8,
    pub receive_only: bool,
    /// Any; by the format, fifths of a dBm above 10 dBm: 5 is 11 dBm.
    pub power: u8,
    /// 0 to 250.
    pub scan_list: u8,
    /// 0 to 128.
    pub group_list: u8,
    /// -90 to 90.
    pub latitude: i8,
    /// 0 to 9,999, and 0 where latitude is 90.
    pub latitude_e4: u16,
    /// Any.
    pub longitude: i8,
    /// 0 to 9,999.
    pub longitude_e4: u16,
    /// In metres, plus 500.
    pub altitude_plus_500: u16,
    pub info: Info,
}

/// What a channel has by its mode. Colours and access numbers are 0 to 15. A contact is its place, or none for nobody.
#[derive(Clone, Copy, Debug, PartialEq, Eq)]
pub enum Info {
    Fm {
        receive_tone: Tone,
        transmit_tone: Tone,
    },
    /// `slot`: 1 or 2.
    Dmr {
        receive_colour: u8,
        transmit_colour: u8,
        slot: u8,
        contact: Option<u16>,
    },
    /// `operation`: 1 voice, 2 data, 3 both. `encryption`: 0 plain, 1 AES-256, 2 scrambler.
    M17 {
        receive_access: u8,
        transmit_access: u8,
        operation: u8,
        encryption: u8,
        position: bool,
        contact: Option<u16>,
    },
}

/// The number that stands for nobody in a file.
const NOBODY: u16 = 65_535;

impl Info {
    /// 0 FM, 1 DMR, 2 M17.
    pub fn mode(&self) -> u8 {
        match self {
            Info::Fm { .. } => 0,
            Info::Dmr { .. } => 1,
            Info::M17 { .. } => 2,
        }
    }

    /// The contact that the channel calls; an FM channel calls nobody.
    pub fn contact(&self) -> Option<u16> {
        match self {
            Info::Fm { .. } => None,
            Info::Dmr { contact, .. } | Info::M17 { contact, .. } => *contact,
        }
    }

    fn from_c(i: ChannelInfo) -> Info {
        let contact = (i.contact != NOBODY).then_some(i.contact);
        match i.mode {
            0 => Info::Fm {
                receive_tone: Tone::from_c(i.receive_tone, i.receive_tone_on != 0),
                transmit_tone: Tone::from_c(i.transmit_tone, i.transmit_tone_on != 0),
            },
            1 => Info::Dmr { receive_colour: i.receive_colour, transmit_colour: i.transmit_colour, slot: i.slot, contact },
            _ => Info::M17 {
                receive_access: i.receive_access,
                transmit_access: i.transmit_access,
                operation: i.operation,
                encryption: i.encryption,
                position: i.position != 0,
                contact,
            },
        }
    }

    fn to_c(self) -> ChannelInfo {
        let blank = ChannelInfo { mode: self.mode(), contact: self.contact().unwrap_or(NOBODY), ..Default::default() };
        match self {
            Info::Fm { receive_tone, transmit_tone } => ChannelInfo {
                receive_tone: receive_tone.index(),
                receive_tone_on: receive_tone.is_enabled().into(),
                transmit_tone: transmit_tone.index(),
                transmit_tone_on: transmit_tone.is_enabled().into(),
                ..blank
            },
            Info::Dmr { receive_colour, transmit_colour, slot, .. } => ChannelInfo { receive_colour, transmit_colour, slot, ..blank },
            Info::M17 { receive_access, transmit_access, operation, encryption, position, .. } => {
                ChannelInfo { receive_access, transmit_access, operation, encryption, position: position.into(), ..blank }
            }
        }
    }
}

impl Channel {
    pub(crate) fn from_c(texts: &[u8], common: ChannelCommon, info: ChannelInfo) -> Channel {
        Channel {
            name: text::text_of(&texts[..TEXT_SIZE]),
            description: text::text_of(&texts[TEXT_SIZE..]),
            receive_hz: common.receive_hz,
            transmit_hz: common.transmit_hz,
            bandwidth: common.bandwidth,
            receive_only: common.receive_only != 0,
            power: common.power,
            scan_list: common.scan_list,
            group_list: common.group_list,
            latitude: common.latitude,
            latitude_e4: common.latitude_e4,
            longitude: common.longitude,
            longitude_e4: common.longitude_e4,
            altitude_plus_500: common.altitude_plus_500,
            info: Info::from_c(info),
        }
    }

    fn common(&self) -> ChannelCommon {
        ChannelCommon {
            receive_hz: self.receive_hz,
            transmit_hz: self.transmit_hz,
            latitude_e4: self.latitude_e4,
            longitude_e4: self.longitude_e4,
            altitude_plus_500: self.altitude_plus_500,
            latitude: self.latitude,
            longitude: self.longitude,
            bandwidth: self.bandwidth,
            receive_only: self.receive_only.into(),
            power: self.power,
            scan_list: self.scan_list,
            group_list: self.group_list,
        }
    }
}

/// A channel's record. Refusals: 7 and 5 by field. A contact of 65,535 is nobody, as in a file; whether another contact is there, only the
/// file can say.
pub fn write_channel(channel: &Channel) -> Result<[u8; CHANNEL_SIZE], Refused> {
    let mut out = [0; CHANNEL_SIZE];
    let (name, description) = (channel.name.as_bytes(), channel.description.as_bytes());
    let a = unsafe {
        c::codeplug_write_channel(
            out.as_mut_ptr(),
            out.len(),
            name.as_ptr(),
            name.len(),
            description.as_ptr(),
            description.len(),
            channel.common(),
            channel.info.to_c(),
        )
    };
    accepted(a.number, a.place, out)
}
