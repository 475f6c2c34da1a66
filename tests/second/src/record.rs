//! Contact and channel records, and text fields (paper: The file).

use crate::address::{Address, Edition};
use crate::cursor::{is_text_byte, Cursor};
use crate::refusal::{ensure, Reason, Refusal};
use crate::tone::Tone;

pub const CONTACT_SIZE: usize = 39;
pub const CHANNEL_SIZE: usize = 90;
pub const TEXT_SIZE: usize = 32;

/// The stored contact index that means "none".
pub const NO_CONTACT: u16 = 65_535;

/// A text without its padding.
pub type Text = Vec<u8>;

#[derive(Clone, Copy, Debug, PartialEq, Eq)]
#[repr(u8)]
pub enum Mode {
    Fm = 0,
    Dmr = 1,
    M17 = 2,
}

impl Mode {
    fn from_byte(byte: u8) -> Option<Mode> {
        match byte {
            0 => Some(Mode::Fm),
            1 => Some(Mode::Dmr),
            2 => Some(Mode::M17),
            _ => None,
        }
    }

    /// A contact is never FM.
    fn of_contact(byte: u8) -> Option<Mode> {
        Mode::from_byte(byte).filter(|&mode| mode != Mode::Fm)
    }
}

#[derive(Clone, Debug, PartialEq, Eq)]
pub struct Contact {
    pub name: Text,
    pub info: ContactInfo,
}

#[derive(Clone, Debug, PartialEq, Eq)]
pub enum ContactInfo {
    /// `contact_type`: 0 group, 1 private, 2 broadcast call.
    Dmr {
        id: u32,
        contact_type: u8,
        rx_tone: bool,
    },
    M17(Address),
}

#[derive(Clone, Debug, PartialEq, Eq)]
pub struct Channel {
    /// 0: 12.5 kHz, 1: 20 kHz, 2: 25 kHz.
    pub bandwidth: u8,
    pub receive_only: bool,
    pub power: u8,
    pub rx_frequency: u32,
    pub tx_frequency: u32,
    pub scan_list: u8,
    pub group_list: u8,
    pub name: Text,
    pub description: Text,
    pub location: Location,
    pub info: ChannelInfo,
}

#[derive(Clone, Copy, Debug, PartialEq, Eq)]
pub struct Location {
    pub latitude_floor: i8,
    pub latitude_ten_thousandths: u16,
    pub longitude_floor: i8,
    pub longitude_ten_thousandths: u16,
    /// The stored number: metres plus 500.
    pub altitude_plus_500: u16,
}

#[derive(Clone, Copy, Debug, PartialEq, Eq)]
pub enum ChannelInfo {
    Fm {
        rx_tone: Tone,
        tx_tone: Tone,
    },
    Dmr {
        rx_colour: u8,
        tx_colour: u8,
        timeslot: u8,
        contact: Option<u16>,
    },
    M17 {
        rx_access: u8,
        tx_access: u8,
        operation: u8,
        encryption: u8,
        send_position: bool,
        contact: Option<u16>,
    },
}

impl ContactInfo {
    pub fn mode(&self) -> Mode {
        match self {
            ContactInfo::Dmr { .. } => Mode::Dmr,
            ContactInfo::M17(_) => Mode::M17,
        }
    }
}

impl ChannelInfo {
    pub fn mode(&self) -> Mode {
        match self {
            ChannelInfo::Fm { .. } => Mode::Fm,
            ChannelInfo::Dmr { .. } => Mode::Dmr,
            ChannelInfo::M17 { .. } => Mode::M17,
        }
    }
}

// Bytes made of parts. Each `split` refuses what no valid record holds, and
// each `join` does the same for parts that do not fit.

/// How a reading splits traits or contact settings into their number and flag.
pub(crate) type Split = fn(u8) -> Option<(u8, bool)>;

/// Traits and contact settings: a number in bits 0 and 1, a flag in bit 2 and
/// five zeros. The legacy reading has its own order, see `legacy`.
pub(crate) fn split_settings(byte: u8) -> Option<(u8, bool)> {
    let (number, flag, rest) = (byte & 0x03, byte & 0x04 != 0, byte & 0xF8);
    (number <= 2 && rest == 0).then_some((number, flag))
}

fn join_settings(number: u8, flag: bool) -> Option<u8> {
    (number <= 2).then(|| u8::from(flag) << 2 | number)
}

/// Receive in the high nibble, transmit in the low.
fn split_nibbles(byte: u8) -> (u8, u8) {
    (byte >> 4, byte & 0x0F)
}

fn join_nibbles(high: u8, low: u8) -> Option<u8> {
    (high <= 15 && low <= 15).then_some(high << 4 | low)
}

fn split_operation(byte: u8) -> Option<(u8, u8)> {
    let (operation, encryption) = split_nibbles(byte);
    (matches!(operation, 1..=3) && encryption <= 2).then_some((operation, encryption))
}

fn join_operation(operation: u8, encryption: u8) -> Option<u8> {
    split_operation(join_nibbles(operation, encryption)?)?;
    join_nibbles(operation, encryption)
}

fn valid_ten_thousandths(n: u16) -> bool {
    n <= 9_999
}

/// Nothing lies north of the pole: 90 takes no ten-thousandths.
fn valid_latitude_ten_thousandths(floor: i8, n: u16) -> bool {
    valid_ten_thousandths(n) && (floor != 90 || n == 0)
}

impl Contact {
    /// Reads one record from its own bytes. Bytes past the record are not
    /// looked at.
    pub fn read(bytes: &[u8], edition: Edition) -> Result<Contact, Refusal> {
        Contact::read_at(&mut Cursor::new(bytes), split_settings, edition)
    }

    pub(crate) fn read_at(
        cursor: &mut Cursor,
        split: Split,
        edition: Edition,
    ) -> Result<Contact, Refusal> {
        let name = cursor.text()?;
        let mode = cursor.u8()?.convert(Reason::Mode, Mode::of_contact)?;
        let info = if mode == Mode::M17 {
            let read = |bytes| Address::from_bytes(bytes, edition);
            ContactInfo::M17(cursor.array()?.convert(Reason::Address, read)?)
        } else {
            let id = cursor.u32()?.value;
            let (contact_type, rx_tone) = cursor.u8()?.convert(Reason::Value, split)?;
            cursor.pad()?;
            ContactInfo::Dmr {
                id,
                contact_type,
                rx_tone,
            }
        };
        Ok(Contact { name, info })
    }

    /// Writes the record over the first 39 bytes of `out`: 25, then the
    /// fields in order.
    pub fn write(&self, out: &mut [u8], edition: Edition) -> Result<(), Refusal> {
        let out = out
            .first_chunk_mut::<CONTACT_SIZE>()
            .ok_or(Refusal::from(Reason::OutputBuffer))?;
        let mut record = Draft::new();
        record.text(0, &self.name)?;
        record.put(32, [self.info.mode() as u8]);
        match self.info {
            ContactInfo::M17(address) => {
                record.put_valid(33, address.to_bytes(edition), Reason::Address)?;
            }
            ContactInfo::Dmr {
                id,
                contact_type,
                rx_tone,
            } => {
                record.put(33, id.to_le_bytes());
                record.byte(37, join_settings(contact_type, rx_tone))?;
            }
        }
        *out = record.0;
        Ok(())
    }
}

impl Channel {
    /// Reads one record from its own bytes. Its contact index is not validated,
    /// as that needs the whole file. Bytes past the record are not looked at.
    pub fn read(bytes: &[u8]) -> Result<Channel, Refusal> {
        Channel::read_at(&mut Cursor::new(bytes), split_settings, |_, _| true)
    }

    /// `names` tells whether an index names a contact of that mode.
    pub(crate) fn read_at(
        cursor: &mut Cursor,
        split: Split,
        names: impl Fn(Mode, u16) -> bool,
    ) -> Result<Channel, Refusal> {
        let mode = cursor.u8()?.convert(Reason::Mode, Mode::from_byte)?;
        let (bandwidth, receive_only) = cursor.u8()?.convert(Reason::Value, split)?;
        let power = cursor.u8()?.value;
        let rx_frequency = cursor.u32()?.value;
        let tx_frequency = cursor.u32()?.value;
        let scan_list = cursor.u8()?.check(Reason::Value, |&n| n <= 250)?;
        let group_list = cursor.u8()?.check(Reason::Value, |&n| n <= 128)?;
        let name = cursor.text()?;
        let description = cursor.text()?;
        let location = Location::read_at(cursor)?;

        let contact = |cursor: &mut Cursor| {
            cursor
                .u16()?
                .convert(Reason::ContactIndex, |index| match index {
                    NO_CONTACT => Some(None),
                    index => names(mode, index).then_some(Some(index)),
                })
        };
        let info = match mode {
            Mode::Fm => {
                let rx_tone = cursor.u8()?.convert(Reason::Value, Tone::from_byte)?;
                let tx_tone = cursor.u8()?.convert(Reason::Value, Tone::from_byte)?;
                for _ in 0..3 {
                    cursor.pad()?;
                }
                ChannelInfo::Fm { rx_tone, tx_tone }
            }
            Mode::Dmr => {
                let (rx_colour, tx_colour) = split_nibbles(cursor.u8()?.value);
                let timeslot = cursor.u8()?.check(Reason::Value, |n| matches!(n, 1 | 2))?;
                let contact = contact(cursor)?;
                cursor.pad()?;
                ChannelInfo::Dmr {
                    rx_colour,
                    tx_colour,
                    timeslot,
                    contact,
                }
            }
            Mode::M17 => {
                let (rx_access, tx_access) = split_nibbles(cursor.u8()?.value);
                let (operation, encryption) =
                    cursor.u8()?.convert(Reason::Value, split_operation)?;
                let send_position = cursor.u8()?.check(Reason::Value, |&n| n <= 1)? == 1;
                let contact = contact(cursor)?;
                ChannelInfo::M17 {
                    rx_access,
                    tx_access,
                    operation,
                    encryption,
                    send_position,
                    contact,
                }
            }
        };
        Ok(Channel {
            bandwidth,
            receive_only,
            power,
            rx_frequency,
            tx_frequency,
            scan_list,
            group_list,
            name,
            description,
            location,
            info,
        })
    }

    /// Writes the record over the first 90 bytes of `out`: 25, then the
    /// fields in order. A contact index is validated in the whole file only;
    /// 65,535 given as a contact is written unchanged, which means none.
    pub fn write(&self, out: &mut [u8]) -> Result<(), Refusal> {
        let out = out
            .first_chunk_mut::<CHANNEL_SIZE>()
            .ok_or(Refusal::from(Reason::OutputBuffer))?;
        let mut record = Draft::new();
        record.put(0, [self.info.mode() as u8]);
        record.byte(1, join_settings(self.bandwidth, self.receive_only))?;
        record.put(2, [self.power]);
        record.put(3, self.rx_frequency.to_le_bytes());
        record.put(7, self.tx_frequency.to_le_bytes());
        record.byte(11, Some(self.scan_list).filter(|&n| n <= 250))?;
        record.byte(12, Some(self.group_list).filter(|&n| n <= 128))?;
        record.text(13, &self.name)?;
        record.text(45, &self.description)?;
        self.location.write(&mut record, 77)?;
        match self.info {
            ChannelInfo::Fm { rx_tone, tx_tone } => {
                record.byte(85, rx_tone.to_byte())?;
                record.byte(86, tx_tone.to_byte())?;
            }
            ChannelInfo::Dmr {
                rx_colour,
                tx_colour,
                timeslot,
                contact,
            } => {
                record.byte(85, join_nibbles(rx_colour, tx_colour))?;
                record.byte(86, Some(timeslot).filter(|n| matches!(n, 1 | 2)))?;
                record.contact_index(87, contact);
            }
            ChannelInfo::M17 {
                rx_access,
                tx_access,
                operation,
                encryption,
                send_position,
                contact,
            } => {
                record.byte(85, join_nibbles(rx_access, tx_access))?;
                record.byte(86, join_operation(operation, encryption))?;
                record.put(87, [u8::from(send_position)]);
                record.contact_index(88, contact);
            }
        }
        *out = record.0;
        Ok(())
    }
}

impl Location {
    fn read_at(cursor: &mut Cursor) -> Result<Location, Refusal> {
        let latitude_floor = cursor
            .i8()?
            .check(Reason::Value, |n| (-90..=90).contains(n))?;
        let latitude_ten_thousandths = cursor.u16()?.check(Reason::Value, |&n| {
            valid_latitude_ten_thousandths(latitude_floor, n)
        })?;
        let longitude_floor = cursor.i8()?.value;
        let longitude_ten_thousandths = cursor
            .u16()?
            .check(Reason::Value, |&n| valid_ten_thousandths(n))?;
        let altitude_plus_500 = cursor.u16()?.value;
        Ok(Location {
            latitude_floor,
            latitude_ten_thousandths,
            longitude_floor,
            longitude_ten_thousandths,
            altitude_plus_500,
        })
    }

    fn write(&self, record: &mut Draft<CHANNEL_SIZE>, at: usize) -> Result<(), Refusal> {
        let floor = self.latitude_floor;
        let fraction = self.latitude_ten_thousandths;
        ensure((-90..=90).contains(&floor), Reason::Value, at)?;
        record.put(at, floor.to_le_bytes());
        ensure(
            valid_latitude_ten_thousandths(floor, fraction),
            Reason::Value,
            at + 1,
        )?;
        record.put(at + 1, fraction.to_le_bytes());
        record.put(at + 3, self.longitude_floor.to_le_bytes());
        let fraction = self.longitude_ten_thousandths;
        ensure(valid_ten_thousandths(fraction), Reason::Value, at + 4)?;
        record.put(at + 4, fraction.to_le_bytes());
        record.put(at + 6, self.altitude_plus_500.to_le_bytes());
        Ok(())
    }
}

/// Writes a text field over the first 32 bytes of `out`: the text, then zeros.
/// Later bytes are unchanged. 25 where `out` is shorter, then 5 where the text
/// is too long or holds a byte that no text may hold.
pub fn write_text(text: &[u8], out: &mut [u8]) -> Result<(), Refusal> {
    let field = out
        .first_chunk_mut::<TEXT_SIZE>()
        .ok_or(Refusal::from(Reason::OutputBuffer))?;
    ensure(is_valid_text(text), Reason::Text, 0)?;
    field.fill(0);
    field[..text.len()].copy_from_slice(text);
    Ok(())
}

/// Whether a text without padding fits a text field.
fn is_valid_text(text: &[u8]) -> bool {
    text.len() <= TEXT_SIZE && text.iter().all(|&b| is_text_byte(b))
}

/// A record being written. It starts as zeros, so pads and padding need no
/// writing.
struct Draft<const SIZE: usize>([u8; SIZE]);

impl<const SIZE: usize> Draft<SIZE> {
    fn new() -> Self {
        Draft([0; SIZE])
    }

    fn put<const N: usize>(&mut self, at: usize, bytes: [u8; N]) {
        self.0[at..at + N].copy_from_slice(&bytes);
    }

    fn put_valid<const N: usize>(
        &mut self,
        at: usize,
        bytes: Option<[u8; N]>,
        reason: Reason,
    ) -> Result<(), Refusal> {
        self.put(at, bytes.ok_or(Refusal::at(reason, at))?);
        Ok(())
    }

    fn byte(&mut self, at: usize, byte: Option<u8>) -> Result<(), Refusal> {
        self.put_valid(at, byte.map(|b| [b]), Reason::Value)
    }

    fn text(&mut self, at: usize, text: &[u8]) -> Result<(), Refusal> {
        ensure(is_valid_text(text), Reason::Text, at)?;
        self.0[at..at + text.len()].copy_from_slice(text);
        Ok(())
    }

    fn contact_index(&mut self, at: usize, contact: Option<u16>) {
        self.put(at, contact.unwrap_or(NO_CONTACT).to_le_bytes());
    }
}
