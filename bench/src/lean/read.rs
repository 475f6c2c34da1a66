//! The records of a valid file: one after the other with texts that are lent, or all as lists with texts of their own.

use super::layout::Layout;
use super::validate::validate;
use obcf_second::record::Mode;
use obcf_second::{Edition, Refusal};
use std::hint::black_box;

#[allow(dead_code)] // read through black_box alone
pub struct Contact<T> {
    pub name: T,
    pub mode: Mode,
    /// The id, or the address.
    pub number: u64,
    pub contact_type: u8,
    pub rx_tone: bool,
}

#[allow(dead_code)]
pub struct Channel<T> {
    pub mode: Mode,
    pub bandwidth: u8,
    pub receive_only: bool,
    pub power: u8,
    pub frequencies: [u32; 2],
    pub lists: [u8; 2],
    pub name: T,
    pub description: T,
    pub floors: [i8; 2],
    pub ten_thousandths: [u16; 2],
    pub altitude: u16,
    /// The bytes of the info by nibbles or bits, as the mode has them.
    pub info: [u8; 5],
    pub contact: Option<u16>,
}

fn u16_at(bytes: &[u8], at: usize) -> u16 {
    u16::from_le_bytes([bytes[at], bytes[at + 1]])
}

fn u32_at(bytes: &[u8], at: usize) -> u32 {
    u32::from_le_bytes([bytes[at], bytes[at + 1], bytes[at + 2], bytes[at + 3]])
}

/// A text as a record holds it.
pub trait Text<'a> {
    fn of(field: &'a [u8]) -> Self;
}

fn length(field: &[u8]) -> usize {
    field.iter().position(|&b| b == 0).unwrap_or(field.len())
}

impl<'a> Text<'a> for &'a [u8] {
    fn of(field: &'a [u8]) -> Self {
        &field[..length(field)]
    }
}

/// A text of its own, without a place on the heap.
#[allow(dead_code)]
pub struct Own {
    length: u8,
    bytes: [u8; 32],
}

impl Text<'_> for Own {
    fn of(field: &[u8]) -> Self {
        Own {
            length: length(field) as u8,
            bytes: *field.first_chunk().expect("32 bytes"),
        }
    }
}

#[allow(dead_code)]
pub struct Bank {
    pub name: Own,
    pub entries: Vec<u16>,
}

#[allow(dead_code)]
pub struct Lists {
    pub contacts: Vec<Contact<Own>>,
    pub channels: Vec<Channel<Own>>,
    pub banks: Vec<Bank>,
}

fn mode(byte: u8) -> Mode {
    match byte {
        0 => Mode::Fm,
        1 => Mode::Dmr,
        _ => Mode::M17,
    }
}

fn contact<'a, T: Text<'a>>(c: &'a [u8; 39]) -> Contact<T> {
    let address = c[33..].iter().fold(0, |n, &b| n << 8 | u64::from(b));
    let m17 = c[32] == 2;
    Contact {
        name: T::of(&c[..32]),
        mode: mode(c[32]),
        number: if m17 { address } else { u32_at(c, 33).into() },
        contact_type: if m17 { 0 } else { c[37] & 0x03 },
        rx_tone: !m17 && c[37] & 0x04 != 0,
    }
}

fn channel<'a, T: Text<'a>>(c: &'a [u8; 90]) -> Channel<T> {
    let (info, index) = match c[0] {
        0 => (
            [c[85] >> 7, c[85] & 0x7F, c[86] >> 7, c[86] & 0x7F, 0],
            65_535,
        ),
        1 => ([c[85] >> 4, c[85] & 0x0F, c[86], 0, 0], u16_at(c, 87)),
        _ => (
            [c[85] >> 4, c[85] & 0x0F, c[86] >> 4, c[86] & 0x0F, c[87]],
            u16_at(c, 88),
        ),
    };
    Channel {
        mode: mode(c[0]),
        bandwidth: c[1] & 0x03,
        receive_only: c[1] & 0x04 != 0,
        power: c[2],
        frequencies: [u32_at(c, 3), u32_at(c, 7)],
        lists: [c[11], c[12]],
        name: T::of(&c[13..45]),
        description: T::of(&c[45..77]),
        floors: [c[77] as i8, c[80] as i8],
        ten_thousandths: [u16_at(c, 78), u16_at(c, 81)],
        altitude: u16_at(c, 83),
        info,
        contact: (index != 65_535).then_some(index),
    }
}

fn contacts<'a>(file: &'a [u8], l: &Layout) -> &'a [[u8; 39]] {
    file[l.contact_at(0)..l.channel_at(0)].as_chunks().0
}

fn channels<'a>(file: &'a [u8], l: &Layout) -> &'a [[u8; 90]] {
    file[l.channel_at(0)..l.offset_at(0)].as_chunks().0
}

/// Each bank's name and entries.
fn banks<'a>(file: &'a [u8], l: &Layout) -> impl Iterator<Item = (&'a [u8], &'a [[u8; 2]])> {
    let mut rest = &file[l.bank_start()..];
    (0..l.banks).map(move |_| {
        let (bank, after) = rest.split_at(34 + 2 * usize::from(u16_at(rest, 32)));
        rest = after;
        (&bank[..32], bank[34..].as_chunks().0)
    })
}

/// Validates a file and reads each record once.
pub fn read_all(file: &[u8], edition: Edition) -> Result<(), Refusal> {
    let l = Layout::of(validate(file, edition)?);
    for c in contacts(file, &l) {
        black_box(&contact::<&[u8]>(c));
    }
    for c in channels(file, &l) {
        black_box(&channel::<&[u8]>(c));
    }
    for (name, entries) in banks(file, &l) {
        black_box(<&[u8]>::of(name));
        for &n in entries {
            black_box(u16::from_le_bytes(n));
        }
    }
    Ok(())
}

/// Validates a file and reads it into lists.
pub fn lists(file: &[u8], edition: Edition) -> Result<Lists, Refusal> {
    let l = Layout::of(validate(file, edition)?);
    Ok(Lists {
        contacts: contacts(file, &l).iter().map(contact).collect(),
        channels: channels(file, &l).iter().map(channel).collect(),
        banks: banks(file, &l)
            .map(|(name, entries)| Bank {
                name: Own::of(name),
                entries: entries.iter().map(|&n| u16::from_le_bytes(n)).collect(),
            })
            .collect(),
    })
}
