//! Contacts, channels and text fields written, from values that are valid or
//! not, into buffers of all lengths; and the empty codeplug.

use obcf_second::codeplug::write_empty;
use obcf_second::record::{self, CHANNEL_SIZE, CONTACT_SIZE, NO_CONTACT, TEXT_SIZE};
use obcf_second::sample::{self, Rng};
use obcf_second::{address::BROADCAST, doubtful, Edition};

use crate::edition::By;
use crate::expected;
use crate::interface::{self as library, ChannelCommon, ChannelInfo, ContactValues, Refusal};
use crate::report::{bytes_differ, Compared, Difference};
use crate::work::Work;

/// The longest output buffer.
const LONGEST_OUT: usize = 140;

/// The longest text, and its longest output buffer.
const LONGEST_TEXT: usize = 40;

pub fn contact(work: &mut Work, rng: &mut Rng) -> Compared {
    let by = By::any(rng);
    let values = contact_values(rng, by.edition);
    let name = text(rng);
    let before = out_before(rng, CONTACT_SIZE);
    write_contact(work, &before, &name, values, by)
}

/// A contact written into a buffer that holds these bytes.
pub fn write_contact(work: &mut Work, before: &[u8], name: &[u8], values: ContactValues, by: By) -> Compared {
    let mut after = before.to_vec();
    let right = expected::write_contact(&mut after, name, values, by.edition);
    let found = library::write_contact(work.out.lend(before), work.name.lend(name), values, by);
    work.tally.add(by, right.number);
    compared(work, &(values, by), &[("out", before), ("name", name)], (found, right), &after)
}

pub fn channel(work: &mut Work, rng: &mut Rng) -> Compared {
    let careful = rng.flag();
    let (common, info) = (channel_common(rng, careful), channel_info(rng, careful));
    let (name, description) = (text(rng), text(rng));
    let before = out_before(rng, CHANNEL_SIZE);
    let mut after = before.clone();
    let right = expected::write_channel(&mut after, &name, &description, common, info);
    let (name_lent, description_lent) = (work.name.lend(&name), work.description.lend(&description));
    let found = library::write_channel(work.out.lend(&before), name_lent, description_lent, common, info);
    let lent: &[(&str, &[u8])] = &[("out", &before), ("name", &name), ("description", &description)];
    work.tally.add_plain(right.number);
    compared(work, &(common, info), lent, (found, right), &after)
}

/// Text fields: texts of every length up to 40 into buffers of every length up
/// to 40, and every byte at every place of a full text.
pub fn text_fields(work: &mut Work, rng: &mut Rng) -> Compared {
    for text_length in 0..=LONGEST_TEXT {
        for out_length in 0..=LONGEST_TEXT {
            let text = edge_text(rng, text_length);
            write_text(work, &text, &filled(rng, out_length))?;
        }
    }
    let before = filled(rng, TEXT_SIZE);
    let mut text = [b'x'; TEXT_SIZE];
    for place in 0..TEXT_SIZE {
        for byte in 0..=u8::MAX {
            text[place] = byte;
            write_text(work, &text, &before)?;
        }
        text[place] = b' ';
    }
    Ok(())
}

fn write_text(work: &mut Work, text: &[u8], before: &[u8]) -> Compared {
    let mut after = before.to_vec();
    let right = expected::written(record::write_text(text, &mut after));
    let found = library::write_text(work.out.lend(before), work.name.lend(text));
    work.tally.add_plain(right.number);
    compared(work, &"write_text", &[("out", before), ("text", text)], (found, right), &after)
}

/// The empty codeplug into buffers of every length up to 100.
pub fn empty_codeplug(work: &mut Work, rng: &mut Rng) -> Compared {
    for length in 0..=100 {
        let before = filled(rng, length);
        let mut after = before.clone();
        let right = expected::written(write_empty(&mut after));
        let found = library::write_empty(work.out.lend(&before));
        work.tally.add_plain(right.number);
        compared(work, &"write_empty", &[("out", &before)], (found, right), &after)?;
    }
    Ok(())
}

/// The answer, and the whole buffer.
fn compared(
    work: &mut Work,
    values: &dyn std::fmt::Debug,
    lent: &[(&'static str, &[u8])],
    (found, right): (Refusal, Refusal),
    after: &[u8],
) -> Compared {
    if found != right {
        return Err(Difference::of(values, lent, &found, &right));
    }
    if work.out.slice() != after || !work.out.whole() {
        let (found, right) = bytes_differ(work.out.slice(), after);
        return Err(Difference::of(values, lent, &found, &right));
    }
    Ok(())
}

/// A text without padding, valid more often than not.
fn text(rng: &mut Rng) -> Vec<u8> {
    if rng.one_in(8) {
        doubtful::text(rng)
    } else {
        sample::text(rng)
    }
}

/// An output buffer: exact, longer or too short, with something in it.
fn out_before(rng: &mut Rng, size: usize) -> Vec<u8> {
    let length = match rng.below(16) {
        0 => rng.below(size),
        1 => size - 1,
        2..=5 => size + rng.below(LONGEST_OUT - size + 1),
        _ => size,
    };
    filled(rng, length)
}

/// A buffer with something in it.
fn filled(rng: &mut Rng, length: usize) -> Vec<u8> {
    let number = rng.number();
    (0..length).map(|i| number as u8 ^ (i as u8).wrapping_mul(37)).collect()
}

/// A text of that length, of the first and last bytes that a text may hold and
/// some between; in every other one a byte just outside them, or any.
fn edge_text(rng: &mut Rng, length: usize) -> Vec<u8> {
    let mut text: Vec<u8> = (0..length).map(|_| rng.pick(&[0x20, 0x21, b'A', 0x7D, 0x7E])).collect();
    if length > 0 && rng.flag() {
        let (place, any) = (rng.below(length), rng.byte());
        text[place] = rng.pick(&[0x00, 0x1F, 0x7F, 0x80, 0xFF, any]);
    }
    text
}

/// A byte below `limit`, or now and then one at the limit, past it, or any.
fn byte(rng: &mut Rng, limit: u8, careful: bool) -> u8 {
    let valid = rng.below(usize::from(limit)) as u8;
    if careful || !rng.one_in(12) {
        return valid;
    }
    let any = rng.byte();
    rng.pick(&[limit, limit, limit + 1, 127, 128, 255, any])
}

fn mode(rng: &mut Rng, modes: &[u8]) -> u8 {
    if rng.one_in(20) {
        let any = rng.byte();
        return rng.pick(&[0, 3, 4, 128, 129, 130, 255, any]);
    }
    rng.pick(modes)
}

pub fn contact_values(rng: &mut Rng, edition: Edition) -> ContactValues {
    ContactValues {
        address: match rng.below(6) {
            0 => sample::doubtful_number(rng),
            1 => BROADCAST,
            _ => sample::callsign_number(rng, edition),
        },
        id: rng.number() as u32,
        mode: mode(rng, &[1, 2]),
        contact_type: byte(rng, 3, false),
        rx_tone: rng.flag().into(),
        broadcast: rng.one_in(4).into(),
    }
}

/// Careful ones have every number valid, so that later fields are reached.
fn channel_common(rng: &mut Rng, careful: bool) -> ChannelCommon {
    let ten_thousandths = |rng: &mut Rng| {
        let any = rng.number() as u16;
        match rng.below(16) {
            0 if !careful => rng.pick(&[10_000, 10_001, 65_535, any]),
            1 => 9_999,
            2 | 3 => 0,
            _ => any % 10_000,
        }
    };
    let any = rng.byte() as i8;
    let latitude = match rng.below(16) {
        0 if !careful => rng.pick(&[91, -91, 127, -128, any]),
        1 | 2 => 90,
        3 => -90,
        _ => (rng.below(181) as i16 - 90) as i8,
    };
    let latitude = if careful { latitude.clamp(-90, 90) } else { latitude };
    let latitude_e4 = ten_thousandths(rng);
    ChannelCommon {
        receive_hz: rng.number() as u32,
        transmit_hz: rng.number() as u32,
        latitude_e4: if careful && latitude == 90 { 0 } else { latitude_e4 },
        longitude_e4: ten_thousandths(rng),
        altitude_plus_500: rng.number() as u16,
        latitude,
        longitude: rng.byte() as i8,
        bandwidth: byte(rng, 3, careful),
        receive_only: rng.flag().into(),
        power: rng.byte(),
        scan_list: byte(rng, 251, careful),
        group_list: byte(rng, 129, careful),
    }
}

fn channel_info(rng: &mut Rng, careful: bool) -> ChannelInfo {
    let any = rng.number() as u16;
    ChannelInfo {
        contact: rng.pick(&[0, 1, 255, 256, NO_CONTACT - 1, NO_CONTACT, any, any]),
        mode: mode(rng, &[0, 1, 2]),
        receive_tone: byte(rng, 50, careful),
        receive_tone_on: rng.flag().into(),
        transmit_tone: byte(rng, 50, false),
        transmit_tone_on: rng.flag().into(),
        receive_colour: byte(rng, 16, careful),
        transmit_colour: byte(rng, 16, false),
        slot: if careful { 1 + rng.below(2) as u8 } else { byte(rng, 3, false) },
        receive_access: byte(rng, 16, careful),
        transmit_access: byte(rng, 16, careful),
        operation: if careful { 1 + rng.below(3) as u8 } else { byte(rng, 4, false) },
        encryption: byte(rng, 3, false),
        position: rng.flag().into(),
    }
}
