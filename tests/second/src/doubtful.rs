//! Doubtful material: files, records, texts and buffers that are refused more
//! often than not, most of them made by spoiling valid ones.

use crate::address::{Address, Edition};
use crate::record::{
    Channel, ChannelInfo, Contact, ContactInfo, CHANNEL_SIZE, CONTACT_SIZE, NO_CONTACT,
};
use crate::sample::{self, Kind, Limits, Rng, Shape, Span};

/// A record outside a file has no counts to limit its indexes; any will do.
const NO_LIMITS: Limits = Limits {
    contacts: 8,
    channels: 8,
};

/// The edition that material for `edition` is made by. One time in four it is
/// the newer where the older is asked for, so that hash addresses occur by both.
pub fn made_by(rng: &mut Rng, edition: Edition) -> Edition {
    if rng.one_in(4) {
        Edition::Newer
    } else {
        edition
    }
}

// Files.

/// The longest file that is made here.
pub const LONGEST_FILE: usize = 65_536;

const SMALL: Shape = Shape {
    contacts: 12,
    channels: 12,
    banks: 6,
    entries: 8,
};
const FEW: Shape = Shape {
    contacts: 4,
    channels: 3,
    banks: 2,
    entries: 3,
};
const LARGE: Shape = Shape {
    contacts: 300,
    channels: 300,
    banks: 20,
    entries: 300,
};

/// A file: valid, with doubtful addresses, spoiled, cut, with bytes after its
/// end, or noise.
pub fn file(rng: &mut Rng, edition: Edition) -> Vec<u8> {
    let edition = made_by(rng, edition);
    let mut file = match rng.below(400) {
        0 => full_file(rng, edition),
        1 => sample::file(rng, LARGE, edition),
        2..=5 => Vec::new(),
        6..=21 => return noise(rng),
        22..=37 => return valid_header_and_noise(rng),
        _ => sample::file(rng, SMALL, edition),
    };
    if file.is_empty() {
        return file;
    }
    let spans = sample::file_spans(&file);
    if rng.one_in(6) {
        let addresses = of_kinds(&spans, &[Kind::Address]);
        if !addresses.is_empty() {
            spoil_some(rng, &mut file, &addresses, 2);
            return file;
        }
    }
    damage(rng, &mut file, &spans);
    file
}

/// The fields of these kinds.
fn of_kinds(spans: &[Span], kinds: &[Kind]) -> Vec<Span> {
    let fitting = spans.iter().filter(|span| kinds.contains(&span.kind));
    fitting.copied().collect()
}

/// Leaves a valid file as it is, or spoils, cuts or extends it.
fn damage(rng: &mut Rng, file: &mut Vec<u8>, spans: &[Span]) {
    match rng.below(20) {
        0..=3 => {}
        4..=6 => cut(rng, file, spans),
        7 => extend(rng, file, 40),
        8..=14 => spoil_some(rng, file, spans, 1),
        15 | 16 => spoil_some(rng, file, spans, 2),
        17 => {
            spoil_some(rng, file, spans, 1);
            extend(rng, file, 40);
        }
        _ => {
            spoil_some(rng, file, spans, 1);
            cut(rng, file, spans);
        }
    }
}

/// A legacy file: valid by the legacy reading, spoiled, cut, with bytes after its
/// end, in today's order, or noise.
pub fn legacy_file(rng: &mut Rng, edition: Edition) -> Vec<u8> {
    let edition = made_by(rng, edition);
    match rng.below(200) {
        0 => {
            let mut file = full_file(rng, edition);
            sample::to_legacy(&mut file);
            damaged_legacy_file(rng, file)
        }
        1 => old_or_new_file(rng, LARGE, edition),
        2 | 3 => Vec::new(),
        4..=9 => noise(rng),
        10..=15 => valid_header_and_noise(rng),
        _ => old_or_new_file(rng, SMALL, edition),
    }
}

/// The same, but with few records.
pub fn short_legacy_file(rng: &mut Rng, edition: Edition) -> Vec<u8> {
    let edition = made_by(rng, edition);
    match rng.below(60) {
        0 => Vec::new(),
        1 => noise(rng),
        2 | 3 => valid_header_and_noise(rng),
        _ => old_or_new_file(rng, FEW, edition),
    }
}

/// A legacy file, more often than not damaged, or now and then a valid one in
/// today's order.
fn old_or_new_file(rng: &mut Rng, most: Shape, edition: Edition) -> Vec<u8> {
    if rng.one_in(20) {
        return sample::file(rng, most, edition);
    }
    let file = sample::legacy_file(rng, most, edition);
    damaged_legacy_file(rng, file)
}

/// Leaves a legacy file as it is or damages it, more often than not at traits or
/// contact settings, or at a field that may be read after some of them.
fn damaged_legacy_file(rng: &mut Rng, mut file: Vec<u8>) -> Vec<u8> {
    const LATER: [Kind; 4] = [Kind::Address, Kind::ContactIndex, Kind::Offset, Kind::Entry];
    let spans = sample::legacy_file_spans(&file);
    let settings = of_kinds(&spans, &[Kind::LegacySettings]);
    let later = of_kinds(&spans, &LATER);
    match rng.below(12) {
        0 | 1 => {}
        2..=4 if !settings.is_empty() => spoil_some(rng, &mut file, &settings, 1),
        5..=7 if !later.is_empty() => spoil_some(rng, &mut file, &later, 1),
        _ => damage(rng, &mut file, &spans),
    }
    file
}

/// A file of 65,535 or 65,536 bytes: one bank takes up all the bytes left.
fn full_file(rng: &mut Rng, edition: Edition) -> Vec<u8> {
    let mut file = sample::file(rng, Shape { banks: 0, ..SMALL }, edition);
    let channels = usize::from(Limits::of_file(&file).channels);
    if channels == 0 {
        return file;
    }
    file[86] = 1;
    file.extend([0; 4]);
    file.extend(sample::padded_text(rng));
    let entries = (LONGEST_FILE - file.len() - 2) / 2;
    file.extend((entries as u16).to_le_bytes());
    for _ in 0..entries {
        file.extend((rng.below(channels) as u16).to_le_bytes());
    }
    file
}

fn noise(rng: &mut Rng) -> Vec<u8> {
    let most = rng.pick(&[12, 100, 1_000, 3_000]);
    let length = rng.below(most);
    rng.bytes(length)
}

fn valid_header_and_noise(rng: &mut Rng) -> Vec<u8> {
    let nothing = Shape {
        contacts: 0,
        channels: 0,
        banks: 0,
        entries: 0,
    };
    let mut file = sample::file(rng, nothing, Edition::Older);
    for count in [82, 84, 86] {
        file[count] = rng.pick(&[0, 0, 1, 2]);
    }
    let length = rng.below(300);
    let fill = rng.pick(&[None, Some(0), Some(0xFF)]);
    file.extend(match fill {
        Some(byte) => vec![byte; length],
        None => rng.bytes(length),
    });
    file
}

// Spoiling, for files and records alike.

/// Spoils some fields. Each kind of field is as likely as any other.
pub fn spoil_some(rng: &mut Rng, bytes: &mut [u8], spans: &[Span], times: usize) {
    for _ in 0..times {
        let mut kinds = Vec::new();
        for span in spans {
            if !kinds.contains(&span.kind) {
                kinds.push(span.kind);
            }
        }
        let kind = rng.pick(&kinds);
        let fitting: Vec<Span> = spans.iter().copied().filter(|s| s.kind == kind).collect();
        let limits = match bytes.len() {
            CONTACT_SIZE | CHANNEL_SIZE => NO_LIMITS,
            _ => Limits::of_file(bytes),
        };
        let span = rng.pick(&fitting);
        sample::spoil(rng, bytes, span, limits);
    }
}

/// Cuts before, inside or right after some field.
pub fn cut(rng: &mut Rng, bytes: &mut Vec<u8>, spans: &[Span]) {
    let span = rng.pick(spans);
    let inside = match rng.below(4) {
        0 => 0,
        1 => span.size,
        2 => span.size - 1,
        _ => rng.below(span.size + 1),
    };
    bytes.truncate(span.at + inside);
}

/// Appends more bytes.
pub fn extend(rng: &mut Rng, bytes: &mut Vec<u8>, most: usize) {
    let length = rng.pick(&[1, 1, 2, most / 2, most]);
    let more = rng.bytes(length);
    let zeros = rng.flag();
    bytes.extend(more.iter().map(|&b| if zeros { 0 } else { b }));
}

/// A record's bytes, valid or spoiled; whole, cut or with more bytes after.
pub fn record_bytes(rng: &mut Rng, mut record: Vec<u8>, spans: &[Span]) -> Vec<u8> {
    match rng.below(8) {
        0 | 1 => {}
        2..=6 => spoil_some(rng, &mut record, spans, 1),
        _ => spoil_some(rng, &mut record, spans, 2),
    }
    match rng.below(10) {
        0 | 1 => cut(rng, &mut record, spans),
        2 => {
            let most = 100 - record.len();
            extend(rng, &mut record, most);
        }
        3 if rng.one_in(4) => {
            let length = rng.below(101);
            record = rng.bytes(length);
        }
        _ => {}
    }
    record
}

/// An output buffer of random bytes: exact, longer or too short.
pub fn out_buffer(rng: &mut Rng, size: usize) -> Vec<u8> {
    let length = match rng.below(8) {
        0 => rng.below(size),
        1 => size - 1,
        2 | 3 => size + 1 + rng.below(20),
        _ => size,
    };
    rng.bytes(length)
}

/// A text that a writer refuses, more often than not.
pub fn text(rng: &mut Rng) -> Vec<u8> {
    let mut text = sample::text(rng);
    match rng.below(3) {
        0 => {
            let length = rng.pick(&[31, 32, 33, 34, 64, 255]);
            text.resize(length, b'x');
        }
        _ => {
            let place = rng.below(text.len() + 1);
            let byte = rng.pick(&[0x00, 0x1F, 0x7F, 0x80, 0xFF, 0x20, 0x7E]);
            text.insert(place, byte);
        }
    }
    text
}

// Contacts.

/// A contact that a writer may refuse.
pub fn contact(rng: &mut Rng, mut contact: Contact) -> Contact {
    if rng.one_in(4) {
        contact.name = text(rng);
    }
    if rng.flag() {
        match &mut contact.info {
            ContactInfo::Dmr { contact_type, .. } => {
                *contact_type = rng.pick(&[0, 1, 2, 3, 4, 64, 128, 255])
            }
            ContactInfo::M17(Address::Callsign(number)) => *number = sample::doubtful_number(rng),
            ContactInfo::M17(Address::Broadcast) => {}
        }
    }
    contact
}

// Channels.

/// A channel that a writer may refuse.
pub fn channel(rng: &mut Rng, mut channel: Channel) -> Channel {
    let times = rng.pick(&[0, 1, 1, 1, 1, 2]);
    for _ in 0..times {
        match rng.below(15) {
            0 => channel.bandwidth = rng.pick(&[2, 3, 4, 64, 255]),
            1 => channel.scan_list = rng.pick(&[250, 251, 255]),
            2 => channel.group_list = rng.pick(&[128, 129, 255]),
            3 => channel.name = text(rng),
            4 => channel.description = text(rng),
            5 => channel.location.latitude_floor = rng.pick(&[90, -90, 91, -91, 127, -128]),
            6 => {
                channel.location.latitude_floor = 90;
                channel.location.latitude_ten_thousandths = rng.pick(&[0, 1, 9_999, 10_000]);
            }
            7 => {
                channel.location.latitude_ten_thousandths = rng.pick(&[9_999, 10_000, 65_535]);
            }
            8 => {
                channel.location.longitude_ten_thousandths = rng.pick(&[9_999, 10_000, 65_535]);
            }
            _ => spoil_info(rng, &mut channel.info),
        }
    }
    channel
}

fn spoil_info(rng: &mut Rng, info: &mut ChannelInfo) {
    const NONE_AS_CONTACT: Option<u16> = Some(NO_CONTACT);
    const INDEXES: [Option<u16>; 4] =
        [None, Some(NO_CONTACT - 1), NONE_AS_CONTACT, NONE_AS_CONTACT];
    const NIBBLES: [u8; 5] = [15, 16, 17, 128, 255];
    match info {
        ChannelInfo::Fm { rx_tone, tx_tone } => {
            let index = rng.pick(&[49, 50, 127, 128, 128 + 49, 128 + 50, 255]);
            let tone = if rng.flag() { rx_tone } else { tx_tone };
            tone.index = index;
        }
        ChannelInfo::Dmr {
            rx_colour,
            tx_colour,
            timeslot,
            contact,
        } => match rng.below(4) {
            0 => *rx_colour = rng.pick(&NIBBLES),
            1 => *tx_colour = rng.pick(&NIBBLES),
            2 => *timeslot = rng.pick(&[0, 1, 2, 3, 255]),
            _ => *contact = rng.pick(&INDEXES),
        },
        ChannelInfo::M17 {
            rx_access,
            tx_access,
            operation,
            encryption,
            contact,
            ..
        } => match rng.below(5) {
            0 => *rx_access = rng.pick(&NIBBLES),
            1 => *tx_access = rng.pick(&NIBBLES),
            2 => *operation = rng.pick(&[0, 1, 3, 4, 15, 16, 17, 18, 255]),
            3 => *encryption = rng.pick(&[0, 2, 3, 15, 16, 17, 18, 255]),
            _ => *contact = rng.pick(&INDEXES),
        },
    }
}

// Addresses.

/// Texts of border numbers, and such as are just too long or not good.
const BORDER_TEXTS: [&[u8]; 8] = [
    b"A",
    b".........",
    b"..........",
    b"#",
    b"#........",
    b"#.........",
    b"# ",
    b"##",
];

/// A text with foreign characters, hash signs, spaces and lengths of all kinds.
pub fn callsign(rng: &mut Rng) -> Vec<u8> {
    if rng.one_in(8) {
        return rng.pick(&BORDER_TEXTS).to_vec();
    }
    let mut text = if rng.below(5) < 2 {
        text_with_hash(rng)
    } else {
        let length = match rng.below(8) {
            0 => 0,
            1 => 10 + rng.below(12),
            2 => 9,
            _ => 1 + rng.below(9),
        };
        characters(rng, length)
    };
    let length = text.len();
    if length > 0 && rng.one_in(4) {
        let place = rng.below(length);
        let near = [
            b'@', b'[', b':', b',', b'!', b'"', b'$', b'a', b'z', b'_', 0x00, 0x1F, 0x7F, 0xA3,
            0xC0,
        ];
        text[place] = rng.pick(&near);
    }
    if length > 0 && rng.one_in(6) {
        text[length - 1] = b' ';
    }
    if rng.one_in(30) {
        text.fill(b' ');
    }
    text
}

/// Characters that a callsign may have, spaces more often than others.
fn characters(rng: &mut Rng, length: usize) -> Vec<u8> {
    let alphabet = b"ABCDEFGHIJKLMNOPQRSTUVWXYZ0123456789-/.     ";
    (0..length).map(|_| rng.pick(alphabet)).collect()
}

/// A text with hash signs: alone, first, elsewhere, doubled or before spaces.
fn text_with_hash(rng: &mut Rng) -> Vec<u8> {
    const HASH: u8 = b'#';
    let length = match rng.below(6) {
        0 => 8,
        1 => 9,
        2 => 10,
        _ => 1 + rng.below(9),
    };
    let mut text = characters(rng, length);
    match rng.below(12) {
        0 => return vec![HASH],
        1 | 2 => text[rng.below(length)] = HASH,
        3 => text[length - 1] = HASH,
        4 => {
            let at = rng.below(length);
            text[at..length.min(at + 2)].fill(HASH);
        }
        5 => {
            text.resize(length.max(2), b'A');
            text[..2].fill(HASH);
        }
        6 => {
            // Spaces up to the end, or up to the last character.
            let last = rng.pick(&[b' ', text[length - 1]]);
            text.fill(b' ');
            text[length - 1] = last;
            text[0] = HASH;
        }
        _ => text[0] = HASH,
    }
    text
}
