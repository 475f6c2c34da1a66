//! Random material: valid records and files, and ways to spoil them.
//!
//! Everything follows from the generator's seed.

use crate::address::{Address, Edition, BORDERS, BROADCAST, FIRST_HASH, LAST_CALLSIGN, LAST_HASH};
use crate::codeplug::{EMPTY_BANK_SIZE, HEADER_SIZE};
use crate::record::*;
use crate::tone::Tone;

/// A splitmix64 generator.
pub struct Rng(u64);

impl Rng {
    pub fn new(seed: u64) -> Rng {
        Rng(seed)
    }

    pub fn number(&mut self) -> u64 {
        self.0 = self.0.wrapping_add(0x9E37_79B9_7F4A_7C15);
        let mut z = self.0;
        z = (z ^ z >> 30).wrapping_mul(0xBF58_476D_1CE4_E5B9);
        z = (z ^ z >> 27).wrapping_mul(0x94D0_49BB_1331_11EB);
        z ^ z >> 31
    }

    /// A number below `n`, which is not 0.
    pub fn below(&mut self, n: usize) -> usize {
        (self.number() % n as u64) as usize
    }

    /// True one time in `n`, on average.
    pub fn one_in(&mut self, n: usize) -> bool {
        self.below(n) == 0
    }

    pub fn pick<T: Clone>(&mut self, choices: &[T]) -> T {
        choices[self.below(choices.len())].clone()
    }

    pub fn byte(&mut self) -> u8 {
        self.number() as u8
    }

    pub fn bytes(&mut self, n: usize) -> Vec<u8> {
        (0..n).map(|_| self.byte()).collect()
    }

    pub fn flag(&mut self) -> bool {
        self.one_in(2)
    }

    /// Any number up to `limit`, with 0 and `limit` more often than others.
    fn up_to(&mut self, limit: u64) -> u64 {
        match self.below(6) {
            0 => 0,
            1 => limit,
            _ => self.number() % limit.saturating_add(1).max(1),
        }
    }
}

/// A text of any length from 0 to 32.
pub fn text(rng: &mut Rng) -> Text {
    let length = match rng.below(5) {
        0 => 0,
        1 => TEXT_SIZE,
        _ => rng.below(TEXT_SIZE + 1),
    };
    (0..length).map(|_| text_byte(rng)).collect()
}

fn text_byte(rng: &mut Rng) -> u8 {
    match rng.below(12) {
        0 => 0x20,
        1 => 0x7E,
        _ => 0x20 + rng.below(0x5F) as u8,
    }
}

/// A text padded with zeros.
pub fn padded_text(rng: &mut Rng) -> Vec<u8> {
    let mut field = text(rng);
    field.resize(TEXT_SIZE, 0);
    field
}

/// The valid number of a text, short ones as often as long ones. By the newer
/// edition four in nine are hash addresses, which makes it one M17 contact in
/// three.
pub fn callsign_number(rng: &mut Rng, edition: Edition) -> u64 {
    if edition == Edition::Newer && rng.below(9) < 4 {
        return hash_number(rng);
    }
    match rng.below(8) {
        0 => 1,
        1 => LAST_CALLSIGN,
        _ => {
            let characters = 1 + rng.below(9) as u32;
            1 + rng.number() % (40u64.pow(characters) - 1)
        }
    }
}

/// A hash address, short ones as often as long ones.
pub fn hash_number(rng: &mut Rng) -> u64 {
    match rng.below(8) {
        0 | 1 => FIRST_HASH,
        2 => LAST_HASH,
        _ => {
            let characters = 1 + rng.below(8) as u32;
            FIRST_HASH + rng.number() % 40u64.pow(characters)
        }
    }
}

/// An address number at or near a border, a hash address, or any other.
pub fn doubtful_number(rng: &mut Rng) -> u64 {
    let border = rng.pick(&BORDERS);
    let hash = hash_number(rng);
    let past = LAST_HASH + 1 + rng.number() % (BROADCAST - LAST_HASH - 1);
    let any = rng.number();
    match rng.below(16) {
        0..=5 => border,
        6 => border + 1,
        7 => border.saturating_sub(1),
        8..=10 => hash,
        11 => past,
        12 => any & BROADCAST,
        13 => any,
        // Numbers whose low 48 bits alone are valid or doubtful.
        14 => rng.pick(&[border, hash]) + BROADCAST + 1,
        _ => u64::MAX,
    }
}

/// A contact that is valid by the edition.
pub fn contact(rng: &mut Rng, edition: Edition) -> Contact {
    let name = text(rng);
    let info = match rng.below(8) {
        0..=3 => ContactInfo::Dmr {
            id: rng.up_to(u32::MAX.into()) as u32,
            contact_type: rng.below(3) as u8,
            rx_tone: rng.flag(),
        },
        4 => ContactInfo::M17(Address::Broadcast),
        _ => ContactInfo::M17(Address::Callsign(callsign_number(rng, edition))),
    };
    Contact { name, info }
}

fn location(rng: &mut Rng) -> Location {
    let any = rng.below(181) as i16 - 90;
    let latitude_floor = rng.pick(&[-90, 90, 89, 0, -1, any as i8]);
    let latitude_ten_thousandths = match latitude_floor {
        90 => 0,
        _ => rng.up_to(9_999) as u16,
    };
    let any = rng.byte() as i8;
    Location {
        latitude_floor,
        latitude_ten_thousandths,
        longitude_floor: rng.pick(&[-128, 127, 0, -1, any]),
        longitude_ten_thousandths: rng.up_to(9_999) as u16,
        altitude_plus_500: rng.up_to(65_535) as u16,
    }
}

fn tone(rng: &mut Rng) -> Tone {
    Tone {
        enabled: rng.flag(),
        index: rng.up_to(49) as u8,
    }
}

/// A valid channel; `choose` gives it a contact of its mode.
pub fn channel(rng: &mut Rng, choose: impl Fn(&mut Rng, Mode) -> Option<u16>) -> Channel {
    let info = match rng.below(3) {
        0 => ChannelInfo::Fm {
            rx_tone: tone(rng),
            tx_tone: tone(rng),
        },
        1 => ChannelInfo::Dmr {
            rx_colour: rng.up_to(15) as u8,
            tx_colour: rng.up_to(15) as u8,
            timeslot: 1 + rng.below(2) as u8,
            contact: choose(rng, Mode::Dmr),
        },
        _ => ChannelInfo::M17 {
            rx_access: rng.up_to(15) as u8,
            tx_access: rng.up_to(15) as u8,
            operation: 1 + rng.below(3) as u8,
            encryption: rng.below(3) as u8,
            send_position: rng.flag(),
            contact: choose(rng, Mode::M17),
        },
    };
    Channel {
        bandwidth: rng.below(3) as u8,
        receive_only: rng.flag(),
        power: rng.byte(),
        rx_frequency: rng.up_to(u32::MAX.into()) as u32,
        tx_frequency: rng.up_to(u32::MAX.into()) as u32,
        scan_list: rng.up_to(250) as u8,
        group_list: rng.up_to(128) as u8,
        name: text(rng),
        description: text(rng),
        location: location(rng),
        info,
    }
}

/// Any contact index, or none: valid in a record outside a file.
pub fn any_contact(rng: &mut Rng, _: Mode) -> Option<u16> {
    let any = rng.number() as u16;
    let index = rng.pick(&[0, 1, 7, 255, 256, 65_534, any]);
    Some(index).filter(|&n| n != NO_CONTACT && !rng.one_in(4))
}

/// The most records a random file may have.
#[derive(Clone, Copy, Debug)]
pub struct Shape {
    pub contacts: usize,
    pub channels: usize,
    pub banks: usize,
    pub entries: usize,
}

/// A file that is valid by the edition.
pub fn file(rng: &mut Rng, most: Shape, edition: Edition) -> Vec<u8> {
    let contacts: Vec<Contact> = (0..count(rng, most.contacts))
        .map(|_| contact(rng, edition))
        .collect();
    let modes: Vec<Mode> = contacts.iter().map(|contact| contact.info.mode()).collect();
    let channels: Vec<Channel> = (0..count(rng, most.channels))
        .map(|_| channel(rng, |rng, mode| contact_of_mode(rng, &modes, mode)))
        .collect();
    let banks: Vec<Vec<u16>> = (0..count(rng, most.banks))
        .map(|_| bank_entries(rng, channels.len(), most.entries))
        .collect();

    let mut file = b"RTXC\0\0\0\0\x01\0".to_vec();
    file.extend(padded_text(rng));
    file.extend(padded_text(rng));
    file.extend(rng.up_to(u64::MAX).to_le_bytes());
    for count in [contacts.len(), channels.len(), banks.len()] {
        file.extend((count as u16).to_le_bytes());
    }
    for contact in contacts {
        file.extend(contact_bytes(&contact, edition));
    }
    for channel in channels {
        file.extend(channel_bytes(&channel));
    }
    let mut offset = 0;
    for entries in &banks {
        file.extend((offset as u32).to_le_bytes());
        offset += EMPTY_BANK_SIZE + 2 * entries.len();
    }
    for entries in &banks {
        file.extend(padded_text(rng));
        file.extend((entries.len() as u16).to_le_bytes());
        file.extend(entries.iter().flat_map(|n| n.to_le_bytes()));
    }
    file
}

/// Traits and contact settings as they are written now and as they were written
/// in legacy files: the numbers 0 to 2, each with the flag clear and then set.
pub const SETTINGS: [(u8, u8); 6] = [
    (0x00, 0x00),
    (0x04, 0x20),
    (0x01, 0x40),
    (0x05, 0x60),
    (0x02, 0x80),
    (0x06, 0xA0),
];

/// A legacy file: valid by the legacy reading and the edition. Where all traits
/// and contact settings are zero, it is valid by today's reading too.
pub fn legacy_file(rng: &mut Rng, most: Shape, edition: Edition) -> Vec<u8> {
    let mut file = file(rng, most, edition);
    if rng.one_in(6) {
        clear_settings(&mut file);
    } else {
        to_legacy(&mut file);
    }
    put_settings_into_addresses(rng, &mut file);
    file
}

/// Puts the traits and contact settings of a valid file in the legacy order.
pub fn to_legacy(file: &mut [u8]) {
    for at in settings_places(file) {
        let pair = SETTINGS.iter().find(|pair| pair.0 == file[at]);
        file[at] = pair.expect("a valid byte").1;
    }
}

fn clear_settings(file: &mut [u8]) {
    for at in settings_places(file) {
        file[at] = 0;
    }
}

/// Where a file has its traits and contact settings.
pub fn settings_places(file: &[u8]) -> Vec<usize> {
    file_spans(file)
        .iter()
        .filter(|span| span.kind == Kind::Settings)
        .map(|span| span.at)
        .collect()
}

/// Gives some addresses, at byte 37 of the contact, what would be legacy
/// settings in a DMR contact. The borders of hash addresses are multiples of
/// 2^24, so none crosses one.
fn put_settings_into_addresses(rng: &mut Rng, file: &mut [u8]) {
    for span in file_spans(file) {
        if span.kind == Kind::Address && rng.flag() {
            let address = &mut file[span.at..span.at + span.size];
            if *address != [0xFF; 6] {
                address[4] = rng.pick(&SETTINGS[1..]).1;
            }
        }
    }
}

fn count(rng: &mut Rng, most: usize) -> usize {
    rng.up_to(most as u64) as usize
}

/// One of the contacts of a mode, where there is one, or none.
pub fn contact_of_mode(rng: &mut Rng, modes: &[Mode], mode: Mode) -> Option<u16> {
    let fitting: Vec<u16> = (0..modes.len() as u16)
        .filter(|&n| modes[usize::from(n)] == mode)
        .collect();
    if fitting.is_empty() || rng.one_in(4) {
        None
    } else {
        Some(rng.pick(&fitting))
    }
}

fn bank_entries(rng: &mut Rng, channels: usize, most: usize) -> Vec<u16> {
    if channels == 0 {
        return Vec::new();
    }
    let length = count(rng, most);
    if rng.one_in(6) {
        // The same channel repeated.
        return vec![rng.below(channels) as u16; length];
    }
    (0..length)
        .map(|_| rng.up_to(channels as u64 - 1) as u16)
        .collect()
}

/// The record of a contact that is valid by the edition.
pub fn contact_bytes(contact: &Contact, edition: Edition) -> Vec<u8> {
    let mut record = vec![0; CONTACT_SIZE];
    let written = contact.write(&mut record, edition);
    written.expect("a valid contact");
    record
}

/// The record of a valid channel.
pub fn channel_bytes(channel: &Channel) -> Vec<u8> {
    let mut record = vec![0; CHANNEL_SIZE];
    channel.write(&mut record).expect("a valid channel");
    record
}

/// What a field holds, as far as it matters for spoiling it.
#[derive(Clone, Copy, Debug, PartialEq, Eq)]
pub enum Kind {
    Magic,
    Version,
    Text,
    Any,
    Count,
    Mode,
    Address,
    Settings,
    /// Traits and contact settings of a legacy file.
    LegacySettings,
    Pad,
    ScanList,
    GroupList,
    LatitudeFloor,
    TenThousandths,
    Tone,
    Timeslot,
    Operation,
    Flag,
    ContactIndex,
    Offset,
    Entry,
}

/// Where a field is.
#[derive(Clone, Copy, Debug)]
pub struct Span {
    pub kind: Kind,
    pub at: usize,
    pub size: usize,
}

/// Lays fields end to end.
struct Ruler {
    at: usize,
    spans: Vec<Span>,
}

impl Ruler {
    fn add(&mut self, fields: &[(Kind, usize)]) {
        for &(kind, size) in fields {
            self.spans.push(Span {
                kind,
                at: self.at,
                size,
            });
            self.at += size;
        }
    }

    fn contact(&mut self, mode: u8) {
        self.add(&[(Kind::Text, 32), (Kind::Mode, 1)]);
        if mode == 2 {
            self.add(&[(Kind::Address, 6)]);
        } else {
            self.add(&[(Kind::Any, 4), (Kind::Settings, 1), (Kind::Pad, 1)]);
        }
    }

    fn channel(&mut self, mode: u8) {
        use Kind::*;
        self.add(&[(Mode, 1), (Settings, 1), (Any, 1), (Any, 4), (Any, 4)]);
        self.add(&[(ScanList, 1), (GroupList, 1), (Text, 32), (Text, 32)]);
        self.add(&[(LatitudeFloor, 1), (TenThousandths, 2)]);
        self.add(&[(Any, 1), (TenThousandths, 2), (Any, 2)]);
        match mode {
            0 => self.add(&[(Tone, 1), (Tone, 1), (Pad, 1), (Pad, 1), (Pad, 1)]),
            1 => self.add(&[(Any, 1), (Timeslot, 1), (ContactIndex, 2), (Pad, 1)]),
            _ => self.add(&[(Any, 1), (Operation, 1), (Flag, 1), (ContactIndex, 2)]),
        }
    }
}

/// The fields of a valid contact record.
pub fn contact_spans(record: &[u8]) -> Vec<Span> {
    let mut ruler = Ruler {
        at: 0,
        spans: Vec::new(),
    };
    ruler.contact(record[32]);
    ruler.spans
}

/// The fields of a valid channel record.
pub fn channel_spans(record: &[u8]) -> Vec<Span> {
    let mut ruler = Ruler {
        at: 0,
        spans: Vec::new(),
    };
    ruler.channel(record[0]);
    ruler.spans
}

/// The fields of a valid file.
pub fn file_spans(file: &[u8]) -> Vec<Span> {
    let [contacts, channels, banks] = [82, 84, 86].map(|at| u16_at(file, at));
    let mut ruler = Ruler {
        at: 0,
        spans: Vec::new(),
    };
    ruler.add(&[
        (Kind::Magic, 8),
        (Kind::Version, 2),
        (Kind::Text, 32),
        (Kind::Text, 32),
    ]);
    ruler.add(&[
        (Kind::Any, 8),
        (Kind::Count, 2),
        (Kind::Count, 2),
        (Kind::Count, 2),
    ]);
    debug_assert_eq!(ruler.at, HEADER_SIZE);
    for _ in 0..contacts {
        ruler.contact(file[ruler.at + 32]);
    }
    for _ in 0..channels {
        ruler.channel(file[ruler.at]);
    }
    for _ in 0..banks {
        ruler.add(&[(Kind::Offset, 4)]);
    }
    for _ in 0..banks {
        let entries = u16_at(file, ruler.at + 32);
        ruler.add(&[(Kind::Text, 32), (Kind::Count, 2)]);
        for _ in 0..entries {
            ruler.add(&[(Kind::Entry, 2)]);
        }
    }
    ruler.spans
}

/// The fields of a legacy file.
pub fn legacy_file_spans(file: &[u8]) -> Vec<Span> {
    let mut spans = file_spans(file);
    for span in &mut spans {
        if span.kind == Kind::Settings {
            span.kind = Kind::LegacySettings;
        }
    }
    spans
}

fn u16_at(bytes: &[u8], at: usize) -> u16 {
    u16::from_le_bytes([bytes[at], bytes[at + 1]])
}

/// How many records an index may name.
#[derive(Clone, Copy, Debug)]
pub struct Limits {
    pub contacts: u16,
    pub channels: u16,
}

impl Limits {
    pub fn of_file(file: &[u8]) -> Limits {
        Limits {
            contacts: u16_at(file, 82),
            channels: u16_at(file, 84),
        }
    }
}

/// Puts a doubtful value into a field, most often one at or just past a limit.
/// Some of these values are valid.
pub fn spoil(rng: &mut Rng, bytes: &mut [u8], span: Span, limits: Limits) {
    let Span { kind, at, size } = span;
    let field = &mut bytes[at..at + size];
    match kind {
        Kind::Magic => field[rng.below(8)] ^= 1 << rng.below(8),
        Kind::Version => put(field, rng.pick(&[0u16, 2, 0x0100, 0x0101, 0xFFFF])),
        Kind::Text => spoil_text(rng, field),
        Kind::Any => field.copy_from_slice(&rng.bytes(size)),
        Kind::Count => {
            let old = u16_at(field, 0);
            let near = [
                old.wrapping_add(1),
                old.wrapping_sub(1),
                old.wrapping_add(2),
            ];
            put(
                field,
                rng.pick(&[near[0], near[0], near[1], near[2], 0, 1, 65_535]),
            );
        }
        Kind::Mode => field[0] = rng.pick(&[0, 1, 2, 3, 4, 128, 129, 255]),
        Kind::Address => {
            let number = doubtful_number(rng) & BROADCAST;
            field.copy_from_slice(&number.to_be_bytes()[2..]);
        }
        Kind::Settings => {
            let n = rng.below(8);
            let (other, reserved) = (field[0] ^ 1 << n, field[0] | 8 << (n % 5));
            // 0x40 and 0xA0 are valid by the legacy reading.
            field[0] = rng.pick(&[3, 7, 6, 0x40, 0xA0, other, reserved]);
        }
        Kind::LegacySettings => field[0] = doubtful_legacy_settings(rng, field[0]),
        Kind::Pad => field[0] = rng.pick(&[1, 0x20, 0x80, 0xFF]),
        Kind::ScanList => field[0] = rng.pick(&[0, 249, 250, 251, 255]),
        Kind::GroupList => field[0] = rng.pick(&[0, 127, 128, 129, 130, 255]),
        Kind::LatitudeFloor => {
            let floor = rng.pick(&[90, 91, -90, -91, 127, -128, 89, -89i8]);
            let fraction = rng.pick(&[None, Some(0u16), Some(1), Some(9_999)]);
            field[0] = floor as u8;
            // The ten-thousandths come right after the floor.
            if let (Some(fraction), Some(next)) = (fraction, bytes.get_mut(at + 1..at + 3)) {
                put(next, fraction);
            }
        }
        Kind::TenThousandths => put(field, rng.pick(&[0u16, 1, 9_999, 10_000, 0x2800, 65_535])),
        Kind::Tone => {
            let any = rng.byte();
            field[0] = rng.pick(&[0, 49, 50, 127, 128, 128 + 49, 128 + 50, 255, any]);
        }
        Kind::Timeslot => field[0] = rng.pick(&[0, 1, 2, 3, 0x81, 255]),
        Kind::Operation => {
            // Every operation with every encryption, low ones more often.
            let (high, low) = (rng.byte(), rng.byte());
            field[0] = rng.pick(&[high << 4 & 0x70 | low & 0x03, high << 4 | low & 0x0F]);
        }
        Kind::Flag => field[0] = rng.pick(&[0, 1, 2, 3, 0x80, 255]),
        Kind::ContactIndex => {
            let count = limits.contacts;
            let any = rng.below(usize::from(count).max(1)) as u16;
            put(
                field,
                rng.pick(&[count, count.wrapping_sub(1), any, any, 65_534, 65_535, 0]),
            );
        }
        Kind::Offset => {
            let old = u32::from_le_bytes([field[0], field[1], field[2], field[3]]);
            let near = [
                old.wrapping_add(1),
                old.wrapping_sub(1),
                old ^ 2,
                old | 0x0100_0000,
            ];
            let new = rng.pick(&[near[0], near[1], near[2], near[3], 0, u32::MAX]);
            field.copy_from_slice(&new.to_le_bytes());
        }
        Kind::Entry => {
            let count = limits.channels;
            let last = count.wrapping_sub(1);
            put(
                field,
                rng.pick(&[count, count, last, count.wrapping_add(1), 65_534, 65_535]),
            );
        }
    }
}

/// Doubtful traits or contact settings for a legacy file. The old byte in today's
/// order is one choice in three.
fn doubtful_legacy_settings(rng: &mut Rng, old: u8) -> u8 {
    let pair = SETTINGS.iter().find(|pair| pair.1 == old);
    match pair {
        Some(pair) if rng.one_in(3) => pair.0,
        _ => {
            let other = old ^ 1 << rng.below(8);
            let reserved = old | 1 << rng.below(5);
            rng.pick(&[0xC0, 0xE0, 0xA0, 0x60, other, reserved, reserved])
        }
    }
}

fn put(field: &mut [u8], number: u16) {
    field.copy_from_slice(&number.to_le_bytes());
}

/// Puts in a byte just outside the range, a byte where padding should be, or a
/// zero that cuts the text.
fn spoil_text(rng: &mut Rng, field: &mut [u8]) {
    let used = field.iter().position(|&b| b == 0).unwrap_or(field.len());
    let place = match rng.below(4) {
        0 => 0,
        1 => used.saturating_sub(1),
        2 => used.min(field.len() - 1),
        _ => rng.below(field.len()),
    };
    field[place] = rng.pick(&[
        0x00, 0x01, 0x0A, 0x1F, 0x1F, 0x7F, 0x7F, 0x80, 0xA0, 0xFF, 0x7E, 0x20,
    ]);
    if used + 1 < field.len() && rng.one_in(3) {
        // A valid byte after a zero.
        let later = used + 1 + rng.below(field.len() - used - 1);
        field[later] = text_byte(rng);
    }
}
