//! The corpora: random cases and the line expected of each. README.md gives
//! the formats.

use std::fmt::Write;

use obcf_second::address::{self, Address, MOST_CHARACTERS};
use obcf_second::doubtful;
use obcf_second::record::{
    Channel, ChannelInfo, Contact, ContactInfo, Mode, CHANNEL_SIZE, CONTACT_SIZE,
};
use obcf_second::sample::{self, Rng};
use obcf_second::tone::Tone;
use obcf_second::{migrate, validate, Counts, Edition, Refusal};

use crate::calls;

/// Makes one case and its line; a list of calls has a line for each call.
pub type Generator = fn(&mut Rng) -> (Vec<u8>, String);

pub fn generator(kind: &str) -> Option<Generator> {
    match kind {
        "files" => Some(|rng| with_edition(rng, file_case)),
        "contacts" => Some(|rng| with_edition(rng, contact_case)),
        "channels" => Some(channel_case),
        "addresses" => Some(|rng| with_edition(rng, address_case)),
        "mixed" => Some(mixed_case),
        "read" => Some(reading_case),
        "channels-read" => Some(channel_reading_case),
        "written" => Some(writing_case),
        "calls" => Some(calls::case),
        "migrated" => Some(|rng| with_edition(rng, migrated_case)),
        _ => None,
    }
}

/// A case by one edition or the other, with a byte in front that says which:
/// 0 older, 1 newer.
fn with_edition(
    rng: &mut Rng,
    generate: fn(&mut Rng, Edition) -> (Vec<u8>, String),
) -> (Vec<u8>, String) {
    let edition = rng.pick(&Edition::BOTH);
    let (case, line) = generate(rng, edition);
    ([&[edition as u8], &case[..]].concat(), line)
}

// The byte in front of a mixed case is one of these, and 4 more for a case by
// the newer edition.
pub const FILE: u8 = 0;
pub const CONTACT: u8 = 1;
pub const CHANNEL: u8 = 2;
pub const ADDRESS: u8 = 3;
pub const NEWER: u8 = 4;

/// A case of any corpus, with a byte in front that says which. A channel has no
/// edition.
fn mixed_case(rng: &mut Rng) -> (Vec<u8>, String) {
    let edition = rng.pick(&Edition::BOTH);
    let (kind, (case, line)) = match rng.below(8) {
        0 => (FILE, file_case(rng, edition)),
        1 | 2 => (CONTACT, contact_case(rng, edition)),
        3..=5 => (CHANNEL, channel_case(rng)),
        _ => (ADDRESS, address_case(rng, edition)),
    };
    if case.len() >= LONGEST_CASE {
        return mixed_case(rng);
    }
    let newer = edition == Edition::Newer && kind != CHANNEL;
    let front = if newer { kind + NEWER } else { kind };
    ([&[front], &case[..]].concat(), line)
}

/// The next mixed case that is wanted by its kind and the byte after it.
fn next_case(rng: &mut Rng, wanted: fn(u8, Option<&u8>) -> bool) -> (Vec<u8>, String) {
    let (case, line) = mixed_case(rng);
    if wanted(case[0] % NEWER, case.get(1)) {
        return (case, line);
    }
    next_case(rng, wanted)
}

/// The next mixed case of a file, or of reading a contact or a text.
fn reading_case(rng: &mut Rng) -> (Vec<u8>, String) {
    next_case(rng, |kind, action| {
        kind == FILE || (kind != CHANNEL && action == Some(&READ))
    })
}

/// The next mixed case of reading a channel.
fn channel_reading_case(rng: &mut Rng) -> (Vec<u8>, String) {
    next_case(rng, |kind, action| kind == CHANNEL && action == Some(&READ))
}

/// The next mixed case of writing.
fn writing_case(rng: &mut Rng) -> (Vec<u8>, String) {
    next_case(rng, |kind, action| kind != FILE && action == Some(&WRITE))
}

// The first byte of a case, in the corpora with two kinds of cases.
pub const READ: u8 = 0;
pub const WRITE: u8 = 1;

// Files.

pub use obcf_second::doubtful::LONGEST_FILE as LONGEST_CASE;

fn file_case(rng: &mut Rng, edition: Edition) -> (Vec<u8>, String) {
    let mut file = doubtful::file(rng, edition);
    file.truncate(LONGEST_CASE);
    let line = validate_line(validate(&file, edition));
    (file, line)
}

pub fn validate_line(answer: Result<Counts, Refusal>) -> String {
    match answer {
        Ok(Counts {
            contacts,
            channels,
            banks,
        }) => format!("ok {contacts} {channels} {banks}"),
        Err(refusal) => refusal.to_string(),
    }
}

// Legacy files.

/// A file to migrate; the line ends with a sum over the file as it is left.
fn migrated_case(rng: &mut Rng, edition: Edition) -> (Vec<u8>, String) {
    let file = doubtful::short_legacy_file(rng, edition);
    let mut left = file.clone();
    let answer = validate_line(migrate(&mut left, edition));
    (file, format!("{answer} file {}", checksum(&left)))
}

// Contacts.

fn contact_case(rng: &mut Rng, edition: Edition) -> (Vec<u8>, String) {
    let made_by = doubtful::made_by(rng, edition);
    let contact = sample::contact(rng, made_by);
    if rng.flag() {
        let valid = sample::contact_bytes(&contact, made_by);
        let spans = sample::contact_spans(&valid);
        let record = doubtful::record_bytes(rng, valid, &spans);
        let line = match Contact::read(&record, edition) {
            Ok(contact) => contact_line(&contact),
            Err(refusal) => refusal.to_string(),
        };
        let case = Case::new(READ).raw(&record);
        return (case.0, line);
    }
    let contact = doubtful::contact(rng, contact);
    let mut buffer = doubtful::out_buffer(rng, CONTACT_SIZE);
    let case = Case::new(WRITE).bytes(&buffer).bytes(&contact.name);
    let case = match contact.info {
        ContactInfo::Dmr {
            id,
            contact_type,
            rx_tone,
        } => case
            .u8(1)
            .raw(&id.to_le_bytes())
            .u8(contact_type)
            .flag(rx_tone),
        ContactInfo::M17(Address::Callsign(number)) => case.u8(2).raw(&number.to_le_bytes()),
        ContactInfo::M17(Address::Broadcast) => case.u8(3),
    };
    let answer = contact.write(&mut buffer, edition);
    (case.0, write_line(answer, &buffer))
}

fn contact_line(contact: &Contact) -> String {
    let name = hex(&contact.name);
    match contact.info {
        ContactInfo::Dmr {
            id,
            contact_type,
            rx_tone,
        } => {
            format!(
                "dmr name={name} id={id} type={contact_type} rxtone={}",
                u8::from(rx_tone)
            )
        }
        ContactInfo::M17(Address::Callsign(number)) => format!("m17 name={name} callsign={number}"),
        ContactInfo::M17(Address::Broadcast) => format!("m17 name={name} broadcast"),
    }
}

// Channels.

fn channel_case(rng: &mut Rng) -> (Vec<u8>, String) {
    let channel = sample::channel(rng, sample::any_contact);
    if rng.flag() {
        let valid = sample::channel_bytes(&channel);
        let spans = sample::channel_spans(&valid);
        let record = doubtful::record_bytes(rng, valid, &spans);
        let line = match Channel::read(&record) {
            Ok(channel) => channel_line(&channel),
            Err(refusal) => refusal.to_string(),
        };
        let case = Case::new(READ).raw(&record);
        return (case.0, line);
    }
    let channel = doubtful::channel(rng, channel);
    let mut buffer = doubtful::out_buffer(rng, CHANNEL_SIZE);
    let case = write_channel_case(&channel, &buffer);
    let answer = channel.write(&mut buffer);
    (case, write_line(answer, &buffer))
}

fn write_channel_case(channel: &Channel, buffer: &[u8]) -> Vec<u8> {
    let case = Case::new(WRITE)
        .bytes(buffer)
        .u8(channel.info.mode() as u8)
        .u8(channel.bandwidth)
        .flag(channel.receive_only)
        .u8(channel.power)
        .raw(&channel.rx_frequency.to_le_bytes())
        .raw(&channel.tx_frequency.to_le_bytes())
        .u8(channel.scan_list)
        .u8(channel.group_list)
        .bytes(&channel.name)
        .bytes(&channel.description)
        .raw(&channel.location.latitude_floor.to_le_bytes())
        .raw(&channel.location.latitude_ten_thousandths.to_le_bytes())
        .raw(&channel.location.longitude_floor.to_le_bytes())
        .raw(&channel.location.longitude_ten_thousandths.to_le_bytes())
        .raw(&channel.location.altitude_plus_500.to_le_bytes());
    let case = match channel.info {
        ChannelInfo::Fm { rx_tone, tx_tone } => case.tone(rx_tone).tone(tx_tone),
        ChannelInfo::Dmr {
            rx_colour,
            tx_colour,
            timeslot,
            contact,
        } => case
            .u8(rx_colour)
            .u8(tx_colour)
            .u8(timeslot)
            .contact(contact),
        ChannelInfo::M17 {
            rx_access,
            tx_access,
            operation,
            encryption,
            send_position,
            contact,
        } => case
            .u8(rx_access)
            .u8(tx_access)
            .u8(operation)
            .u8(encryption)
            .flag(send_position)
            .contact(contact),
    };
    case.0
}

fn channel_line(channel: &Channel) -> String {
    let mode = match channel.info.mode() {
        Mode::Fm => "fm",
        Mode::Dmr => "dmr",
        Mode::M17 => "m17",
    };
    let Channel {
        bandwidth,
        power,
        rx_frequency,
        tx_frequency,
        location,
        ..
    } = channel;
    let Channel {
        scan_list,
        group_list,
        ..
    } = channel;
    let common = format!(
        "{mode} bandwidth={bandwidth} rxonly={} power={power} rx={rx_frequency} tx={tx_frequency} \
         scan={scan_list} group={group_list} name={} desc={} lat={} latfrac={} lon={} lonfrac={} \
         alt={}",
        u8::from(channel.receive_only),
        hex(&channel.name),
        hex(&channel.description),
        location.latitude_floor,
        location.latitude_ten_thousandths,
        location.longitude_floor,
        location.longitude_ten_thousandths,
        location.altitude_plus_500,
    );
    let info = match channel.info {
        ChannelInfo::Fm { rx_tone, tx_tone } => {
            format!(
                "rxtone={} txtone={}",
                tone_text(rx_tone),
                tone_text(tx_tone)
            )
        }
        ChannelInfo::Dmr {
            rx_colour,
            tx_colour,
            timeslot,
            contact,
        } => format!(
            "rxcolour={rx_colour} txcolour={tx_colour} slot={timeslot} contact={}",
            contact_text(contact)
        ),
        ChannelInfo::M17 {
            rx_access,
            tx_access,
            operation,
            encryption,
            send_position,
            contact,
        } => format!(
            "rxcan={rx_access} txcan={tx_access} operation={operation} encryption={encryption} \
             position={} contact={}",
            u8::from(send_position),
            contact_text(contact)
        ),
    };
    format!("{common} {info}")
}

/// Enabled or not, the index, and the frequency in tenths of a hertz.
fn tone_text(tone: Tone) -> String {
    let tenths = tone.tenths_of_hertz().expect("a tone that was read");
    format!("{}:{}:{tenths}", u8::from(tone.enabled), tone.index)
}

fn contact_text(contact: Option<u16>) -> String {
    contact.map_or("none".to_string(), |n| n.to_string())
}

// Addresses.

fn address_case(rng: &mut Rng, edition: Edition) -> (Vec<u8>, String) {
    if rng.flag() {
        let text = doubtful::callsign(rng);
        let line = match address::text_to_number(&text, edition) {
            Ok(number) => format!("number {number}"),
            Err(refusal) => refusal.to_string(),
        };
        return (Case::new(READ).raw(&text).0, line);
    }
    let number = if rng.flag() {
        sample::callsign_number(rng, edition)
    } else {
        sample::doubtful_number(rng)
    };
    let mut buffer = doubtful::out_buffer(rng, MOST_CHARACTERS);
    let case = Case::new(WRITE).raw(&number.to_le_bytes()).raw(&buffer);
    let line = match address::number_to_text(number, &mut buffer, edition) {
        Ok(Address::Callsign(_)) => format!("text {}", hex(&buffer)),
        Ok(Address::Broadcast) => format!("broadcast {}", hex(&buffer)),
        Err(refusal) => format!("{refusal} {}", hex(&buffer)),
    };
    (case.0, line)
}

// Putting cases and lines together.

/// The bytes of a case.
#[derive(Default)]
pub struct Case(pub Vec<u8>);

impl Case {
    fn new(kind: u8) -> Case {
        Case(vec![kind])
    }

    pub fn raw(mut self, bytes: &[u8]) -> Case {
        self.0.extend_from_slice(bytes);
        self
    }

    pub fn u8(self, byte: u8) -> Case {
        self.raw(&[byte])
    }

    fn flag(self, flag: bool) -> Case {
        self.u8(flag.into())
    }

    /// Bytes preceded by their length.
    pub fn bytes(self, bytes: &[u8]) -> Case {
        let length = u8::try_from(bytes.len()).expect("at most 255 bytes");
        self.u8(length).raw(bytes)
    }

    fn tone(self, tone: Tone) -> Case {
        self.flag(tone.enabled).u8(tone.index)
    }

    fn contact(self, contact: Option<u16>) -> Case {
        self.flag(contact.is_some())
            .raw(&contact.unwrap_or(0).to_le_bytes())
    }
}

fn write_line(answer: Result<(), Refusal>, buffer: &[u8]) -> String {
    match answer {
        Ok(()) => format!("wrote {}", hex(buffer)),
        Err(refusal) => format!("{refusal} {}", hex(buffer)),
    }
}

/// A sum over a whole buffer.
pub fn checksum(bytes: &[u8]) -> u64 {
    bytes.iter().fold(0, |sum, &byte| {
        (sum * 257 + u64::from(byte) + 1) % 2_147_483_647
    })
}

/// Two lower-case digits for each byte, or a hyphen for no bytes at all.
fn hex(bytes: &[u8]) -> String {
    if bytes.is_empty() {
        return "-".to_string();
    }
    bytes.iter().fold(String::new(), |mut text, byte| {
        let _ = write!(text, "{byte:02x}");
        text
    })
}

#[cfg(test)]
mod tests {
    use super::*;
    use std::collections::BTreeMap;

    /// The first words of the lines of a corpus, refusals with their number.
    fn answers(kind: &str) -> BTreeMap<String, usize> {
        let generate = generator(kind).unwrap();
        let mut rng = Rng::new(1);
        let mut answers = BTreeMap::new();
        for _ in 0..4_000 {
            let (case, lines) = generate(&mut rng);
            // A whole file has its edition's byte in front.
            assert!(case.len() <= LONGEST_CASE + usize::from(kind == "files"));
            for line in lines.split('\n') {
                let words = if line.starts_with("refused") { 2 } else { 1 };
                let answer = line.split(' ').take(words).collect::<Vec<_>>().join(" ");
                *answers.entry(answer).or_default() += 1;
            }
        }
        answers
    }

    /// Every answer that can occur does so, and more than a few times.
    fn covers(kind: &str, words: &[&str], refusals: &[u8]) {
        let answers = answers(kind);
        let expected = words
            .iter()
            .map(|word| word.to_string())
            .chain(refusals.iter().map(|number| format!("refused {number}")));
        for answer in expected {
            assert!(
                answers.get(&answer) > Some(&5),
                "{kind}: {answer} in {answers:?}"
            );
        }
        assert_eq!(
            answers.len(),
            words.len() + refusals.len(),
            "{kind}: {answers:?}"
        );
    }

    #[test]
    fn corpora_cover_every_answer() {
        covers("files", &["ok"], &[2, 3, 4, 5, 6, 7, 8, 9, 10, 11, 12]);
        covers("contacts", &["dmr", "m17", "wrote"], &[2, 5, 6, 7, 8, 25]);
        covers(
            "channels",
            &["fm", "dmr", "m17", "wrote"],
            &[2, 5, 6, 7, 25],
        );
        covers(
            "addresses",
            &["number", "text", "broadcast"],
            &[20, 21, 22, 23, 24],
        );
        // 1 and 34 would need larger files.
        let refusals: Vec<u8> = (2..=12).chain(30..=33).chain(35..=39).collect();
        covers("calls", &["done"], &refusals);
        covers("migrated", &["ok"], &[2, 3, 4, 5, 6, 7, 8, 9, 10, 11, 12]);
    }

    #[test]
    fn a_seed_gives_one_corpus() {
        let generate = generator("files").unwrap();
        let list = |seed| {
            let mut rng = Rng::new(seed);
            (0..50).map(|_| generate(&mut rng)).collect::<Vec<_>>()
        };
        assert!(list(3) == list(3));
        assert!(list(3) != list(4));
    }
}
