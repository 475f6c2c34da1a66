//! Random lists of calls: edits and undos on the same two buffers, whose sizes
//! are tiny, exact or ample for them.

use crate::address::{Edition, BORDERS};
use crate::book::Call;
use crate::codeplug::HEADER_SIZE;
use crate::doubtful;
use crate::edit::{edit, undo, Answer, Edit};
use crate::history::Entry;
use crate::record::{CHANNEL_SIZE, CONTACT_SIZE, NO_CONTACT, TEXT_SIZE};
use crate::sample::{self, Limits, Rng, Shape};
use crate::{validate, Codeplug, Refusal};

/// Both buffers as they are lent, the lengths that go with them, and the edition
/// that every call goes by.
#[derive(Clone)]
pub struct Lent {
    pub room: Vec<u8>,
    pub length: u64,
    pub history: Vec<u8>,
    pub history_length: u64,
    pub edition: Edition,
}

impl Lent {
    /// The codeplug, where it is valid.
    pub fn file(&self) -> Option<&[u8]> {
        let file = self.room.get(..usize::try_from(self.length).ok()?)?;
        validate(file, self.edition).is_ok().then_some(file)
    }

    /// Makes a call; the next call passes the lengths that this one answers.
    pub fn call(&mut self, call: &Call) -> Result<Answer, Refusal> {
        let length = self.length as usize;
        let history_length = self.history_length as usize;
        let (room, history) = (&mut self.room, &mut self.history);
        let edition = self.edition;
        let answer = match call {
            Call::Edit(what) => edit(room, length, history, history_length, what, edition),
            Call::Undo => undo(room, length, history, history_length, edition),
        }?;
        self.length = answer.length as u64;
        self.history_length = answer.history_length as u64;
        Ok(answer)
    }
}

/// Buffers and a list of calls on them. By the older edition some are made for
/// the newer, and have hash addresses in the opening file or in records.
pub fn list(rng: &mut Rng, edition: Edition) -> (Lent, Vec<Call>) {
    let made_by = doubtful::made_by(rng, edition);
    let opening = opening(rng, made_by);
    let count = match rng.below(12) {
        0..=5 => 1 + rng.below(8),
        6..=10 => 1 + rng.below(20),
        _ => 1 + rng.below(60),
    };
    let (mut calls, longest) = calls_with_space(rng, &opening, count, made_by);
    let mut lent = buffers(rng, &opening, longest, edition);
    match rng.below(12) {
        0 => disturb(rng, &mut lent),
        1 | 2 => {
            other_history(rng, &mut lent);
            calls[0] = Call::Undo;
        }
        _ => {}
    }
    if rng.flag() {
        calls = calls_that_fit(rng, &mut lent.clone(), count);
    }
    (lent, calls)
}

/// Calls made for a valid file in ample buffers, and how long the file and the
/// history get.
fn calls_with_space(
    rng: &mut Rng,
    opening: &[u8],
    count: usize,
    edition: Edition,
) -> (Vec<Call>, (usize, usize)) {
    let mut ample = Lent {
        length: opening.len() as u64,
        room: [opening.to_vec(), vec![0; 10_000]].concat(),
        history: vec![0; 60_000],
        history_length: 0,
        edition,
    };
    let (mut longest, mut longest_history) = (opening.len(), 0);
    let mut calls = Vec::new();
    for _ in 0..count {
        let file = ample.file().expect("a valid file stays valid");
        let call = random_call(rng, file, edition);
        let _ = ample.call(&call);
        longest = longest.max(ample.length as usize);
        longest_history = longest_history.max(ample.history_length as usize);
        calls.push(call);
    }
    (calls, (longest, longest_history))
}

// Opening files.

const SMALL: Shape = Shape {
    contacts: 12,
    channels: 12,
    banks: 12,
    entries: 12,
};
const FEW: Shape = Shape {
    contacts: 3,
    channels: 3,
    banks: 3,
    entries: 4,
};
const LARGER: Shape = Shape {
    contacts: 120,
    channels: 120,
    banks: 60,
    entries: 60,
};

fn opening(rng: &mut Rng, edition: Edition) -> Vec<u8> {
    match rng.below(120) {
        0 => sample::file(rng, LARGER, edition),
        1 | 2 => many_contacts(rng, edition),
        3 => many_channels(rng),
        4 => full_bank(rng),
        5..=8 => sample::file(rng, SMALL, edition),
        9..=40 => sample::file(rng, FEW, edition),
        41..=60 => alike(rng, SMALL, edition),
        _ => alike(rng, FEW, edition),
    }
}

/// A valid file from its records.
pub fn file_of(
    rng: &mut Rng,
    contacts: &[Vec<u8>],
    channels: &[Vec<u8>],
    banks: &[Vec<u8>],
) -> Vec<u8> {
    let mut file = b"RTXC\0\0\0\0\x01\0".to_vec();
    file.extend(if rng.flag() {
        vec![0; 72]
    } else {
        [
            sample::padded_text(rng),
            sample::padded_text(rng),
            rng.bytes(8),
        ]
        .concat()
    });
    for count in [contacts.len(), channels.len(), banks.len()] {
        file.extend((count as u16).to_le_bytes());
    }
    file.extend(contacts.concat());
    file.extend(channels.concat());
    let mut offset = 0u32;
    for bank in banks {
        file.extend(offset.to_le_bytes());
        offset += bank.len() as u32;
    }
    file.extend(banks.concat());
    file
}

/// A bank of these entries.
pub fn bank_of(name: &[u8], entries: &[u16]) -> Vec<u8> {
    let mut bank = name.to_vec();
    bank.extend((entries.len() as u16).to_le_bytes());
    bank.extend(entries.iter().flat_map(|n| n.to_le_bytes()));
    bank
}

/// A file that repeats one or two records of each kind.
fn alike(rng: &mut Rng, most: Shape, edition: Edition) -> Vec<u8> {
    let kinds = 1 + rng.below(2);
    let some: Vec<Vec<u8>> = (0..kinds).map(|_| plain_contact(rng, edition)).collect();
    let contacts: Vec<Vec<u8>> = repeated(rng, &some, most.contacts);
    let modes = modes_of(contacts.iter().map(Vec::as_slice));
    let some: Vec<Vec<u8>> = (0..kinds).map(|_| plain_channel(rng, &modes)).collect();
    let channels = repeated(rng, &some, most.channels);
    let name = plain_text(rng);
    let some: Vec<Vec<u8>> = (0..kinds)
        .map(|_| {
            let length = match channels.len() {
                0 => 0,
                _ => rng.below(most.entries + 1),
            };
            let entry = rng.below(channels.len().max(1)) as u16;
            let other = rng.below(channels.len().max(1)) as u16;
            let entries: Vec<u16> = (0..length)
                .map(|_| if rng.one_in(5) { other } else { entry })
                .collect();
            bank_of(&name, &entries)
        })
        .collect();
    let banks = repeated(rng, &some, most.banks);
    file_of(rng, &contacts, &channels, &banks)
}

fn repeated(rng: &mut Rng, some: &[Vec<u8>], most: usize) -> Vec<Vec<u8>> {
    let count = rng.below(most + 1);
    (0..count).map(|_| rng.pick(some)).collect()
}

/// The modes of contact records.
fn modes_of<'a>(contacts: impl Iterator<Item = &'a [u8]>) -> Vec<u8> {
    contacts.map(|contact| contact[TEXT_SIZE]).collect()
}

/// An empty text, 32 spaces, or any text.
fn plain_text(rng: &mut Rng) -> Vec<u8> {
    match rng.below(3) {
        0 => vec![0; TEXT_SIZE],
        1 => vec![b' '; TEXT_SIZE],
        _ => sample::padded_text(rng),
    }
}

/// A valid contact, of zeros as far as its mode allows or any other.
fn plain_contact(rng: &mut Rng, edition: Edition) -> Vec<u8> {
    if rng.flag() {
        return sample::contact_bytes(&sample::contact(rng, edition), edition);
    }
    if rng.flag() {
        return contact_with(sample::callsign_number(rng, edition));
    }
    let mut record = vec![0; CONTACT_SIZE];
    record[32] = 1;
    record
}

/// A nameless M17 contact with this address, valid or not.
fn contact_with(number: u64) -> Vec<u8> {
    let mut record = vec![0; CONTACT_SIZE];
    record[32] = 2;
    record[33..].copy_from_slice(&number.to_be_bytes()[2..]);
    record
}

/// A contact for an edit: as often as not a hash address or one at a border,
/// whatever the edition.
fn new_contact(rng: &mut Rng, edition: Edition) -> Vec<u8> {
    match rng.below(6) {
        0 | 1 => contact_with(sample::hash_number(rng)),
        2 => contact_with(rng.pick(&BORDERS)),
        _ => plain_contact(rng, edition),
    }
}

fn plain_channel(rng: &mut Rng, modes: &[u8]) -> Vec<u8> {
    if rng.one_in(3) {
        return any_channel(rng, modes);
    }
    let mode = rng.below(3) as u8;
    let index = contact_named(rng, modes, mode).unwrap_or(NO_CONTACT);
    channel_naming(mode, index)
}

/// A channel of zeros, as far as its mode allows, that names a contact.
fn channel_naming(mode: u8, index: u16) -> Vec<u8> {
    let mut record = vec![0; CHANNEL_SIZE];
    record[0] = mode;
    record[86] = [0, 1, 0x10][usize::from(mode)];
    if mode > 0 {
        let at = 86 + usize::from(mode);
        record[at..at + 2].copy_from_slice(&index.to_le_bytes());
    }
    record
}

/// A random channel that names contacts of these modes.
fn any_channel(rng: &mut Rng, modes: &[u8]) -> Vec<u8> {
    let choose = |rng: &mut Rng, mode| contact_named(rng, modes, mode as u8);
    sample::channel_bytes(&sample::channel(rng, choose))
}

fn contact_named(rng: &mut Rng, modes: &[u8], mode: u8) -> Option<u16> {
    let fitting: Vec<u16> = (0..modes.len() as u16)
        .filter(|&n| modes[usize::from(n)] == mode)
        .collect();
    if fitting.is_empty() || rng.one_in(4) {
        return None;
    }
    // The last ones more often.
    if rng.one_in(3) {
        return fitting.last().copied();
    }
    Some(rng.pick(&fitting))
}

/// Contact indexes around 256, where the high byte changes.
fn many_contacts(rng: &mut Rng, edition: Edition) -> Vec<u8> {
    let contact = plain_contact(rng, edition);
    let mode = contact[TEXT_SIZE];
    let contacts = vec![contact; 256 + rng.below(4)];
    let channels: Vec<Vec<u8>> = (0..1 + rng.below(4))
        .map(|_| {
            let index = rng.pick(&[254, 255, 256, 257]).min(contacts.len() - 1);
            channel_naming(mode, index as u16)
        })
        .collect();
    file_of(rng, &contacts, &channels, &[])
}

/// Channel indexes around 256.
fn many_channels(rng: &mut Rng) -> Vec<u8> {
    let channel = plain_channel(rng, &[]);
    let channels = vec![channel; 254 + rng.below(6)];
    let name = plain_text(rng);
    let banks: Vec<Vec<u8>> = (0..rng.below(4))
        .map(|_| {
            let entries: Vec<u16> = (0..rng.below(5))
                .map(|_| {
                    rng.pick(&[0, 253, 254, 255, 256, 257])
                        .min(channels.len() - 1) as u16
                })
                .collect();
            bank_of(&name, &entries)
        })
        .collect();
    file_of(rng, &[], &channels, &banks)
}

/// Banks with up to some thousands of equal entries.
fn full_bank(rng: &mut Rng) -> Vec<u8> {
    let channel = plain_channel(rng, &[]);
    let name = plain_text(rng);
    let banks: Vec<Vec<u8>> = (0..1 + rng.below(4))
        .map(|_| bank_of(&name, &vec![0; rng.below(4_000)]))
        .collect();
    let channels = vec![channel; 1 + rng.below(2)];
    file_of(rng, &[], &channels, &banks)
}

// Buffers.

/// Buffers with no, little, exact or ample space for a list of calls that make
/// the file and the history this long.
fn buffers(rng: &mut Rng, opening: &[u8], longest: (usize, usize), edition: Edition) -> Lent {
    let (longest, longest_history) = longest;
    let exact = longest - opening.len();
    let spare = match rng.below(8) {
        0 => 0,
        1 => rng.below(3),
        2 => exact,
        3 => exact.saturating_sub(1),
        4 => rng.below(100),
        _ => exact + 1 + rng.below(200),
    };
    let size = match rng.below(12) {
        0 => rng.below(5),
        1 => 3 + rng.below(12),
        2 => rng.below(150),
        3 | 4 => longest_history,
        5 => longest_history.saturating_sub(1),
        6 | 7 => rng.below(longest_history + 1),
        _ => longest_history + 1 + rng.below(100),
    };
    Lent {
        length: opening.len() as u64,
        room: [opening.to_vec(), fill(rng, spare)].concat(),
        history: fill(rng, size),
        history_length: 0,
        edition,
    }
}

/// Bytes that are all 0x00, all 0xFF or random.
pub fn fill(rng: &mut Rng, size: usize) -> Vec<u8> {
    match rng.below(4) {
        0 => vec![0; size],
        1 => vec![0xFF; size],
        _ => rng.bytes(size),
    }
}

/// A damaged file, any bytes as a history, or a length past its buffer.
fn disturb(rng: &mut Rng, lent: &mut Lent) {
    match rng.below(8) {
        0..=3 => damage(rng, lent),
        4 => lent.length = past(rng, lent.room.len()),
        5 => lent.history_length = past(rng, lent.history.len()),
        6 => lent.history_length = rng.below(lent.history.len() + 1) as u64,
        _ => {
            let size = rng.below(40);
            lent.history.splice(..0, rng.bytes(size));
            lent.history_length = size as u64;
        }
    }
}

/// A length that exceeds its buffer.
fn past(rng: &mut Rng, size: usize) -> u64 {
    let size = size as u64;
    rng.pick(&[size + 1, size + 2, size + 256, 1 << 32, 1 << 63, u64::MAX])
}

fn damage(rng: &mut Rng, lent: &mut Lent) {
    let length = lent.length as usize;
    match rng.below(4) {
        0 => lent.length = rng.below(lent.room.len() + 1) as u64,
        _ => {
            let spans = sample::file_spans(&lent.room[..length]);
            doubtful::spoil_some(rng, &mut lent.room[..length], &spans, 1);
        }
    }
}

/// A history of whole entries, of which some fit the file and some do not.
fn other_history(rng: &mut Rng, lent: &mut Lent) {
    let mut file = lent.room[..lent.length as usize].to_vec();
    let mut history = Vec::new();
    for _ in 0..1 + rng.below(4) {
        let entry = any_entry(rng, &file, lent.room.len(), lent.edition);
        if let Some(older) = entry.take_back(&file) {
            if validate(&older, lent.edition).is_ok() {
                file = older;
            }
        }
        history.extend(entry.to_bytes());
    }
    if rng.one_in(6) {
        let at = rng.below(history.len());
        history[at] = rng.pick(&[0, 0x7F, 0x80, 0xFF]);
    }
    if rng.one_in(10) {
        history.pop();
    }
    lent.history_length = history.len() as u64;
    let used = history.len();
    lent.history.resize(used.max(lent.history.len()), 0);
    lent.history[..used].copy_from_slice(&history);
    if rng.one_in(3) {
        lent.history.truncate(used);
    }
}

fn any_entry(rng: &mut Rng, file: &[u8], room: usize, edition: Edition) -> Entry {
    let length = file.len();
    let start = match rng.below(6) {
        0 => length,
        1 => length + 1,
        2 => rng.pick(&[0, 127, 128, 16_383, 16_384, 1_048_576]),
        _ => rng.below(length + 1),
    };
    let left = length.saturating_sub(start);
    let new_length = match rng.below(8) {
        0 => 0,
        1 => left,
        2 => left + 1,
        3 => rng.pick(&[127, 128, 16_384, 1_048_576]),
        _ => rng.below(left + 1),
    };
    let entry = Entry {
        start,
        new_length,
        old: Vec::new(),
    };
    match rng.below(10) {
        0..=2 => Entry::between(&other_file(rng, file, edition), file),
        3 | 4 if start + new_length <= length => Entry {
            // The same bytes again.
            old: file[start..start + new_length].to_vec(),
            ..entry
        },
        5 if start + new_length <= length => {
            // As long as the room, or a byte longer.
            let most = (room + new_length).saturating_sub(length);
            let size = (most + rng.below(2)).min(3_000);
            Entry {
                old: rng.bytes(size),
                ..entry
            }
        }
        _ => {
            let size = rng.pick(&[0, 1, 2, 38, 39, 90, 127, 128]);
            Entry {
                old: fill(rng, size),
                ..entry
            }
        }
    }
}

/// The file after some calls, or with another address in it; the file itself
/// where it is invalid.
fn other_file(rng: &mut Rng, file: &[u8], edition: Edition) -> Vec<u8> {
    if rng.flag() {
        if let Some(other) = other_address(rng, file, edition) {
            return other;
        }
    }
    let mut lent = Lent {
        length: file.len() as u64,
        room: [file.to_vec(), vec![0; 200]].concat(),
        history: vec![0; 2 * file.len() + 1_000],
        history_length: 0,
        edition: doubtful::made_by(rng, edition),
    };
    calls_that_fit(rng, &mut lent, 4);
    lent.room[..lent.length as usize].to_vec()
}

/// A valid file with a hash address, or one at a border, in one of its contacts,
/// whatever the edition; `None` where it has no contacts or is invalid.
fn other_address(rng: &mut Rng, file: &[u8], edition: Edition) -> Option<Vec<u8>> {
    let contacts = validate(file, edition).ok()?.contacts;
    if contacts == 0 {
        return None;
    }
    let number = match rng.below(3) {
        0 => rng.pick(&BORDERS),
        _ => sample::hash_number(rng),
    };
    // Its name stays.
    let at = HEADER_SIZE + CONTACT_SIZE * rng.below(contacts.into()) + TEXT_SIZE;
    let mut other = file.to_vec();
    other[at..at + 7].copy_from_slice(&contact_with(number)[TEXT_SIZE..]);
    Some(other)
}

// Calls.

/// Makes calls that fit the file at that point, or any where it is invalid.
fn calls_that_fit(rng: &mut Rng, lent: &mut Lent, count: usize) -> Vec<Call> {
    (0..count)
        .map(|_| {
            let file = match lent.file() {
                Some(file) => file.to_vec(),
                None => sample::file(rng, FEW, lent.edition),
            };
            let call = random_call(rng, &file, lent.edition);
            let _ = lent.call(&call);
            call
        })
        .collect()
}

/// A call that makes sense for this file, more often than not.
pub fn random_call(rng: &mut Rng, file: &[u8], edition: Edition) -> Call {
    if rng.one_in(4) {
        return Call::Undo;
    }
    let codeplug = Codeplug::read(file, edition).expect("a valid file");
    let mut kind = match rng.below(60) {
        0 => rng.pick(&[0, 13, 14, 255, 256 + 1, (1 << 32) + 1, u64::MAX]),
        _ => 1 + rng.below(12) as u64,
    };
    // The insertion that makes the kind possible, and how many there are.
    let (insertion, count) = match kind {
        1..=3 => (1, codeplug.contacts.len()),
        4..=6 => (4, codeplug.channels.len()),
        7..=11 => (7, codeplug.banks.len()),
        _ => (kind, 0),
    };
    if count == 0 && !rng.one_in(6) {
        kind = insertion;
    }
    let first = place(rng, count, matches!(kind, 1 | 4 | 7));
    let mut second = 0;
    if matches!(kind, 10 | 11) {
        let entries = codeplug
            .banks
            .get(first)
            .map_or(0, |bank| bank.entries.len());
        second = place(rng, entries, kind == 10);
    } else if rng.one_in(40) {
        second = rng.pick(&[1, 65_536, 1 << 32, usize::MAX]);
    }
    let mut record = record(rng, file, kind, first, edition);
    spoil_record(rng, file, kind, &mut record);
    Call::Edit(Edit {
        kind,
        first,
        second,
        record,
    })
}

/// A place among `count` records, right after them, or an invalid one.
fn place(rng: &mut Rng, count: usize, grows: bool) -> usize {
    let last = if grows {
        count
    } else {
        count.saturating_sub(1)
    };
    match rng.below(24) {
        0 => last + 1,
        1 => rng.pick(&[65_535, 65_536, 1 << 32, 1 << 63, usize::MAX]),
        2..=5 => 0,
        6..=11 => last,
        _ => rng.below(last + 1),
    }
}

/// The record of an edit: often one that the file already has.
fn record(rng: &mut Rng, file: &[u8], kind: u64, first: usize, edition: Edition) -> Vec<u8> {
    let codeplug = Codeplug::read(file, edition).expect("a valid file");
    let contacts = 88..88 + CONTACT_SIZE * codeplug.contacts.len();
    let channels = contacts.end..contacts.end + CHANNEL_SIZE * codeplug.channels.len();
    let modes = modes_of(file[contacts.clone()].chunks(CONTACT_SIZE));
    match kind {
        1 | 3 => match again(rng, &file[contacts], CONTACT_SIZE, first) {
            Some(record) => record,
            None => new_contact(rng, edition),
        },
        4 | 6 => match again(rng, &file[channels], CHANNEL_SIZE, first) {
            Some(record) => record,
            None => plain_channel(rng, &modes),
        },
        7 | 9 => {
            let names: Vec<Vec<u8>> = codeplug
                .banks
                .iter()
                .map(|bank| padded(&bank.name))
                .collect();
            match again(rng, &names.concat(), TEXT_SIZE, first) {
                Some(record) => record,
                None => plain_text(rng),
            }
        }
        10 => {
            let entries = codeplug
                .banks
                .get(first)
                .map_or(&[][..], |bank| &bank.entries);
            let index = match rng.below(4) {
                0 | 1 if !entries.is_empty() => rng.pick(entries),
                2 if rng.one_in(8) => rng.pick(&[codeplug.channels.len() as u16, 65_535]),
                _ => rng.below(codeplug.channels.len().max(1)) as u16,
            };
            index.to_le_bytes().to_vec()
        }
        // Set header.
        12 => {
            let mut record = file[10..82].to_vec();
            match rng.below(5) {
                0 => record[64 + rng.below(8)] ^= 1 << rng.below(8),
                1 => record[..TEXT_SIZE].copy_from_slice(&plain_text(rng)),
                2 => record[TEXT_SIZE..64].copy_from_slice(&plain_text(rng)),
                3 => record.fill(0),
                _ => {}
            }
            record
        }
        _ => Vec::new(),
    }
}

fn padded(text: &[u8]) -> Vec<u8> {
    let mut field = text.to_vec();
    field.resize(TEXT_SIZE, 0);
    field
}

/// A record that the file already has, next to the place or anywhere, sometimes
/// with a byte changed.
fn again(rng: &mut Rng, records: &[u8], size: usize, place: usize) -> Option<Vec<u8>> {
    let count = records.len() / size;
    if count == 0 || rng.one_in(3) {
        return None;
    }
    let n = match rng.below(3) {
        0 => place.min(count - 1),
        1 => place.saturating_sub(1).min(count - 1),
        _ => rng.below(count),
    };
    let mut record = records[size * n..size * (n + 1)].to_vec();
    if rng.one_in(4) {
        let at = rng.below(size);
        record[at] = rng.pick(&[0, 1, 2, b'x', b' ']);
    }
    Some(record)
}

fn spoil_record(rng: &mut Rng, file: &[u8], kind: u64, record: &mut Vec<u8>) {
    if rng.one_in(15) {
        let spans = match (kind, record.len()) {
            (1 | 3, CONTACT_SIZE) => sample::contact_spans(record),
            (4 | 6, CHANNEL_SIZE) => sample::channel_spans(record),
            _ => Vec::new(),
        };
        if !spans.is_empty() {
            let span = rng.pick(&spans);
            sample::spoil(rng, record, span, Limits::of_file(file));
        } else if !record.is_empty() {
            let at = rng.below(record.len());
            record[at] = rng.pick(&[0x00, 0x1F, 0x7F, 0xFF]);
        }
    }
    match rng.below(60) {
        0 => record.push(0),
        1 => {
            record.pop();
        }
        2 => record.clear(),
        3 => {
            let length = rng.pick(&[2, 32, 39, 72, 90, 255]);
            record.resize(length, 0);
        }
        _ => {}
    }
}
