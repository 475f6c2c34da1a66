//! The borders between valid and invalid addresses, with their neighbours each
//! way, by each number for an edition: as texts and numbers, in contacts read
//! and written, in files, and in lists of calls.

use obcf_second::address::{number_to_text, BORDERS, BROADCAST};
use obcf_second::book::Call;
use obcf_second::edit::Edit;
use obcf_second::lists::{self, Lent};
use obcf_second::record::CONTACT_SIZE;
use obcf_second::sample::{self, Rng};
use obcf_second::Edition;

use crate::addresses;
use crate::calls::{follow, Made};
use crate::edition::By;
use crate::files;
use crate::interface::ContactValues;
use crate::legacy;
use crate::records;
use crate::report::Compared;
use crate::work::Work;

/// Neighbours each way.
const NEAR: u64 = 3;

pub fn all(work: &mut Work, rng: &mut Rng) -> Compared {
    for older in By::every_older() {
        for text in texts() {
            addresses::text(work, &text, [older, By::NEWER])?;
        }
        for number in numbers() {
            for length in 0..=12 {
                addresses::number(work, number, length, [older, By::NEWER])?;
            }
        }
    }
    for by in By::every_older().chain([By::NEWER]) {
        for number in numbers() {
            written(work, rng, number, by)?;
            if number <= BROADCAST {
                in_files(work, rng, number, by)?;
                in_calls(work, rng, number, by)?;
            }
        }
    }
    Ok(())
}

/// The borders and their neighbours; also those of more than 48 bits that are at
/// a border by the low ones.
fn numbers() -> Vec<u64> {
    let near = |&border: &u64| border.saturating_sub(NEAR)..=border + NEAR;
    let mut numbers: Vec<u64> = BORDERS.iter().flat_map(near).collect();
    numbers.sort_unstable();
    numbers.dedup();
    let long: Vec<u64> = numbers.iter().map(|number| number + BROADCAST + 1).collect();
    numbers.into_iter().chain(long).chain([u64::MAX]).collect()
}

/// Texts at the borders, and those with a character more or less, or another.
fn texts() -> Vec<Vec<u8>> {
    let mut texts = vec![Vec::new(), b"# ".to_vec(), b"##".to_vec(), b"#        ".to_vec()];
    for number in numbers() {
        let mut text = vec![0; 9];
        if number_to_text(number, &mut text, Edition::Newer).is_ok() {
            let length = text.iter().position(|&byte| byte == 0).unwrap_or(9);
            text.truncate(length);
            texts.extend(near(&text));
            texts.push(text);
        }
    }
    texts
}

fn near(text: &[u8]) -> Vec<Vec<u8>> {
    const CHARACTERS: [u8; 8] = *b"# A.a/\0\xA3";
    let mut near = vec![text[..text.len().saturating_sub(1)].to_vec()];
    for character in CHARACTERS {
        near.push([text, &[character]].concat());
        near.push([&[character], text].concat());
        for place in 0..text.len() {
            let mut other = text.to_vec();
            other[place] = character;
            near.push(other);
        }
    }
    near
}

fn written(work: &mut Work, rng: &mut Rng, number: u64, by: By) -> Compared {
    for broadcast in [0, 1] {
        let values = ContactValues {
            address: number,
            mode: 2,
            broadcast,
            ..Default::default()
        };
        for length in [CONTACT_SIZE - 1, CONTACT_SIZE, CONTACT_SIZE + 5] {
            let before = rng.bytes(length);
            records::write_contact(work, &before, b"at a border", values, by)?;
        }
    }
    Ok(())
}

/// A contact with this address, valid or not.
fn contact(number: u64) -> Vec<u8> {
    let mut record = vec![0; CONTACT_SIZE];
    record[32] = 2;
    record[33..].copy_from_slice(&number.to_be_bytes()[2..]);
    record
}

/// Among three contacts, the others valid by both editions.
fn in_files(work: &mut Work, rng: &mut Rng, number: u64, by: By) -> Compared {
    for place in 0..3 {
        let mut contacts = [contact(1), contact(2), contact(BROADCAST)];
        contacts[place] = contact(number);
        let channel = sample::channel_bytes(&sample::channel(rng, |_, _| None));
        let bank = lists::bank_of(&sample::padded_text(rng), &[0, 0]);
        let mut file = lists::file_of(rng, &contacts, &[channel], &[bank]);
        files::read(work, rng, &file, by)?;
        sample::to_legacy(&mut file);
        legacy::migrate(work, rng, &file, by)?;
    }
    Ok(())
}

/// The address in a codeplug that has no contact at first.
fn in_calls(work: &mut Work, rng: &mut Rng, number: u64, by: By) -> Compared {
    let file = lists::file_of(rng, &[], &[], &[]);
    for list in call_lists(number, by) {
        let opening = Lent {
            length: file.len() as u64,
            room: [file.clone(), lists::fill(rng, 100)].concat(),
            history: lists::fill(rng, 300),
            history_length: 0,
            edition: by.edition,
        };
        follow(work, opening, &list)?;
    }
    Ok(())
}

/// Brings the address by the newer edition and takes it away, so that an undo
/// brings it back; brings it and changes the header; and brings it by the
/// edition, where it is replaced.
fn call_lists(number: u64, by: By) -> [Vec<Made>; 3] {
    let edit = |kind, record: &[u8]| {
        Call::Edit(Edit {
            kind,
            first: 0,
            second: 0,
            record: record.to_vec(),
        })
    };
    let (insert, remove) = (edit(1, &contact(number)), edit(2, &[]));
    let replace = [contact(number), contact(5)].map(|record| edit(3, &record));
    let all = |calls: &[&Call], by: By| calls.iter().map(|&call| (call.clone(), by)).collect::<Vec<Made>>();
    let undo = all(&[&Call::Undo, &Call::Undo], by);
    [
        [all(&[&insert, &remove], By::NEWER), undo.clone()].concat(),
        [all(&[&insert], By::NEWER), all(&[&edit(12, &[0; 72])], by), undo.clone()].concat(),
        [all(&[&insert, &replace[0], &replace[1]], by), undo].concat(),
    ]
}
