//! The library by one edition beside itself by the other. What the older
//! accepts the newer accepts and answers alike; what the older refuses for
//! something else than an address the newer refuses alike.

use std::fmt::Debug;

use obcf_second::lists::{self, Lent};
use obcf_second::record::CONTACT_SIZE;
use obcf_second::sample::{self, Rng};
use obcf_second::{doubtful, Edition};

use crate::calls::{kind, made};
use crate::edition::{is_hash, By};
use crate::files::SMALL;
use crate::interface::{self as library, EditAnswer, ValidateAnswer};
use crate::records;
use crate::report::{Compared, Difference, Pair};
use crate::work::Work;

/// By the older edition and by the newer: accepted by both, by the newer alone,
/// and refused for an address by one or by both.
pub const PAIRS: [Pair; 19] = [
    ("file", 0, 0),
    ("file", 8, 0),
    ("file", 8, 8),
    ("file", 8, 2),
    ("file", 8, 9),
    ("file", 8, 12),
    ("legacy file", 0, 0),
    ("legacy file", 8, 0),
    ("legacy file", 8, 8),
    ("contact", 0, 0),
    ("contact", 8, 0),
    ("contact", 8, 8),
    ("edit", 0, 0),
    ("edit", 8, 0),
    ("edit", 8, 8),
    ("undo", 0, 0),
    ("undo", 8, 0),
    ("undo", 39, 0),
    ("undo", 39, 39),
];

pub fn any(work: &mut Work, rng: &mut Rng) -> Compared {
    let both = By::both(rng);
    match rng.below(6) {
        0 | 1 => file(work, rng, both),
        2 => legacy_file(work, rng, both),
        3 => contact(work, rng, both),
        _ => list(work, rng, both),
    }
}

/// Counts an answer by each edition.
fn count(work: &mut Work, what: &'static str, both: [By; 2], numbers: [u8; 2]) {
    work.tally.add(both[0], numbers[0]);
    work.tally.add(both[1], numbers[1]);
    work.tally.add_pair((what, numbers[0], numbers[1]));
}

/// Counts two answers that have to be the same.
fn alike<A: Debug + PartialEq>(work: &mut Work, what: &dyn Debug, file: &[u8], both: [By; 2], answers: [(A, u8); 2]) -> Compared {
    let [(older, older_number), (newer, newer_number)] = answers;
    work.tally.add(both[0], older_number);
    work.tally.add(both[1], newer_number);
    held(older == newer, &(what, both), file, &newer, &older)
}

fn held(holds: bool, what: &dyn Debug, lent: &[u8], newer: &dyn Debug, older: &dyn Debug) -> Compared {
    if holds {
        return Ok(());
    }
    Err(Difference::of(
        what,
        &[("lent", lent)],
        &("by the newer", newer),
        &("by the older", older),
    ))
}

/// Whether the newer edition may answer so for a file: as the older, but where
/// that refuses a hash address. Then it accepts, or refuses something later.
fn follows(file: &[u8], older: ValidateAnswer, newer: ValidateAnswer) -> bool {
    if older.number != 8 || !is_hash(address(&file[older.place..])) {
        return newer == older;
    }
    newer.number == 0 || newer.place > older.place
}

/// An address's six bytes as a number.
fn address(bytes: &[u8]) -> u64 {
    bytes[..6].iter().fold(0, |number, &byte| number << 8 | u64::from(byte))
}

/// A file of any sort.
fn file(work: &mut Work, rng: &mut Rng, both: [By; 2]) -> Compared {
    let edition = rng.pick(&Edition::BOTH);
    let file = match rng.below(4) {
        0 => sample::file(rng, SMALL, edition),
        _ => doubtful::file(rng, edition),
    };
    work.file.lend(&file);
    let [older, newer] = both.map(|by| library::validate(work.file.slice(), by));
    count(work, "file", both, [older.number, newer.number]);
    held(follows(&file, older, newer), &("validate", both), &file, &newer, &older)?;
    if older.number == 0 {
        header_and_entries(work, &file, both, older)?;
        records(work, &file, both, older)?;
    }
    if newer.number == 0 {
        contacts(work, &file, both, newer)?;
    }
    Ok(())
}

/// The header, and each bank's first entries.
fn header_and_entries(work: &mut Work, file: &[u8], both: [By; 2], counts: ValidateAnswer) -> Compared {
    let answers = both.map(|by| {
        let found = library::header(work.file.slice(), work.texts.lend(&[0xEE; 70]), by);
        ((found, work.texts.slice().to_vec()), found.number)
    });
    alike(work, &"header", file, both, answers)?;
    for bank in 0..=usize::from(counts.banks).min(20) {
        for i in 0..4 {
            let answers = both.map(|by| {
                let found = library::bank_entry(work.file.slice(), bank, i, by);
                (found, found.number)
            });
            alike(work, &("bank_entry", bank, i), file, both, answers)?;
        }
    }
    Ok(())
}

/// Contacts, channels and banks of a file that both accept, and one place past
/// the last.
fn records(work: &mut Work, file: &[u8], both: [By; 2], counts: ValidateAnswer) -> Compared {
    macro_rules! each {
        ($reader:ident, $count:expr) => {
            for n in 0..=usize::from($count).min(20) {
                let answers = both.map(|by| {
                    let found = library::$reader(work.file.slice(), n, work.texts.lend(&[0xEE; 70]), by);
                    ((found, work.texts.slice().to_vec()), found.number)
                });
                alike(work, &(stringify!($reader), n), file, both, answers)?;
            }
        };
    }
    each!(contact, counts.contacts);
    each!(contact_prevalidated, counts.contacts);
    each!(channel, counts.channels);
    each!(bank, counts.banks);
    Ok(())
}

/// Contacts of a file that the newer edition accepts, by the reader that does not
/// validate: the older refuses just the hash addresses.
fn contacts(work: &mut Work, file: &[u8], both: [By; 2], counts: ValidateAnswer) -> Compared {
    for n in 0..usize::from(counts.contacts).min(20) {
        let [older, newer] = both.map(|by| {
            let found = library::contact_prevalidated(work.file.slice(), n, work.texts.lend(&[0xEE; 40]), by);
            (found, work.texts.slice().to_vec())
        });
        count(work, "contact read", both, [older.0.number, newer.0.number]);
        let values = newer.0.values;
        let place = 88 + CONTACT_SIZE * n + 33;
        let right = if values.mode == 2 && is_hash(values.address) {
            (older.0.number, older.0.place) == (8, place) && older.1 == [0xEE; 40]
        } else {
            older == newer
        };
        held(right, &("contact_prevalidated", n, both), file, &newer, &older)?;
    }
    Ok(())
}

/// A legacy file: validated and migrated.
fn legacy_file(work: &mut Work, rng: &mut Rng, both: [By; 2]) -> Compared {
    let edition = rng.pick(&Edition::BOTH);
    let file = match rng.below(4) {
        0 => sample::legacy_file(rng, SMALL, edition),
        _ => doubtful::legacy_file(rng, edition),
    };
    let [older, newer] = both.map(|by| {
        let validated = library::validate_legacy(work.file.lend(&file), by);
        let migrated = library::migrate(work.file.slice(), by);
        (validated, migrated, work.file.slice().to_vec())
    });
    count(work, "legacy file", both, [older.0.number, newer.0.number]);
    count(work, "migrated", both, [older.1.number, newer.1.number]);
    let right = follows(&file, older.0, newer.0) && older.1 == older.0 && newer.1 == newer.0;
    held(right, &("validate_legacy, migrate", both), &file, &newer, &older)?;
    let same = older.1.number != 0 || older.2 == newer.2;
    held(same, &("migrate", both), &file, &"other bytes", &"")
}

/// A contact written.
fn contact(work: &mut Work, rng: &mut Rng, both: [By; 2]) -> Compared {
    let edition = rng.pick(&Edition::BOTH);
    let values = records::contact_values(rng, edition);
    let name = if rng.one_in(4) { doubtful::text(rng) } else { sample::text(rng) };
    let before = doubtful::out_buffer(rng, CONTACT_SIZE);
    let [older, newer] = both.map(|by| {
        let found = library::write_contact(work.out.lend(&before), work.name.lend(&name), values, by);
        (found, work.out.slice().to_vec())
    });
    count(work, "contact", both, [older.0.number, newer.0.number]);
    let right = match older.0.number {
        8 if is_hash(values.address) => newer.0.number == 0 && address(&newer.1[33..]) == values.address,
        _ => older == newer,
    };
    held(right, &("write_contact", values, &name, both), &before, &newer, &older)
}

/// A list of calls. Each is made by both editions on the same buffers; the list
/// goes on with what the older left or, where that alone refused, with either.
fn list(work: &mut Work, rng: &mut Rng, both: [By; 2]) -> Compared {
    let edition = rng.pick(&Edition::BOTH);
    let (mut lent, calls) = lists::list(rng, edition);
    for call in calls {
        let given = (lent.length as usize, lent.history_length as usize);
        let [older, newer] = both.map(|by| {
            work.room.lend(&lent.room);
            work.history.lend(&lent.history);
            let answer = made(work, given, &(call.clone(), by));
            (answer, work.room.slice().to_vec(), work.history.slice().to_vec())
        });
        count(work, kind(&call), both, [older.0.number, newer.0.number]);
        let right = match older.0.number {
            8 => newer.0.number != 30,
            39 => newer.0.number == 0 || newer == older,
            _ => newer == older,
        };
        held(right, &(&call, given, both), &lent.room, &newer.0, &older.0)?;
        let goes_on = if older.0.number != 0 && rng.flag() { newer } else { older };
        lent = went_on(lent, goes_on);
    }
    Ok(())
}

fn went_on(lent: Lent, (answer, room, history): (EditAnswer, Vec<u8>, Vec<u8>)) -> Lent {
    Lent {
        room,
        history,
        length: answer.length as u64,
        history_length: answer.used as u64,
        ..lent
    }
}
